/* What the parts of the monitor share: what can be told of a guest from its records and replies, and the log. */
#ifndef MONITOR_H
#define MONITOR_H

#include "check.h"
#include "trusshemp_wire.h"

/* Numbers that a call answers are below this. */
#define NUMBERS 21

/* The most surfaces that a session holds: 16 stored pictures and the current one. */
#define MOST_HELD 17

/* A guest as the tenant sees it: its pictures whose surfaces were not given back, by what was said alone. */
struct guest {
    const char *name;
    size_t records;                     /* how many it has said */
    size_t held;
    struct {
        uint32_t serial, surface;
    } picture[MOST_HELD];
};

/* The same of all guests together: surfaces that replies released, lists that were checked, and how many entries of
 * these named a picture. */
struct told {
    size_t released, lists, named;
};

extern struct told told;

/* One record of a guest and its reply, and the surface that the record's begin is on. Every surface that the reply
 * releases is one that the guest held, and no list names a picture whose surface was released; else the monitor ends
 * here. A refusal gets its line in the log. */
void hear(struct guest *g, const uint8_t *record, size_t size, const trusshemp_reply *said, uint32_t surface);

/* A refused return, for the log. */
void log_return(const struct guest *g, uint32_t surface, unsigned number);

/* The two parts. */
void run_sessions(size_t count, char **names);
void run_devices(void);

#endif
