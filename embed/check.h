/* What the monitor and the tests share: files of calls (calls.py has their form), and to stop where anything differs.
 */
#ifndef CHECK_H
#define CHECK_H

#include <stdarg.h>
#include <stdint.h>
#include <stdio.h>
#include <stdlib.h>
#include <string.h>

#include "trusshemp.h"

/* What a buffer holds before a call. Larger than it must be, so that what is written behind a reply shows. */
#define FILL 0xA5
#define BUFFER (TRUSSHEMP_REPLY + 64)

/* Whether a program is asked what it does; it then says so, and is to end with status 0. */
static inline int help_asked(int count, char **words, const char *usage)
{
    if (count != 2 || (strcmp(words[1], "--help") && strcmp(words[1], "-h")))
        return 0;
    puts(usage);
    return 1;
}

static inline void fail(const char *form, ...)
{
    va_list words;
    va_start(words, form);
    fputs("failed: ", stderr);
    vfprintf(stderr, form, words);
    fputc('\n', stderr);
    va_end(words);
    exit(1);
}

/* Whether these bytes are as they were filled. */
static inline int is_filled(const uint8_t *p, size_t size)
{
    for (size_t i = 0; i < size; i++)
        if (p[i] != FILL)
            return 0;
    return 1;
}

/* A file of calls, and how far it is read. */
struct calls {
    const char *name;
    uint8_t *bytes;
    size_t size, at;
};

static inline struct calls opened(const char *name)
{
    struct calls c = { .name = name };
    FILE *file = fopen(name, "rb");
    if (!file || fseek(file, 0, SEEK_END))
        fail("cannot read %s", name);
    c.size = (size_t)ftell(file);
    c.bytes = malloc(c.size + 1);
    rewind(file);
    if (!c.bytes || fread(c.bytes, 1, c.size, file) != c.size)
        fail("cannot read %s", name);
    fclose(file);
    return c;
}

static inline int at_end(const struct calls *c)
{
    return c->at == c->size;
}

/* The next bytes of a file, so many. */
static inline const uint8_t *take(struct calls *c, size_t size)
{
    if (c->size - c->at < size)
        fail("%s ends within a call", c->name);
    c->at += size;
    return c->bytes + c->at - size;
}

/* The next bytes of a file, behind their count. */
static inline const uint8_t *next_bytes(struct calls *c, size_t *size)
{
    *size = trusshemp_u32_at(take(c, 4));
    return take(c, *size);
}

#endif
