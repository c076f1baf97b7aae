/* The records and replies of a session in C, as docs/01-scope.md lays them out: a function that writes each kind of
 * record into a buffer that the caller lends, and a reader of replies. Nothing is allocated, and nothing here needs the
 * archive. C99.
 *
 *     trusshemp_begin begin = { .nal_type = 19, .flags = TRUSSHEMP_BEGIN_OUTPUT, .surface = 7 };
 *     size_t size = trusshemp_write_begin(record, sizeof record, &begin);
 *     number = trusshemp_step(&session, record, size, reply, sizeof reply, &length);
 *     if (trusshemp_read_reply(&said, reply, length) && said.number == 0)
 *         while (trusshemp_next_surface(&said.released, &surface))
 *             make_free(surface);
 */
#ifndef TRUSSHEMP_WIRE_H
#define TRUSSHEMP_WIRE_H

#include <string.h>

#include "trusshemp.h"

#ifdef __cplusplus
extern "C" {
#endif

/* How many bytes there are: the head of a record or reply; what the body of a record has in front of its entries; a
 * short-term and a long-term entry of a begin; a serial, a surface or a POC; and a picture handed out. */
#define TRUSSHEMP_HEAD 4
#define TRUSSHEMP_CONFIGURE_FIELDS 6
#define TRUSSHEMP_BEGIN_FIELDS 12
#define TRUSSHEMP_LISTS_FIELDS 4
#define TRUSSHEMP_SHORT_WIDTH 5
#define TRUSSHEMP_LONG_WIDTH 7
#define TRUSSHEMP_WORD_WIDTH 4
#define TRUSSHEMP_HANDED_WIDTH (3 * TRUSSHEMP_WORD_WIDTH)

/* The most that a count can say. */
#define TRUSSHEMP_MOST_COUNTED 255

/* ---- Records. Each writer answers how many bytes the record has, or 0 where the buffer has not room for it or a count
 * can't be written in its field; then nothing is written. TRUSSHEMP_RECORD bytes are enough for every record that a
 * session takes. A number out of its range is written as it is, and the session refuses it. */

/* "k u8, capacity u8, buffering u8, reorder u8, latency u16" */
typedef struct {
    uint8_t k, capacity, buffering, reorder;
    uint16_t latency;
} trusshemp_configure;

/* An entry of neg or of pos, "delta i32, used u8", and one of lt, "lsb u16, flags u8, cycle u32". */
typedef struct {
    int32_t delta;
    uint8_t used;
} trusshemp_short_term;

typedef struct {
    uint16_t lsb;
    uint8_t flags;                      /* TRUSSHEMP_LONG_.. */
    uint32_t cycle;
} trusshemp_long_term;

/* The entries may be NULL where there are none. */
typedef struct {
    uint8_t nal_type, temporal_id, flags;       /* TRUSSHEMP_BEGIN_.. */
    uint16_t lsb;
    uint32_t surface;
    size_t neg_count, pos_count, lt_count;
    const trusshemp_short_term *neg, *pos;
    const trusshemp_long_term *lt;
} trusshemp_begin;

/* Of list 0 and list 1: the active count, and as many entry bytes where the list's modify bit is set. */
typedef struct {
    uint8_t slice_type, flags;          /* TRUSSHEMP_SLICE_.., TRUSSHEMP_LISTS_.. */
    size_t active[2];
    const uint8_t *entries[2];
} trusshemp_lists;

/* Puts the head of a record with a body of that size, and answers the place of the body; or NULL, where it has not
 * room. */
static inline uint8_t *trusshemp_put_head(uint8_t *record, size_t room, uint16_t kind, size_t body)
{
    if (room < TRUSSHEMP_HEAD || room - TRUSSHEMP_HEAD < body)
        return NULL;
    return trusshemp_put_u16(trusshemp_put_u16(record, (uint16_t)body), kind);
}

static inline size_t trusshemp_write_configure(uint8_t *record, size_t room, const trusshemp_configure *limits)
{
    uint8_t *at = trusshemp_put_head(record, room, TRUSSHEMP_CONFIGURE, TRUSSHEMP_CONFIGURE_FIELDS);
    if (!at)
        return 0;
    at = trusshemp_put_u8(at, limits->k);
    at = trusshemp_put_u8(at, limits->capacity);
    at = trusshemp_put_u8(at, limits->buffering);
    at = trusshemp_put_u8(at, limits->reorder);
    trusshemp_put_u16(at, limits->latency);
    return TRUSSHEMP_HEAD + TRUSSHEMP_CONFIGURE_FIELDS;
}

static inline uint8_t *trusshemp_put_short_terms(uint8_t *at, const trusshemp_short_term *entries, size_t count)
{
    for (size_t i = 0; i < count; i++) {
        at = trusshemp_put_u32(at, (uint32_t)entries[i].delta);
        at = trusshemp_put_u8(at, entries[i].used);
    }
    return at;
}

static inline void trusshemp_put_long_terms(uint8_t *at, const trusshemp_long_term *entries, size_t count)
{
    for (size_t i = 0; i < count; i++) {
        at = trusshemp_put_u16(at, entries[i].lsb);
        at = trusshemp_put_u8(at, entries[i].flags);
        at = trusshemp_put_u32(at, entries[i].cycle);
    }
}

static inline uint8_t *trusshemp_put_begin_fields(uint8_t *at, const trusshemp_begin *begin)
{
    at = trusshemp_put_u8(at, begin->nal_type);
    at = trusshemp_put_u8(at, begin->temporal_id);
    at = trusshemp_put_u8(at, begin->flags);
    at = trusshemp_put_u16(at, begin->lsb);
    at = trusshemp_put_u32(at, begin->surface);
    at = trusshemp_put_u8(at, (uint8_t)begin->neg_count);
    at = trusshemp_put_u8(at, (uint8_t)begin->pos_count);
    return trusshemp_put_u8(at, (uint8_t)begin->lt_count);
}

static inline size_t trusshemp_write_begin(uint8_t *record, size_t room, const trusshemp_begin *begin)
{
    const size_t most = TRUSSHEMP_MOST_COUNTED;
    if (begin->neg_count > most || begin->pos_count > most || begin->lt_count > most)
        return 0;
    size_t body = TRUSSHEMP_BEGIN_FIELDS + TRUSSHEMP_SHORT_WIDTH * (begin->neg_count + begin->pos_count) +
                  TRUSSHEMP_LONG_WIDTH * begin->lt_count;
    uint8_t *at = trusshemp_put_head(record, room, TRUSSHEMP_BEGIN, body);
    if (!at)
        return 0;
    at = trusshemp_put_begin_fields(at, begin);
    at = trusshemp_put_short_terms(at, begin->neg, begin->neg_count);
    at = trusshemp_put_short_terms(at, begin->pos, begin->pos_count);
    trusshemp_put_long_terms(at, begin->lt, begin->lt_count);
    return TRUSSHEMP_HEAD + body;
}

/* How many entry bytes list 0 or list 1 has: its active count, where its modify bit is set. */
static inline size_t trusshemp_entry_count(const trusshemp_lists *lists, size_t list)
{
    return lists->flags >> list & 1 ? lists->active[list] : 0;
}

static inline size_t trusshemp_write_lists(uint8_t *record, size_t room, const trusshemp_lists *lists)
{
    if (lists->active[0] > TRUSSHEMP_MOST_COUNTED || lists->active[1] > TRUSSHEMP_MOST_COUNTED)
        return 0;
    size_t count[2] = { trusshemp_entry_count(lists, 0), trusshemp_entry_count(lists, 1) };
    size_t body = TRUSSHEMP_LISTS_FIELDS + count[0] + count[1];
    uint8_t *at = trusshemp_put_head(record, room, TRUSSHEMP_LISTS, body);
    if (!at)
        return 0;
    at = trusshemp_put_u8(at, lists->slice_type);
    at = trusshemp_put_u8(at, lists->flags);
    at = trusshemp_put_u8(at, (uint8_t)lists->active[0]);
    at = trusshemp_put_u8(at, (uint8_t)lists->active[1]);
    for (size_t i = 0; i < count[0] + count[1]; i++)
        at = trusshemp_put_u8(at, i < count[0] ? lists->entries[0][i] : lists->entries[1][i - count[0]]);
    return TRUSSHEMP_HEAD + body;
}

/* A record with an empty body, of that kind: finish, drain, discard, end of sequence or abandon. */
static inline size_t trusshemp_write_empty(uint8_t *record, size_t room, uint16_t kind)
{
    return trusshemp_put_head(record, room, kind, 0) ? TRUSSHEMP_HEAD : 0;
}

static inline size_t trusshemp_write_finish(uint8_t *record, size_t room)
{
    return trusshemp_write_empty(record, room, TRUSSHEMP_FINISH);
}

static inline size_t trusshemp_write_drain(uint8_t *record, size_t room)
{
    return trusshemp_write_empty(record, room, TRUSSHEMP_DRAIN);
}

static inline size_t trusshemp_write_discard(uint8_t *record, size_t room)
{
    return trusshemp_write_empty(record, room, TRUSSHEMP_DISCARD);
}

static inline size_t trusshemp_write_end(uint8_t *record, size_t room)
{
    return trusshemp_write_empty(record, room, TRUSSHEMP_END);
}

static inline size_t trusshemp_write_abandon(uint8_t *record, size_t room)
{
    return trusshemp_write_empty(record, room, TRUSSHEMP_ABANDON);
}

/* ---- Replies. trusshemp_read_reply says what a whole reply says. What there may be many of is read one by one, by a
 * function that answers 1 and the next, or 0 where there is no more:
 *
 *     while (trusshemp_next_picture(&said.handed, &picture))
 *         show(picture.surface);
 *
 * They look into the bytes of the reply: these must stay as they are until all is read. `run.count` is how many are
 * still to be read. Serials and surfaces have types of their own, so that neither is read where the other is meant. */

typedef struct {
    const uint8_t *at;
    size_t count;
} trusshemp_run;

typedef struct {
    trusshemp_run run;
} trusshemp_serials;

typedef struct {
    trusshemp_run run;
} trusshemp_surfaces;

typedef struct {
    trusshemp_run run;
} trusshemp_pictures;

/* A picture handed out. */
typedef struct {
    uint32_t serial, surface;
    int32_t poc;
} trusshemp_picture;

/* The five sets of an accepted begin, in their order. */
enum trusshemp_set {
    TRUSSHEMP_ST_CURR_BEFORE,
    TRUSSHEMP_ST_CURR_AFTER,
    TRUSSHEMP_ST_FOLL,
    TRUSSHEMP_LT_CURR,
    TRUSSHEMP_LT_FOLL,
    TRUSSHEMP_SET_COUNT
};

/* What a reply says. What its kind has not is 0 or empty; so is all but kind and number of a refusal. */
typedef struct {
    uint16_t kind, number;                      /* of trusshemp_reply_kind, of trusshemp_refusal */
    int32_t poc;                                /* of a begin's picture, as the next three */
    uint8_t flags;                              /* TRUSSHEMP_BEGUN_.. */
    uint32_t serial;
    trusshemp_serials set[TRUSSHEMP_SET_COUNT];
    trusshemp_serials list[2];                  /* of a lists record */
    trusshemp_pictures handed;                  /* the tail: handed out, */
    trusshemp_serials thrown;                   /* thrown away */
    trusshemp_surfaces released;                /* and released, each in the order it happened */
} trusshemp_reply;

/* The POC whose bits these are. */
static inline int32_t trusshemp_i32_of(uint32_t n)
{
    return n <= INT32_MAX ? (int32_t)n : -(int32_t)(UINT32_MAX - n) - 1;
}

/* The next entry of that width, or NULL. */
static inline const uint8_t *trusshemp_next_entry(trusshemp_run *run, size_t width)
{
    const uint8_t *entry = run->at;
    if (run->count == 0)
        return NULL;
    run->at += width;
    run->count--;
    return entry;
}

static inline int trusshemp_next_word(trusshemp_run *run, uint32_t *word)
{
    const uint8_t *entry = trusshemp_next_entry(run, TRUSSHEMP_WORD_WIDTH);
    if (!entry)
        return 0;
    *word = trusshemp_u32_at(entry);
    return 1;
}

static inline int trusshemp_next_serial(trusshemp_serials *serials, uint32_t *serial)
{
    return trusshemp_next_word(&serials->run, serial);
}

static inline int trusshemp_next_surface(trusshemp_surfaces *surfaces, uint32_t *surface)
{
    return trusshemp_next_word(&surfaces->run, surface);
}

static inline int trusshemp_next_picture(trusshemp_pictures *pictures, trusshemp_picture *picture)
{
    const uint8_t *entry = trusshemp_next_entry(&pictures->run, TRUSSHEMP_HANDED_WIDTH);
    if (!entry)
        return 0;
    picture->serial = trusshemp_u32_at(entry);
    picture->surface = trusshemp_u32_at(entry + TRUSSHEMP_WORD_WIDTH);
    picture->poc = trusshemp_i32_of(trusshemp_u32_at(entry + 2 * TRUSSHEMP_WORD_WIDTH));
    return 1;
}

/* The bytes of a reply that are still to be read, and whether more were asked for than there are. */
typedef struct {
    const uint8_t *at;
    size_t left;
    int short_of;
} trusshemp_cursor;

/* The next bytes, so many; or NULL where there are not. */
static inline const uint8_t *trusshemp_take(trusshemp_cursor *c, size_t size)
{
    const uint8_t *taken = c->at;
    if (c->short_of || c->left < size) {
        c->short_of = 1;
        return NULL;
    }
    c->at += size;
    c->left -= size;
    return taken;
}

/* The next number; 0 where it is not there. */
static inline uint8_t trusshemp_take_u8(trusshemp_cursor *c)
{
    const uint8_t *at = trusshemp_take(c, 1);
    return at ? at[0] : 0;
}

static inline uint16_t trusshemp_take_u16(trusshemp_cursor *c)
{
    const uint8_t *at = trusshemp_take(c, 2);
    return at ? trusshemp_u16_at(at) : 0;
}

static inline uint32_t trusshemp_take_u32(trusshemp_cursor *c)
{
    const uint8_t *at = trusshemp_take(c, 4);
    return at ? trusshemp_u32_at(at) : 0;
}

/* The next entries, so many of that width; none where they are not there. */
static inline trusshemp_run trusshemp_take_run(trusshemp_cursor *c, size_t count, size_t width)
{
    trusshemp_run run;
    run.at = trusshemp_take(c, count * width);
    run.count = run.at ? count : 0;
    return run;
}

static inline void trusshemp_take_tail(trusshemp_cursor *c, trusshemp_reply *reply)
{
    reply->handed.run = trusshemp_take_run(c, trusshemp_take_u8(c), TRUSSHEMP_HANDED_WIDTH);
    reply->thrown.run = trusshemp_take_run(c, trusshemp_take_u8(c), TRUSSHEMP_WORD_WIDTH);
    reply->released.run = trusshemp_take_run(c, trusshemp_take_u8(c), TRUSSHEMP_WORD_WIDTH);
}

/* Counts, and behind them the serials of each. */
static inline void trusshemp_take_counted(trusshemp_cursor *c, trusshemp_serials *serials, size_t runs)
{
    const uint8_t *count = trusshemp_take(c, runs);
    for (size_t i = 0; count && i < runs; i++)
        serials[i].run = trusshemp_take_run(c, count[i], TRUSSHEMP_WORD_WIDTH);
}

static inline void trusshemp_take_begun(trusshemp_cursor *c, trusshemp_reply *reply)
{
    reply->poc = trusshemp_i32_of(trusshemp_take_u32(c));
    reply->flags = trusshemp_take_u8(c);
    reply->serial = trusshemp_take_u32(c);
    trusshemp_take_counted(c, reply->set, TRUSSHEMP_SET_COUNT);
    trusshemp_take_tail(c, reply);
}

/* Whether replies of that kind answer a kind of record. */
static inline int trusshemp_is_reply_kind(uint16_t kind)
{
    return kind >= TRUSSHEMP_CONFIGURED && kind <= TRUSSHEMP_ABANDONED;
}

/* What is behind the number of an accepted reply of that kind. */
static inline void trusshemp_take_accepted(trusshemp_cursor *c, trusshemp_reply *reply)
{
    if (reply->kind == TRUSSHEMP_BEGUN)
        trusshemp_take_begun(c, reply);
    else if (reply->kind == TRUSSHEMP_LISTED)
        trusshemp_take_counted(c, reply->list, 2);
    else
        trusshemp_take_tail(c, reply);
}

/* Reads the reply of `length` bytes and answers 1; or 0, with *reply all 0 and empty, where the bytes are not one whole
 * reply: head plus body, of a kind that there is, with all that kind and counts call for and nothing behind it. Nothing
 * past `length` is read. */
static inline int trusshemp_read_reply(trusshemp_reply *reply, const uint8_t *bytes, size_t length)
{
    trusshemp_cursor c = { bytes, length, 0 };
    memset(reply, 0, sizeof *reply);
    size_t body = trusshemp_take_u16(&c);
    reply->kind = trusshemp_take_u16(&c);
    int all_there = body == c.left;
    reply->number = trusshemp_take_u16(&c);
    int refused = reply->number != TRUSSHEMP_ACCEPTED;
    int known = trusshemp_is_reply_kind(reply->kind) || (refused && reply->kind == TRUSSHEMP_NO_KIND);
    if (!refused)
        trusshemp_take_accepted(&c, reply);
    if (all_there && known && !c.short_of && c.left == 0)
        return 1;
    memset(reply, 0, sizeof *reply);
    return 0;
}

#ifdef __cplusplus
}
#endif
#endif
