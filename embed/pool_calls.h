/* Recordings of pools, as test_pool.c and test_keep.c run them: calls and answers as docs/POOL.md lays them out. */
#ifndef POOL_CALLS_H
#define POOL_CALLS_H

#include "check.h"

#define RETURN 1
#define ANSWER (8 + BUFFER)

/* The surface that a return names: zeros stand behind a body that is too short. */
static inline uint32_t surface_in(const uint8_t *body, size_t size)
{
    uint8_t bytes[4] = { 0 };
    memcpy(bytes, body, size < 4 ? size : 4);
    return trusshemp_u32_at(bytes);
}

/* An answer as a message, with a reply of that length behind it; the length of the whole. */
static inline size_t put_answer(uint8_t *answer, unsigned kind, unsigned number, uint32_t surface, size_t length)
{
    uint8_t *at = trusshemp_put_u16(answer, (uint16_t)(4 + length));
    at = trusshemp_put_u16(at, (uint16_t)kind);
    at = trusshemp_put_u16(at, (uint16_t)number);
    trusshemp_put_u16(at, (uint16_t)surface);
    return 8 + length;
}

/* The answer to a record, with its reply. */
static inline size_t answer_record(trusshemp_pool *pool, const uint8_t *record, size_t size, uint8_t *answer)
{
    size_t length = SIZE_MAX;
    uint32_t surface = UINT32_MAX;
    unsigned number = trusshemp_pool_step(pool, record, size, answer + 8, BUFFER, &length, &surface);
    if (length > BUFFER || !is_filled(answer + 8 + length, BUFFER - length))
        fail("the buffer behind a reply was written");
    return put_answer(answer, 0, number, surface, length);
}

/* The answer to a call. */
static inline size_t answer_call(trusshemp_pool *pool, const uint8_t *call, size_t size, uint8_t *answer)
{
    const uint8_t *body = call + 4;
    if (trusshemp_u16_at(call + 2) != RETURN)
        return answer_record(pool, body, size - 4, answer);
    unsigned number = trusshemp_pool_return(pool, surface_in(body, size - 4));
    return put_answer(answer, RETURN, number, TRUSSHEMP_NO_SURFACE, 0);
}

/* One call of a recording and its answer; a refused one has left every byte of the pool as it was. */
static inline void compare_call(struct calls *c, trusshemp_pool *pool)
{
    uint8_t answer[ANSWER];
    size_t said, expected;
    const uint8_t *call = next_bytes(c, &said);
    const uint8_t *answered = next_bytes(c, &expected);
    trusshemp_pool before = *pool;
    if (said < 4)
        fail("%s: the call that ends at byte %zu is not whole", c->name, c->at);
    memset(answer, FILL, sizeof answer);

    size_t length = answer_call(pool, call, said, answer);

    if (length != expected || memcmp(answer, answered, length))
        fail("%s: the answer that ends at byte %zu differs", c->name, c->at);
    if (trusshemp_u16_at(answer + 4) && memcmp(&before, pool, sizeof before))
        fail("%s: a refused call changed the pool", c->name);
}

/* The pool of a recording, as its file begins. */
static inline void make_pool(struct calls *c, trusshemp_pool *pool)
{
    memset(pool, FILL, sizeof *pool);
    if (trusshemp_pool_make(pool, trusshemp_u32_at(take(c, 4))) != 0)
        fail("%s: no pool was made", c->name);
}

#endif
