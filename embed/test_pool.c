/* test_pool POOL..: the promises of a pool, through the header. Each file is a recording of calls of a pool (calls.py
 * has its form), whose answers must come byte for byte. Then a buffer that is too small, pools that can't be made, and
 * calls on any words, with bytes that are not lent around every piece that is. The status is 1 where anything differs.
 */
#include "pool_calls.h"

/* ---- recordings */

/* A recording; how many calls it has. */
static size_t run_recording(const char *name)
{
    size_t calls = 0;
    struct calls c = opened(name);
    trusshemp_pool pool;
    for (make_pool(&c, &pool); !at_end(&c); calls++)
        compare_call(&c, &pool);
    free(c.bytes);
    return calls;
}

static void run_recordings(size_t count, char **names)
{
    size_t calls = 0;
    for (size_t i = 0; i < count; i++)
        calls += run_recording(names[i]);
    printf("pool: %zu recordings, %zu calls; every answer as expected\n", count, calls);
}

/* ---- words that no call left */

static uint32_t next_random(void)
{
    static uint64_t seed = 1;
    seed = seed * 6364136223846793005u + 1442695040888963407u;
    return (uint32_t)(seed >> 32);
}

/* A number of any size. */
static uint32_t some(void)
{
    uint32_t width = next_random() % 32;
    return next_random() >> width;
}

static void randomize(uint32_t *words, size_t count)
{
    for (size_t i = 0; i < count; i++)
        words[i] = some();
}

static uint64_t random_bits(void)
{
    uint64_t bits = (uint64_t)next_random() << 32 | next_random();
    return next_random() % 2 ? bits : bits >> next_random() % 64;
}

static void randomize_pool(trusshemp_pool *pool)
{
    pool->pool[0] = next_random() % 4 ? next_random() % 66 : random_bits();
    pool->pool[1] = random_bits();
    pool->pool[2] = random_bits();
    randomize(pool->session.front, TRUSSHEMP_FRONT_WORDS);
    randomize(pool->session.sets, TRUSSHEMP_SETS_WORDS);
    randomize(pool->session.store, TRUSSHEMP_STORE_WORDS);
}

/* A buffer that is too small: 14, length 0, no surface, and nothing written. */
static void small_buffer(size_t size)
{
    static const uint8_t begin[16] = { 12, 0, 2, 0, 19, 0, 1 };
    uint8_t reply[TRUSSHEMP_REPLY];
    size_t length = SIZE_MAX;
    uint32_t surface = UINT32_MAX;
    trusshemp_pool pool, before;
    randomize_pool(&pool);
    before = pool;
    memset(reply, FILL, sizeof reply);
    if (trusshemp_pool_step(&pool, begin, sizeof begin, reply, size, &length, &surface) != TRUSSHEMP_NO_ROOM)
        fail("a buffer of %zu bytes did not get 14", size);
    if (length != 0 || surface != TRUSSHEMP_NO_SURFACE || !is_filled(reply, sizeof reply))
        fail("a buffer of %zu bytes got a reply", size);
    if (memcmp(&before, &pool, sizeof before))
        fail("14 changed the pool");
}

/* A pool that can't be made: 20, and the memory as it was. */
static void bad_count(uint32_t surfaces)
{
    trusshemp_pool pool, before;
    randomize_pool(&pool);
    before = pool;
    if (trusshemp_pool_make(&pool, surfaces) != TRUSSHEMP_BAD_COUNT)
        fail("a pool of %u surfaces did not get 20", (unsigned)surfaces);
    if (memcmp(&before, &pool, sizeof before))
        fail("20 changed the memory");
}

/* ---- calls on any words */

#define CALLS 100000
#define GUARD 64

/* Every piece that a call is lent, and around each of them bytes that are not lent. */
struct lent {
    uint8_t guard0[GUARD];
    uint64_t pool[TRUSSHEMP_POOL_WORDS];
    uint8_t guard1[GUARD];
    uint32_t front[TRUSSHEMP_FRONT_WORDS];
    uint8_t guard2[GUARD];
    uint32_t sets[TRUSSHEMP_SETS_WORDS];
    uint8_t guard3[GUARD];
    uint32_t store[TRUSSHEMP_STORE_WORDS];
    uint8_t guard4[GUARD];
    size_t length;
    uint8_t guard5[GUARD];
    uint32_t surface;
    uint8_t guard6[GUARD];
    uint8_t record[TRUSSHEMP_RECORD];
    uint8_t guard7[GUARD];
    uint8_t reply[BUFFER];
    uint8_t guard8[GUARD];
};

static struct lent lent, before;

/* How many calls had which end. */
static struct {
    size_t made, stepped, begun, refused, starved, given;
} seen;

static void lend_random_words(void)
{
    trusshemp_pool pool;
    randomize_pool(&pool);
    memcpy(lent.pool, pool.pool, sizeof lent.pool);
    memcpy(lent.front, pool.session.front, sizeof lent.front);
    memcpy(lent.sets, pool.session.sets, sizeof lent.sets);
    memcpy(lent.store, pool.session.store, sizeof lent.store);
}

/* Random bytes; the length of the record. */
static size_t random_bytes(void)
{
    size_t size = some() % (TRUSSHEMP_RECORD + 1);
    for (size_t i = 0; i < size; i++)
        lent.record[i] = (uint8_t)some();
    return size;
}

/* A well-formed record with the fields in range more often than not; its length. */
static size_t random_record(void)
{
    static const uint8_t sizes[] = { 0, 6, 12, 4, 0, 0, 0, 0, 0 };
    static const uint8_t types[] = { 0, 1, 19, 20, 21, 22 };
    uint8_t kind = (uint8_t)(next_random() % 8 < 4 ? 2 : 1 + next_random() % 8);
    uint8_t *body = lent.record + 4;
    memset(body, 0, 12);
    if (kind == 1) {
        const uint8_t limits[6] = { 4, 16, 16, (uint8_t)(next_random() % 3) };
        memcpy(body, limits, sizeof limits);
    } else if (kind == 2) {
        body[0] = types[next_random() % sizeof types];
        body[2] = (uint8_t)(next_random() % 4);
        body[3] = (uint8_t)(next_random() % 18);
        body[5] = (uint8_t)next_random();
    } else if (kind == 3) {
        body[0] = (uint8_t)(next_random() % 4);
        body[2] = (uint8_t)(next_random() % 4);
        body[3] = (uint8_t)(next_random() % 4);
    }
    const uint8_t head[4] = { sizes[kind], 0, kind };
    memcpy(lent.record, head, sizeof head);
    return sizeof head + sizes[kind];
}

/* Whether nothing was written but the pool's words, its session's and the three pieces of the answer. */
static int only_lent_changed(void)
{
    struct lent kept = before;
    memcpy(kept.pool, lent.pool, sizeof kept.pool);
    memcpy(kept.front, lent.front, sizeof kept.front);
    memcpy(kept.sets, lent.sets, sizeof kept.sets);
    memcpy(kept.store, lent.store, sizeof kept.store);
    memcpy(kept.reply, lent.reply, sizeof kept.reply);
    kept.length = lent.length;
    kept.surface = lent.surface;
    return memcmp(&kept, &lent, sizeof kept) == 0;
}

/* Whether the words of the pool and of its session are as they were. */
static int words_are_kept(void)
{
    return !memcmp(before.pool, lent.pool, sizeof lent.pool) && !memcmp(before.front, lent.front, sizeof lent.front) &&
           !memcmp(before.sets, lent.sets, sizeof lent.sets) && !memcmp(before.store, lent.store, sizeof lent.store);
}

static void make_any(void)
{
    uint32_t surfaces = next_random() % 4 ? next_random() % 66 : some();
    unsigned number = trusshemp_pool_make_in(lent.pool, lent.front, lent.sets, lent.store, surfaces);
    unsigned expected = 1 <= surfaces && surfaces <= TRUSSHEMP_MOST_SURFACES ? 0 : TRUSSHEMP_BAD_COUNT;
    if (number != expected || (number && !words_are_kept()))
        fail("a pool of %u surfaces got %u", (unsigned)surfaces, number);
    seen.made += number == 0;
}

static void return_any(void)
{
    unsigned number = trusshemp_pool_return_in(lent.pool, next_random() % 4 ? next_random() % 66 : some());
    if (number != 0 && number != TRUSSHEMP_NONE_PENDING)
        fail("a return got %u", number);
    if (number && !words_are_kept())
        fail("19 changed the pool");
    seen.given += number == 0;
}

static void check_step(unsigned number, size_t size, size_t room)
{
    int begun = number == 0 && size >= 4 && trusshemp_u16_at(lent.record + 2) == TRUSSHEMP_BEGIN;
    if (room < TRUSSHEMP_REPLY ? number != 14 || lent.length != 0 : lent.length < 6 || lent.length > TRUSSHEMP_REPLY)
        fail("number %u and length %zu in %zu bytes", number, lent.length, room);
    if (lent.length && trusshemp_u16_at(lent.reply + 4) != number)
        fail("the reply to %u has another number", number);
    if (number > 13 && number != TRUSSHEMP_NONE_FREE && room >= TRUSSHEMP_REPLY)
        fail("number %u", number);
    if (begun ? lent.surface >= TRUSSHEMP_MOST_SURFACES : lent.surface != TRUSSHEMP_NO_SURFACE)
        fail("number %u and surface %u", number, (unsigned)lent.surface);
    if (!is_filled(lent.reply + lent.length, BUFFER - lent.length))
        fail("the buffer behind the reply was written");
    if (number && !words_are_kept())
        fail("number %u changed the words", number);
    seen.stepped += number == 0;
    seen.begun += begun != 0;
    seen.refused += number != 0;
    seen.starved += number == TRUSSHEMP_NONE_FREE;
}

static void step_any(void)
{
    size_t size = next_random() % 8 ? random_record() : random_bytes();
    size_t room = next_random() % 8 ? TRUSSHEMP_REPLY : next_random() % (BUFFER + 1);
    memset(lent.reply, FILL, sizeof lent.reply);
    lent.length = SIZE_MAX;
    lent.surface = UINT32_MAX;
    before = lent;
    unsigned number = trusshemp_pool_step_in(lent.pool, lent.front, lent.sets, lent.store, lent.record, size,
                                             lent.reply, room, &lent.length, &lent.surface);
    check_step(number, size, room);
}

/* One call, on new words or on those that the calls before left. */
static void call_any(void)
{
    if (next_random() % 8 == 0)
        lend_random_words();
    before = lent;
    uint32_t which = next_random() % 64;
    if (which == 0)
        make_any();
    else if (which < 16)
        return_any();
    else
        step_any();
    if (!only_lent_changed())
        fail("a call wrote what it was not lent");
}

static void any_words(void)
{
    memset(&lent, FILL, sizeof lent);
    for (size_t i = 0; i < CALLS; i++)
        call_any();
    if (!seen.made || !seen.begun || !seen.starved || !seen.given)
        fail("the calls on any words are not of all kinds");
    printf("pool: %d calls on any words: %zu records accepted, of them %zu begins, %zu refused, of them with 18:%zu, "
           "%zu returns taken; nothing written that was not lent\n",
           CALLS, seen.stepped, seen.begun, seen.refused, seen.starved, seen.given);
}

int main(int count, char **names)
{
    if (help_asked(count, names, "test_pool POOL..: what a pool promises, on recordings (embed/calls.py writes them)"))
        return 0;
    if (count < 2)
        fail("no recording: test_pool POOL..");
    if (trusshemp_pool_size() != sizeof(trusshemp_pool) || trusshemp_pool_size() != TRUSSHEMP_POOL_SIZE)
        fail("the header is not the archive's");
    run_recordings((size_t)count - 1, names + 1);
    small_buffer(TRUSSHEMP_REPLY - 1);
    small_buffer(0);
    bad_count(0);
    bad_count(TRUSSHEMP_MOST_SURFACES + 1);
    bad_count(UINT32_MAX);
    any_words();
    return 0;
}
