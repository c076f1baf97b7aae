/* test_keep CALLS.. POOL..: kept sessions and pools, through the header. Each file is a recording, of a session
 * (NAME.calls) or of a pool (NAME.pool; calls.py has the form of both). One that is saved and loaded before each call
 * answers on as one that is not; every flipped bit of what several of them are kept as is found; so are a wrong length,
 * another layout and what is not in the normal form. And without keeping: a session in whose words a bit is flipped
 * still answers every call, and one that holds a serial twice hands out each picture by itself. The status is 1 where
 * anything differs. */
#include "pool_calls.h"
#include "trusshemp_wire.h"

/* How many recordings of each form have their bits flipped. */
#define SEVERAL 5

/* ---- what sessions and pools have in common: memory that is kept in some bytes, and recordings */

union memory {
    trusshemp_session session;
    trusshemp_pool pool;
    uint8_t bytes[sizeof(trusshemp_pool)];
};

struct form {
    const char *name;
    size_t size, kept;
    void (*save)(const union memory *, uint8_t *);
    int (*load)(union memory *, const uint8_t *, size_t);
    void (*start)(struct calls *, union memory *);      /* as it is before the first call of a recording */
    void (*call)(struct calls *, union memory *);       /* the next call, whose answer must be as recorded */
};

#define MOST_KEPT TRUSSHEMP_POOL_KEPT_SIZE

static void save_session(const union memory *m, uint8_t *bytes)
{
    trusshemp_session_save(&m->session, bytes);
}

static int load_session(union memory *m, const uint8_t *bytes, size_t length)
{
    return trusshemp_session_load(&m->session, bytes, length);
}

static void start_session(struct calls *c, union memory *m)
{
    (void)c;
    trusshemp_fresh(&m->session);
}

static void call_session(struct calls *c, union memory *m)
{
    uint8_t reply[TRUSSHEMP_REPLY];
    size_t size, expected, length;
    const uint8_t *record = next_bytes(c, &size);
    const uint8_t *answer = next_bytes(c, &expected);
    trusshemp_step(&m->session, record, size, reply, sizeof reply, &length);
    if (length != expected || memcmp(reply, answer, length))
        fail("%s: the reply that ends at byte %zu differs", c->name, c->at);
}

static void save_pool(const union memory *m, uint8_t *bytes)
{
    trusshemp_pool_save(&m->pool, bytes);
}

static int load_pool(union memory *m, const uint8_t *bytes, size_t length)
{
    return trusshemp_pool_load(&m->pool, bytes, length);
}

static void start_pool(struct calls *c, union memory *m)
{
    make_pool(c, &m->pool);
}

static void call_pool(struct calls *c, union memory *m)
{
    compare_call(c, &m->pool);
}

static const struct form sessions = { "session", sizeof(trusshemp_session), TRUSSHEMP_KEPT_SIZE,
                                      save_session, load_session, start_session, call_session };
static const struct form pools = { "pool", sizeof(trusshemp_pool), TRUSSHEMP_POOL_KEPT_SIZE,
                                   save_pool, load_pool, start_pool, call_pool };

static const struct form *form_of(const char *name)
{
    size_t size = strlen(name);
    return size > 5 && !strcmp(name + size - 5, ".pool") ? &pools : &sessions;
}

/* A load of these bytes answers this number, and a refused one leaves the memory as it was. */
static void loads_with(const struct form *f, const uint8_t *bytes, size_t length, int expected, const char *what)
{
    union memory m;
    memset(&m, FILL, sizeof m);
    int found = f->load(&m, bytes, length);
    if (found != expected)
        fail("a %s, %s: the load answered %d, not %d", f->name, what, found, expected);
    if (found && !is_filled(m.bytes, sizeof m))
        fail("a %s, %s: a refused load changed the memory", f->name, what);
}

/* ---- recordings */

/* Saves the memory, and loads it over whatever there was: it is as before. */
static void keep(const struct form *f, union memory *m)
{
    uint8_t bytes[MOST_KEPT + 1];
    union memory before = *m;
    memset(bytes, FILL, sizeof bytes);
    memset(m, FILL, sizeof *m);
    f->save(&before, bytes);
    if (bytes[f->kept] != FILL)
        fail("a %s: a save wrote more than %zu bytes", f->name, f->kept);
    int found = f->load(m, bytes, f->kept);
    if (found || memcmp(m, &before, f->size))
        fail("a %s that was saved, and loaded with %d, is not the one it was", f->name, found);
}

/* A recording, kept before each call and at the end; the memory as it was before the last call. */
static union memory run_recording(const struct form *f, struct calls *c, size_t *calls)
{
    union memory now, last;
    f->start(c, &now);
    for (last = now; !at_end(c); ++*calls) {
        keep(f, &now);
        last = now;
        f->call(c, &now);
    }
    keep(f, &now);
    return last;
}

/* ---- damage */

/* Every bit of what the memory is kept as: the load says so. */
static void flip_kept(const struct form *f, const union memory *m)
{
    uint8_t bytes[MOST_KEPT];
    f->save(m, bytes);
    for (size_t i = 0; i < 8 * f->kept; i++) {
        bytes[i / 8] ^= (uint8_t)(1 << i % 8);
        loads_with(f, bytes, f->kept, i < 32 ? TRUSSHEMP_LOAD_LAYOUT : TRUSSHEMP_LOAD_DAMAGED, "a bit flipped");
        bytes[i / 8] ^= (uint8_t)(1 << i % 8);
    }
    loads_with(f, bytes, f->kept, TRUSSHEMP_LOADED, "no bit flipped");
}

/* Other lengths, and another layout: the length is told first, then the layout, then the checksum. */
static void foreign(const struct form *f, const union memory *m)
{
    uint8_t bytes[MOST_KEPT + 1] = { 0 };
    f->save(m, bytes);
    loads_with(f, bytes, f->kept - 1, TRUSSHEMP_LOAD_LENGTH, "a byte short");
    loads_with(f, bytes, f->kept + 1, TRUSSHEMP_LOAD_LENGTH, "a byte too many");
    loads_with(f, bytes, 0, TRUSSHEMP_LOAD_LENGTH, "of no bytes");
    trusshemp_put_u32(bytes, TRUSSHEMP_LAYOUT + 1);
    loads_with(f, bytes, f->kept, TRUSSHEMP_LOAD_LAYOUT, "kept by another layout");
    bytes[f->kept - 1] ^= 1;
    loads_with(f, bytes, f->kept, TRUSSHEMP_LOAD_LAYOUT, "kept by another layout, and damaged");
    loads_with(f, bytes, f->kept - 1, TRUSSHEMP_LOAD_LENGTH, "of another layout and length");
}

/* Memory that is kept whole: what its load answers. */
static void kept_loads(const struct form *f, const union memory *m, int expected, const char *what)
{
    uint8_t bytes[MOST_KEPT];
    f->save(m, bytes);
    loads_with(f, bytes, f->kept, expected, what);
}

/* Words that no call leaves, with a checksum that is right: a flag that is 2, a store of 17 pictures, a picture behind
 * the length of the store. In a pool the session's words are its last, so that the same is tried of both. */
static void not_normal_session(const struct form *f, const union memory *m)
{
    union memory changed = *m;
    trusshemp_session *session = f == &pools ? &changed.pool.session : &changed.session;
    uint32_t *length = &session->store[TRUSSHEMP_STORE_WORDS - 1];
    session->front[0] = 2;
    kept_loads(f, &changed, TRUSSHEMP_LOAD_NOT_NORMAL, "a flag that is 2");
    changed = *m;
    *length = 17;
    kept_loads(f, &changed, TRUSSHEMP_LOAD_NOT_NORMAL, "a store of 17 pictures");
    changed = *m;
    *length = 0;
    session->store[0] = 1;
    kept_loads(f, &changed, TRUSSHEMP_LOAD_NOT_NORMAL, "a picture behind the length of the store");
}

/* Counts of surfaces that no pool has, and surfaces that are held or pending and not in the pool. */
static void not_normal_pool(void)
{
    for (uint32_t surfaces = 1; surfaces <= TRUSSHEMP_MOST_SURFACES; surfaces++) {
        union memory m;
        uint64_t past = surfaces < 64 ? (uint64_t)1 << surfaces : 0;
        int expected = past ? TRUSSHEMP_LOAD_NOT_NORMAL : TRUSSHEMP_LOADED;
        if (trusshemp_pool_make(&m.pool, surfaces) != 0)
            fail("no pool of %u surfaces was made", (unsigned)surfaces);
        m.pool.pool[TRUSSHEMP_POOL_HELD] = m.pool.pool[TRUSSHEMP_POOL_PENDING] = past - 1;
        kept_loads(&pools, &m, TRUSSHEMP_LOADED, "every surface held and pending");
        m.pool.pool[TRUSSHEMP_POOL_HELD] |= past;
        kept_loads(&pools, &m, expected, "a surface held that the pool has not");
        m.pool.pool[TRUSSHEMP_POOL_HELD] = 0;
        m.pool.pool[TRUSSHEMP_POOL_PENDING] |= past;
        kept_loads(&pools, &m, expected, "a return pending on a surface that the pool has not");
        m.pool.pool[TRUSSHEMP_POOL_PENDING] = 0;
        m.pool.pool[TRUSSHEMP_POOL_SURFACES] = 0;
        kept_loads(&pools, &m, TRUSSHEMP_LOAD_NOT_NORMAL, "no surfaces");
        m.pool.pool[TRUSSHEMP_POOL_SURFACES] = TRUSSHEMP_MOST_SURFACES + surfaces;
        kept_loads(&pools, &m, TRUSSHEMP_LOAD_NOT_NORMAL, "more than 64 surfaces");
    }
}

/* The bytes by themselves: the sizes, a known checksum, and each word where it should stand. */
static void known_bytes(void)
{
    uint8_t bytes[TRUSSHEMP_POOL_KEPT_SIZE];
    union memory m;
    for (size_t i = 0; i < sizeof m; i++)
        m.bytes[i] = (uint8_t)(7 * i + i / 256);
    if (TRUSSHEMP_KEPT_SIZE != 552 || TRUSSHEMP_POOL_KEPT_SIZE != 576)
        fail("kept sessions or pools have another size");
    if (trusshemp_crc32((const uint8_t *)"123456789", 9) != 0xCBF43926u)
        fail("the checksum is not CRC-32");
    /* this machine is little-endian, as the bytes are */
    save_session(&m, bytes);
    if (trusshemp_u32_at(bytes) != 1 || memcmp(bytes + 8, &m.session, sizeof m.session))
        fail("a session is not kept as its words");
    if (trusshemp_u32_at(bytes + 4) != trusshemp_crc32(bytes + 8, 544))
        fail("the checksum of a kept session is not that of its words");
    save_pool(&m, bytes);
    if (trusshemp_u32_at(bytes) != 1 || memcmp(bytes + 8, &m.pool, sizeof m.pool))
        fail("a pool is not kept as its words");
    if (trusshemp_u32_at(bytes + 4) != trusshemp_crc32(bytes + 8, 568))
        fail("the checksum of a kept pool is not that of its words");
}

/* ---- a bit flipped in the words themselves, where nothing tells */

/* One call on such words: it is answered, with a whole reply, and a refusal leaves the words. */
static void answered(trusshemp_session *session, const uint8_t *record, size_t size)
{
    uint8_t reply[BUFFER];
    size_t length = SIZE_MAX;
    trusshemp_session before = *session;
    trusshemp_reply said;
    memset(reply, FILL, sizeof reply);
    unsigned number = trusshemp_step(session, record, size, reply, sizeof reply, &length);
    if (length > TRUSSHEMP_REPLY || !trusshemp_read_reply(&said, reply, length) || said.number != number)
        fail("a session with a flipped bit gave no whole reply");
    if (number >= TRUSSHEMP_NO_ROOM || !is_filled(reply + length, sizeof reply - length))
        fail("a session with a flipped bit answered %u, or wrote behind its reply", number);
    if (number && memcmp(&before, session, sizeof before))
        fail("a refused record changed a session with a flipped bit");
}

/* A stream from there on: each record that needs no fields, a begin, and lists that name all that there is. */
static size_t stream_on(trusshemp_session *session)
{
    static const uint16_t kinds[] = { TRUSSHEMP_LISTS, TRUSSHEMP_FINISH, TRUSSHEMP_BEGIN, TRUSSHEMP_LISTS,
                                      TRUSSHEMP_ABANDON, TRUSSHEMP_END, TRUSSHEMP_BEGIN, TRUSSHEMP_DRAIN };
    const trusshemp_short_term neg[] = { { -1, 1 }, { -2, 1 } };
    const trusshemp_begin begin = { .nal_type = 1, .flags = TRUSSHEMP_BEGIN_OUTPUT, .lsb = 3, .surface = 99,
                                    .neg = neg, .neg_count = 2 };
    const trusshemp_lists lists = { .slice_type = TRUSSHEMP_SLICE_B, .active = { 16, 16 } };
    size_t count = sizeof kinds / sizeof *kinds;
    for (size_t i = 0; i < count; i++) {
        uint8_t record[TRUSSHEMP_RECORD];
        size_t size = kinds[i] == TRUSSHEMP_BEGIN ? trusshemp_write_begin(record, sizeof record, &begin)
                      : kinds[i] == TRUSSHEMP_LISTS ? trusshemp_write_lists(record, sizeof record, &lists)
                      : trusshemp_write_empty(record, sizeof record, kinds[i]);
        answered(session, record, size);
    }
    return count;
}

/* Every bit of the words; how many calls were answered. */
static size_t flip_words(const trusshemp_session *session)
{
    size_t calls = 0;
    for (size_t i = 0; i < 8 * sizeof *session; i++) {
        union memory m = { .session = *session };
        m.bytes[i / 8] ^= (uint8_t)(1 << i % 8);
        calls += stream_on(&m.session);
    }
    return calls;
}

/* ---- words that no session reaches: one serial twice */

/* Pictures 5, 5 and 6 wait, on surfaces 10, 11 and 12, the first two with POC 3 and the last with 2. A drain hands out
 * each by itself, the lowest POC first and the earlier stored on a tie, and releases each surface. */
static void one_serial_twice(void)
{
    static const uint32_t pictures[] = { 5, 10, 3, 1, 1, 0, 5, 11, 3, 1, 1, 0, 6, 12, 2, 1, 1, 0 };
    static const uint8_t drain[] = { 0, 0, 5, 0 };
    static const uint8_t asked[] = { 53, 0, 5, 1, 0, 0,
                                     3, 6, 0, 0, 0, 12, 0, 0, 0, 2, 0, 0, 0,
                                     5, 0, 0, 0, 10, 0, 0, 0, 3, 0, 0, 0, 5, 0, 0, 0, 11, 0, 0, 0, 3, 0, 0, 0,
                                     0, 3, 12, 0, 0, 0, 10, 0, 0, 0, 11, 0, 0, 0 };
    trusshemp_session session;
    uint8_t reply[TRUSSHEMP_REPLY];
    size_t length;
    trusshemp_fresh(&session);
    memcpy(session.store, pictures, sizeof pictures);
    session.store[TRUSSHEMP_STORE_WORDS - 1] = 3;
    trusshemp_step(&session, drain, sizeof drain, reply, sizeof reply, &length);
    if (length != sizeof asked || memcmp(reply, asked, length))
        fail("a drain of two pictures with one serial answers otherwise");
}

/* ---- all of it */

static struct {
    size_t recordings, calls, flipped, bits, answered;
} seen[2];

static void run_file(const char *name)
{
    const struct form *f = form_of(name);
    struct calls c = opened(name);
    size_t *several = &seen[f == &pools].flipped;
    union memory m = run_recording(f, &c, &seen[f == &pools].calls);
    seen[f == &pools].recordings++;
    foreign(f, &m);
    not_normal_session(f, &m);
    if (*several < SEVERAL) {
        ++*several;
        flip_kept(f, &m);
        seen[f == &pools].bits += 8 * f->kept;
        if (f == &sessions)
            seen[0].answered += flip_words(&m.session);
    }
    free(c.bytes);
}

int main(int count, char **names)
{
    if (help_asked(count, names, "test_keep CALLS.. POOL..: kept sessions and pools, on recordings (embed/calls.py "
                                 "writes them)"))
        return 0;
    if (trusshemp_layout() != TRUSSHEMP_LAYOUT)
        fail("the header is not the archive's");
    known_bytes();
    not_normal_pool();
    one_serial_twice();
    for (int i = 1; i < count; i++)
        run_file(names[i]);
    if (seen[0].flipped < SEVERAL || seen[1].flipped < SEVERAL)
        fail("fewer than %d recordings of sessions or of pools: test_keep CALLS.. POOL..", SEVERAL);
    printf("keep: %zu sessions and %zu pools saved and loaded before each of %zu calls; every answer as expected\n",
           seen[0].recordings, seen[1].recordings, seen[0].calls + seen[1].calls);
    printf("keep: each of %zu bits of %zu kept sessions and %zu kept pools flipped; every load refused\n",
           seen[0].bits + seen[1].bits, seen[0].flipped, seen[1].flipped);
    printf("keep: each bit of the words of %zu sessions flipped; %zu calls answered with whole replies\n",
           seen[0].flipped, seen[0].answered);
    return 0;
}
