/* Trusshemp: an H.265 picture session (reference marks, sets, lists, output order) in memory that the host lends, and a
 * pool that chooses the surfaces of one. docs/01-scope.md has the records and the replies, and the refusal numbers, and
 * docs/02-change-requests.md, Item 10, the pool. Build the archive with `rt lib` in crates/embed and link
 * crates/embed/out/libembed.a, for x86-64 Linux. trusshemp_wire.h writes the records and reads the replies.
 *
 * The functions are proved (crates/embed): they end, they touch nothing but what they are lent, and any bytes get an
 * answer, also a session or a pool whose words hold garbage. What a host must see to, for C cannot: every pointer is to
 * as much memory as is said here, is aligned for its type and is not null, no two of the lent pieces overlap, and no
 * other thread uses them during the call. Calls on different sessions, or on different pools, need no order. */
#ifndef TRUSSHEMP_H
#define TRUSSHEMP_H

#include <stddef.h>
#include <stdint.h>

#ifdef __cplusplus
extern "C" {
#endif

/* The version of this header. */
#define TRUSSHEMP_VERSION "0.2.0"
#define TRUSSHEMP_VERSION_MAJOR 0
#define TRUSSHEMP_VERSION_MINOR 2
#define TRUSSHEMP_VERSION_PATCH 0

/* The number of the layout: of what each word of a session and of a pool means. It goes up whenever a word is added,
 * moved or means something else. trusshemp_layout answers that of the archive: a host compares the two before its first
 * call. */
#define TRUSSHEMP_LAYOUT 1
uint32_t trusshemp_layout(void);

/* ---- Names of the numbers in records and replies. */

/* The kinds of records, and those of their replies, 256 more. A record that is refused with 13 has no kind: its reply
 * has TRUSSHEMP_NO_KIND. */
enum trusshemp_kind {
    TRUSSHEMP_CONFIGURE = 1,
    TRUSSHEMP_BEGIN = 2,
    TRUSSHEMP_LISTS = 3,
    TRUSSHEMP_FINISH = 4,
    TRUSSHEMP_DRAIN = 5,
    TRUSSHEMP_DISCARD = 6,
    TRUSSHEMP_END = 7,                  /* end of sequence */
    TRUSSHEMP_ABANDON = 8
};
enum trusshemp_reply_kind {
    TRUSSHEMP_CONFIGURED = 257,
    TRUSSHEMP_BEGUN = 258,
    TRUSSHEMP_LISTED = 259,
    TRUSSHEMP_FINISHED = 260,
    TRUSSHEMP_DRAINED = 261,
    TRUSSHEMP_DISCARDED = 262,
    TRUSSHEMP_ENDED = 263,
    TRUSSHEMP_ABANDONED = 264,
    TRUSSHEMP_NO_KIND = 511
};

/* The flags of a begin: pic_output_flag and no_output_of_prior_pics_flag. */
#define TRUSSHEMP_BEGIN_OUTPUT 1
#define TRUSSHEMP_BEGIN_NO_PRIOR 2

/* The flags of a long-term entry of a begin: used by the current picture, and its cycle counts (msb present). */
#define TRUSSHEMP_LONG_USED 1
#define TRUSSHEMP_LONG_MSB 2

/* The slice types of a lists record, and its flags: entries for list 0, entries for list 1, and whether the current
 * picture is a candidate. */
#define TRUSSHEMP_SLICE_B 0
#define TRUSSHEMP_SLICE_P 1
#define TRUSSHEMP_SLICE_I 2
#define TRUSSHEMP_LISTS_MODIFY_0 1
#define TRUSSHEMP_LISTS_MODIFY_1 2
#define TRUSSHEMP_LISTS_OWN 4

/* The flags of an accepted begin's reply: NoRaslOutputFlag, the output flag, whether the picture is to become the
 * previous Tid0 picture (valid), and no output of prior pictures. */
#define TRUSSHEMP_BEGUN_NO_RASL 1
#define TRUSSHEMP_BEGUN_OUTPUT 2
#define TRUSSHEMP_BEGUN_VALID 4
#define TRUSSHEMP_BEGUN_NO_PRIOR 8

/* The serial that stands for a missing picture in sets and lists. */
#define TRUSSHEMP_MISSING 4294967295u

/* The numbers that a call answers, each with the sentence of docs/01-scope.md that says when it is given; those of a
 * pool, from 18 on, with that of docs/02-change-requests.md, Item 10. Through a pool 7 never comes. */
enum trusshemp_refusal {
    TRUSSHEMP_ACCEPTED = 0,
    TRUSSHEMP_NOT_CONFIGURED = 1,       /* begin before any accepted configure */
    TRUSSHEMP_BAD_LIMITS = 2,           /* not: k 4 to 16, capacity at least 1 (more than 16 is taken as 16), buffering
                                           1 to the taken capacity, reorder below buffering */
    TRUSSHEMP_PICTURE_CURRENT = 3,      /* begin while a picture is current */
    TRUSSHEMP_NO_CURRENT = 4,           /* lists, finish or abandon while none is current */
    TRUSSHEMP_OUT_OF_RANGE = 5,         /* a field outside the ranges below */
    TRUSSHEMP_OUTSIDE_I32 = 6,          /* the exact MSB, POC or a set's POC lies outside i32 */
    TRUSSHEMP_SURFACE_HELD = 7,         /* the surface is held by a stored picture at the time of the call */
    TRUSSHEMP_SERIALS_SPENT = 8,        /* the next serial would be 4,294,967,295 */
    TRUSSHEMP_STORE_FULL = 9,           /* the current picture must be stored and stored = capacity (finish, drain,
                                           configure) */
    TRUSSHEMP_NO_CANDIDATE = 10,        /* P or B slice with no candidate */
    TRUSSHEMP_TOO_MANY = 11,            /* max(active, candidates) exceeds 16 for a list that the slice type uses */
    TRUSSHEMP_BAD_ENTRY = 12,           /* an entry byte is not below the number of candidates */
    TRUSSHEMP_MALFORMED = 13,           /* slice not exactly head plus body, body over 512 bytes, unknown kind, or body
                                           length not what kind and counts call for; its reply kind is 511 */
    TRUSSHEMP_NO_ROOM = 14,             /* reply buffer under 512 bytes; nothing written, the call answers 14 and length
                                           0 */
    TRUSSHEMP_NONE_FREE = 18,           /* given exactly if no surface is free, after 14 and 13 and before begin's other
                                           checks */
    TRUSSHEMP_NONE_PENDING = 19,        /* a return for a surface with none pending or not in the pool */
    TRUSSHEMP_BAD_COUNT = 20            /* a pool asked for with 0 or more than 64 surfaces, which makes none */
};

/* A number in plain words, for a log; docs/INTEGRATING.md and docs/POOL.md say what to do at each. */
static inline const char *trusshemp_refusal_text(unsigned number)
{
    switch (number) {
    case TRUSSHEMP_ACCEPTED: return "accepted";
    case TRUSSHEMP_NOT_CONFIGURED: return "begin before any accepted configure";
    case TRUSSHEMP_BAD_LIMITS: return "a limit of configure is out of range";
    case TRUSSHEMP_PICTURE_CURRENT: return "begin while a picture is current";
    case TRUSSHEMP_NO_CURRENT: return "lists, finish or abandon while none is current";
    case TRUSSHEMP_OUT_OF_RANGE: return "a field out of range";
    case TRUSSHEMP_OUTSIDE_I32: return "a picture order count outside 32 bits";
    case TRUSSHEMP_SURFACE_HELD: return "a stored picture lies on that surface";
    case TRUSSHEMP_SERIALS_SPENT: return "serials are used up";
    case TRUSSHEMP_STORE_FULL: return "the store is full";
    case TRUSSHEMP_NO_CANDIDATE: return "a P or B slice with nothing to refer to";
    case TRUSSHEMP_TOO_MANY: return "more than 16 candidates";
    case TRUSSHEMP_BAD_ENTRY: return "an entry byte past the candidates";
    case TRUSSHEMP_MALFORMED: return "not a well-formed record";
    case TRUSSHEMP_NO_ROOM: return "a reply buffer under 512 bytes";
    case TRUSSHEMP_NONE_FREE: return "a begin came, and no surface is free";
    case TRUSSHEMP_NONE_PENDING: return "nothing is out on that surface: never handed out, returned before, or thrown "
                                        "away; or the pool has no such surface";
    case TRUSSHEMP_BAD_COUNT: return "a pool of 0 or more than 64 surfaces was asked for";
    default: return "unknown number";
    }
}

/* ---- One session. */

/* How many words a session takes, beside its sets and its store, of its sets and of its store, and how many bytes. */
#define TRUSSHEMP_FRONT_WORDS 23
#define TRUSSHEMP_SETS_WORDS 16
#define TRUSSHEMP_STORE_WORDS 97
#define TRUSSHEMP_SESSION_SIZE (4 * (TRUSSHEMP_FRONT_WORDS + TRUSSHEMP_SETS_WORDS + TRUSSHEMP_STORE_WORDS))

/* The least reply buffer, and the largest record (head and body), in bytes. */
#define TRUSSHEMP_REPLY 512
#define TRUSSHEMP_RECORD 516

/* It holds no pointer: it may be copied and moved; trusshemp_session_save below makes it bytes for a file. What the
 * words hold is no promise of this header. */
typedef struct {
    uint32_t front[TRUSSHEMP_FRONT_WORDS];
    uint32_t sets[TRUSSHEMP_SETS_WORDS];
    uint32_t store[TRUSSHEMP_STORE_WORDS];
} trusshemp_session;

/* TRUSSHEMP_SESSION_SIZE, as the archive has it: a host may compare the two before its first call. */
size_t trusshemp_session_size(void);

/* What the archive exports: the three parts of a session are lent apart. The two functions behind them are the ones to
 * call. */
void trusshemp_fresh_in(uint32_t *front, uint32_t *sets, uint32_t *store);
uint16_t trusshemp_step_in(uint32_t *front, uint32_t *sets, uint32_t *store, const uint8_t *record,
                           size_t record_length, uint8_t *reply, size_t reply_length, size_t *length);

/* Makes the session fresh, whatever it held. */
static inline void trusshemp_fresh(trusshemp_session *session)
{
    trusshemp_fresh_in(session->front, session->sets, session->store);
}

/* One call: the record at `record` gets its reply in the buffer at `reply`. The answer is the refusal number, 0 when
 * accepted, and *length is set to the reply's length in bytes. A refused record leaves every byte of the session as it
 * was; the bytes of the buffer behind the reply are left as they were.
 * A buffer of less than TRUSSHEMP_REPLY bytes gets 14 and length 0, and nothing is written. */
static inline uint16_t trusshemp_step(trusshemp_session *session, const uint8_t *record, size_t record_length,
                                      uint8_t *reply, size_t reply_length, size_t *length)
{
    return trusshemp_step_in(session->front, session->sets, session->store, record, record_length, reply, reply_length,
                             length);
}

/* ---- A pool of surfaces above a session. The guest chooses no surface: whatever its begin records name, the pool
 * gives each begin the lowest surface that is free. A surface is free if the session does not hold it and the display
 * has given back every picture that was handed out on it. */

/* How many words of 64 bits a pool takes beside its session, and how many bytes with it. */
#define TRUSSHEMP_POOL_WORDS 3
#define TRUSSHEMP_POOL_SIZE (8 * TRUSSHEMP_POOL_WORDS + TRUSSHEMP_SESSION_SIZE)

/* The place of each: how many surfaces it has, a bit for each that the session holds, and one for each on which a
 * return is pending. */
#define TRUSSHEMP_POOL_SURFACES 0
#define TRUSSHEMP_POOL_HELD 1
#define TRUSSHEMP_POOL_PENDING 2

/* The most surfaces that a pool has, numbered from 0, and the number that stands for no surface. */
#define TRUSSHEMP_MOST_SURFACES 64
#define TRUSSHEMP_NO_SURFACE 64

/* One pool with its session. It holds no pointer, as a session holds none. Every record of this session goes through
 * the pool: of one that is lent to trusshemp_step the pool would know nothing. */
typedef struct trusshemp_pool {
    uint64_t pool[TRUSSHEMP_POOL_WORDS];
    trusshemp_session session;
} trusshemp_pool;

/* TRUSSHEMP_POOL_SIZE, as the archive has it. */
size_t trusshemp_pool_size(void);

/* What the archive exports: the words of the pool and the three parts of its session are lent apart. The three
 * functions behind them are the ones to call. */
uint16_t trusshemp_pool_make_in(uint64_t *pool, uint32_t *front, uint32_t *sets, uint32_t *store, uint32_t surfaces);
uint16_t trusshemp_pool_step_in(uint64_t *pool, uint32_t *front, uint32_t *sets, uint32_t *store, const uint8_t *record,
                                size_t record_length, uint8_t *reply, size_t reply_length, size_t *length,
                                uint32_t *surface);
uint16_t trusshemp_pool_return_in(uint64_t *pool, uint32_t surface);

/* Makes the memory a pool of that many surfaces over a fresh session, whatever it held, and answers 0. 0 surfaces, or
 * more than TRUSSHEMP_MOST_SURFACES, get 20, and every byte is left as it was. */
static inline uint16_t trusshemp_pool_make(trusshemp_pool *pool, uint32_t surfaces)
{
    return trusshemp_pool_make_in(pool->pool, pool->session.front, pool->session.sets, pool->session.store, surfaces);
}

/* One call, as trusshemp_step: the record gets its reply, and the answer is the refusal number, 0 when accepted.
 * *length is set to the reply's length, and *surface to the surface that an accepted begin was given, or to
 * TRUSSHEMP_NO_SURFACE where no begin was accepted. Each picture that the reply hands out is a pending return on its
 * surface. A begin gets 18 exactly if no surface is free. A refused record leaves every byte of the pool and of its
 * session as it was; the bytes of the buffer behind the reply are left as they were.
 * A buffer of less than TRUSSHEMP_REPLY bytes gets 14 and length 0, and nothing is written. */
static inline uint16_t trusshemp_pool_step(trusshemp_pool *pool, const uint8_t *record, size_t record_length,
                                           uint8_t *reply, size_t reply_length, size_t *length, uint32_t *surface)
{
    return trusshemp_pool_step_in(pool->pool, pool->session.front, pool->session.sets, pool->session.store, record,
                                  record_length, reply, reply_length, length, surface);
}

/* The display gives back a picture that was handed out on this surface: takes one pending return away and answers 0. A
 * surface with none pending, or not in the pool, gets 19, and every byte is left as it was. The session always is. */
static inline uint16_t trusshemp_pool_return(trusshemp_pool *pool, uint32_t surface)
{
    return trusshemp_pool_return_in(pool->pool, surface);
}

/* ---- Numbers in bytes, little-endian, as records, replies and kept sessions have them. Each writer answers the place
 * behind what it wrote. */

static inline uint8_t *trusshemp_put_u8(uint8_t *at, uint8_t n)
{
    at[0] = n;
    return at + 1;
}

static inline uint8_t *trusshemp_put_u16(uint8_t *at, uint16_t n)
{
    return trusshemp_put_u8(trusshemp_put_u8(at, (uint8_t)(n & 255)), (uint8_t)(n >> 8));
}

static inline uint8_t *trusshemp_put_u32(uint8_t *at, uint32_t n)
{
    return trusshemp_put_u16(trusshemp_put_u16(at, (uint16_t)(n & 65535)), (uint16_t)(n >> 16));
}

static inline uint8_t *trusshemp_put_u64(uint8_t *at, uint64_t n)
{
    return trusshemp_put_u32(trusshemp_put_u32(at, (uint32_t)(n & 4294967295u)), (uint32_t)(n >> 32));
}

static inline uint16_t trusshemp_u16_at(const uint8_t *at)
{
    return (uint16_t)(at[0] | at[1] << 8);
}

static inline uint32_t trusshemp_u32_at(const uint8_t *at)
{
    return trusshemp_u16_at(at) | (uint32_t)trusshemp_u16_at(at + 2) << 16;
}

static inline uint64_t trusshemp_u64_at(const uint8_t *at)
{
    return trusshemp_u32_at(at) | (uint64_t)trusshemp_u32_at(at + 4) << 32;
}

/* ---- A kept session, and a kept pool: bytes for a file, or for another machine. They are the number of the layout
 * (u32), a checksum of all that follows (u32), for a pool its three words (u64 each), and the session's words (u32
 * each): front, sets, store. The checksum finds every single flipped bit, and nearly all other damage; besides, a load
 * takes only the normal form, in which every session is from trusshemp_fresh on. */

#define TRUSSHEMP_KEPT_HEAD 8
#define TRUSSHEMP_KEPT_SIZE (TRUSSHEMP_KEPT_HEAD + TRUSSHEMP_SESSION_SIZE)
#define TRUSSHEMP_POOL_KEPT_SIZE (TRUSSHEMP_KEPT_HEAD + TRUSSHEMP_POOL_SIZE)

/* What a load answers: the first of these that is so. */
enum trusshemp_load {
    TRUSSHEMP_LOADED = 0,
    TRUSSHEMP_LOAD_LENGTH = 1,          /* not as many bytes as a save writes */
    TRUSSHEMP_LOAD_LAYOUT = 2,          /* kept by another layout */
    TRUSSHEMP_LOAD_DAMAGED = 3,         /* the checksum is not that of the bytes */
    TRUSSHEMP_LOAD_NOT_NORMAL = 4       /* not the normal form of a session, or of a pool */
};

/* What the archive exports: 1 exactly on memory in the normal form, and else 0. */
uint16_t trusshemp_is_normal_in(const uint32_t *front, const uint32_t *sets, const uint32_t *store);

/* Whether the session is in its normal form: 1 from trusshemp_fresh on, after any calls. */
static inline int trusshemp_is_normal(const trusshemp_session *session)
{
    return trusshemp_is_normal_in(session->front, session->sets, session->store) == 1;
}

/* The same of a pool: its session is in its normal form, it has 1 to 64 surfaces, and none that it has not is held or
 * has a return pending. */
static inline int trusshemp_pool_is_normal(const trusshemp_pool *pool)
{
    uint64_t surfaces = pool->pool[TRUSSHEMP_POOL_SURFACES];
    uint64_t used = pool->pool[TRUSSHEMP_POOL_HELD] | pool->pool[TRUSSHEMP_POOL_PENDING];
    if (surfaces < 1 || surfaces > TRUSSHEMP_MOST_SURFACES)
        return 0;
    if (surfaces < TRUSSHEMP_MOST_SURFACES && used >> surfaces != 0)
        return 0;
    return trusshemp_is_normal(&pool->session);
}

/* The CRC-32 of IEEE 802.3. */
static inline uint32_t trusshemp_crc32(const uint8_t *bytes, size_t length)
{
    uint32_t crc = 0xFFFFFFFFu;
    for (size_t i = 0; i < 8 * length; i++) {
        uint32_t bit = (crc ^ (uint32_t)(bytes[i / 8] >> i % 8)) & 1;
        crc = crc >> 1 ^ (bit ? 0xEDB88320u : 0);
    }
    return crc ^ 0xFFFFFFFFu;
}

static inline uint8_t *trusshemp_put_words(uint8_t *at, const uint32_t *words, size_t count)
{
    for (size_t i = 0; i < count; i++)
        at = trusshemp_put_u32(at, words[i]);
    return at;
}

static inline const uint8_t *trusshemp_take_words(const uint8_t *at, uint32_t *words, size_t count)
{
    for (size_t i = 0; i < count; i++)
        words[i] = trusshemp_u32_at(at + 4 * i);
    return at + 4 * count;
}

static inline void trusshemp_put_session(uint8_t *at, const trusshemp_session *session)
{
    at = trusshemp_put_words(at, session->front, TRUSSHEMP_FRONT_WORDS);
    at = trusshemp_put_words(at, session->sets, TRUSSHEMP_SETS_WORDS);
    trusshemp_put_words(at, session->store, TRUSSHEMP_STORE_WORDS);
}

static inline void trusshemp_take_session(const uint8_t *at, trusshemp_session *session)
{
    at = trusshemp_take_words(at, session->front, TRUSSHEMP_FRONT_WORDS);
    at = trusshemp_take_words(at, session->sets, TRUSSHEMP_SETS_WORDS);
    trusshemp_take_words(at, session->store, TRUSSHEMP_STORE_WORDS);
}

/* Puts the layout and the checksum in front of what is kept. */
static inline void trusshemp_put_kept_head(uint8_t *bytes, size_t size)
{
    uint32_t checksum = trusshemp_crc32(bytes + TRUSSHEMP_KEPT_HEAD, size - TRUSSHEMP_KEPT_HEAD);
    trusshemp_put_u32(trusshemp_put_u32(bytes, TRUSSHEMP_LAYOUT), checksum);
}

/* Whether these bytes are `size` bytes that were kept by this layout and are undamaged: what a load answers. */
static inline int trusshemp_check_kept(const uint8_t *bytes, size_t length, size_t size)
{
    if (length != size)
        return TRUSSHEMP_LOAD_LENGTH;
    if (trusshemp_u32_at(bytes) != TRUSSHEMP_LAYOUT)
        return TRUSSHEMP_LOAD_LAYOUT;
    if (trusshemp_u32_at(bytes + 4) != trusshemp_crc32(bytes + TRUSSHEMP_KEPT_HEAD, size - TRUSSHEMP_KEPT_HEAD))
        return TRUSSHEMP_LOAD_DAMAGED;
    return TRUSSHEMP_LOADED;
}

/* Writes the session to the TRUSSHEMP_KEPT_SIZE bytes at `bytes`. */
static inline void trusshemp_session_save(const trusshemp_session *session, uint8_t *bytes)
{
    trusshemp_put_session(bytes + TRUSSHEMP_KEPT_HEAD, session);
    trusshemp_put_kept_head(bytes, TRUSSHEMP_KEPT_SIZE);
}

/* Makes the session the one that these bytes were saved from, and answers 0; or a number of trusshemp_load, and every
 * byte of the session is left as it was. */
static inline int trusshemp_session_load(trusshemp_session *session, const uint8_t *bytes, size_t length)
{
    trusshemp_session found;
    int wrong = trusshemp_check_kept(bytes, length, TRUSSHEMP_KEPT_SIZE);
    if (wrong)
        return wrong;
    trusshemp_take_session(bytes + TRUSSHEMP_KEPT_HEAD, &found);
    if (!trusshemp_is_normal(&found))
        return TRUSSHEMP_LOAD_NOT_NORMAL;
    *session = found;
    return TRUSSHEMP_LOADED;
}

/* Writes the pool with its session to the TRUSSHEMP_POOL_KEPT_SIZE bytes at `bytes`. */
static inline void trusshemp_pool_save(const trusshemp_pool *pool, uint8_t *bytes)
{
    uint8_t *at = bytes + TRUSSHEMP_KEPT_HEAD;
    for (size_t i = 0; i < TRUSSHEMP_POOL_WORDS; i++)
        at = trusshemp_put_u64(at, pool->pool[i]);
    trusshemp_put_session(at, &pool->session);
    trusshemp_put_kept_head(bytes, TRUSSHEMP_POOL_KEPT_SIZE);
}

/* Makes the pool the one that these bytes were saved from, with its session, and answers 0; or a number of
 * trusshemp_load, and every byte of the pool is left as it was. */
static inline int trusshemp_pool_load(trusshemp_pool *pool, const uint8_t *bytes, size_t length)
{
    trusshemp_pool found;
    int wrong = trusshemp_check_kept(bytes, length, TRUSSHEMP_POOL_KEPT_SIZE);
    if (wrong)
        return wrong;
    bytes += TRUSSHEMP_KEPT_HEAD;
    for (size_t i = 0; i < TRUSSHEMP_POOL_WORDS; i++)
        found.pool[i] = trusshemp_u64_at(bytes + 8 * i);
    trusshemp_take_session(bytes + 8 * TRUSSHEMP_POOL_WORDS, &found.session);
    if (!trusshemp_pool_is_normal(&found))
        return TRUSSHEMP_LOAD_NOT_NORMAL;
    *pool = found;
    return TRUSSHEMP_LOADED;
}

#ifdef __cplusplus
}
#endif
#endif
