/* test_wire MODE: what trusshemp_wire.h and the names of trusshemp.h do, as lines of text for test_wire.py, which
 * compares. It needs no archive.
 *
 *     encode    a record on each line of standard input, as plain numbers: its kind, then its fields, with the counts
 *               of entries in front of these. On standard output its bytes, as hexadecimal digits
 *     read      bytes on each line, as hexadecimal digits. On standard output what the reply says, as plain numbers:
 *               kind and number; of an accepted one POC, flags, serial and sets, or lists, then the tail, each run
 *               behind its count. Or 'not whole'
 *     names     'version' and the version, as a text and by its numbers; a line for each name of a kind, flag or slice
 *               type, and its value; and for each of some numbers 'text', the number and trusshemp_refusal_text
 *
 * Every buffer has just the bytes that it is said to have, so that a sanitizer sees a byte past them. The status is 1
 * where a writer does what the header says it does not. */
#include <inttypes.h>

#include "check.h"
#include "trusshemp_wire.h"

/* ---- lines of plain numbers */

#define LINE 8192

/* The numbers of a line that are not yet taken. */
static char line[LINE];
static char *rest;

/* The next line; 0 at the end. */
static int next_line(void)
{
    rest = line;
    if (!fgets(line, sizeof line, stdin))
        return 0;
    if (!strchr(line, '\n'))
        fail("a line is longer than %d bytes", LINE);
    return 1;
}

static int64_t next_number(void)
{
    char *end;
    long long n = strtoll(rest, &end, 10);
    if (end == rest)
        fail("a number is lacking: %s", line);
    rest = end;
    return n;
}

/* The next number, in a field from 0 to `most`. */
static uint32_t next_field(uint32_t most)
{
    int64_t n = next_number();
    if (n < 0 || n > most)
        fail("%" PRId64 " is no field from 0 to %" PRIu32, n, most);
    return (uint32_t)n;
}

static uint8_t next_u8(void)
{
    return (uint8_t)next_field(UINT8_MAX);
}

static uint16_t next_u16(void)
{
    return (uint16_t)next_field(UINT16_MAX);
}

static void *new_bytes(size_t size)
{
    void *bytes = malloc(size ? size : 1);
    if (!bytes)
        fail("no memory");
    return bytes;
}

/* ---- encode */

/* A record of any kind, by its fields. */
struct record {
    uint16_t kind;
    trusshemp_configure configure;
    trusshemp_begin begin;
    trusshemp_lists lists;
};

static trusshemp_short_term *next_short_terms(size_t count)
{
    trusshemp_short_term *entries = new_bytes(count * sizeof *entries);
    for (size_t i = 0; i < count; i++) {
        entries[i].delta = (int32_t)next_number();
        entries[i].used = next_u8();
    }
    return entries;
}

static trusshemp_long_term *next_long_terms(size_t count)
{
    trusshemp_long_term *entries = new_bytes(count * sizeof *entries);
    for (size_t i = 0; i < count; i++) {
        entries[i].lsb = next_u16();
        entries[i].flags = next_u8();
        entries[i].cycle = next_field(UINT32_MAX);
    }
    return entries;
}

static void next_configure(trusshemp_configure *c)
{
    c->k = next_u8();
    c->capacity = next_u8();
    c->buffering = next_u8();
    c->reorder = next_u8();
    c->latency = next_u16();
}

static void next_begin(trusshemp_begin *b)
{
    b->nal_type = next_u8();
    b->temporal_id = next_u8();
    b->flags = next_u8();
    b->lsb = next_u16();
    b->surface = next_field(UINT32_MAX);
    b->neg_count = next_u8();
    b->neg = next_short_terms(b->neg_count);
    b->pos_count = next_u8();
    b->pos = next_short_terms(b->pos_count);
    b->lt_count = next_u8();
    b->lt = next_long_terms(b->lt_count);
}

static uint8_t *next_entries(size_t count)
{
    uint8_t *entries = new_bytes(count);
    for (size_t i = 0; i < count; i++)
        entries[i] = next_u8();
    return entries;
}

static void next_lists(trusshemp_lists *l)
{
    l->slice_type = next_u8();
    l->flags = next_u8();
    l->active[0] = next_u8();
    l->active[1] = next_u8();
    l->entries[0] = next_entries(next_u8());
    l->entries[1] = next_entries(next_u8());
}

static struct record next_record(void)
{
    struct record r = { .kind = next_u16() };
    if (r.kind == TRUSSHEMP_CONFIGURE)
        next_configure(&r.configure);
    else if (r.kind == TRUSSHEMP_BEGIN)
        next_begin(&r.begin);
    else if (r.kind == TRUSSHEMP_LISTS)
        next_lists(&r.lists);
    return r;
}

static void forget(struct record *r)
{
    free((void *)r->begin.neg);
    free((void *)r->begin.pos);
    free((void *)r->begin.lt);
    free((void *)r->lists.entries[0]);
    free((void *)r->lists.entries[1]);
}

static size_t written(const struct record *r, uint8_t *record, size_t room)
{
    switch (r->kind) {
    case TRUSSHEMP_CONFIGURE: return trusshemp_write_configure(record, room, &r->configure);
    case TRUSSHEMP_BEGIN: return trusshemp_write_begin(record, room, &r->begin);
    case TRUSSHEMP_LISTS: return trusshemp_write_lists(record, room, &r->lists);
    case TRUSSHEMP_FINISH: return trusshemp_write_finish(record, room);
    case TRUSSHEMP_DRAIN: return trusshemp_write_drain(record, room);
    case TRUSSHEMP_DISCARD: return trusshemp_write_discard(record, room);
    case TRUSSHEMP_END: return trusshemp_write_end(record, room);
    case TRUSSHEMP_ABANDON: return trusshemp_write_abandon(record, room);
    default: fail("no record has kind %u", r->kind);
    }
    return 0;
}

/* A buffer that is too small, or a count too large: 0, and nothing is written. */
static void not_written(const struct record *r, size_t room)
{
    uint8_t *record = new_bytes(room);
    memset(record, FILL, room);
    if (written(r, record, room) != 0)
        fail("a record of kind %u was written into %zu bytes", r->kind, room);
    if (!is_filled(record, room))
        fail("a buffer of %zu bytes was written", room);
    free(record);
}

/* Counts that a byte does not hold. */
static void counts_too_large(void)
{
    static const trusshemp_short_term short_terms[256];
    static const trusshemp_long_term long_terms[256];
    static const uint8_t entries[256];
    struct record begin = { .kind = TRUSSHEMP_BEGIN,
                            .begin = { .neg = short_terms, .pos = short_terms, .lt = long_terms } };
    struct record lists = { .kind = TRUSSHEMP_LISTS, .lists = { .flags = 3, .entries = { entries, entries } } };
    size_t *const counts[] = { &begin.begin.neg_count, &begin.begin.pos_count, &begin.begin.lt_count,
                               &lists.lists.active[0], &lists.lists.active[1] };
    for (size_t i = 0; i < sizeof counts / sizeof *counts; i++) {
        *counts[i] = 256;
        not_written(i < 3 ? &begin : &lists, 65536);
        *counts[i] = SIZE_MAX;
        not_written(i < 3 ? &begin : &lists, 65536);
        *counts[i] = 0;
    }
}

static void print_hex(const uint8_t *bytes, size_t size)
{
    for (size_t i = 0; i < size; i++)
        printf("%02X", bytes[i]);
    putchar('\n');
}

static void encode(void)
{
    counts_too_large();
    while (next_line()) {
        uint8_t most[65536];
        struct record r = next_record();
        size_t size = written(&r, most, sizeof most);
        for (size_t room = 0; room < size; room++)
            not_written(&r, room);
        uint8_t *record = new_bytes(size);
        if (size == 0 || written(&r, record, size) != size)
            fail("a record of %zu bytes is not written into as many: %s", size, line);
        print_hex(record, size);
        free(record);
        forget(&r);
    }
}

/* ---- read */

static int digit(char c)
{
    const char *digits = "0123456789ABCDEF";
    const char *found = c ? strchr(digits, c) : NULL;
    return found ? (int)(found - digits) : -1;
}

/* The bytes of a line, in as much memory as they take. */
static uint8_t *next_hex(size_t *size)
{
    uint8_t *bytes = new_bytes((strlen(line) - 1) / 2);
    for (*size = 0; digit(line[2 * *size]) >= 0 && digit(line[2 * *size + 1]) >= 0; ++*size)
        bytes[*size] = (uint8_t)(digit(line[2 * *size]) << 4 | digit(line[2 * *size + 1]));
    if (line[2 * *size] != '\n')
        fail("not hexadecimal digits: %s", line);
    return bytes;
}

static void print_serials(trusshemp_serials serials)
{
    uint32_t serial;
    printf(" %zu", serials.run.count);
    while (trusshemp_next_serial(&serials, &serial))
        printf(" %" PRIu32, serial);
}

static void print_tail(trusshemp_reply said)
{
    trusshemp_picture p;
    uint32_t surface;
    printf(" %zu", said.handed.run.count);
    while (trusshemp_next_picture(&said.handed, &p))
        printf(" %" PRIu32 " %" PRIu32 " %" PRId32, p.serial, p.surface, p.poc);
    print_serials(said.thrown);
    printf(" %zu", said.released.run.count);
    while (trusshemp_next_surface(&said.released, &surface))
        printf(" %" PRIu32, surface);
}

static void print_reply(trusshemp_reply said)
{
    printf("%u %u", said.kind, said.number);
    if (said.number == TRUSSHEMP_ACCEPTED && said.kind == TRUSSHEMP_BEGUN) {
        printf(" %" PRId32 " %u %" PRIu32, said.poc, said.flags, said.serial);
        for (size_t i = 0; i < TRUSSHEMP_SET_COUNT; i++)
            print_serials(said.set[i]);
    }
    if (said.number == TRUSSHEMP_ACCEPTED && said.kind == TRUSSHEMP_LISTED) {
        print_serials(said.list[0]);
        print_serials(said.list[1]);
    } else if (said.number == TRUSSHEMP_ACCEPTED) {
        print_tail(said);
    }
    putchar('\n');
}

/* Whether nothing is left of what stood there before. */
static int is_empty(const trusshemp_reply *said)
{
    static const trusshemp_reply empty;
    return memcmp(said, &empty, sizeof empty) == 0;
}

static void read_lines(void)
{
    while (next_line()) {
        size_t size;
        trusshemp_reply said;
        uint8_t *bytes = next_hex(&size);
        memset(&said, FILL, sizeof said);
        if (trusshemp_read_reply(&said, bytes, size))
            print_reply(said);
        else if (is_empty(&said))
            puts("not whole");
        else
            fail("a reply that is not whole says something: %s", line);
        free(bytes);
    }
}

/* ---- names */

#define NAMED(name) { #name, name }

static const struct {
    const char *name;
    uint32_t value;
} named[] = {
    NAMED(TRUSSHEMP_CONFIGURE), NAMED(TRUSSHEMP_BEGIN), NAMED(TRUSSHEMP_LISTS), NAMED(TRUSSHEMP_FINISH),
    NAMED(TRUSSHEMP_DRAIN), NAMED(TRUSSHEMP_DISCARD), NAMED(TRUSSHEMP_END), NAMED(TRUSSHEMP_ABANDON),
    NAMED(TRUSSHEMP_CONFIGURED), NAMED(TRUSSHEMP_BEGUN), NAMED(TRUSSHEMP_LISTED), NAMED(TRUSSHEMP_FINISHED),
    NAMED(TRUSSHEMP_DRAINED), NAMED(TRUSSHEMP_DISCARDED), NAMED(TRUSSHEMP_ENDED), NAMED(TRUSSHEMP_ABANDONED),
    NAMED(TRUSSHEMP_NO_KIND), NAMED(TRUSSHEMP_BEGIN_OUTPUT), NAMED(TRUSSHEMP_BEGIN_NO_PRIOR),
    NAMED(TRUSSHEMP_LONG_USED), NAMED(TRUSSHEMP_LONG_MSB), NAMED(TRUSSHEMP_SLICE_B), NAMED(TRUSSHEMP_SLICE_P),
    NAMED(TRUSSHEMP_SLICE_I), NAMED(TRUSSHEMP_LISTS_MODIFY_0), NAMED(TRUSSHEMP_LISTS_MODIFY_1),
    NAMED(TRUSSHEMP_LISTS_OWN), NAMED(TRUSSHEMP_BEGUN_NO_RASL), NAMED(TRUSSHEMP_BEGUN_OUTPUT),
    NAMED(TRUSSHEMP_BEGUN_VALID), NAMED(TRUSSHEMP_BEGUN_NO_PRIOR), NAMED(TRUSSHEMP_MISSING),
};

static void print_names(void)
{
    printf("version %s %d.%d.%d\n", TRUSSHEMP_VERSION, TRUSSHEMP_VERSION_MAJOR, TRUSSHEMP_VERSION_MINOR,
           TRUSSHEMP_VERSION_PATCH);
    for (size_t i = 0; i < sizeof named / sizeof *named; i++)
        printf("%s %" PRIu32 "\n", named[i].name, named[i].value);
    for (unsigned number = 0; number <= 32; number++)
        printf("text %u %s\n", number, trusshemp_refusal_text(number));
    printf("text %u %s\n", UINT16_MAX, trusshemp_refusal_text(UINT16_MAX));
}

int main(int count, char **words)
{
    const char *mode = count == 2 ? words[1] : "";
    if (help_asked(count, words, "test_wire encode | read | names: a filter for embed/test_wire.py, which starts it"))
        return 0;
    if (!strcmp(mode, "encode"))
        encode();
    else if (!strcmp(mode, "read"))
        read_lines();
    else if (!strcmp(mode, "names"))
        print_names();
    else
        fail("test_wire encode | read | names");
    return 0;
}
