/* The guests with devices: this is the part to copy from. Each guest has a pool of surfaces and a display; the monitor
 * chooses no surface. It lends each record to the pool, decodes into the surface that the pool answers, gives the
 * display what the reply hands out, and returns to the pool what the display gives back. The displays differ, the
 * guests all begin as fast as they can. Then the bus is reset under each of them, in the middle of a picture where the
 * display let it come so far: it asks for what it lost, and starts again at an IDR picture. */
#include "monitor.h"

#define SURFACES 6
#define TURNS 600

/* How many pictures a guest begins that is never refused: a turn for the configure, then three for each, but that the
 * bus is reset before the last one is finished. */
#define UNHINDERED (TURNS / 3)

struct device {
    struct guest guest;
    void (*display)(struct device *);   /* what the display gives back in a turn */
    size_t begins;                      /* how many begins are expected to be accepted */
    size_t second;                      /* how many returns are expected to be refused */
    trusshemp_pool *pool;
    uint8_t record[TRUSSHEMP_RECORD];
    unsigned next;                      /* what the guest says next: the kind of a record */
    uint16_t lsb;                       /* of its next picture */
    uint32_t memory[SURFACES];          /* what was decoded into each surface: here the serial of its picture */
    trusshemp_picture shown[SURFACES];  /* what the display holds, the oldest first */
    size_t showing, turns, begun, thrown;
    size_t records[NUMBERS], returns[NUMBERS];  /* how many got each number */
};

/* ---- a pool, the memory of its surfaces, and a display */

/* The display gets what a reply hands out. */
static void hand_out(struct device *d, trusshemp_pictures handed)
{
    trusshemp_picture p;
    while (trusshemp_next_picture(&handed, &p)) {
        if (p.surface >= SURFACES || d->showing == SURFACES)
            fail("%s: surface %u was handed out beside %zu others", d->guest.name, (unsigned)p.surface, d->showing);
        d->shown[d->showing++] = p;
    }
}

/* Counts a number, and holds a refusal to it that the pool is as it was. */
static void check(struct device *d, size_t *numbers, unsigned number, const trusshemp_pool *before)
{
    if (number >= NUMBERS)
        fail("%s: number %u", d->guest.name, number);
    if (number && memcmp(before, d->pool, sizeof *before))
        fail("%s: number %u changed the pool", d->guest.name, number);
    numbers[number]++;
}

/* The guest's record, of that size, through its pool; the refusal number. */
static unsigned lend(struct device *d, size_t size)
{
    uint8_t reply[TRUSSHEMP_REPLY];
    size_t length;
    uint32_t surface;
    trusshemp_reply said;
    trusshemp_pool before = *d->pool;
    unsigned number = trusshemp_pool_step(d->pool, d->record, size, reply, sizeof reply, &length, &surface);
    check(d, d->records, number, &before);
    if (!trusshemp_read_reply(&said, reply, length) || said.number != number)
        fail("%s: the reply to number %u is not whole, or has another", d->guest.name, number);
    int begun = number == TRUSSHEMP_ACCEPTED && said.kind == TRUSSHEMP_BEGUN;
    if (begun ? surface >= SURFACES : surface != TRUSSHEMP_NO_SURFACE)
        fail("%s: number %u and surface %u", d->guest.name, number, (unsigned)surface);
    hear(&d->guest, d->record, size, &said, surface);
    if (begun)
        d->memory[surface] = said.serial;
    d->begun += begun != 0;
    d->thrown += said.thrown.run.count;
    hand_out(d, said.handed);
    return number;
}

/* The display gives a surface back to the pool. */
static void give_back(struct device *d, uint32_t surface)
{
    trusshemp_pool before = *d->pool;
    unsigned number = trusshemp_pool_return(d->pool, surface);
    check(d, d->returns, number, &before);
    if (number)
        log_return(&d->guest, surface, number);
}

/* The display has shown one of its pictures, which nobody wrote over in the meantime. */
static void done(struct device *d, size_t place)
{
    trusshemp_picture p = d->shown[place];
    if (d->memory[p.surface] != p.serial)
        fail("%s: surface %u was decoded into while the display held it", d->guest.name, (unsigned)p.surface);
    d->showing--;
    memmove(d->shown + place, d->shown + place + 1, (d->showing - place) * sizeof *d->shown);
    give_back(d, p.surface);
}

/* ---- what a guest says, as a record; each answers the refusal number */

/* NAL types: a picture that others may refer to, and an IDR picture. */
enum { TRAIL_R = 1, IDR_W_RADL = 19 };

/* The guest names this surface in every begin, which its pool has not: the field is ignored. */
#define OWN 7

/* Nothing is held back (reorder 0): a picture is handed out as soon as it is finished. */
static unsigned say_configure(struct device *d)
{
    const trusshemp_configure limits = { .k = 4, .capacity = 4, .buffering = 4 };
    return lend(d, trusshemp_write_configure(d->record, sizeof d->record, &limits));
}

static unsigned say_begin(struct device *d, const trusshemp_begin *begin)
{
    unsigned number = lend(d, trusshemp_write_begin(d->record, sizeof d->record, begin));
    if (number == TRUSSHEMP_ACCEPTED)
        d->lsb = (begin->lsb + 1) % 16;
    return number;
}

static unsigned say_idr(struct device *d)
{
    const trusshemp_begin begin = { .nal_type = IDR_W_RADL, .flags = TRUSSHEMP_BEGIN_OUTPUT, .surface = OWN };
    return say_begin(d, &begin);
}

/* The guest's next picture, which refers to the one before it, or to none. */
static unsigned say_following(struct device *d, size_t references)
{
    static const trusshemp_short_term before = { .delta = -1, .used = 1 };
    const trusshemp_begin begin = { .nal_type = TRAIL_R, .flags = TRUSSHEMP_BEGIN_OUTPUT, .lsb = d->lsb, .surface = OWN,
                                    .neg = &before, .neg_count = references };
    return say_begin(d, &begin);
}

/* An I slice, or a P slice with one entry in its list. */
static unsigned say_lists(struct device *d, uint8_t slice_type)
{
    const trusshemp_lists lists = { .slice_type = slice_type, .active = { slice_type == TRUSSHEMP_SLICE_P } };
    return lend(d, trusshemp_write_lists(d->record, sizeof d->record, &lists));
}

static unsigned say_finish(struct device *d)
{
    return lend(d, trusshemp_write_finish(d->record, sizeof d->record));
}

static unsigned say_abandon(struct device *d)
{
    return lend(d, trusshemp_write_abandon(d->record, sizeof d->record));
}

/* ---- displays */

static void at_once(struct device *d)
{
    while (d->showing)
        done(d, 0);
}

static void late(struct device *d)
{
    while (d->showing > 3)
        done(d, 0);
}

static void out_of_order(struct device *d)
{
    while (d->showing > 2)
        done(d, d->turns % d->showing);
}

static void twice(struct device *d)
{
    while (d->showing) {
        uint32_t surface = d->shown[0].surface;
        done(d, 0);
        give_back(d, surface);
    }
}

static void never(struct device *d)
{
    (void)d;
}

#define SELDOM 5

static void seldom(struct device *d)
{
    if (d->showing && d->turns % SELDOM == 0)
        done(d, 0);
}

/* ---- turns */

/* What the guest says in a turn: configure, then for each picture begin, again until it is accepted, lists and finish.
 * The first is an IDR picture, and each that follows refers to the one before it. */
static void say_next(struct device *d)
{
    int first = d->begun == 0;
    if (d->next == TRUSSHEMP_CONFIGURE && say_configure(d) == 0)
        d->next = TRUSSHEMP_BEGIN;
    else if (d->next == TRUSSHEMP_BEGIN && (first ? say_idr(d) : say_following(d, 1)) == 0)
        d->next = TRUSSHEMP_LISTS;
    else if (d->next == TRUSSHEMP_LISTS && say_lists(d, d->begun == 1 ? TRUSSHEMP_SLICE_I : TRUSSHEMP_SLICE_P) == 0)
        d->next = TRUSSHEMP_FINISH;
    else if (d->next == TRUSSHEMP_FINISH && say_finish(d) == 0)
        d->next = TRUSSHEMP_BEGIN;
}

static int in_picture(const struct device *d)
{
    return d->next == TRUSSHEMP_LISTS || d->next == TRUSSHEMP_FINISH;
}

static void turn(struct device *d)
{
    say_next(d);
    d->display(d);
    d->turns++;
    /* every picture is the current one, or the display holds it, or has given it back */
    if (d->begun != d->showing + d->returns[0] + (in_picture(d) ? 1 : 0))
        fail("%s: a picture is lost", d->guest.name);
}

/* Nothing was refused but by 18, and that exactly where fewer begins were accepted than the guest had turns for. */
static void judge(const struct device *d)
{
    for (size_t i = 1; i < NUMBERS; i++)
        if (i != TRUSSHEMP_NONE_FREE && d->records[i])
            fail("%s: %zu records got %zu", d->guest.name, d->records[i], i);
    if (d->begun != d->begins)
        fail("%s: %zu begins were accepted, %zu expected", d->guest.name, d->begun, d->begins);
    if ((d->records[TRUSSHEMP_NONE_FREE] != 0) != (d->begun < UNHINDERED))
        fail("%s: %zu begins got 18", d->guest.name, d->records[TRUSSHEMP_NONE_FREE]);
    if (d->returns[TRUSSHEMP_NONE_PENDING] != d->second)
        fail("%s: %zu returns got 19", d->guest.name, d->returns[TRUSSHEMP_NONE_PENDING]);
}

/* ---- bus resets */

static void expect(const struct device *d, const char *what, unsigned number, unsigned expected)
{
    if (number != expected)
        fail("%s: %s got %u, %s", d->guest.name, what, number, trusshemp_refusal_text(number));
}

/* What the host sends: discard, then end of sequence. The session gives up all that it holds, and says so; what the
 * display holds stays taken. */
static void reset_bus(struct device *d)
{
    size_t thrown = d->thrown + (in_picture(d) ? 1 : 0);
    expect(d, "discard", lend(d, trusshemp_write_discard(d->record, sizeof d->record)), TRUSSHEMP_ACCEPTED);
    if (d->guest.held || d->thrown != thrown)
        fail("%s: a reset left %zu surfaces held, %zu pictures thrown away", d->guest.name, d->guest.held, d->thrown);
    expect(d, "end of sequence", lend(d, trusshemp_write_end(d->record, sizeof d->record)), TRUSSHEMP_ACCEPTED);
}

/* The guest does not know of it and goes on: with a slice of the picture that is gone, and behind it in the middle of
 * the stream, at a picture that refers to nothing and at one that refers to what is lost. Its list is refused, or names
 * a missing picture; each of the two pictures is abandoned. */
static void ask_for_lost(struct device *d)
{
    expect(d, "a slice of a lost picture", say_lists(d, TRUSSHEMP_SLICE_P), TRUSSHEMP_NO_CURRENT);
    if (d->showing == SURFACES) {
        expect(d, "a begin beside a full display", say_following(d, 0), TRUSSHEMP_NONE_FREE);
        done(d, 0);
    }
    for (size_t references = 0; references <= 1; references++) {
        size_t named = told.named;
        expect(d, "a begin in the middle", say_following(d, references), TRUSSHEMP_ACCEPTED);
        expect(d, "its P slice", say_lists(d, TRUSSHEMP_SLICE_P), references ? 0 : TRUSSHEMP_NO_CANDIDATE);
        if (told.named != named)
            fail("%s: the list of a picture behind a reset names one before it", d->guest.name);
        expect(d, "abandon", say_abandon(d), TRUSSHEMP_ACCEPTED);
    }
}

/* The guest starts again at an IDR picture, and the next refers to that. At the end the session and the display give
 * all back. */
static void start_again(struct device *d)
{
    at_once(d);
    expect(d, "an IDR picture", say_idr(d), TRUSSHEMP_ACCEPTED);
    expect(d, "its I slice", say_lists(d, TRUSSHEMP_SLICE_I), TRUSSHEMP_ACCEPTED);
    expect(d, "its finish", say_finish(d), TRUSSHEMP_ACCEPTED);
    expect(d, "the next picture", say_following(d, 1), TRUSSHEMP_ACCEPTED);
    size_t named = told.named;
    expect(d, "its P slice", say_lists(d, TRUSSHEMP_SLICE_P), TRUSSHEMP_ACCEPTED);
    if (told.named != named + 1)
        fail("%s: the picture behind an IDR picture does not refer to it", d->guest.name);
    expect(d, "drain", lend(d, trusshemp_write_drain(d->record, sizeof d->record)), TRUSSHEMP_ACCEPTED);
    at_once(d);
    if (d->guest.held || d->begun != d->returns[0] + d->thrown)
        fail("%s: at the end %zu surfaces are held, or a picture is lost", d->guest.name, d->guest.held);
}

/* ---- all devices, in turn */

static struct device device[] = {
    { .guest.name = "at once", .display = at_once, .begins = UNHINDERED },
    { .guest.name = "late", .display = late, .begins = UNHINDERED },
    { .guest.name = "out of order", .display = out_of_order, .begins = UNHINDERED },
    /* the last picture is not yet handed out */
    { .guest.name = "twice", .display = twice, .begins = UNHINDERED, .second = UNHINDERED - 1 },
    { .guest.name = "never", .display = never, .begins = SURFACES },
    /* besides those, one for each return */
    { .guest.name = "seldom", .display = seldom, .begins = SURFACES + (TURNS - 1) / SELDOM },
};

#define DEVICES (sizeof device / sizeof *device)

static trusshemp_pool pool[DEVICES];

static void make_pools(void)
{
    memset(pool, FILL, sizeof pool);
    for (size_t i = 0; i < DEVICES; i++) {
        device[i].pool = &pool[i];
        device[i].next = TRUSSHEMP_CONFIGURE;
        if (trusshemp_pool_make(&pool[i], SURFACES) != 0)
            fail("%s: no pool was made", device[i].guest.name);
    }
}

/* A part of a device's run, and the other devices undisturbed. */
static void among(size_t i, void (*part)(struct device *))
{
    static trusshemp_pool before[DEVICES];
    memcpy(before, pool, sizeof pool);
    part(&device[i]);
    before[i] = pool[i];
    if (memcmp(before, pool, sizeof pool))
        fail("%s: a call changed another guest's pool", device[i].guest.name);
}

/* How many records of all devices got a number. */
static size_t got(unsigned number)
{
    size_t count = 0;
    for (size_t i = 0; i < DEVICES; i++)
        count += device[i].records[number];
    return count;
}

static void reset_all(void)
{
    size_t inside = 0;
    for (size_t i = 0; i < DEVICES; i++) {
        inside += in_picture(&device[i]) ? 1 : 0;
        among(i, reset_bus);
        among(i, ask_for_lost);
        among(i, start_again);
    }
    printf("monitor: %zu bus resets, %zu of them in the middle of a picture; lists for what was lost refused with "
           "4:%zu, 10:%zu\n", DEVICES, inside, got(TRUSSHEMP_NO_CURRENT), got(TRUSSHEMP_NO_CANDIDATE));
    if (inside == 0)
        fail("no bus was reset in the middle of a picture");
}

void run_devices(void)
{
    size_t records = 0, second = 0;
    make_pools();
    for (size_t n = 0; n < TURNS; n++)
        for (size_t i = 0; i < DEVICES; i++)
            among(i, turn);
    for (size_t i = 0; i < DEVICES; i++) {
        judge(&device[i]);
        records += device[i].guest.records;
        second += device[i].returns[TRUSSHEMP_NONE_PENDING];
    }
    printf("monitor: %zu guests with pools, %zu records, refused with 18:%zu, returns with 19:%zu; as expected\n",
           DEVICES, records, got(TRUSSHEMP_NONE_FREE), second);
    reset_all();
}
