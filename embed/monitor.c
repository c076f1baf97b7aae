/* monitor CALLS..: a small monitor that answers its tenant: "When I rescan the bus, can your video function still
 * decode from a frame it has already given back?" The status is 1 where anything differs from what is expected.
 *
 * - monitor_sessions.c: many guests, each with a session of its own and a file of calls; every reply is compared.
 * - monitor_devices.c: guests with a pool of surfaces and a display, and bus resets in the middle of a picture. This is
 *   the part to copy from.
 * - here: what can be told of any guest from records and replies alone, with nothing known of what is inside a session.
 *   The last line says it. Standard error is the log, with a line for each refusal. */
#include "monitor.h"

struct told told;

/* ---- the log */

static const char *kind_name(const uint8_t *record, size_t size)
{
    static const char *const names[] = { "no record", "configure", "begin", "lists", "finish", "drain", "discard",
                                         "end of sequence", "abandon" };
    unsigned kind = size < TRUSSHEMP_HEAD ? 0 : trusshemp_u16_at(record + 2);
    return names[kind <= TRUSSHEMP_ABANDON ? kind : 0];
}

static void log_refusal(const struct guest *g, const uint8_t *record, size_t size, unsigned number)
{
    fprintf(stderr, "monitor: %s: record %zu, %s: refused with %u, %s\n", g->name, g->records, kind_name(record, size),
            number, trusshemp_refusal_text(number));
}

void log_return(const struct guest *g, uint32_t surface, unsigned number)
{
    fprintf(stderr, "monitor: %s: return of surface %u: refused with %u, %s\n", g->name, (unsigned)surface, number,
            trusshemp_refusal_text(number));
}

/* ---- what can be told */

/* A surface is given back: the picture on it can't be named from here on. */
static void release(struct guest *g, uint32_t surface)
{
    size_t i = 0;
    while (i < g->held && g->picture[i].surface != surface)
        i++;
    if (i == g->held)
        fail("%s: record %zu: surface %u was released, and not held", g->name, g->records, (unsigned)surface);
    g->picture[i] = g->picture[--g->held];
    told.released++;
}

static void begin_on(struct guest *g, uint32_t serial, uint32_t surface)
{
    for (size_t i = 0; i < g->held; i++)
        if (g->picture[i].surface == surface)
            fail("%s: record %zu: begun on surface %u, which is held", g->name, g->records, (unsigned)surface);
    if (g->held == MOST_HELD)
        fail("%s: record %zu: more than %d surfaces are held", g->name, g->records, MOST_HELD);
    g->picture[g->held].serial = serial;
    g->picture[g->held++].surface = surface;
}

/* Every picture of a list lies on a surface that was not given back, or is missing. */
static void check_list(const struct guest *g, trusshemp_serials list)
{
    uint32_t serial;
    told.lists += list.run.count != 0;
    while (trusshemp_next_serial(&list, &serial)) {
        size_t i = 0;
        while (i < g->held && g->picture[i].serial != serial)
            i++;
        if (serial != TRUSSHEMP_MISSING && i == g->held)
            fail("%s: record %zu: a list names %u, whose surface was released", g->name, g->records, (unsigned)serial);
        told.named += serial != TRUSSHEMP_MISSING;
    }
}

void hear(struct guest *g, const uint8_t *record, size_t size, const trusshemp_reply *said, uint32_t surface)
{
    trusshemp_surfaces released = said->released;
    uint32_t given;
    g->records++;
    if (said->number != TRUSSHEMP_ACCEPTED)
        log_refusal(g, record, size, said->number);
    check_list(g, said->list[0]);
    check_list(g, said->list[1]);
    while (trusshemp_next_surface(&released, &given))
        release(g, given);
    if (said->number == TRUSSHEMP_ACCEPTED && said->kind == TRUSSHEMP_BEGUN)
        begin_on(g, said->serial, surface);
}

/* The tenant's answer, from what was told. */
static void answer_tenant(void)
{
    if (!told.released || !told.named)
        fail("no surface was released, or no list named a picture: the tenant is not answered");
    printf("monitor: can it still decode from a frame it has given back? No: %zu surfaces were released, and of %zu "
           "lists checked, with %zu pictures, none named a released one\n", told.released, told.lists, told.named);
}

int main(int count, char **names)
{
    if (help_asked(count, names, "monitor CALLS..: runs a guest for each file of calls (embed/calls.py writes them), "
                                 "and some with pools. The last line answers the tenant; standard error is the log"))
        return 0;
    if (count < 2)
        fail("no guest: monitor CALLS..");
    if (trusshemp_layout() != TRUSSHEMP_LAYOUT || trusshemp_session_size() != sizeof(trusshemp_session) ||
        trusshemp_pool_size() != sizeof(trusshemp_pool))
        fail("the header is not the archive's");
    run_sessions((size_t)count - 1, names + 1);
    run_devices();
    answer_tenant();
    return 0;
}
