/* The guests with sessions of their own. Each file is a guest; the guests say their records in turn, one each, until
 * all have said theirs. Every reply is compared with the file's (calls.py has its form). Besides, after each call:
 * - a refused record has left every byte of its guest's session as it was, so that a guest that joins where it cannot
 *   start loses nothing;
 * - the sessions of all other guests are as they were;
 * - the reply buffer behind the reply is as it was. */
#include "monitor.h"

/* Where a begin has its surface. */
#define SURFACE_PLACE 9

/* The guests, and the sessions as they were before a call. */
struct guests {
    size_t count, calls, answers[NUMBERS];
    struct calls *said;
    struct guest *guest;
    trusshemp_session *session, *before;
};

/* What the reply says, which must be whole and have this number. */
static trusshemp_reply read_whole(const struct calls *c, const uint8_t *reply, size_t length, unsigned number)
{
    trusshemp_reply said;
    if (!trusshemp_read_reply(&said, reply, length))
        fail("%s: the reply that ends at byte %zu is not whole", c->name, c->at);
    if (number != said.number)
        fail("%s: the number of the reply that ends at byte %zu differs", c->name, c->at);
    return said;
}

/* One call of a guest; the refusal number. */
static unsigned serve(struct calls *c, struct guest *guest, trusshemp_session *session)
{
    static uint8_t reply[BUFFER];
    size_t size, expected, length = SIZE_MAX;
    const uint8_t *record = next_bytes(c, &size);
    const uint8_t *answer = next_bytes(c, &expected);
    trusshemp_session before = *session;
    memset(reply, FILL, sizeof reply);

    unsigned number = trusshemp_step(session, record, size, reply, sizeof reply, &length);

    if (length != expected || memcmp(reply, answer, expected))
        fail("%s: the reply that ends at byte %zu differs", c->name, c->at);
    if (!is_filled(reply + length, sizeof reply - length))
        fail("%s: the buffer behind the reply that ends at byte %zu was written", c->name, c->at);
    if (number && memcmp(&before, session, sizeof before))
        fail("%s: a refused record changed the session", c->name);
    trusshemp_reply said = read_whole(c, reply, length, number);
    hear(guest, record, size, &said, said.kind == TRUSSHEMP_BEGUN ? trusshemp_u32_at(record + SURFACE_PLACE) : 0);
    return number;
}

/* A buffer that is too small: 14, length 0, and nothing written. */
static void small_buffer(void)
{
    uint8_t record[TRUSSHEMP_RECORD], reply[TRUSSHEMP_REPLY - 1];
    size_t size = trusshemp_write_drain(record, sizeof record), length = SIZE_MAX;
    trusshemp_session session, before;
    trusshemp_fresh(&session);
    before = session;
    memset(reply, FILL, sizeof reply);
    if (trusshemp_step(&session, record, size, reply, sizeof reply, &length) != TRUSSHEMP_NO_ROOM || length != 0)
        fail("a small buffer did not get 14");
    if (!is_filled(reply, sizeof reply))
        fail("a small buffer was written");
    if (memcmp(&before, &session, sizeof before))
        fail("14 changed the session");
}

/* The name of a guest: that of its file, without folder and ending. */
static const char *guest_name(const char *file)
{
    const char *slash = strrchr(file, '/'), *name = slash ? slash + 1 : file;
    size_t size = strcspn(name, ".");
    char *copy = malloc(size + 1);
    if (!copy)
        fail("no memory");
    memcpy(copy, name, size);
    copy[size] = 0;
    return copy;
}

static struct guests all_fresh(size_t count, char **names)
{
    struct guests g = { .count = count };
    g.said = calloc(count, sizeof *g.said);
    g.guest = calloc(count, sizeof *g.guest);
    g.session = calloc(count, sizeof *g.session);
    g.before = calloc(count, sizeof *g.before);
    if (!g.said || !g.guest || !g.session || !g.before)
        fail("no memory");
    for (size_t i = 0; i < count; i++) {
        g.said[i] = opened(names[i]);
        g.guest[i].name = guest_name(names[i]);
        memset(&g.session[i], FILL, sizeof g.session[i]);
        trusshemp_fresh(&g.session[i]);
    }
    return g;
}

/* One call of a guest, and the other guests undisturbed. */
static void serve_among(struct guests *g, size_t i)
{
    memcpy(g->before, g->session, g->count * sizeof *g->session);
    unsigned number = serve(&g->said[i], &g->guest[i], &g->session[i]);
    if (number >= NUMBERS)
        fail("%s: number %u", g->said[i].name, number);
    g->before[i] = g->session[i];
    if (memcmp(g->before, g->session, g->count * sizeof *g->session))
        fail("%s: a call changed another guest's session", g->said[i].name);
    g->answers[number]++;
    g->calls++;
}

void run_sessions(size_t count, char **names)
{
    small_buffer();
    struct guests g = all_fresh(count, names);
    for (size_t before = SIZE_MAX; before != g.calls;) {
        before = g.calls;
        for (size_t i = 0; i < count; i++)
            if (!at_end(&g.said[i]))
                serve_among(&g, i);
    }
    printf("monitor: %zu guests, %zu calls, %zu refused, of them with 10:%zu; every reply as expected\n",
           count, g.calls, g.calls - g.answers[0], g.answers[TRUSSHEMP_NO_CANDIDATE]);
}
