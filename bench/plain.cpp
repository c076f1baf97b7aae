// A picture session by document 01 as plain C++ that works in place: what the proved code is measured against. Nothing
// is proved of it; it answers byte for byte as tools/lib/model.py. Parsing, refusals and reply bytes are in it, as they
// are in `session::step`. It includes nothing, so that any compiler for x86-64 takes it as it stands.
using size_t = decltype(sizeof 0);
using uint8_t = __UINT8_TYPE__;
using uint16_t = __UINT16_TYPE__;
using uint32_t = __UINT32_TYPE__;
using int32_t = __INT32_TYPE__;
using int64_t = __INT64_TYPE__;
extern "C" void *memcpy(void *, const void *, size_t);

namespace {

constexpr unsigned CAPACITY = 16;
constexpr size_t BODY = 512, REPLY = 512;
constexpr uint32_t MISSING = 4294967295u, COUNT_LIMIT = 2147483647u;

enum Mark : uint8_t { UNMARKED, SHORT, LONG };

struct Picture {
    uint32_t serial, surface;
    int32_t poc;
    uint32_t count;
    Mark mark;
    bool waiting;
};

struct Members {
    unsigned n = 0;
    uint32_t serial[CAPACITY];
    void add(uint32_t s) { serial[n++] = s; }
};

uint16_t u16(const uint8_t *p) { return uint16_t(p[0] | p[1] << 8); }
uint32_t u32(const uint8_t *p) { uint32_t x; memcpy(&x, p, 4); return x; }

struct Out {
    uint8_t *at;
    void put8(uint8_t x) { *at++ = x; }
    void put16(uint16_t x) { memcpy(at, &x, 2); at += 2; }
    void put32(uint32_t x) { memcpy(at, &x, 4); at += 4; }
};

// A tail while it grows: its three parts stand one behind the other only in the reply.
struct Tail {
    unsigned handed = 0, thrown = 0, released = 0;
    uint32_t out[3 * (CAPACITY + 1)], gone[CAPACITY + 1], free[CAPACITY + 1];
    void hand(const Picture &p) {
        uint32_t *o = out + 3 * handed++;
        o[0] = p.serial, o[1] = p.surface, o[2] = uint32_t(p.poc);
    }
    void write(Out &o) const {
        o.put8(uint8_t(handed));
        memcpy(o.at, out, 12 * handed), o.at += 12 * handed;
        o.put8(uint8_t(thrown));
        memcpy(o.at, gone, 4 * thrown), o.at += 4 * thrown;
        o.put8(uint8_t(released));
        memcpy(o.at, free, 4 * released), o.at += 4 * released;
    }
};

bool is_irap(unsigned t) { return t >= 16 && t <= 21; }
bool is_bla(unsigned t) { return t >= 16 && t <= 18; }
bool is_idr(unsigned t) { return t == 19 || t == 20; }
bool is_cra(unsigned t) { return t == 21; }
bool is_rasl(unsigned t) { return t == 8 || t == 9; }
bool never_prev(unsigned t) { return (t >= 6 && t <= 9) || t == 0 || t == 2 || t == 4; }

struct Session {
    bool configured = false, first = true, ended = false, has_current = false, has_prev = false;
    unsigned k = 0, capacity = 0, buffering = 0, reorder = 0, latency = 0;
    Picture store[CAPACITY];
    unsigned stored = 0;
    Picture current;
    int32_t current_msb, prev_msb;
    uint16_t current_lsb, prev_lsb;
    bool current_valid;
    uint32_t next = 0;
    Members before, after, lt_curr;

    // ---- the store
    void leave(unsigned i, Tail &t) {
        t.free[t.released++] = store[i].surface;
        for (stored--; i < stored; i++) store[i] = store[i + 1];
    }

    // The lowest waiting POC, earlier stored first on a tie; false where none waits.
    bool hand_out(Tail &t, bool always) {
        int at = -1;
        for (unsigned i = 0; i < stored; i++)
            if (store[i].waiting && (at < 0 || store[i].poc < store[at].poc)) at = int(i);
        if (at < 0) return false;
        store[at].waiting = false;
        t.hand(store[at]);
        if (always || store[at].mark == UNMARKED) leave(unsigned(at), t);
        return true;
    }

    bool due(bool with_buffering) const {
        unsigned waiting = 0;
        bool late = false;
        for (unsigned i = 0; i < stored; i++)
            if (store[i].waiting) {
                waiting++;
                late = late || (latency != 0 && store[i].count >= latency);
            }
        return waiting > reorder || late || (with_buffering && stored >= buffering);
    }

    void hand_out_while_due(Tail &t, bool with_buffering) { while (due(with_buffering) && hand_out(t, false)) {} }

    void clear(Tail &t) {
        for (unsigned i = 0; i < stored; i++) {
            if (store[i].waiting) t.gone[t.thrown++] = store[i].serial;
            t.free[t.released++] = store[i].surface;
        }
        stored = 0;
    }

    void empty(Tail &t) {
        while (hand_out(t, true)) {}
        clear(t);
    }

    void remove_unused(Tail &t) {
        unsigned n = 0;
        for (unsigned i = 0; i < stored; i++)
            if (store[i].waiting || store[i].mark != UNMARKED) store[n++] = store[i];
            else t.free[t.released++] = store[i].surface;
        stored = n;
    }

    // ---- begin
    bool in_range(const uint8_t *b) const {
        unsigned t = b[0], neg = b[9], pos = b[10], lt = b[11], m = 1u << k;
        if (!(t <= 9 || is_irap(t)) || b[1] > 6 || (is_irap(t) && b[1] != 0)) return false;
        if (b[2] > 3 || u16(b + 3) >= m || neg + pos + lt > CAPACITY) return false;
        if (is_idr(t) && (u16(b + 3) != 0 || neg + pos + lt != 0)) return false;
        const uint8_t *p = b + 12;
        int32_t last = 0;
        for (unsigned i = 0; i < neg; i++, p += 5) {
            int32_t d = int32_t(u32(p));
            if (d >= last || d < -524288 || p[4] > 1) return false;
            last = d;
        }
        last = 0;
        for (unsigned i = 0; i < pos; i++, p += 5) {
            int32_t d = int32_t(u32(p));
            if (d <= last || d > 524288 || p[4] > 1) return false;
            last = d;
        }
        for (unsigned i = 0; i < lt; i++, p += 7)
            if (u16(p) >= m || p[2] > 3) return false;
        return true;
    }

    int64_t msb_of(int lsb, bool starts) const {
        if (starts || !has_prev) return 0;
        int m = 1 << k;
        if (lsb < prev_lsb && prev_lsb - lsb >= m / 2) return int64_t(prev_msb) + m;
        if (lsb > prev_lsb && lsb - prev_lsb > m / 2) return int64_t(prev_msb) - m;
        return prev_msb;
    }

    // Step 4: the searches, long-term before short-term. `wish` and `how` are the POCs asked for, `lt` of them
    // long-term ones at the end.
    void find_and_mark(const int32_t *wish, const uint8_t *how, unsigned neg, unsigned shorts, unsigned lt,
                       Members &foll, Members &lt_foll) {
        uint32_t member = 0;
        int32_t mask = (1 << k) - 1;
        uint8_t place[CAPACITY];
        for (unsigned j = shorts; j < shorts + lt; j++) {
            unsigned i = 0;
            if (how[j] & 2) while (i < stored && (store[i].mark == UNMARKED || store[i].poc != wish[j])) i++;
            else while (i < stored && (store[i].mark == UNMARKED || (store[i].poc & mask) != wish[j])) i++;
            place[j] = uint8_t(i);
        }
        for (unsigned j = shorts; j < shorts + lt; j++) {
            unsigned i = place[j];
            uint32_t serial = MISSING;
            if (i < stored) serial = store[i].serial, store[i].mark = LONG, member |= 1u << i;
            (how[j] & 1 ? lt_curr : lt_foll).add(serial);
        }
        for (unsigned j = 0; j < shorts; j++) {
            unsigned i = 0;
            while (i < stored && (store[i].mark != SHORT || store[i].poc != wish[j])) i++;
            uint32_t serial = MISSING;
            if (i < stored) serial = store[i].serial, member |= 1u << i;
            (!(how[j] & 1) ? foll : j < neg ? before : after).add(serial);
        }
        for (unsigned i = 0; i < stored; i++)
            if (!(member >> i & 1)) store[i].mark = UNMARKED;
    }

    uint16_t begin(const uint8_t *b, Out &o) {
        if (!configured) return 1;
        if (has_current) return 3;
        if (!in_range(b)) return 5;
        if (next == MISSING) return 8;
        uint32_t surface = u32(b + 5);
        for (unsigned i = 0; i < stored; i++)
            if (store[i].surface == surface) return 7;

        unsigned t = b[0], neg = b[9], shorts = b[9] + b[10], lt = b[11];
        bool no_rasl = is_idr(t) || is_bla(t) || (is_cra(t) && first) || ended;
        bool output = (b[2] & 1) && !(is_rasl(t) && no_rasl);
        bool starts = is_irap(t) && no_rasl;
        bool no_prior = starts && !first && (is_cra(t) || (b[2] & 2));
        uint16_t lsb = u16(b + 3);
        int64_t msb = msb_of(lsb, starts), poc = msb + lsb, m = 1 << k;
        if (msb != int32_t(msb) || poc != int32_t(poc)) return 6;
        int32_t wish[CAPACITY];
        uint8_t how[CAPACITY];
        const uint8_t *p = b + 12;
        for (unsigned j = 0; j < shorts; j++, p += 5) {
            int64_t w = poc + int32_t(u32(p));
            if (w != int32_t(w)) return 6;
            wish[j] = int32_t(w), how[j] = p[4];
        }
        for (unsigned j = shorts; j < shorts + lt; j++, p += 7) {
            int64_t w = u16(p);
            if (p[2] & 2) w += poc - int64_t(u32(p + 3)) * m - (poc & (m - 1));
            if (w != int32_t(w)) return 6;
            wish[j] = int32_t(w), how[j] = p[2];
        }

        if (starts)
            for (unsigned i = 0; i < stored; i++) store[i].mark = UNMARKED;
        Members foll, lt_foll;
        before.n = after.n = lt_curr.n = 0;
        find_and_mark(wish, how, neg, shorts, lt, foll, lt_foll);
        Tail tail;
        if (starts && !ended) {
            if (no_prior) clear(tail);
            else empty(tail);
        } else {
            remove_unused(tail);
            hand_out_while_due(tail, true);
        }
        first = ended = false;
        current = Picture{next++, surface, int32_t(poc), 0, SHORT, output};
        current_msb = int32_t(msb), current_lsb = lsb;
        current_valid = b[1] == 0 && !never_prev(t);
        has_current = true;

        o.put32(uint32_t(poc));
        o.put8(uint8_t(no_rasl + 2 * output + 4 * current_valid + 8 * no_prior));
        o.put32(current.serial);
        const Members *sets[] = {&before, &after, &foll, &lt_curr, &lt_foll};
        for (const Members *s : sets) o.put8(uint8_t(s->n));
        for (const Members *s : sets) memcpy(o.at, s->serial, 4 * s->n), o.at += 4 * s->n;
        tail.write(o);
        return 0;
    }

    // ---- lists
    static bool list_in_range(bool used, unsigned active, bool modify) {
        return used ? active >= 1 && active <= CAPACITY : active == 0 && !modify;
    }

    void put_list(const uint32_t *from, unsigned n, unsigned active, const uint8_t *entries, Out &o) const {
        for (unsigned j = 0, i = 0; j < active; j++, i = i + 1 == n ? 0 : i + 1)
            o.put32(from[entries ? entries[j] : i]);
    }

    uint16_t lists(const uint8_t *b, Out &o) {
        if (!has_current) return 4;
        unsigned flags = b[1], a0 = b[2], a1 = b[3];
        bool modify0 = flags & 1, modify1 = flags & 2, own = flags & 4;
        bool used0 = b[0] < 2, used1 = b[0] == 0;
        if (b[0] > 2 || flags > 7 || !list_in_range(used0, a0, modify0) || !list_in_range(used1, a1, modify1)) return 5;
        unsigned n = before.n + after.n + lt_curr.n + own;
        if (used0 && n == 0) return 10;
        if (used0 && n > CAPACITY) return 11;
        const uint8_t *e0 = modify0 ? b + 4 : nullptr, *e1 = modify1 ? b + 4 + (modify0 ? a0 : 0) : nullptr;
        if (e0) for (unsigned j = 0; j < a0; j++) if (e0[j] >= n) return 12;
        if (e1) for (unsigned j = 0; j < a1; j++) if (e1[j] >= n) return 12;
        o.put8(uint8_t(a0));
        o.put8(uint8_t(a1));
        uint32_t from[CAPACITY];
        auto fill = [&](const Members &x, const Members &y) {
            memcpy(from, x.serial, 4 * x.n);
            memcpy(from + x.n, y.serial, 4 * y.n);
            memcpy(from + x.n + y.n, lt_curr.serial, 4 * lt_curr.n);
            if (own) from[n - 1] = current.serial;
        };
        if (used0) {
            fill(before, after);
            put_list(from, n, a0, e0, o);
            if (own && !modify0 && n > a0) memcpy(o.at - 4, &current.serial, 4);
        }
        if (used1) {
            fill(after, before);
            put_list(from, n, a1, e1, o);
        }
        return 0;
    }

    // ---- the rest
    bool full() const { return has_current && stored == capacity; }

    void store_current(Tail &t) {
        for (unsigned i = 0; i < stored; i++)
            if (store[i].count < COUNT_LIMIT) store[i].count++;
        store[stored++] = current;
        has_current = false;
        if (current_valid) has_prev = true, prev_lsb = current_lsb, prev_msb = current_msb;
        hand_out_while_due(t, false);
    }

    void drop_current(Tail &t) {
        if (current.waiting) t.gone[t.thrown++] = current.serial;
        t.free[t.released++] = current.surface;
        has_current = false;
    }

    uint16_t finish(Out &o) {
        if (!has_current) return 4;
        if (full()) return 9;
        Tail t;
        store_current(t);
        t.write(o);
        return 0;
    }

    uint16_t drain(Out &o) {
        if (full()) return 9;
        Tail t;
        if (has_current) store_current(t);
        empty(t);
        t.write(o);
        return 0;
    }

    uint16_t configure(const uint8_t *b, Out &o) {
        unsigned taken = b[1] < CAPACITY ? b[1] : CAPACITY;
        if (b[0] < 4 || b[0] > 16 || taken < 1 || b[2] < 1 || b[2] > taken || b[3] >= b[2]) return 2;
        if (uint16_t no = drain(o)) return no;
        k = b[0], capacity = taken, buffering = b[2], reorder = b[3], latency = u16(b + 4);
        configured = true;
        has_prev = false;
        return 0;
    }

    uint16_t discard(Out &o) {
        Tail t;
        if (has_current) drop_current(t);
        clear(t);
        t.write(o);
        return 0;
    }

    uint16_t end(Out &o) {
        ended = true;
        Tail().write(o);
        return 0;
    }

    uint16_t abandon(Out &o) {
        if (!has_current) return 4;
        Tail t;
        drop_current(t);
        t.write(o);
        return 0;
    }

    static unsigned kind_of(const uint8_t *msg, size_t n) {
        if (n < 4 || n - 4 > BODY || u16(msg) != n - 4) return 0;
        const uint8_t *b = msg + 4;
        size_t body = n - 4;
        unsigned kind = u16(msg + 2);
        switch (kind) {
        case 1: return body == 6 ? kind : 0;
        case 2: return body >= 12 && body == 12 + 5 * (size_t(b[9]) + b[10]) + 7 * size_t(b[11]) ? kind : 0;
        case 3: return body >= 4 && body == 4 + size_t(b[1] & 1 ? b[2] : 0) + size_t(b[1] & 2 ? b[3] : 0) ? kind : 0;
        case 4: case 5: case 6: case 7: case 8: return body == 0 ? kind : 0;
        default: return 0;
        }
    }
};

}

struct Answer {
    uint16_t number;
    size_t len;
};

// One call on a record, the session changed where it stands.
extern "C" __attribute__((noinline))
Answer session_step(Session *s, const uint8_t *msg, size_t n, uint8_t *reply, size_t room) {
    if (room < REPLY) return {14, 0};
    unsigned kind = Session::kind_of(msg, n);
    const uint8_t *b = msg + 4;
    Out o{reply + 6};
    uint16_t no = 13;
    switch (kind) {
    case 1: no = s->configure(b, o); break;
    case 2: no = s->begin(b, o); break;
    case 3: no = s->lists(b, o); break;
    case 4: no = s->finish(o); break;
    case 5: no = s->drain(o); break;
    case 6: no = s->discard(o); break;
    case 7: no = s->end(o); break;
    case 8: no = s->abandon(o); break;
    }
    size_t len = no ? 6 : size_t(o.at - reply);
    Out head{reply};
    head.put16(uint16_t(len - 4));
    head.put16(no == 13 ? 511 : uint16_t(256 + kind));
    head.put16(no);
    return {no, len};
}

// One round over a recording, as in speed.rt.txt: every record answered from a fresh session.
extern "C" size_t answer_all(const uint8_t *bytes, size_t n, uint8_t *replies, size_t room) {
    Session s;
    size_t taken = 0, made = 0;
    while (made < room && n - taken >= 4) {
        size_t size = 4 + size_t(u16(bytes + taken));
        if (n - taken < size) break;
        Answer a = session_step(&s, bytes + taken, size, replies + made, room - made);
        taken += size;
        made += a.len;
    }
    return made;
}
