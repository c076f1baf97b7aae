"""Recordings made by chance, from a seed: the same arguments give the same bytes. A profile says what they are like.

Like real encoders:
    random-access   hierarchical B pictures in groups of 4, 8 or 16, temporal layers, CRA and IDR with leading pictures
    low-delay       P or B pictures that refer back only, with and without temporal layers
    long-term       low delay with long-term pictures, with and without msb, used now or kept
    leading         short groups, each behind a CRA, BLA or IDR with RASL and RADL pictures
    layers          sub-layer non-reference pictures, switching points, seven temporal layers
    small           k = 4, small stores, all of the above
    encoders        all of the above by turns, with drains, end of sequence behind a drain, and configure between
                    sequences
Not like them:
    chaos           any types, sets and lists, nearly all accepted, without what the Rust has no call for
    edges           the same with k 4 and 16, sixteen entries, stores of 1, 2 and 16, large cycles
    wild            the same with discard, abandon, RASL pictures, end of sequence without a drain, equal POCs, and
                    records that are refused
    limits          edges and wild together: full stores, cycles near 2^32, equal POCs
    climb           k = 16: 131,072 records lead to a POC near 2^31 or -2^31, those behind play there
    damaged         recordings of the other profiles with bits turned, bytes cut out and put in
"""
import random
import struct
from itertools import islice

from . import model, records

UNMARKED = model.UNMARKED
FINISH, DRAIN, DISCARD, END, ABANDON = (struct.pack("<HH", 0, kind) for kind in (4, 5, 6, 7, 8))
B, P, I = 0, 1, 2
TRAIL, TSA, STSA, RADL, RASL = 0, 2, 4, 6, 8
BLA_W_LP, BLA_W_RADL, BLA_N_LP, IDR_W_RADL, IDR_N_LP, CRA = range(16, 22)


def configure_bytes(k, capacity, buffering, reorder, latency):
    return struct.pack("<HHBBBBH", 6, 1, k, capacity, buffering, reorder, latency)


def begin_bytes(nal, tid, flags, lsb, surface, neg, pos, lt):
    body = struct.pack("<BBBHI3B", nal, tid, flags, lsb, surface, len(neg), len(pos), len(lt))
    body += b"".join([struct.pack("<iB", delta, used) for delta, used in neg + pos])
    body += b"".join([struct.pack("<HBI", *entry) for entry in lt])
    return struct.pack("<HH", len(body), 2) + body


def lists_bytes(slice_type, flags, a0, a1, e0=(), e1=()):
    body = bytes([slice_type, flags, a0, a1, *e0, *e1])
    return struct.pack("<HH", len(body), 3) + body


class Host:
    """What every profile needs: a session to look into, free surfaces, and records sent to it on their way out."""

    def __init__(self, rng):
        self.rng = rng
        self.session = model.Session()
        self.pool = rng.sample(range(2**32), 40) if rng.random() < 0.3 else list(range(rng.choice([18, 20, 40])))
        self.last_irap_flag = False

    def send(self, record):
        """The record, on its way out; the session has taken it, and its refusal number is kept."""
        fields = records.record_of(record)
        self.number = 13
        if fields is not None:
            try:
                getattr(self.session, fields["kind"])(fields)
                self.number = 0
            except model.Refusal as refusal:
                self.number = refusal.args[0]
        return record

    @property
    def m(self):
        return 2 ** self.session.limits["k"]

    def free_surface(self):
        held = {p.surface for p in self.session.store}
        free = [s for s in self.pool if s not in held]
        return self.rng.choice(free)

    def stored_pocs(self):
        return {p.poc for p in self.session.store}

    def configure(self, k, capacity, buffering, reorder, latency):
        return self.send(configure_bytes(k, capacity, buffering, reorder, latency))

    def slices(self, n, kind, own_chance=0.06):
        """One to three slices of a picture with n candidates."""
        rng = self.rng
        for _ in range(rng.choice([1, 1, 1, 2, 3])):
            if n == 0 or kind == I or rng.random() < 0.03:
                yield self.send(lists_bytes(I, 0, 0, 0))
                continue
            own = n < 16 and rng.random() < own_chance
            yield self.send(self.slice_of(n + own, kind, own))

    def slice_of(self, n, kind, own):
        rng = self.rng
        a0 = rng.randint(1, min(16, n + 2)) if rng.random() < 0.5 else n
        modify0 = rng.random() < 0.2
        if own and not modify0 and rng.random() < 0.9:
            a0 = max(a0, n)
        e0 = [rng.randrange(n) for _ in range(a0)] if modify0 else []
        if kind == P:
            return lists_bytes(P, modify0 + 4 * own, a0, 0, e0)
        a1 = rng.randint(1, min(16, n + 2)) if rng.random() < 0.5 else n
        modify1 = rng.random() < 0.2
        e1 = [rng.randrange(n) for _ in range(a1)] if modify1 else []
        return lists_bytes(B, modify0 + 2 * modify1 + 4 * own, a0, a1, e0, e1)


# ---- like real encoders

def levels(size):
    """Hierarchical coding order of a group: (place, layer), the last picture first."""
    order = [(size, 0)]

    def halve(low, high, layer):
        middle = (low + high) // 2
        if low < middle < high:
            order.append((middle, layer))
            halve(low, middle, layer + 1)
            halve(middle, high, layer + 1)

    halve(0, size, 1)
    return order


class Encoder(Host):
    """Keeps the pictures that it may still refer to, as POCs, and says so in each picture's sets."""

    def __init__(self, rng, k=None, most=None):
        super().__init__(rng)
        self.k, self.most = k, most
        self.kept, self.long = [], []
        self.poc = 0

    def limits(self, depth, reorder):
        """A configure whose store takes `depth` references."""
        rng = self.rng
        buffering = min(16, max(depth + 1, reorder + 1) + rng.choice([0, 0, 1, 3]))
        capacity = rng.choice([16, 16, min(16, buffering + 2), 200])
        latency = rng.choice([0, 0, 0, reorder + 1, reorder + 3])
        k = self.k or rng.choice([4, 5, 8, 8, 10, 16])
        self.kept, self.long = [], []
        return self.configure(k, capacity, buffering, min(reorder, buffering - 1), latency)

    def picture(self, poc, nal, tid, used, kept, kind, long=()):
        """One picture: begin, slices, finish. `long` has (POC, used)."""
        rng, m = self.rng, self.m
        neg = [(p - poc, int(p in used)) for p in sorted((p for p in kept if p < poc), reverse=True)][:12]
        pos = [(p - poc, int(p in used)) for p in sorted(p for p in kept if p > poc)][:16 - len(neg)]
        lt = [self.long_entry(poc, p, now, m) for p, now in long][:16 - len(neg) - len(pos)]
        flags = int(rng.random() > 0.03) + 2 * (rng.random() < 0.1)
        yield self.send(begin_bytes(nal, tid, flags, poc % m, self.free_surface(), neg, pos, lt))
        n = sum(u for _, u in neg + pos) + sum(flags & 1 for _, flags, _ in lt)
        yield from self.slices(n, kind)
        yield self.send(FINISH)

    def long_entry(self, poc, target, used, m):
        doubtful = sum(p.poc % m == target % m for p in self.session.store if p.mark != UNMARKED) > 1
        with_msb = self.rng.random() < (0.7 if doubtful else 0.3)
        cycle = (poc - poc % m - (target - target % m)) // m
        return (target % m, used + 2 * with_msb, cycle if with_msb else self.rng.choice([0, 0, 7]))

    def start(self, nal, poc):
        """An IRAP picture that starts over; what it keeps is nothing."""
        self.kept, self.long = [], []
        self.poc = 0 if nal in (IDR_W_RADL, IDR_N_LP) else poc % self.m
        yield from self.picture(self.poc, nal, 0, [], [], I)
        self.kept = [self.poc]

    def some_start(self):
        """IDR or BLA, whatever stands before; or a CRA, first in the bitstream or behind an end of sequence."""
        rng = self.rng
        open_start = self.session.first_in_bitstream or self.session.after_end
        nal = rng.choice([IDR_W_RADL, IDR_N_LP, IDR_N_LP, BLA_W_LP, BLA_W_RADL, BLA_N_LP] + [CRA] * 4 * open_start)
        yield from self.start(nal, rng.randrange(self.m))
        if nal in (IDR_W_RADL, BLA_W_RADL, BLA_W_LP, CRA) and rng.random() < 0.5:
            yield from self.leading(RADL, rng.randint(1, 3))

    def leading(self, nal, count):
        """Pictures that precede the last IRAP in output order, each referring to it (and, RASL, to what stood
        before)."""
        anchor, rng = self.poc, self.rng
        places = rng.sample(range(1, 8), count)
        made = []
        for place in places:
            poc = anchor - place
            if poc in self.stored_pocs():
                continue
            kept = self.kept + made
            used = [p for p in kept if nal == RASL or p == anchor or p in made]
            reference = rng.random() < 0.6
            yield from self.picture(poc, nal + reference, rng.choice([0, 1]), used, kept, rng.choice([P, B]))
            if reference:
                made.append(poc)

    def group(self, size, anchor_nal=TRAIL + 1, back=1):
        """A hierarchical group behind self.poc; its last picture comes first."""
        rng, base = self.rng, self.poc
        order = levels(size)
        anchors = [p for p in self.kept if p <= base][-back - 1:]
        pictures = []
        for place, layer in order:
            decoded = anchors + [p for p, _, _ in pictures]
            lower = [p for p in decoded if p < base + place][-2:] if layer else anchors
            upper = sorted(p for p in decoded if p > base + place)[:rng.choice([1, 2])]
            refs = [] if layer == 0 and anchor_nal == CRA else sorted(set(sorted(lower)[-2:] + upper))
            pictures.append((base + place, layer, refs))
        last = base + size
        held = set((anchors + [last])[-back - 1:]) if anchor_nal != CRA else {last}
        for i, (poc, layer, refs) in enumerate(pictures):
            later = {p for _, _, needed in pictures[i:] for p in needed} | held
            known = set(anchors) | {p for p, _, _ in pictures[:i]}
            reference = any(poc in needed for _, _, needed in pictures[i + 1:])
            kind = B if layer else I if anchor_nal == CRA else rng.choice([P, B])
            nal = self.group_nal(layer, reference, anchor_nal)
            yield from self.picture(poc, nal, min(layer, 6), refs, sorted(later & known), kind)
        self.kept = sorted(held)
        self.poc = last

    def group_nal(self, layer, reference, anchor_nal):
        if layer == 0:
            return anchor_nal
        if anchor_nal == CRA:
            return RASL + reference
        return self.rng.choice([TRAIL, TRAIL, TSA, STSA]) + reference

    def close(self):
        """Between sequences: nothing, a drain, or a drain and end of sequence."""
        kind = self.rng.randrange(4)
        if kind:
            yield self.send(DRAIN)
        if kind > 1:
            yield self.send(END)

    # one stretch of each kind, with its own configure

    def random_access(self):
        rng = self.rng
        size = rng.choice([4, 8] if self.most else [4, 8, 8, 16])
        yield self.limits({4: 5, 8: 7, 16: 8}[size], {4: 2, 8: 3, 16: 4}[size])
        size = min(size, self.m // 4)
        yield from self.some_start()
        for _ in range(rng.randint(2, 8)):
            fate = rng.random()
            if fate < 0.15:
                yield from self.close()
                yield from self.some_start()
            yield from self.group(size, CRA if 0.15 < fate < 0.3 else TRAIL + 1, rng.choice([1, 2]))

    def low_delay(self, layers=1):
        rng = self.rng
        depth = rng.randint(1, 3) if self.most else rng.choice([1, 2, 4, 6])
        yield self.limits(depth, 0 if rng.random() < 0.7 else 1)
        yield from self.some_start()
        kind = rng.choice([P, B])
        for i in range(rng.randint(8, 40)):
            tid = 0 if layers == 1 else [0, 2, 1, 2][i % 4] if layers == 3 else min(layers - 1, (i & -i).bit_length())
            yield from self.refer_back(depth, kind, tid, layers)
            if rng.random() < 0.02:
                yield from self.close()
                yield from self.some_start()

    def refer_back(self, depth, kind, tid, layers):
        rng = self.rng
        self.poc += rng.choice([1, 1, 1, 2]) if self.m > 16 else 1
        reference = tid < layers - 1 or layers == 1 and rng.random() < 0.9
        used = [p for p in self.kept if rng.random() < 0.85] or self.kept[-1:]
        nal = rng.choice([TRAIL, TSA, STSA] if tid else [TRAIL]) + reference
        yield from self.picture(self.poc, nal, tid, used, self.kept, kind)
        if reference:
            self.kept = (self.kept + [self.poc])[-depth:]

    def long_term(self):
        rng = self.rng
        depth = rng.randint(2, 4)
        yield self.limits(depth + 4, rng.choice([0, 1]))
        yield from self.some_start()
        for _ in range(rng.randint(10, 40)):
            self.poc += 1
            if self.kept and rng.random() < 0.2 and len(self.long) < 4:
                self.long.append(self.kept.pop(rng.randrange(len(self.kept))))
            if self.long and rng.random() < 0.1:
                self.long.pop(rng.randrange(len(self.long)))
            long = [(p, int(rng.random() < 0.6)) for p in self.long]
            used = [p for p in self.kept if rng.random() < 0.8]
            yield from self.picture(self.poc, TRAIL + 1, 0, used, self.kept, rng.choice([P, B]), long)
            self.kept = (self.kept + [self.poc])[-depth:]

    def leading_pictures(self):
        rng = self.rng
        yield self.limits(6, rng.choice([2, 3]))
        yield from self.some_start()
        for _ in range(rng.randint(2, 8)):
            if rng.random() < 0.4:
                yield from self.close()
                yield from self.some_start()
            for _ in range(rng.randint(1, 3)):
                yield from self.refer_back(3, rng.choice([P, B]), 0, 1)
            yield from self.open_irap()

    def open_irap(self):
        """A CRA in the middle, with RASL and RADL pictures."""
        rng = self.rng
        before = self.kept[-2:]
        self.poc += min(8, self.m // 2)
        yield from self.picture(self.poc, CRA, 0, [], before, I)
        self.kept = before + [self.poc]
        yield from self.leading(RASL, rng.randint(1, 3))
        self.kept = [self.poc]
        if rng.random() < 0.5:
            yield from self.leading(RADL, 1)

    def layers(self):
        yield from self.low_delay(self.rng.choice([3, 3, 7]))

    def stretches(self, names):
        while True:
            yield from getattr(self, self.rng.choice(names))()
            if self.rng.random() < 0.3:
                yield self.send(DRAIN)


ENCODERS = {
    "random-access": ["random_access"],
    "low-delay": ["low_delay"],
    "long-term": ["long_term"],
    "leading": ["leading_pictures"],
    "layers": ["layers"],
    "encoders": ["random_access", "low_delay", "long_term", "leading_pictures", "layers"],
}


# ---- not like them

class Chaos(Host):
    """Any pictures; `wild` also does what the compared domain leaves out, and what is refused."""

    def __init__(self, rng, wild=0.0, extreme=False):
        super().__init__(rng)
        self.wild, self.extreme = wild, extreme
        self.fresh_limits = True

    def odd(self):
        return self.rng.random() < self.wild

    def records(self):
        yield self.some_configure()
        while True:
            yield from self.turn()

    def some_configure(self):
        rng = self.rng
        self.fresh_limits = True
        capacity = rng.choice([rng.randint(1, 16), 16, 255] if not self.extreme else [1, 2, 16])
        buffering = rng.randint(1, min(16, capacity))
        reorder = rng.randrange(buffering)
        if self.odd():
            return self.configure(*[rng.randrange(20) for _ in range(4)], rng.choice([0, 65535]))
        k = rng.choice([4, 16] if self.extreme else [4, 4, 5, 8, 16])
        return self.configure(k, capacity, buffering, reorder, rng.choice([0, 0, 1, 2, 5, 65535]))

    def turn(self):
        rng, session = self.rng, self.session
        fate = rng.random()
        if session.current is not None:
            if fate < 0.93 and session.is_full() and not self.odd():
                yield self.send(DISCARD if self.wild and rng.random() < 0.3 else ABANDON)
            elif self.odd():
                begin = self.some_begin()
                lists = lists_bytes(rng.randrange(4), rng.randrange(9), rng.randrange(18), 0)
                yield self.send(rng.choice([ABANDON, DISCARD, END, DRAIN, begin, lists]))
            else:
                yield self.send(FINISH if fate < 0.97 else DRAIN)
        elif session.limits is None or fate < 0.01:
            yield self.some_configure()
        elif self.odd():
            others = [lists_bytes(P, 0, 1, 0), struct.pack("<HHB", 1, rng.randrange(12), 0)]
            yield self.send(rng.choice([FINISH, ABANDON, DISCARD, END, DRAIN, *others]))
        elif fate < 0.03:
            yield self.send(DRAIN)
            yield self.send(END)
        elif fate < 0.04:
            yield self.send(DRAIN)
        else:
            yield from self.some_picture()

    def some_picture(self):
        record = self.some_begin()
        yield self.send(record)
        if self.number:
            return
        self.fresh_limits = False
        sets = self.session.current.sets
        n = sum(len(sets[name]) for name in ("before", "after", "ltcurr"))
        if n <= 16:
            yield from self.slices(n, self.rng.choice([B, P]), 0.3 if self.wild else 0.15)

    def nal_type(self):
        rng, session = self.rng, self.session
        starts = session.first_in_bitstream or (self.fresh_limits and not session.after_end)
        if starts and not self.odd():
            return rng.choice([16, 17, 18, 19, 20] + [21] * session.first_in_bitstream)
        if rng.random() < 0.06:
            return rng.randint(16, 21)
        if self.last_irap_flag and not self.odd():
            return rng.randrange(8)
        return rng.randrange(10)

    def some_begin(self):
        rng, session, m = self.rng, self.session, self.m
        nal = self.nal_type()
        tid = 0 if nal >= 16 else rng.choice([0, 0, 0, 1, 2, 6])
        lsb = 0 if nal in (19, 20) else self.some_lsb(nal, m)
        no_rasl = session.flags_of_step_1({"nal": nal, "flags": 0})[0]
        poc = session.msb_of(lsb, m, nal >= 16 and no_rasl) + lsb
        if nal >= 16:
            self.last_irap_flag = no_rasl
        neg, pos, lt = ([], [], []) if nal in (19, 20) else self.some_sets(poc, m)
        flags = int(rng.random() < 0.85) + 2 * (rng.random() < 0.3)
        if self.odd() and rng.random() < 0.3:
            nal, tid = rng.randrange(64), rng.randrange(9)
        surface = self.free_surface() if not self.odd() else rng.choice(self.pool)
        return begin_bytes(nal, tid, flags, lsb, surface, neg, pos, lt)

    def some_lsb(self, nal, m):
        """Near the last one, or anywhere; away from the stored POCs unless wild."""
        rng, session = self.rng, self.session
        q = session.previous[0] if session.previous else 0
        taken = self.stored_pocs()
        lsb = 0
        for _ in range(6):
            step = rng.randint(1, 4) if rng.random() < 0.7 else rng.randrange(m)
            lsb = (q + step) % m
            starts = nal >= 16 and session.flags_of_step_1({"nal": nal, "flags": 0})[0]
            if self.odd() or session.msb_of(lsb, m, starts) + lsb not in taken:
                break
        return lsb

    def some_sets(self, poc, m):
        rng = self.rng
        targets = [p for p in self.session.store if p.mark != UNMARKED and rng.random() < 0.8]
        if not self.odd():
            # room for the picture itself
            targets = rng.sample(targets, min(len(targets), self.session.limits["capacity"] - 1))
        hits = {p.poc - poc for p in targets if rng.random() < 0.8}
        misses = {rng.choice([-1, 1]) * rng.randint(1, 20) for _ in range(rng.choice([0, 0, 1, 2]))}
        if self.extreme and rng.random() < 0.3:
            misses |= {rng.choice([-524288, 524288, -1, 1, 16, -16]) for _ in range(16)}
            misses |= set(range(-16, 0)) if rng.random() < 0.5 else set()
        deltas = [d for d in hits | misses if d and abs(d) <= 524288]
        rng.shuffle(deltas)
        deltas = deltas[:16]
        neg = [(d, int(rng.random() < 0.7)) for d in sorted((d for d in deltas if d < 0), reverse=True)]
        pos = [(d, int(rng.random() < 0.7)) for d in sorted(d for d in deltas if d > 0)]
        room = 16 - len(neg) - len(pos)
        wanted = rng.choice([0, 0, 1, 2, 3]) if not self.extreme else rng.choice([0, 1, 16])
        lt = [self.some_long(poc, m, targets) for _ in range(min(room, wanted))]
        if self.odd() and rng.random() < 0.2:
            lt = lt + [self.some_long(poc, m, targets)] * 17
        return neg, pos, lt

    def some_long(self, poc, m, targets):
        rng = self.rng
        flags = rng.randrange(4)
        if targets and rng.random() < 0.8:
            target = rng.choice(targets).poc
            cycle = (poc - poc % m - (target - target % m)) // m
            if 0 <= cycle < 2**32:
                return (target % m, flags, cycle if rng.random() < 0.9 else rng.randrange(3))
        cycle = rng.choice([0, 1, 2, 5])
        if self.extreme:
            cycle = rng.choice([2**31 // m - 1, 2**31 // m - 2, 1])
        if self.extreme and self.wild:
            cycle = rng.choice([2**32 - 1, 2**31, 2**31 - 1, 2**31 // m, 2**31 // m + 1, cycle])
        lsb, taken = rng.randrange(m), {p.poc % m for p in self.session.store}
        while not self.wild and lsb in taken and len(taken) < m:
            lsb = rng.randrange(m)
        return (lsb, flags, cycle)


def climb(rng):
    """The POC rises or falls by half of M a picture until it is near the end of i32, and stays there."""
    host = Chaos(rng, wild=0.02, extreme=True)
    yield host.configure(16, rng.choice([3, 16]), 2, 1, 0)
    yield host.send(begin_bytes(IDR_N_LP, 0, 1, 0, 0, [], [], []))
    yield host.send(FINISH)
    up, lsb = rng.random() < 0.5, 0
    step = 32768 if up else 32769
    for _ in range(65534):
        lsb = (lsb + step) % 65536
        neg, pos = ([(-32768, 1)], []) if up else ([], [(32767, 1)])
        yield host.send(begin_bytes(1, 0, 1, lsb, host.free_surface(), neg, pos, []))
        yield host.send(FINISH)
    host.last_irap_flag = host.fresh_limits = False
    while True:
        if host.session.current is None and rng.random() < 0.3:
            lsb = (lsb + rng.choice([1, 5, 32767, 32768, 32769])) % 65536
            cycles = [0, 1, 32768, 65535, 65536, 32767]
            lt = [(rng.randrange(65536), rng.randrange(4), rng.choice(cycles)) for _ in range(rng.randrange(3))]
            delta = rng.choice([1, 32767, 524288])
            tid, surface = rng.choice([0, 1]), host.free_surface()
            yield host.send(begin_bytes(1, tid, 1, lsb, surface, [(-delta, 1)], [(delta, 0)], lt))
        else:
            yield from no_irap(host)


def no_irap(host):
    """A turn that does not start over, so that the POC stays where it is."""
    if host.session.current is not None:
        yield host.send(ABANDON if host.session.is_full() else FINISH)
    else:
        if host.rng.random() < 0.1:
            yield host.send(DRAIN)
        else:
            yield host.send(END if host.rng.random() < 0.02 else lists_bytes(P, 0, 1, 0))


class Reader:
    """How the program cuts what was written so far: the bytes that its last record still needs."""

    def __init__(self):
        self.head, self.need = b"", 0

    def take(self, data):
        while data:
            if self.need:
                taken = min(self.need, len(data))
                self.need -= taken
                data = data[taken:]
            else:
                taken = 4 - len(self.head)
                self.head, data = self.head + data[:taken], data[taken:]
                if len(self.head) == 4:
                    self.need = struct.unpack("<H", self.head[:2])[0]
                    self.head = b""

    def rest(self):
        """Bytes that make the last record whole."""
        fill = b""
        if self.head:
            fill = bytes(4 - len(self.head))
            self.take(fill)
        fill += bytes(self.need)
        self.need = 0
        return fill


def damaged(rng):
    """Records of other profiles with damage; where a head's length was hit, the record that swallows the next ones is
    made whole after a while."""
    source, reader, lost = made("damaged-source", rng), Reader(), 0
    for record in source:
        fate, data = rng.random(), bytearray(record)
        if fate < 0.04:
            data[rng.randrange(2, len(data))] ^= 1 << rng.randrange(8)
        elif fate < 0.06:
            for _ in range(rng.randint(1, 4)):
                data[rng.randrange(min(4, len(data) - 1), len(data))] = rng.randrange(256)
        elif fate < 0.065:
            data = bytearray(struct.pack("<HH", 5, rng.randrange(10)) + rng.randbytes(5)) + data
        elif fate < 0.066:
            place = rng.randrange(len(data))
            del data[place:place + rng.randint(1, 3)]
            lost = 30
        elif fate < 0.067:
            place = rng.randrange(len(data))
            data[place:place] = rng.randbytes(rng.randint(1, 3))
            lost = 30
        elif fate < 0.0675:
            data[rng.randrange(2)] ^= 1 << rng.randrange(8)
            lost = 30
        elif fate < 0.08:
            continue
        reader.take(bytes(data))
        yield bytes(data)
        lost -= 1
        if lost <= 0 and (reader.need or reader.head):
            yield reader.rest()


def by_turns(rng):
    """What is damaged: a profile by chance."""
    name = rng.choice(["encoders", "small", "chaos", "edges", "wild", "limits"])
    return made(name, rng)


def made(profile, rng):
    """The records of a profile, without end."""
    if profile in ENCODERS:
        return Encoder(rng).stretches(ENCODERS[profile])
    if profile == "small":
        return Encoder(rng, k=4, most=2).stretches(ENCODERS["encoders"])
    makers = {
        "chaos": lambda: Chaos(rng).records(),
        "edges": lambda: Chaos(rng, extreme=True).records(),
        "wild": lambda: Chaos(rng, wild=0.06).records(),
        "limits": lambda: Chaos(rng, wild=0.03, extreme=True).records(),
        "climb": lambda: climb(rng),
        "damaged": lambda: damaged(rng),
        "damaged-source": lambda: by_turns(rng),
    }
    return makers[profile]()


PROFILES = list(ENCODERS) + ["small", "chaos", "edges", "wild", "limits", "climb", "damaged"]


def recording(profile, seed, count):
    """The records of one recording, one by one (damaged ones: bytes, some of them no whole record)."""
    return islice(made(profile, random.Random(f"{profile} {seed}")), count)
