"""A picture session in plain Python, written from document 01 alone: a second opinion on the recordings and an oracle
for tests.

Nothing is proved of it. Records and replies have the form of records.py.
"""
from dataclasses import dataclass, field

from . import records
from .records import MISSING

CAPACITY = 16
REPLY_LIMIT = 512
COUNT_LIMIT = 2147483647
UNMARKED, SHORT, LONG = "unmarked", "short-term", "long-term"


@dataclass
class Picture:
    serial: int
    surface: int
    poc: int
    output: bool
    lsb: int
    msb: int
    valid: bool
    mark: str = SHORT
    waiting: bool = False
    count: int = 0
    sets: dict = field(default_factory=dict)


class Refusal(Exception):
    """A refusal number."""


def refuse_if(test, number):
    if test:
        raise Refusal(number)


# ---- Table 7-1

def is_irap(nal):
    return 16 <= nal <= 21


def is_bla(nal):
    return nal in (16, 17, 18)


def is_idr(nal):
    return nal in (19, 20)


CRA = 21


def is_radl(nal):
    return nal in (6, 7)


def is_rasl(nal):
    return nal in (8, 9)


def is_sub_layer_non_reference(nal):
    return nal in (0, 2, 4, 6, 8)


# ---- ranges

def strictly(deltas, start, step):
    """Each delta lies further from 0 than the one before, on the side of `step`, up to 524,288."""
    last = start
    for delta in deltas:
        if not last * step < delta * step <= 524288:
            return False
        last = delta
    return True


def begin_in_range(r, m):
    entries = len(r["neg"]) + len(r["pos"]) + len(r["lt"])
    return all([
        r["nal"] <= 9 or is_irap(r["nal"]),
        r["tid"] <= 6 and not (is_irap(r["nal"]) and r["tid"]),
        r["flags"] < 4,
        r["lsb"] < m,
        all(lsb < m and flags < 4 for lsb, flags, _ in r["lt"]),
        entries <= CAPACITY,
        strictly([delta for delta, _ in r["neg"]], 0, -1),
        strictly([delta for delta, _ in r["pos"]], 0, 1),
        all(used < 2 for _, used in r["neg"] + r["pos"]),
        not is_idr(r["nal"]) or (r["lsb"] == 0 and entries == 0),
    ])


def uses(r):
    """Whether the slice type uses list 0, and list 1."""
    return r["type"] in (0, 1), r["type"] == 0


def lists_in_range(r):
    good = r["type"] <= 2 and r["flags"] < 8
    for used, active, modify in zip(uses(r), (r["a0"], r["a1"]), (r["flags"] & 1, r["flags"] & 2)):
        good = good and (1 <= active <= CAPACITY if used else active == 0 and not modify)
    return good


def in_i32(value):
    return -2**31 <= value < 2**31


def empty_tail():
    return {"handed": [], "thrown": [], "released": []}


class Session:
    def __init__(self):
        self.limits = None
        self.store = []
        self.current = None
        self.previous = None
        self.first_in_bitstream = True
        self.after_end = False
        self.next_serial = 0

    # ---- one call

    def step(self, data, room=REPLY_LIMIT):
        """The refusal number and the reply's bytes."""
        if room < REPLY_LIMIT:
            return 14, b""
        record = records.record_of(data)
        if record is None:
            return 13, records.reply_bytes({"kind": "refused", "of": "?", "number": 13})
        kind = record["kind"]
        try:
            reply = getattr(self, kind)(record)
        except Refusal as refusal:
            number = refusal.args[0]
            return number, records.reply_bytes({"kind": "refused", "of": kind, "number": number})
        if "kind" not in reply:
            reply = {"kind": "done", "of": kind} | reply
        return 0, records.reply_bytes(reply)

    # ---- the store

    def leave(self, picture, tail):
        self.store.remove(picture)
        tail["released"].append(picture.surface)

    def hand_out(self, tail, always=False):
        """The lowest waiting POC, earlier stored first on a tie."""
        picture = min((p for p in self.store if p.waiting), key=lambda p: p.poc)
        picture.waiting = False
        tail["handed"].append((picture.serial, picture.surface, picture.poc))
        if always or picture.mark == UNMARKED:
            self.leave(picture, tail)

    def any_waits(self):
        return any(p.waiting for p in self.store)

    def due(self, with_buffering):
        waiting = [p for p in self.store if p.waiting]
        latency = self.limits["latency"]
        return (len(waiting) > self.limits["reorder"]
                or (latency != 0 and any(p.count >= latency for p in waiting))
                or (with_buffering and len(self.store) >= self.limits["buffering"]))

    def hand_out_while_due(self, tail, with_buffering):
        while self.due(with_buffering) and self.any_waits():
            self.hand_out(tail)

    def clear(self, tail):
        for picture in list(self.store):
            if picture.waiting:
                tail["thrown"].append(picture.serial)
            self.leave(picture, tail)

    def empty(self, tail):
        while self.any_waits():
            self.hand_out(tail, always=True)
        self.clear(tail)

    def remove_unused(self, tail):
        for picture in list(self.store):
            if not picture.waiting and picture.mark == UNMARKED:
                self.leave(picture, tail)

    # ---- begin

    def begin(self, r):
        refuse_if(self.limits is None, 1)
        refuse_if(self.current is not None, 3)
        m = 2 ** self.limits["k"]
        refuse_if(not begin_in_range(r, m), 5)
        refuse_if(self.next_serial == MISSING, 8)
        refuse_if(any(p.surface == r["surface"] for p in self.store), 7)
        no_rasl, output, no_prior = self.flags_of_step_1(r)
        starts = is_irap(r["nal"]) and no_rasl
        msb = self.msb_of(r["lsb"], m, starts)
        poc = msb + r["lsb"]
        wishes = self.wishes(r, poc, m)
        refuse_if(not all(in_i32(value) for value in [msb, poc] + [wish for wish, _ in sum(wishes.values(), [])]), 6)

        if starts:
            for picture in self.store:
                picture.mark = UNMARKED
        sets = self.find_and_mark(wishes, m)
        tail = empty_tail()
        self.make_room(starts and not self.after_end, no_prior, tail)
        self.first_in_bitstream = self.after_end = False
        valid = r["tid"] == 0 and not (is_rasl(r["nal"]) or is_radl(r["nal"]) or is_sub_layer_non_reference(r["nal"]))
        serial = self.next_serial
        self.next_serial += 1
        self.current = Picture(serial, r["surface"], poc, output, r["lsb"], msb, valid, sets=sets)
        flags = no_rasl + 2 * output + 4 * valid + 8 * no_prior
        return {"kind": "begun", "poc": poc, "flags": flags, "serial": serial} | sets | tail

    def flags_of_step_1(self, r):
        nal = r["nal"]
        no_rasl = is_idr(nal) or is_bla(nal) or (nal == CRA and self.first_in_bitstream) or self.after_end
        output = bool(r["flags"] & 1) and not (is_rasl(nal) and no_rasl)
        no_prior = is_irap(nal) and no_rasl and not self.first_in_bitstream and (nal == CRA or bool(r["flags"] & 2))
        return no_rasl, output, no_prior

    def msb_of(self, lsb, m, starts):
        if starts or self.previous is None:
            return 0
        q, msb = self.previous
        if lsb < q and 2 * (q - lsb) >= m:
            return msb + m
        if lsb > q and 2 * (lsb - q) > m:
            return msb - m
        return msb

    def wishes(self, r, poc, m):
        """Step 3: for each set, the POCs asked for, and whether the whole POC counts."""
        short = {
            used: {sign: [(poc + delta, True) for delta, u in r[sign] if u == used] for sign in ("neg", "pos")}
            for used in (0, 1)
        }

        def long(used):
            chosen = [(lsb, flags & 2, cycle) for lsb, flags, cycle in r["lt"] if flags & 1 == used]
            return [(lsb + poc - cycle * m - poc % m, True) if msb else (lsb, False) for lsb, msb, cycle in chosen]

        return {
            "before": short[1]["neg"],
            "after": short[1]["pos"],
            "foll": short[0]["neg"] + short[0]["pos"],
            "ltcurr": long(1),
            "ltfoll": long(0),
        }

    def first_stored(self, test):
        return next((p for p in self.store if test(p)), None)

    def find_and_mark(self, wishes, m):
        """Step 4. Python's remainder by M is never negative."""
        found = {}
        for name in ("ltcurr", "ltfoll"):
            found[name] = [
                self.first_stored(lambda p: p.mark != UNMARKED and (p.poc == poc if whole else p.poc % m == poc))
                for poc, whole in wishes[name]
            ]
        for picture in found["ltcurr"] + found["ltfoll"]:
            if picture is not None:
                picture.mark = LONG
        for name in ("before", "after", "foll"):
            found[name] = [self.first_stored(lambda p: p.mark == SHORT and p.poc == poc) for poc, _ in wishes[name]]
        members = [p.serial for p in sum(found.values(), []) if p is not None]
        for picture in self.store:
            if picture.serial not in members:
                picture.mark = UNMARKED
        return {name: [MISSING if p is None else p.serial for p in found[name]] for name in records.SETS}

    def make_room(self, starts, no_prior, tail):
        """Step 5."""
        if starts and no_prior:
            self.clear(tail)
        elif starts:
            self.empty(tail)
        else:
            self.remove_unused(tail)
            self.hand_out_while_due(tail, with_buffering=True)

    # ---- after begin

    def lists(self, r):
        refuse_if(self.current is None, 4)
        refuse_if(not lists_in_range(r), 5)
        sets, own = self.current.sets, r["flags"] >> 2 & 1
        last = sets["ltcurr"] + [self.current.serial] * own
        candidates = (sets["before"] + sets["after"] + last, sets["after"] + sets["before"] + last)
        used = uses(r)
        active, entries, modify = (r["a0"], r["a1"]), (r["e0"], r["e1"]), (r["flags"] & 1, r["flags"] & 2)
        refuse_if(used[0] and not candidates[0], 10)
        refuse_if(any(used[i] and max(active[i], len(candidates[i])) > CAPACITY for i in (0, 1)), 11)
        refuse_if(any(entry >= len(candidates[i]) for i in (0, 1) for entry in entries[i]), 12)
        found = []
        for i in (0, 1):
            places = entries[i] if modify[i] else [j % len(candidates[i]) for j in range(active[i])]
            found.append([candidates[i][place] for place in places])
        if used[0] and own and not modify[0] and len(candidates[0]) > active[0]:
            found[0][-1] = self.current.serial
        return {"kind": "lists", "l0": found[0], "l1": found[1]}

    def is_full(self):
        return self.current is not None and len(self.store) == self.limits["capacity"]

    def store_current(self, tail):
        for picture in self.store:
            picture.count = min(picture.count + 1, COUNT_LIMIT)
        picture, self.current = self.current, None
        picture.mark, picture.count, picture.waiting = SHORT, 0, picture.output
        self.store.append(picture)
        if picture.valid:
            self.previous = (picture.lsb, picture.msb)
        self.hand_out_while_due(tail, with_buffering=False)

    def drop_current(self, tail):
        if self.current.output:
            tail["thrown"].append(self.current.serial)
        tail["released"].append(self.current.surface)
        self.current = None

    def finish(self, _):
        refuse_if(self.current is None, 4)
        refuse_if(self.is_full(), 9)
        tail = empty_tail()
        self.store_current(tail)
        return tail

    def drain(self, _):
        refuse_if(self.is_full(), 9)
        tail = empty_tail()
        if self.current is not None:
            self.store_current(tail)
        self.empty(tail)
        return tail

    def configure(self, r):
        taken = min(r["capacity"], CAPACITY)
        good = 4 <= r["k"] <= 16 and taken >= 1 and 1 <= r["buffering"] <= taken and r["reorder"] < r["buffering"]
        refuse_if(not good, 2)
        tail = self.drain(r)
        self.limits = {key: r[key] for key in ("k", "buffering", "reorder", "latency")} | {"capacity": taken}
        self.previous = None
        return tail

    def discard(self, _):
        tail = empty_tail()
        if self.current is not None:
            self.drop_current(tail)
        self.clear(tail)
        return tail

    def end(self, _):
        self.after_end = True
        return empty_tail()

    def abandon(self, _):
        refuse_if(self.current is None, 4)
        tail = empty_tail()
        self.drop_current(tail)
        return tail


def run(data):
    """The replies to a file of records; an incomplete last record ends the run without a reply."""
    session, replies = Session(), []
    for piece in records.cut(data):
        if not records.is_whole(piece):
            break
        replies.append(session.step(piece)[1])
    return b"".join(replies)
