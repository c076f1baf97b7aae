"""Calls of a pool made by chance, from a seed, each with the answer of pool.py: the same arguments give the same bytes.

A host of generate.py sends its records through the pool, with any surface in its begins, and now and then a damaged
record or a begin while a picture is current; at 18 it waits for the display, sends the same begin again, or gives up. A
display gives back what it was handed: at once or late, in order or not, some of it twice, some of it not until the host
waits for it, and surfaces that it was never handed.
"""
import random

from . import calls, generate, pool, records

PROFILES = ["encoders", "small", "chaos", "edges", "wild", "limits"]
# whose display gives nothing back until the host waits for it
KEEP_ALL = ("small", "chaos")
STRAY = 0.03
TWICE = 0.02
LOST = 0.03
DAMAGED = 0.03
EARLY = 0.03


def damaged(rng, record):
    """Bits turned, bytes cut off, put in or put behind: any bytes can be lent."""
    data, fate = bytearray(record), rng.randrange(5)
    if fate == 0:
        data[rng.randrange(len(data))] ^= 1 << rng.randrange(8)
    elif fate == 1:
        del data[rng.randrange(len(data)):]
    elif fate == 2:
        place = rng.randrange(len(data))
        data[place:place + rng.randrange(3)] = rng.randbytes(rng.randrange(3))
    elif fate == 3:
        data += rng.randbytes(rng.choice([1, 2, 509, 600]))
    else:
        data = calls.message(rng.randrange(10), bytes(rng.choice([1, 12, 512, 513, 5000])))
    return bytes(data)


class Display:
    """The surfaces that it was handed and has not given back, in order; those that it lost; the last one given back."""

    def __init__(self, rng, surfaces):
        self.rng, self.surfaces = rng, surfaces
        self.shown, self.lost, self.last = [], [], None
        self.keeps, self.in_order = rng.choice([0, 0, 1, 2, 4, 8]), rng.random() < 0.6

    def hand(self, surfaces):
        for surface in surfaces:
            (self.lost if self.rng.random() < LOST else self.shown).append(surface)

    def next(self):
        """One that is given back now."""
        source = self.shown or self.lost
        self.last = source.pop(0 if self.in_order else self.rng.randrange(len(source)))
        return self.last

    def has(self):
        return bool(self.shown or self.lost)

    def returns(self):
        """All that are given back between two records."""
        rng = self.rng
        while len(self.shown) > self.keeps and rng.random() < 0.9:
            yield self.next()
        if self.last is not None and rng.random() < TWICE:
            yield self.last
        if rng.random() < STRAY:
            some = rng.randrange(self.surfaces)
            yield some + rng.choice([0, 0, self.surfaces, 64, 256, 65536, 2**24, rng.randrange(2**31)])


class Through:
    """A host whose records go through a pool. What it heard waits in `heard`."""

    def enter(self, surfaces):
        self.through, self.display, self.heard = pool.made(surfaces), Display(self.rng, surfaces), []
        self.session = self.through.session
        if self.rng.random() < 0.3:
            # before any configure
            self.lend(self.plain_begin())

    def free_surface(self):
        """"begin's own surface field is ignored"."""
        return self.rng.choice([0, 1, 7, 64, 2**32 - 1, self.rng.randrange(2**32)])

    def plain_begin(self):
        """A begin of a type that is taken, or of none."""
        nal = self.rng.choice([generate.IDR_N_LP, generate.TRAIL, 63])
        return generate.begin_bytes(nal, 0, 1, 0, self.free_surface(), [], [], [])

    def call(self, call):
        answer = pool.answer_to(self.through, call)
        self.heard.append((call, answer))
        return calls.answer_of(answer)

    def give_back(self, surface):
        more = self.rng.choice([b"", b"", b"", self.rng.randbytes(3)])
        body = surface.to_bytes(4, "little") + more
        self.call(calls.message(calls.RETURN, body if self.rng.random() < 0.9 else body.rstrip(b"\0")))

    def lend(self, record):
        """The number; the display is handed what the reply hands out."""
        kind = 0 if self.rng.random() < 0.95 else self.rng.randrange(2, 65536)
        number, _, reply = self.call(calls.message(kind, record))
        self.display.hand(on for _, on, _ in (records.reply_of(reply) or {}).get("handed", []))
        return number

    def waits(self):
        """At 18: whether the begin is sent again, once the display or the session has let something go."""
        rng = self.rng
        if rng.random() < 0.1:
            return False
        if self.display.has() and rng.random() < 0.95:
            self.give_back(self.display.next())
        else:
            self.lend(rng.choice([generate.DRAIN, generate.DRAIN, generate.DISCARD, generate.ABANDON]))
        return True

    def send(self, record):
        """The record, and what comes with it."""
        if self.rng.random() < DAMAGED:
            self.lend(damaged(self.rng, record))
        if self.session.current is not None and self.rng.random() < EARLY:
            self.lend(self.plain_begin())
        number = self.lend(record)
        while number == 18 and self.waits():
            number = self.lend(record)
        for surface in self.display.returns():
            self.give_back(surface)
        self.number = number
        return record


class PoolChaos(Through, generate.Chaos):
    pass


class PoolEncoder(Through, generate.Encoder):
    pass


def host_of(profile, rng):
    """A host, and its records without end once it has entered a pool."""
    if profile in ("encoders", "small"):
        host = PoolEncoder(rng) if profile == "encoders" else PoolEncoder(rng, k=4, most=2)
        return host, lambda: host.stretches(generate.ENCODERS["encoders"])
    wild = {"wild": 0.06, "limits": 0.03}.get(profile, 0.0)
    host = PoolChaos(rng, wild=wild, extreme=profile in ("edges", "limits"))
    return host, host.records


def recording(profile, seed, surfaces, count):
    """So many calls of a pool of so many surfaces, each with its answer."""
    host, made = host_of(profile, random.Random(f"pool {profile} {seed} {surfaces}"))
    host.enter(surfaces)
    if profile in KEEP_ALL:
        host.display.keeps = surfaces
    for _ in made():
        for heard in host.heard:
            if count == 0:
                return
            count -= 1
            yield heard
        host.heard.clear()
