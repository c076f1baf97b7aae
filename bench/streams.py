#!/usr/bin/env python3
"""The recordings that are counted. The same arguments give the same bytes, and the model (tools/lib/model.py) has
accepted every record.

    streams.py random-access PICTURES   groups of eight hierarchical B pictures, the sets of HM's
                                        encoder_randomaccess_main.cfg
    streams.py low-delay PICTURES       groups of four P pictures, the sets of HM's encoder_lowdelay_P_main.cfg
    streams.py depth-N PICTURES         P pictures that refer to the N - 1 pictures before them: N are stored, 1 to 16
    streams.py records COUNT            the first COUNT records of random-access
One slice a picture; every 64 pictures a drain and an IDR picture. Surfaces come from a pool of 20.
"""
import pathlib
import sys
from itertools import islice

sys.path.insert(0, str(pathlib.Path(__file__).resolve().parent.parent / "tools"))
from lib import model, script
from lib.generate import B, DRAIN, FINISH, I, IDR_N_LP, P, TRAIL, begin_bytes, configure_bytes, lists_bytes

PERIOD = 64
K = 8
# place in the group, temporal layer, the pictures kept and referred to, active entries
RANDOM_ACCESS = [
    (8, 0, [-8, -10, -12, -16], 4), (4, 1, [-4, -6, 4], 2), (2, 2, [-2, -4, 2, 6], 2), (1, 3, [-1, 1, 3, 7], 2),
    (3, 3, [-1, -3, 1, 5], 2), (6, 2, [-2, -4, -6, 2], 2), (5, 3, [-1, -5, 1, 3], 2), (7, 3, [-1, -3, -7, 1], 2),
]
LOW_DELAY = [
    (1, 0, [-1, -5, -9, -13], 4), (2, 0, [-1, -2, -6, -10], 4),
    (3, 0, [-1, -3, -7, -11], 4), (4, 0, [-1, -4, -8, -12], 4),
]


class Camera:
    """Numbers pictures and takes surfaces that no stored picture holds."""

    def __init__(self):
        self.session = model.Session()

    def send(self, record):
        number, _ = self.session.step(record)
        if number:
            raise SystemExit(f"streams.py: a record was refused with {number}")
        return record

    def picture(self, nal, layer, poc, deltas, kind, active):
        held = {p.surface for p in self.session.store}
        surface = next(s for s in range(20) if s not in held)
        neg = [(d, 1) for d in sorted((d for d in deltas if d < 0), reverse=True)]
        pos = [(d, 1) for d in sorted(d for d in deltas if d > 0)]
        yield self.send(begin_bytes(nal, layer, 1, poc % 2**K, surface, neg, pos, []))
        if not deltas:
            kind = I
        yield self.send(lists_bytes(kind, 0, 0 if kind == I else active, active if kind == B else 0))
        yield self.send(FINISH)

    def start(self):
        yield self.send(DRAIN)
        yield from self.picture(IDR_N_LP, 0, 0, [], I, 0)


def encoded(camera, group, kind, limits):
    """Periods of groups without end; a picture refers to what its set names and an earlier one of its period has."""
    yield camera.send(configure_bytes(K, *limits))
    while True:
        yield from camera.start()
        kept = {0}
        for base in range(0, PERIOD, max(place for place, *_ in group)):
            for place, layer, deltas, active in group:
                poc = base + place
                known = [d for d in deltas if poc + d in kept]
                nal = TRAIL + (layer < 3)
                yield from camera.picture(nal, layer, poc, known, kind, active)
                kept = {poc + d for d in known} | {poc}


def records(name):
    camera = Camera()
    if name.startswith("depth-"):
        depth = int(name[len("depth-"):])
        group = [(1, 0, [-i for i in range(1, depth)], max(1, min(4, depth - 1)))]
        return encoded(camera, group, P, (16, depth, 0, 0))
    if name == "low-delay":
        return encoded(camera, LOW_DELAY, P, (6, 5, 0, 0))
    return encoded(camera, RANDOM_ACCESS, B, (6, 5, 2, 0))


def until(stream, pictures):
    """The records up to the finish of so many pictures."""
    for record in stream:
        yield record
        pictures -= record == FINISH
        if pictures == 0:
            return


def made(name, count):
    """The bytes of a recording."""
    return b"".join(islice(records(name), count) if name == "records" else until(records(name), count))


def main(arguments):
    if len(arguments) != 2 or not arguments[1].isdecimal():
        print(__doc__, file=sys.stderr)
        return 2
    sys.stdout.buffer.write(made(arguments[0], int(arguments[1])))
    return 0


if __name__ == "__main__":
    script.helps(__doc__)
    script.filters()
    sys.exit(main(sys.argv[1:]))
