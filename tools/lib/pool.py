"""A pool of surfaces above the session, in plain Python, written from document 02's Item 10 alone: a second version of
it, over the session of model.py. Nothing is proved of it. calls.py has the files of its calls and answers.
"""
from . import calls, model, records

MOST = 64


# ---- Item 10

class Pool:
    """"Build a second layer above the session". Until it is made it has no surface."""

    def __init__(self):
        self.session = model.Session()
        # for each surface, how many pictures handed out on it the display has not given back
        self.pending = []

    def make(self, surfaces):
        """The number. "1 to 64 surfaces, numbered from 0"; "20, a pool asked for with 0 or more than 64 surfaces, which
        makes none"."""
        if not 1 <= surfaces <= MOST:
            return 20
        self.session, self.pending = model.Session(), [0] * surfaces
        return 0

    def held(self):
        """The surfaces that the session holds: "The pool's picture of "held" agrees with the session after every
        record". It does so here because the session is asked."""
        current = [self.session.current] if self.session.current is not None else []
        return {picture.surface for picture in self.session.store + current}

    def free(self):
        """"A surface is free if the session does not hold it and every picture handed out on it has been given back by
        the display"."""
        held = self.held()
        return [surface for surface, count in enumerate(self.pending) if count == 0 and surface not in held]

    def step(self, record, room=model.REPLY_LIMIT):
        """The number, the reply's bytes and the surface. "Every record of such a session goes through it"."""
        fields = records.record_of(record)
        # "18, given exactly if no surface is free, after 14 and 13 and before begin's other checks"
        if room < model.REPLY_LIMIT or fields is None or fields["kind"] != "begin":
            return self.passed(record, room, calls.NO_SURFACE)
        free = self.free()
        if not free:
            return 18, records.reply_bytes({"kind": "refused", "of": "begin", "number": 18}), calls.NO_SURFACE
        # "begin's own surface field is ignored"; "Begin through the pool takes the lowest free surface"
        return self.passed(records.record_bytes(fields | {"surface": free[0]}), room, free[0])

    def passed(self, record, room, surface):
        """What the session answers. "the call answers that number beside the reply, or 64 if no begin was accepted"; "A
        begin refused by the session leaves the pool as before"."""
        number, reply = self.session.step(record, room)
        if number != 0:
            return number, reply, calls.NO_SURFACE
        # "Each handing out adds one pending return"
        for _, handed_on, _ in records.reply_of(reply).get("handed", []):
            self.pending[handed_on] += 1
        return number, reply, surface

    def give_back(self, surface):
        """The number. "each return, a call and no record, takes one away and answers 0"; "19, a return for a surface
        with none pending or not in the pool"."""
        if surface >= len(self.pending) or self.pending[surface] == 0:
            return 19
        self.pending[surface] -= 1
        return 0


# ---- whole calls

def answer_to(pool, call):
    """The answer to a whole call."""
    kind, body = calls.parts(call)
    if kind == calls.RETURN:
        return calls.answer_bytes(kind, pool.give_back(calls.surface_in(body)), calls.NO_SURFACE)
    number, reply, surface = pool.step(body)
    return calls.answer_bytes(calls.RECORD, number, surface, reply)


def made(surfaces):
    pool = Pool()
    if pool.make(surfaces) != 0:
        raise ValueError(f"20: a pool of {surfaces} surfaces")
    return pool


def run(surfaces, data):
    """The answers to a file of calls; an incomplete last call gets none."""
    pool = made(surfaces)
    return b"".join(answer_to(pool, call) for call in records.cut(data) if records.is_whole(call))
