"""What a recording shows over time, told from records and replies alone: when each picture was begun, finished, handed
out, thrown away and released, which pictures lists name, which records are refused. Numbers of records count from 1.

The books are those of ledger.py: a reply that contradicts them ends the timeline in front of it. Nothing here draws:
lib/drawing.py does.
"""
from collections import namedtuple

from . import calls, exchanges, ledger, records, status

CURRENT, WAITING, REFERENCE = "current", "waiting", "reference"
MOMENTS = {"configure": "configure", "drain": "drain", "discard": "discard", "end": "end of sequence"}

Moment = namedtuple("Moment", "at name text")           # an accepted configure, drain, discard or end of sequence
Refusal = namedtuple("Refusal", "at of number")
Lists = namedtuple("Lists", "at serial l0 l1")          # the picture that was current, and the serials of its lists
Display = namedtuple("Display", "surface first until")  # a return was pending on the surface; until none: it still is
Piece = namedtuple("Piece", "state first until")        # a state and where it begins and ends; none: at the edge


class Picture:
    """A picture by the numbers of the records that moved it; none where no record did."""

    def __init__(self, entry, begun):
        self.serial, self.surface, self.poc, self.output = entry.serial, entry.surface, entry.poc, entry.output
        self.begun, self.handed, self.thrown, self.released = begun, None, None, None
        # each state with the record that brought it
        self.states = [(CURRENT, begun)]

    def intervals(self):
        """Each state, the record that brought it and the one that ended it, which is none for the last one of a picture
        that is not released."""
        ends = [first for _, first in self.states[1:]] + [self.released]
        return [Piece(state, first, until) for (state, first), until in zip(self.states, ends)]

    def within(self, first, last):
        """The same for a range of records; an end outside it is none."""
        touching = [piece for piece in self.intervals() if touches(piece.first, piece.until, first, last)]
        return [Piece(state, begins if begins >= first else None, until if until and until <= last else None)
                for state, begins, until in touching]


def touches(begins, until, first, last):
    """Whether what begins at a record and ends at another, or never, is seen in a range of records."""
    return begins <= last and (until is None or until >= first)


def state_of(entry):
    """The state of a picture whose surface is held, as the ledger has it."""
    return CURRENT if entry.current else WAITING if entry.waits() else REFERENCE


class Timeline:
    """Of a range of records what can be drawn: the pictures that lie on a surface somewhere in it, in the order of
    their begins, and what happens in it. `count` is the number of exchanges taken, `fault` what ended them, or none."""

    words = ("record", "reply")

    def __init__(self, first=1, last=float("inf")):
        self.first, self.last = first, last
        self.count, self.fault = 0, None
        self.pictures, self.moments, self.refusals, self.lists = [], [], [], []
        self.ledger = ledger.Ledger()
        # those that are not released, by serial
        self.open = {}

    def take(self, record, reply, _=None):
        """The next record and its reply, as bytes; raises ledger.Fault."""
        self.ledger.take(record, reply)
        self.count += 1
        said = records.reply_of(reply)
        if said["kind"] == "refused":
            self.keep(self.refusals, Refusal(self.count, said["of"], said["number"]))
        elif said["kind"] == "lists":
            self.keep(self.lists, Lists(self.count, self.ledger.current.serial, said["l0"], said["l1"]))
        else:
            self.moved(records.record_of(record), said)

    def keep(self, kind, happened):
        if self.first <= happened.at <= self.last:
            kind.append(happened)

    def moved(self, record, said):
        """An accepted call that may move pictures."""
        if record["kind"] in MOMENTS:
            self.keep(self.moments, Moment(self.count, MOMENTS[record["kind"]], records.record_text(record)))
        moves = [(serial, "handed") for serial, _, _ in said["handed"]]
        moves += [(serial, "thrown") for serial in said["thrown"]]
        for serial, name in moves:
            setattr(self.open[serial][1], name, self.count)
        self.follow()
        if said["kind"] == "begun":
            entry = self.ledger.current
            self.open[entry.serial] = entry, Picture(entry, self.count)
            if self.count <= self.last:
                self.pictures.append(self.open[entry.serial][1])

    def displays(self):
        """What the display has: nothing is known of it from records and replies."""
        return []

    def marks(self, first, last):
        """What was handed out or thrown away in a range of records: the picture, and which of the two by which
        record."""
        moves = [(p, move) for p in self.pictures for move in (("handed out", p.handed), ("thrown away", p.thrown))]
        return [(picture, move) for picture, move in moves if move[1] is not None and first <= move[1] <= last]

    def follow(self):
        """The states as they are now. A picture that is released before the range is not kept."""
        for entry, picture in list(self.open.values()):
            if not entry.held:
                picture.released = self.count
                del self.open[picture.serial]
                if self.count < self.first:
                    self.pictures.remove(picture)
            elif state_of(entry) != picture.states[-1][0]:
                picture.states.append((state_of(entry), self.count))


class PoolTimeline(Timeline):
    """The same of the calls of a pool and their answers, and which surfaces the display has. A call that got no reply,
    as a return, moves nothing in the session."""

    words = ("call", "answer")

    def __init__(self, first=1, last=float("inf")):
        super().__init__(first, last)
        self.promise = exchanges.Promise()
        # the surfaces on which a return is pending, and since when; those returned in the range or behind it
        self.pending, self.returned = {}, []

    def take(self, record, reply, together=None):
        """The record and the reply that stand for the next call, and the call with its answer; raises ledger.Fault."""
        if together is None:
            super().take(record, reply)
            return
        call, answer = together
        number, _, answered = calls.answer_of(answer)
        try:
            self.promise.take(call, answer)
        except exchanges.Broken as broken:
            raise ledger.Fault(str(broken)) from None
        except exchanges.Unknown:
            pass  # the reply can't be read, and the ledger says so
        if answered:
            super().take(record, reply)
            for _, surface, _ in records.reply_of(reply).get("handed", []):
                self.pending[surface] = self.count
            return
        self.count += 1
        if number:
            self.keep(self.refusals, Refusal(self.count, "return" if calls.is_return(call) else "?", number))
        elif calls.is_return(call):
            self.give_back(calls.surface_in(calls.parts(call)[1]))

    def give_back(self, surface):
        shown = Display(surface, self.pending.pop(surface), self.count)
        if touches(shown.first, shown.until, self.first, self.last):
            self.returned.append(shown)

    def displays(self):
        """What the display has somewhere in the range."""
        pending = [Display(surface, first, None) for surface, first in self.pending.items() if first <= self.last]
        return self.returned + pending


# ---- files

def pairs(said, answered):
    """The records of a file with the replies of another, up to the first that is not whole."""
    record = reply = b"\0\0\0\0"
    while records.is_whole(record) and records.is_whole(reply):
        record, reply = calls.take(said), calls.take(answered)
        yield record, reply, None


def unpaired(record, reply, words):
    """What is wrong where a record and a reply are not both whole; none where the files end together."""
    said, answered = words
    if records.is_whole(record):
        return f"the {answered} breaks off" if reply else f"the {said} has no {answered}"
    return f"the {answered} has no {said}" if reply else None


def read(timeline, found):
    """Takes all that is found, as far as it goes, and yields how many it has taken. What ended it is then in the
    timeline's `fault`."""
    for record, reply, together in found:
        if not (records.is_whole(record) and records.is_whole(reply)):
            timeline.fault = unpaired(record, reply, timeline.words)
            return
        try:
            timeline.take(record, reply, together)
        except ledger.Fault as fault:
            timeline.fault = str(fault)
            return
        yield timeline.count


def fault_words(timeline):
    """What ended the timeline, or none."""
    return timeline.fault and f"{timeline.words[1]} {timeline.count + 1}: {timeline.fault}"


def ended(name, timeline, answered, taken, more=""):
    """The status of a command over a timeline: 2 standard output has not taken all; 1 a fault ended the timeline, which
    is said with the file of the answers; 0 else."""
    if not taken:
        status.say(name, "standard output can't be written")
        return 2
    if timeline.fault:
        status.say(name, f"{answered}, {fault_words(timeline)}{more}")
        return 1
    return 0
