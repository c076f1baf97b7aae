"""What calls of a pool and their answers say, from any implementation: the record and the reply that stand for each
call, for the program ledger; and where the answers break what a pool promises by itself (document 02, Item 10).

Nothing here knows how a pool is made: it believes neither the calls nor the answers.
"""
from . import calls, records

MOST = 64
MALFORMED = 511
# a malformed record that can stand in a file, and its reply: they stand for a call that moves nothing
NOTHING_SAID, NOTHING_DONE = bytes([0, 0, 0, 0]), bytes([2, 0, 255, 1, 13, 0])
# what the ledger takes for no whole reply: one of a kind that is none
NO_REPLY = bytes([0, 0, 0, 0])


# ---- records and replies for the ledger

def begin_fields(record):
    """The fields of a well-formed begin, or none."""
    fields = records.record_of(record)
    return fields if fields is not None and fields["kind"] == "begin" else None


def is_malformed_reply(reply):
    return records.is_whole(reply) and calls.parts(reply)[0] == MALFORMED


def record_for(call, surface=calls.NO_SURFACE, reply=b""):
    """The record that stands for a call: its own, with the answered surface in a begin. A return moves nothing in the
    session; and what was answered as malformed, or is not exactly head plus body, can't be cut out of a file."""
    kind, record = calls.parts(call)
    if kind == calls.RETURN or is_malformed_reply(reply) or not records.is_whole(record):
        return NOTHING_SAID
    fields = begin_fields(record)
    return records.record_bytes(fields | {"surface": surface}) if fields is not None else record


def exchange(call, answer):
    """The record and the reply that stand for a whole call and its whole answer."""
    said = calls.answer_of(answer)
    if calls.is_return(call) != calls.is_return(answer):
        return record_for(call), b""
    if said is None:
        return record_for(call), NO_REPLY
    _, surface, reply = said
    if not reply:
        return NOTHING_SAID, NOTHING_DONE
    return record_for(call, surface, reply), reply if records.is_whole(reply) else NO_REPLY


def cut_short(message):
    """A record or reply that is not whole, with as many bytes as are there of a call or answer that is not: a head that
    says more than any has."""
    return b"\xff" * len(message)


def without_partner(call, answer):
    """The same where the files end, or one before the other. An incomplete last call has no answer."""
    if records.is_whole(call):
        return record_for(call), cut_short(answer)
    return cut_short(call), NOTHING_DONE if records.is_whole(answer) else cut_short(answer)


def exchanges(calls_file, answers_file):
    """For each call and its answer: the record, the reply, and whether the two belong together. The last may have no
    record or no reply: there the files do not pair, and the ledger says so."""
    while True:
        call, answer = calls.take(calls_file), calls.take(answers_file)
        if not (records.is_whole(call) and records.is_whole(answer)):
            yield (*without_partner(call, answer), None)
            return
        record, reply = exchange(call, answer)
        together = reply not in (b"", NO_REPLY)
        yield record, reply, (call, answer) if together else None
        if not reply:
            return


# ---- the pool's own promise

class Broken(Exception):
    """What an answer says that a pool does not."""


class Unknown(Exception):
    """What a call did can't be told, nor what it left."""


def broken_if(test, text):
    if test:
        raise Broken(text)


class Promise:
    """What can be told of a pool from its calls and answers: the surfaces held, the returns pending on each, and of how
    many surfaces it has been heard."""

    def __init__(self):
        self.held, self.pending = set(), [0] * MOST
        # surfaces below `known` are in the pool; it has no other where `all_known`
        self.known, self.all_known = 1, False

    def take(self, call, answer):
        """One call and its answer, which belong together; raises Broken."""
        kind, body = calls.parts(call)
        number, surface, reply = calls.answer_of(answer)
        if kind == calls.RETURN:
            self.give_back(calls.surface_in(body), number, surface)
        else:
            self.step(begin_fields(body) is not None, number, surface, reply)

    def lowest_free(self):
        """Of the surfaces known, or none."""
        return next((s for s in range(self.known) if s not in self.held and not self.pending[s]), None)

    def give_back(self, returned, number, surface):
        pending = self.pending[returned] if returned < MOST else 0
        broken_if(surface != calls.NO_SURFACE, f"a return answered surface {surface}, not 64")
        broken_if(number not in (0, 19), f"a return was answered with {number}")
        broken_if(number == 0 and not pending, f"surface {returned} was taken back, and no return is pending on it")
        broken_if(number == 19 and pending, f"number 19, and a return is pending on surface {returned}")
        if number == 0:
            self.pending[returned] -= 1

    def step(self, begins, number, surface, reply):
        said = records.reply_of(reply)
        if reply and said is None:
            raise Unknown
        broken_if(not reply and number != 14, f"the call got no reply, and answered {number}, not 14")
        told = said.get("number", 0) if reply else 14
        broken_if(number != told, f"the call answered {number}, and its reply says {told}")
        broken_if(number == 7, "number 7 came through the pool")
        if begins and said and said["kind"] == "begun":
            self.begun_on(surface)
        else:
            broken_if(surface != calls.NO_SURFACE, f"no begin was accepted, and surface {surface} was answered, not 64")
        if number == 18:
            self.none_free(begins)
        elif begins and number not in (0, 14):
            broken_if(self.all_known and self.lowest_free() is None, f"number {number}, and no surface is free: not 18")
        self.moved(said or {}, surface)

    def begun_on(self, surface):
        """"Begin through the pool takes the lowest free surface"."""
        lowest = self.lowest_free()
        broken_if(surface == calls.NO_SURFACE, "a begin was accepted, and 64 was answered, which is no surface")
        broken_if(surface > MOST, f"surface {surface} was answered, which is not below 64")
        broken_if(surface in self.held, f"begun on surface {surface}, which is held")
        broken_if(self.pending[surface], f"begun on surface {surface}, and a picture handed out on it was not returned")
        broken_if(self.all_known and surface >= self.known,
                  f"begun on surface {surface}, which an 18 before says the pool has not")
        broken_if(lowest is not None and lowest < surface, f"begun on surface {surface}, and surface {lowest} is free")
        broken_if(lowest is None and surface > self.known,
                  f"begun on surface {surface}, and surface {self.known} is free")

    def none_free(self, begins):
        """"18, given exactly if no surface is free"."""
        lowest = self.lowest_free()
        broken_if(not begins, "number 18 to a record that is no well-formed begin")
        broken_if(lowest is not None, f"number 18, and surface {lowest} is free")
        self.all_known = True

    def moved(self, said, surface):
        """What an accepted reply hands out and releases, and the surface that its begin holds."""
        for _, handed_on, _ in said.get("handed", []):
            if handed_on < MOST:
                self.pending[handed_on] += 1
        self.held -= set(said.get("released", []))
        if surface != calls.NO_SURFACE:
            self.held.add(surface)
            self.known = max(self.known, surface + 1)
            self.all_known = self.all_known or self.known == MOST


class Watch:
    """The first call at which the promise is broken, as a line; "" where it is kept, as far as can be told: what comes
    behind an answer that can't be read is left to the ledger, which says so."""

    def __init__(self):
        self.promise, self.count, self.line, self.ended = Promise(), 0, "", False

    def take(self, together):
        """The next call and its answer, or none where the two do not belong together."""
        self.count += 1
        self.ended = self.ended or together is None
        if self.ended:
            return
        try:
            self.promise.take(*together)
        except Broken as broken:
            self.line, self.ended = f"pool broken at call {self.count}: {broken}\n", True
        except Unknown:
            self.ended = True
