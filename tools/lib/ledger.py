"""What somebody can tell from records and replies alone: a ledger of every picture, and the faults it finds (demand 3
of docs/01-scope.md).

It knows nothing of sets, marks, limits or the store but that this holds 16: only who was begun on which surface, who is
current, handed out, thrown away, released.
"""
from . import records

MISSING = records.MISSING
CAPACITY = 16
THROWS = ("begin", "discard", "abandon")


class Fault(Exception):
    """What a reply says that cannot be."""


def fault_if(test, text):
    if test:
        raise Fault(text)


def together(data, answer):
    """A record, none where it is malformed, and its reply, from their bytes; raises Fault where the reply can't be read
    or is not one to this record."""
    record, reply = records.record_of(data), records.reply_of(answer)
    fault_if(reply is None, "the reply is not well-formed")
    if reply["kind"] == "refused":
        fault_if((record is None) != (reply["of"] == "?"), "number 13 and its kind do not belong together")
        fault_if(record is not None and record["kind"] != reply["of"], "the refusal is to another kind of record")
        return record, reply
    fault_if(record is None, "a malformed record was accepted")
    said = {"begun": "begin", "lists": "lists"}.get(reply["kind"]) or reply["of"]
    fault_if(said != record["kind"], "the reply is to another kind of record")
    return record, reply


class Picture:
    def __init__(self, serial, surface, poc, output):
        self.serial, self.surface, self.poc, self.output = serial, surface, poc, output
        self.current, self.held, self.handed, self.thrown = True, True, False, False

    def waits(self):
        return self.output and not self.current and not self.handed and not self.thrown


class Ledger:
    def __init__(self):
        self.begun = 0
        self.current = None
        # pictures that still matter: current, held or waiting
        self.pictures = {}
        self.by_surface = {}
        self.k = None
        self.sums = {"begun": 0, "handed": 0, "thrown": 0, "released": 0, "refused": 0}

    def take(self, data, answer):
        """One record and its reply, as bytes; raises Fault."""
        record, reply = together(data, answer)
        if reply["kind"] == "refused":
            return self.refused(record, reply)
        said = record["kind"]
        if said == "lists":
            return self.lists(record, reply)
        return self.begin(record, reply) if said == "begin" else self.call(said, record, reply)

    # ---- replies

    def refused(self, record, reply):
        self.sums["refused"] += 1
        fault_if(reply["number"] == 3 and self.current is None, "number 3 with no picture current")
        fault_if(reply["number"] == 4 and self.current is not None, "number 4 with a picture current")
        if reply["number"] == 7:
            fault_if(reply["of"] != "begin", "number 7 to another record than a begin")
            held = self.by_surface.get(record["surface"])
            fault_if(held is None or held.current, "number 7 for a surface that no stored picture holds")

    def begin(self, record, reply):
        fault_if(self.current is not None, "a begin was accepted while a picture is current")
        fault_if(record["surface"] in self.by_surface, "a begin was accepted on a surface that is held")
        fault_if(reply["serial"] != self.begun, "the serial is not the number of begins before")
        low = self.k is None or reply["poc"] % 2 ** self.k == record["lsb"]
        fault_if(not low, "the POC's low bits are not the lsb")
        output = bool(reply["flags"] & 2)
        fault_if(output and not record["flags"] & 1, "the output flag came from nowhere")
        self.tail("begin", reply)
        self.clear(reply)
        self.sets(record, reply)
        self.begun += 1
        self.sums["begun"] += 1
        self.current = Picture(reply["serial"], record["surface"], reply["poc"], output)
        self.pictures[reply["serial"]] = self.current
        self.by_surface[record["surface"]] = self.current

    def clear(self, reply):
        """A begin throws away only by step 5's clear."""
        if reply["thrown"]:
            fault_if(not reply["flags"] & 8, "a begin throws away and does not say no output of prior pictures")
            fault_if(reply["handed"], "a begin throws away and hands out")
            fault_if(self.by_surface, "a begin throws away and leaves a stored picture")

    def sets(self, record, reply):
        """As many members as the record has entries, each missing or stored."""
        used = {sign: sum(u for _, u in record[sign]) for sign in ("neg", "pos")}
        foll = len(record["neg"]) + len(record["pos"]) - sum(used.values())
        now = sum(flags & 1 for _, flags, _ in record["lt"])
        counts = dict(zip(records.SETS, (used["neg"], used["pos"], foll, now, len(record["lt"]) - now)))
        for name, count in counts.items():
            fault_if(len(reply[name]) != count, f"{name} has {len(reply[name])} members for {count} entries")
            self.names(reply[name], f"{name} names a picture that is not stored, or released")

    def names(self, serials, text):
        for serial in serials:
            picture = self.pictures.get(serial)
            fault_if(serial != MISSING and (picture is None or not picture.held), text)

    def lists(self, record, reply):
        fault_if(self.current is None, "lists were accepted with no picture current")
        lengths = (record["a0"], record["a1"])
        fault_if((len(reply["l0"]), len(reply["l1"])) != lengths, "a list has not as many places as are active")
        self.names(reply["l0"] + reply["l1"], "a list names a picture that is not stored, or released")

    def call(self, said, record, reply):
        fault_if(said in ("finish", "abandon") and self.current is None, f"{said} was accepted with no picture current")
        if said in ("finish", "drain", "configure") and self.current is not None:
            self.current.current = False
            self.current = None
        if said == "configure":
            self.k = record["k"]
        self.tail(said, reply)
        stored = len(self.by_surface) - (self.current is not None)
        fault_if(stored > CAPACITY, f"{stored} pictures are stored")
        if said in ("drain", "configure", "discard"):
            fault_if(self.by_surface, f"a surface is still held behind {said}")
            fault_if(self.pictures, f"a picture still waits behind {said}")
            fault_if(self.current is not None, f"a picture is still current behind {said}")
        fault_if(said == "abandon" and self.current is not None, "the picture is still current behind abandon")

    # ---- tails

    def tail(self, said, reply):
        before = self.current
        for entry in reply["handed"]:
            self.hand_out(said, *entry)
        for serial in reply["thrown"]:
            self.throw(said, serial)
        for surface in reply["released"]:
            self.release(said, surface)
        tail = reply["handed"] or reply["thrown"] or reply["released"]
        fault_if(said == "end" and tail, "end of sequence has a tail")
        fault_if(said == "abandon" and (reply["handed"] or reply["released"] != [before.surface]),
                 "abandon touched another picture")
        for serial in reply["thrown"]:
            fault_if(serial in self.pictures and self.pictures[serial].held, "thrown away, and still held")
        for picture in [p for p in self.pictures.values() if not p.held]:
            fault_if(picture.waits(), "released while the picture still waits")
            fault_if(picture.current, "the current picture's surface was released, and it is not thrown away")
            del self.pictures[picture.serial]

    def hand_out(self, said, serial, surface, poc):
        picture = self.pictures.get(serial)
        fault_if(said in ("discard", "abandon"), f"{said} hands out")
        fault_if(picture is None,
                 "handed out, and not there: never begun, thrown away, or handed out and released before")
        fault_if(picture.current, "handed out while current")
        fault_if(picture.handed, "handed out twice")
        fault_if(picture.thrown, "handed out after it was thrown away")
        fault_if(not picture.output, "handed out with output flag 0")
        fault_if(picture.surface != surface, "handed out on another surface than it began on")
        fault_if(picture.poc != poc, "handed out with another POC than it began with")
        lower = [p for p in self.pictures.values() if p.waits() and (p.poc, p.serial) < (poc, serial)]
        fault_if(lower, "handed out before a waiting picture of lower POC")
        picture.handed = True
        self.sums["handed"] += 1

    def throw(self, said, serial):
        picture = self.pictures.get(serial)
        fault_if(said not in THROWS, f"{said} throws away")
        fault_if(picture is None, "thrown away, and not there")
        fault_if(picture.handed, "thrown away after it was handed out")
        fault_if(picture.thrown, "thrown away twice")
        fault_if(not picture.output, "thrown away with output flag 0")
        fault_if(picture.current and said == "begin", "thrown away by its own begin")
        fault_if(not picture.current and said == "abandon", "abandon throws away a stored picture")
        picture.thrown = True
        self.sums["thrown"] += 1

    def release(self, said, surface):
        picture = self.by_surface.pop(surface, None)
        fault_if(picture is None, "released, and held by nobody")
        fault_if(picture.current and said not in ("discard", "abandon"), "the current picture's surface was released")
        picture.held = False
        if picture.current:
            fault_if(picture.output and not picture.thrown, "the current picture was dropped, and not thrown away")
            picture.current = False
            self.current = None
        self.sums["released"] += 1
