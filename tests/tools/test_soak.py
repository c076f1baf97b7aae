#!/usr/bin/env python3
"""The ledger finds planted faults, and the rule of docs/POC.md planted POCs: a recording with its right replies, and
the same with one reply damaged at a time. Programs that answer wrongly are found, also those with another rule for POC,
in whose replies the ledger finds no fault."""
import pathlib
import re
import subprocess
import sys
import tempfile

TOOLS = str(pathlib.Path(__file__).resolve().parents[2] / "tools")
sys.path.insert(0, TOOLS)
import soak
from lib import generate, ledger, model, records, script

SAID = """
0  configure k=4 capacity=4 buffering=4 reorder=1 latency=0
1  begin nal=19 surface=7
2  finish
3  begin nal=1 lsb=2 surface=8 neg=-2:1
4  lists P a0=1
5  finish
6  begin nal=0 lsb=1 output=0 surface=9 neg=-1:1 pos=1:1
7  end
8  finish
9  begin nal=1 lsb=3 surface=10 neg=-1:1
10 lists P a0=2
11 finish
12 begin nal=1 lsb=5 surface=7 neg=-2:1
13 finish
14 drain
15 begin nal=1 lsb=6 surface=7
16 finish
17 begin nal=1 lsb=7 surface=8 neg=-1:1
18 finish
19 begin nal=1 lsb=8 surface=9 neg=-1:1
20 discard
21 begin nal=19 surface=7
22 finish
23 begin nal=1 lsb=1 surface=8
24 abandon
25 begin nal=1 lsb=1 surface=8 neg=-1:1
26 finish
27 configure k=4 capacity=4 buffering=4 reorder=3 latency=0
28 begin nal=19 surface=1
29 finish
30 begin nal=1 lsb=1 surface=2 neg=-1:1
31 finish
32 drain
33 begin nal=1 lsb=9 surface=1
34 finish
35 begin nal=1 lsb=1 surface=2
36 drain
37 begin nal=1 lsb=8 surface=1
"""
# place of the damaged reply, the reply put there, the fault found at or behind it
PLANTED = [
    (11, "done finish handed=0:7:0", "not there"),
    (8, "done finish handed=0:7:0", "handed out twice"),
    (22, "done finish handed=6:8:7", "not there"),
    (7, "done end handed=2:9:1", "handed out while current"),
    (5, "done finish handed=0:9:0", "another surface"),
    (5, "done finish handed=0:7:1", "another POC"),
    (8, "done finish handed=2:9:1", "output flag 0"),
    (13, "done finish handed=3:10:3 released=8", "held by nobody"),
    (18, "done finish handed=5:7:6 released=8", "still waits"),
    (8, "done finish released=8", "still waits"),
    (19, "begun poc=8 output valid serial=7 before=6 released=7,8", "still waits"),
    (10, "lists l0=0,1", "a list names"),
    (10, "lists l0=2,1", "a list names"),
    (10, "lists l0=1", "as many places"),
    (10, "lists l0=1,9", "a list names"),
    (9, "begun poc=3 output valid serial=3 before=2 released=7,9", "before names"),
    (9, "begun poc=3 output valid serial=3 before=1,1 released=7,9", "2 members for 1"),
    (9, "begun poc=3 output valid serial=2 before=1 released=7,9", "the serial is not"),
    (15, "begun poc=6 output valid serial=0", "the serial is not"),
    (14, "done drain handed=3:10:3,4:7:5 released=7,10", "handed out twice"),
    (14, "done drain handed=4:7:5 released=7", "still held"),
    (14, "done drain released=7,10", "still waits"),
    (32, "done drain handed=12:2:1,11:1:0 released=1,2", "lower POC"),
    (32, "done drain handed=12:2:1 released=2,1", "lower POC"),
    (32, "done drain handed=11:1:0 released=1,2", "still waits"),
    (32, "done drain handed=11:1:0,12:2:1 released=1,2,1", "held by nobody"),
    (32, "done drain handed=11:1:0,12:2:1,12:2:1 released=1,2", "handed out twice"),
    (11, "done finish thrown=1", "finish throws away"),
    (20, "done discard thrown=7 released=9,8", "still waits"),
    (20, "done discard thrown=6 released=9,8", "not thrown away"),
    (20, "done discard thrown=7,6 released=9", "still held"),
    (20, "done discard thrown=7,6,6 released=9,8", "thrown away twice"),
    (20, "done discard handed=6:8:7 thrown=7 released=9,8", "discard hands out"),
    (13, "done finish handed=3:10:3 thrown=3", "finish throws away"),
    (12, "begun poc=5 output valid serial=4 before=3 thrown=1 released=8", "thrown away after it was handed out"),
    (24, "done abandon released=8", "not thrown away"),
    (24, "done abandon thrown=9 released=8,7", "abandon"),
    (24, "done abandon", "abandon"),
    (25, "refused begin 7", "number 7"),
    (6, "refused begin 3", "number 3"),
    (11, "refused finish 4", "number 4"),
    (11, "refused finish 7", "number 7 to another"),
    (26, "refused lists 4", "another kind"),
    (27, "done configure handed=10:8:1", "still held"),
    (3, "begun poc=3 output valid serial=1 before=0", "low bits"),
    (6, "begun poc=1 output serial=2 before=0 after=1", "output flag came from nowhere"),
]
# POCs whose low bits are the lsb, so that the ledger takes the reply: the place, the reply put there, and the picture,
# its POC and the one that it has by document 01, step 2
POCS = [
    (1, "begun poc=16 norasl output valid serial=0", "picture 0: POC 16", 0),
    # M up, and M down
    (3, "begun poc=18 output valid serial=1 before=0", "picture 1: POC 18", 2),
    (6, "begun poc=-15 serial=2 before=0 after=1", "picture 2: POC -15", 1),
    # behind drain, discard and abandon
    (15, "begun poc=-10 output valid serial=5", "picture 5: POC -10", 6),
    (21, "begun poc=16 norasl output valid serial=8", "picture 8: POC 16", 0),
    (25, "begun poc=17 output valid serial=10 before=8", "picture 10: POC 17", 1),
    # behind configure
    (28, "begun poc=-16 norasl output valid serial=11", "picture 11: POC -16", 0),
    # the tie downward: 9 - 1 = 8, and 17 - 9 = 8; 8 - 17 = -9 is more than half of M
    (33, "begun poc=-7 output valid serial=13", "picture 13: POC -7", 9),
    (35, "begun poc=1 output valid serial=14", "picture 14: POC 1", 17),
    (37, "begun poc=8 output valid serial=15", "picture 15: POC 8", 24),
]


def said():
    return [records.record_bytes(records.record_of_text(line.split(None, 1)[1])) for line in SAID.strip().splitlines()]


def answered():
    session = model.Session()
    return [session.step(record)[1] for record in said()]


def first_fault(replies):
    checker = soak.Checker(with_model=False)
    for record, reply in zip(said(), replies):
        found = checker.take(record, reply)
        if found:
            return found
    return None


def test_ledger():
    right = answered()
    assert all(records.reply_of(reply)["kind"] != "refused" for reply in right)
    assert first_fault(right) is None, first_fault(right)
    for place, text, fault in PLANTED:
        damaged = list(right)
        damaged[place] = records.reply_bytes(records.reply_of_text(text))
        assert damaged[place] != right[place], text
        found = first_fault(damaged)
        assert found is not None and fault in found, f"{place} {text}: {found}"
    return len(PLANTED)


def test_pocs():
    """Each planted POC is found at its own reply, which the ledger takes."""
    right = answered()
    for place, text, found, asked in POCS:
        damaged = [*right[:place], records.reply_bytes(records.reply_of_text(text))]
        assert damaged[place] != right[place], text
        book = ledger.Ledger()
        for record, reply in zip(said(), damaged):
            book.take(record, reply)
        fault = f"record {place}: {found}, and the rule of docs/POC.md gives {asked}: begin "
        assert (first_fault(damaged) or "").startswith(fault), f"{place} {text}: {first_fault(damaged)}"
    return len(POCS)


# answers as the model does, with one thing wrong
PROGRAM = """
import sys
sys.path.insert(0, {tools!r})
from lib import model, records
{rule}
replies = list(records.cut(model.run(sys.stdin.buffer.read())))
{damage}
sys.stdout.buffer.write(b"".join(replies))
"""
DAMAGES = {
    "": None,
    "replies.pop()": "without a reply",
    "replies.append(replies[0])": "without a record",
    "replies[300] = replies[300][:-1] + bytes([replies[300][-1] ^ 1])": "record",
    "replies[-1] = replies[-1][:-1]": "not well-formed",
}


# the model with another rule for POC
RULES = {
    "the tie goes down": """
def msb_of(self, lsb, m, starts):
    q, msb = (lsb, 0) if starts or self.previous is None else self.previous
    return msb + (m if 2 * (q - lsb) > m else -m if 2 * (lsb - q) >= m else 0)

model.Session.msb_of = msb_of
""",
    "what is abandoned or discarded becomes the previous picture": """
drop_current = model.Session.drop_current

def drop(self, tail):
    self.previous = (self.current.lsb, self.current.msb) if self.current.valid else self.previous
    drop_current(self, tail)

model.Session.drop_current = drop
""",
    "every picture becomes the previous one": """
store_current = model.Session.store_current

def store(self, tail):
    self.current.valid = True
    store_current(self, tail)

model.Session.store_current = store
""",
}


def program(rule="", damage=""):
    return PROGRAM.format(tools=TOOLS, rule=rule, damage=damage)


def test_soak():
    """The whole way: a program that answers wrongly is caught with and without the model beside it."""
    for damage, fault in DAMAGES.items():
        command = [sys.executable, "-c", program(damage=damage)]
        _, wrong = soak.soak(command, "encoders", 1, 1000, with_model=True)
        assert (wrong is None) == (fault is None) and (fault is None or fault in wrong), f"{damage}: {wrong}"
    for damage, status in (("", 0), ("replies[20] = replies[19]", 1)):
        with tempfile.NamedTemporaryFile("w", suffix=".py") as file:
            file.write(program(damage=damage))
            file.flush()
            soaking = [sys.executable, TOOLS + "/soak.py", "--records", "1000", "--profile", "encoders"]
            done = subprocess.run([*soaking, "--", sys.executable, file.name], stdout=subprocess.PIPE, text=True)
        assert done.returncode == status, done.stdout
        figures = re.search(r"pictures: (\d+) begun, .*; (\d+) POCs compared with the rule$", done.stdout)
        assert (figures is None) == bool(status) and (status or figures[1] == figures[2] != "0"), done.stdout
    return len(DAMAGES)


def test_rules():
    """Another rule for POC, the same in all replies: only the rule of docs/POC.md tells."""
    for name, rule in RULES.items():
        command = [sys.executable, "-c", program(rule)]
        _, wrong = soak.soak(command, "wild", 1, 2000, with_model=False)
        assert wrong and "and the rule of docs/POC.md gives" in wrong, f"{name}: {wrong}"
        heard, book = b"".join(generate.recording("wild", 1, 2000)), ledger.Ledger()
        replies = subprocess.run(command, input=heard, stdout=subprocess.PIPE, check=True).stdout
        for record, reply in zip(records.cut(heard), records.cut(replies), strict=True):
            book.take(record, reply)
    return len(RULES)


if __name__ == "__main__":
    script.helps(__doc__)
    planted, pocs = test_ledger(), test_pocs()
    print(f"{planted} planted faults found by the ledger, {pocs} POCs by the rule, "
          f"{test_soak()} programs judged, {test_rules()} with another rule for POC")
