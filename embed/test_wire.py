#!/usr/bin/env python3
"""test_wire.py COMMAND..: holds trusshemp_wire.h, through the program test_wire that COMMAND starts, to
tools/lib/records.py, and the names of trusshemp.h to the documents. On every recording of recordings/vectors and
recordings/examples: each well-formed record is written from its fields to its bytes, and each reply is read as
records.py reads it; so are replies that are cut at every byte, and with every byte damaged: each bit flipped, all
clear, all set.

The status is 1 where anything differs, and the line says what.
"""
import os
import pathlib
import re
import struct
import subprocess
import sys

ROOT = pathlib.Path(__file__).resolve().parents[1]
sys.path.insert(0, str(ROOT / "tools"))
from lib import records, recordings, script, tried

BIT_FLIPS = [1 << i for i in range(8)]
# to look for memory that is not given back takes seconds in each run, and is no question here
ENVIRONMENT = os.environ | {"ASAN_OPTIONS": "detect_leaks=0"}


def answers(command, mode, lines):
    """What the program says to these lines, one line each."""
    given = "".join(line + "\n" for line in lines)
    ran = subprocess.run([*command, mode], input=given, capture_output=True, text=True, check=False, env=ENVIRONMENT)
    if ran.returncode != 0 or ran.stderr:
        raise tried.Failed(f"test_wire {mode} ended with {ran.returncode}: {ran.stderr.strip()[-2000:]}")
    return ran.stdout.splitlines()


def compare(command, mode, cases):
    """Each case is what is given, what is expected and what to call it; how many there are."""
    answered = answers(command, mode, [given for given, _, _ in cases])
    if not cases or len(answered) != len(cases):
        raise tried.Failed(f"{len(answered)} answers to {len(cases)} lines")
    for found, (given, expected, name) in zip(answered, cases):
        if found != expected:
            raise tried.Failed(f"{name}: {given}\n  expected {expected}\n  answered {found}")
    return len(cases)


def found_recordings():
    return [r for folder in (recordings.VECTORS, recordings.EXAMPLES) for r in recordings.read(folder)]


def places(recording, messages):
    return [(f"{recording.name}, record {place}", data) for place, data in enumerate(messages, 1)]


# ---- records

def flat(entries):
    """Entries behind their count."""
    return [len(entries), *[number for entry in entries for number in (entry if isinstance(entry, tuple) else [entry])]]


def record_numbers(r):
    """A record as plain numbers: its kind and its fields, with the counts of entries in front of these."""
    kind = records.KINDS.index(r["kind"]) + 1
    if r["kind"] == "configure":
        return [kind, *[r[key] for key in records.LIMITS]]
    if r["kind"] == "begin":
        fields = [r[key] for key in ["nal", "tid", "flags", "lsb", "surface"]]
        return [kind, *fields, *flat(r["neg"]), *flat(r["pos"]), *flat(r["lt"])]
    if r["kind"] == "lists":
        return [kind, *[r[key] for key in ["type", "flags", "a0", "a1"]], *flat(r["e0"]), *flat(r["e1"])]
    return [kind]


def text_of(numbers):
    return " ".join(str(number) for number in numbers)


def written(command):
    """Each well-formed record of the recordings, from its fields."""
    said = [case for r in found_recordings() for case in places(r, r.said)]
    parsed = [(name, data, records.record_of(data)) for name, data in said]
    cases = [(text_of(record_numbers(r)), data.hex().upper(), name) for name, data, r in parsed if r is not None]
    kinds = {r["kind"] for _, _, r in parsed if r is not None}
    if kinds != set(records.KINDS):
        raise tried.Failed(f"no record of {set(records.KINDS) - kinds}")
    return f"{compare(command, 'encode', cases)} records as recorded; none into a smaller buffer"


# ---- replies

def reply_numbers(r):
    """What a reply says, as plain numbers: kind, number, and each run behind its count."""
    of = {"begun": "begin", "lists": "lists"}.get(r["kind"]) or r["of"]
    kind = 511 if of == "?" else 257 + records.KINDS.index(of)
    if r["kind"] == "refused":
        return [kind, r["number"]]
    begun = [r["poc"], r["flags"], r["serial"]] if of == "begin" else []
    runs = records.SETS if of == "begin" else ["l0", "l1"] if of == "lists" else []
    tail = [] if of == "lists" else ["handed", "thrown", "released"]
    return [kind, 0, *begun, *[number for key in [*runs, *tail] for number in flat(r[key])]]


def reply_case(name, data):
    said = records.reply_of(data)
    return data.hex().upper(), text_of(reply_numbers(said)) if said else "not whole", name


def replies_once():
    """Every reply of the recordings that differs from those before it, under the first name that it has."""
    found = {}
    for recording in found_recordings():
        for name, data in places(recording, recording.answered):
            found.setdefault(data, name)
    return [(name, data) for data, name in found.items()]


def read(command):
    """Each reply of the recordings."""
    cases = [reply_case(*place) for r in found_recordings() for place in places(r, r.answered)]
    whole = sum(expected != "not whole" for _, expected, _ in cases)
    if whole != len(cases):
        raise tried.Failed(f"{len(cases) - whole} replies of the recordings are not whole")
    return f"{compare(command, 'read', cases)} replies as records.py reads them"


def cut(command):
    """Every reply, cut at every byte; and with its head changed to say so."""
    cases = []
    for name, data in replies_once():
        for size in range(len(data)):
            cases.append(reply_case(f"{name}, cut to {size} bytes", data[:size]))
            if size >= 4:
                told = struct.pack("<H", size - 4) + data[2:size]
                cases.append(reply_case(f"{name}, cut to {size} bytes as its head says", told))
    return f"{compare(command, 'read', cases)} replies cut short, none read past its end"


def damaged(command):
    """Every reply, with every byte damaged: each bit flipped, all clear, all set."""
    cases = []
    for name, data in replies_once():
        for place, byte in enumerate(data):
            for other in sorted({byte ^ flip for flip in BIT_FLIPS} | {0, 255} - {byte}):
                changed = data[:place] + bytes([other]) + data[place + 1:]
                cases.append(reply_case(f"{name}, byte {place} is {other}", changed))
    whole = sum(expected != "not whole" for _, expected, _ in cases)
    return f"{compare(command, 'read', cases)} damaged replies, {whole} of them whole, none read past its end"


# ---- names

REPLIES = ["CONFIGURED", "BEGUN", "LISTED", "FINISHED", "DRAINED", "DISCARDED", "ENDED", "ABANDONED"]


def bits(prefix, names):
    return {f"TRUSSHEMP_{prefix}_{name}": 1 << bit for bit, name in enumerate(names)}


def values():
    """The value of each name, by where records.py or document 01 has it."""
    kinds = {f"TRUSSHEMP_{name.upper()}": 1 + place for place, name in enumerate(records.KINDS)}
    replies = {f"TRUSSHEMP_{name}": 257 + place for place, name in enumerate(REPLIES)}
    slices = {f"TRUSSHEMP_SLICE_{name}": place for place, name in enumerate(records.SLICES)}
    flags = bits("BEGIN", ["OUTPUT", "NO_PRIOR"]) | bits("LONG", ["USED", "MSB"])
    flags |= bits("LISTS", ["MODIFY_0", "MODIFY_1", "OWN"]) | bits("BEGUN", ["NO_RASL", "OUTPUT", "VALID", "NO_PRIOR"])
    return kinds | replies | slices | flags | {"TRUSSHEMP_NO_KIND": 511, "TRUSSHEMP_MISSING": records.MISSING}


def table(document, start):
    """The second column of a document's table of refusals, by number."""
    text = (ROOT / "docs" / document).read_text().partition(start)[2]
    rows = re.findall(r"^\| (\d+) \| (.*?) \|", text, re.M)
    return {int(number): said for number, said in rows}


def sentences_of_header():
    """The name and the sentence beside it of each refusal in trusshemp.h, by number."""
    text = (ROOT / "embed" / "trusshemp.h").read_text().partition("enum trusshemp_refusal {")[2].partition("};")[0]
    rows = re.findall(r"(TRUSSHEMP_\w+) = (\d+),?\s*/\*(.*?)\*/", text, re.S)
    return {int(number): (name, " ".join(said.split())) for name, number, said in rows}


def words_of_show():
    """The word of the program show for each refusal that a reply can have."""
    text = (ROOT / "crates" / "show" / "src" / "replies.rt").read_text()
    return {int(number): word for number, word in re.findall(r'(\d+) => b"([a-z0-9-]+)"', text)}


def rules():
    """When each number is given: document 01's table, and the sentence of document 02's Item 10."""
    pool = re.search(r"\*\*Item 10\..*?Refusals: 18, (.*?); 19, (.*?); 20, (.*?)\. ",
                     (ROOT / "docs" / "02-change-requests.md").read_text())
    return table("01-scope.md", "## Numbers a session says no with") | dict(zip([18, 19, 20], pool.groups()))


def differing(found, expected):
    """Where two tables differ, in words."""
    return ", ".join(f"{key}: {found.get(key)!r}, not {expected.get(key)!r}"
                     for key in sorted(found.keys() | expected.keys(), key=str) if found.get(key) != expected.get(key))


def same(found, expected, what):
    if found != expected or not found:
        raise tried.Failed(f"{what}: {differing(found, expected)}")


def named(command):
    """The version, and the names of kinds, flags and slice types."""
    version, *lines = answers(command, "names", [])
    _, whole, by_numbers = version.split()
    same({"version": whole}, {"version": by_numbers}, "the version")
    found = dict(line.split() for line in lines if not line.startswith("text "))
    same(found, {name: str(value) for name, value in values().items()}, "names")
    return f"version {whole}, {len(found)} names"


def refusals(command):
    """What trusshemp.h says of each: the rule beside its name, in plain words for a log, and its name, show's word."""
    beside = sentences_of_header()
    same({number: said for number, (_, said) in beside.items()}, rules(), "sentences in trusshemp.h")
    shown = {number: "TRUSSHEMP_" + word.upper().replace("-", "_") for number, word in words_of_show().items()}
    same({number: name for number, (name, _) in beside.items() if number in shown}, shown, "names in trusshemp.h")
    plain = table("INTEGRATING.md", "## Refusals, and what to do") | table("POOL.md", "## What to do at each number")
    same({number: "in both" for number in plain}, {number: "in both" for number in beside}, "tables of refusals")
    texts = [line.split(" ", 2)[1:] for line in answers(command, "names", []) if line.startswith("text ")]
    expected = {number: plain.get(int(number), "unknown number") for number, _ in texts} | {"0": "accepted"}
    same(dict(texts), expected, "trusshemp_refusal_text")
    return f"{len(beside)} in the documents' words"


if __name__ == "__main__":
    script.helps(__doc__)
    if len(sys.argv) < 2:
        print(__doc__, file=sys.stderr)
        sys.exit(2)
    sys.exit(tried.run("wire", [named, refusals, written, read, cut, damaged], sys.argv[1:]))
