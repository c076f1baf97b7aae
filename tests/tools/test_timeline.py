#!/usr/bin/env python3
"""tools/timeline.py, its intervals and its pictures. Status 1 at the first that is not so.

- the intervals of three examples, and of a pool, are those worked out here by hand.
- what is drawn of every example, vector, recording of the Rust and generated recording is well-formed XML, and has for
  each picture begun one bar from its begin to its release, and as many marks as the replies hand out, throw away and
  refuse; these are counted here anew. No two labels of a row overlap.
- a range is the part of the whole.
- each broken recording ends in front of the reply that its file names; files that are cut at any byte or damaged are
  drawn as far as they go.
- the command ends with 0, 1 or 2, and names what is wrong.
"""
import io
import pathlib
import random
import re
import subprocess
import sys
import tempfile
from xml.etree import ElementTree

ROOT = pathlib.Path(__file__).resolve().parents[2]
sys.path[:0] = [str(ROOT / "tools"), str(ROOT / "tests" / "programs")]
import test_ledger
from lib import calls, drawing, exchanges, generate, model, pool_generate, pool_recordings, records, script
from lib import recordings, timeline, tried
from lib.timeline import CURRENT, REFERENCE, WAITING
from lib.tried import Failed

SCRIPT = ROOT / "tools" / "timeline.py"
SVG = "{http://www.w3.org/2000/svg}"

# of each picture serial, surface, POC, handed out by, thrown away by, and its states; by hand, from the text of the
# examples: a state goes from the record that brings it to the one that ends it
WORKED = {
    "first": [
        (0, 7, 0, 7, None, [(CURRENT, 2, 4), (WAITING, 4, 7), (REFERENCE, 7, 8)]),
        (1, 8, 4, 8, None, [(CURRENT, 5, 7), (WAITING, 7, 8)]),
    ],
    "rescan": [
        (0, 1, 0, 4, None, [(CURRENT, 2, 4), (REFERENCE, 4, 8)]),
        (1, 2, 1, 7, None, [(CURRENT, 5, 7), (REFERENCE, 7, 8)]),
        (2, 3, 2, None, 15, [(CURRENT, 10, 15)]),
        (3, 1, 0, 18, None, [(CURRENT, 16, 18), (REFERENCE, 18, None)]),
    ],
    "hierarchical-b": [
        (0, 1, 0, 13, None, [(CURRENT, 2, 4), (WAITING, 4, 13), (REFERENCE, 13, 29)]),
        (1, 2, 8, 29, None, [(CURRENT, 5, 7), (WAITING, 7, 29)]),
        (2, 3, 4, 25, None, [(CURRENT, 8, 10), (WAITING, 10, 25), (REFERENCE, 25, 29)]),
        (3, 4, 2, 19, None, [(CURRENT, 11, 13), (WAITING, 13, 19), (REFERENCE, 19, 23)]),
        (4, 5, 1, 16, None, [(CURRENT, 14, 16), (REFERENCE, 16, 17)]),
        (5, 6, 3, 20, None, [(CURRENT, 17, 19), (WAITING, 19, 20)]),
        (6, 5, 6, 29, None, [(CURRENT, 20, 22), (WAITING, 22, 29)]),
        (7, 6, 5, 26, None, [(CURRENT, 23, 25), (WAITING, 25, 26)]),
        (8, 4, 7, 29, None, [(CURRENT, 26, 28), (WAITING, 28, 29)]),
    ],
}
MOMENTS = {
    "first": [(1, "configure"), (8, "drain")],
    "rescan": [(1, "configure"), (8, "discard"), (9, "end of sequence")],
    "hierarchical-b": [(1, "configure"), (29, "drain")],
}
REFUSED = {"first": [], "rescan": [(11, "lists", 10), (12, "lists", 10), (13, "lists", 10)], "hierarchical-b": []}
# recordings/pool/bus-reset
POOL_DISPLAYS = [(0, 5, 11)]
POOL_REFUSED = [(10, "return", 19), (12, "return", 19)]


def same(name, found, asked):
    if found != asked:
        raise Failed(f"{name}: {found!r:.300}, and {asked!r:.300} is asked")


# ---- timelines

def taken(shown, found):
    for _ in timeline.read(shown, found):
        pass
    return shown


def of_files(said, answered, *limits):
    return taken(timeline.Timeline(*limits), timeline.pairs(io.BytesIO(said), io.BytesIO(answered)))


def of_pool(said, answered, *limits):
    return taken(timeline.PoolTimeline(*limits), exchanges.exchanges(io.BytesIO(said), io.BytesIO(answered)))


def example(name):
    return [(recordings.EXAMPLES / f"{name}.{end}").read_bytes() for end in ("records", "replies")]


def generated(profile, seed, count):
    said = b"".join(generate.recording(profile, seed, count))
    return said, model.run(said)


def whole_files():
    """A name, records and replies, for every recording that is right."""
    for folder in (recordings.EXAMPLES, recordings.VECTORS, recordings.FROM_RUST):
        for recording in filter(recordings.in_stream, recordings.read(folder)):
            yield recording.name, b"".join(recording.said), b"".join(recording.answered)
    for place, profile in enumerate(generate.PROFILES):
        yield profile, *generated(profile, place, 400)


def row(picture):
    states = [tuple(piece) for piece in picture.intervals()]
    return picture.serial, picture.surface, picture.poc, picture.handed, picture.thrown, states


def worked():
    for name, asked in WORKED.items():
        shown = of_files(*example(name))
        same(name, [row(picture) for picture in shown.pictures], asked)
        same(f"{name}, calls", [(at, called) for at, called, _ in shown.moments], MOMENTS[name])
        same(f"{name}, refused", [tuple(refusal) for refusal in shown.refusals], REFUSED[name])
    lists = of_files(*example("hierarchical-b")).lists
    same("the lists of picture 5", [tuple(found) for found in lists if found.serial == 5], [(18, 5, [3, 0], [2, 1])])
    return f"{len(WORKED)} examples"


# ---- what is drawn

class Told:
    """What a recording says of its pictures, from its replies: where each begins and ends, and how many are handed out,
    thrown away and refused."""

    def __init__(self, said, answered):
        self.bars, self.counts, on = {}, {"handed": 0, "thrown": 0, "refused": 0}, {}
        for at, (record, reply) in enumerate(zip(records.cut(said), records.cut(answered)), 1):
            told = records.reply_of(reply)
            self.counts["refused"] += told["kind"] == "refused"
            for name in ("handed", "thrown"):
                self.counts[name] += len(told.get(name, []))
            for surface in told.get("released", []):
                self.bars[on.pop(surface)][1] = at
            if told["kind"] == "begun":
                on[records.record_of(record)["surface"]] = told["serial"]
                self.bars[told["serial"]] = [at, None]


class Drawn:
    """The same, read from a picture: a bar may go on from band to band."""

    def __init__(self, text, first, last):
        self.root = ElementTree.fromstring(text)
        self.bars, self.counts, self.titles, self.fills = {}, {"handed": 0, "thrown": 0, "refused": 0}, {}, {}
        limits, step = drawing.bands(first, last)
        found = [group for group in self.root.iter(f"{SVG}g") if group.get("class") == "band"]
        same("bands", len(found), len(limits))
        for group, limit in zip(found, limits):
            self.band(group, *limit, step)

    def band(self, group, first, last, step):
        for name in self.counts:
            self.counts[name] += sum(1 for mark in group.iter() if mark.get("class") == name)
        for bar in group.iter(f"{SVG}g"):
            if bar.get("class") == "bar":
                self.bar(bar, first, last, step)
        rows = {}
        for label in [found for found in group.iter(f"{SVG}text") if not found.get("fill")]:
            rows.setdefault(label.get("y"), []).append((float(label.get("x")), label.text))
        for labels in rows.values():
            self.apart(sorted(labels))

    @staticmethod
    def apart(labels):
        for (x, said), (further, _) in zip(labels, labels[1:]):
            if x + drawing.width(said) > further:
                raise Failed(f"the labels {said} and the one behind it overlap")

    def bar(self, bar, first, last, step):
        """Its parts touch; None stands for an end at the edge."""
        title = bar.find(f"{SVG}title").text
        serial = int(re.match(r"serial (\d+),", title)[1])
        rects = [(float(rect.get("x")), float(rect.get("width"))) for rect in bar.iter(f"{SVG}rect")]
        for (x, wide), (further, _) in zip(rects, rects[1:]):
            same(f"bar {serial}", abs(x + wide - further) < 0.2, True)
        fills = self.fills.setdefault(serial, [])
        for fill in [rect.get("fill") for rect in bar.iter(f"{SVG}rect")]:
            fills += [fill] if fills[-1:] != [fill] else []
        begins, ends = [round((x - drawing.LEFT) / step + first - 0.5, 1)
                        for x in (rects[0][0], rects[-1][0] + rects[-1][1])]
        begins, ends = None if begins < first else int(begins), None if ends > last else int(ends)
        if serial not in self.bars:
            self.bars[serial], self.titles[serial] = [begins, ends], title
            return
        same(f"bar {serial} in the next band", (self.bars[serial][1], begins), (None, None))
        self.bars[serial][1] = ends


def drawn():
    pictures = 0
    for name, said, answered in whole_files():
        shown = of_files(said, answered)
        told, found = Told(said, answered), Drawn(drawing.svg(shown, name, True), 1, shown.count)
        same(f"{name}, fault", shown.fault, None)
        same(f"{name}, bars", found.bars, told.bars)
        same(f"{name}, marks", found.counts, told.counts)
        same(f"{name}, colours", found.fills,
             {p.serial: [drawing.FILLS[state] for state, _ in p.states] for p in shown.pictures})
        same(f"{name}, twice", drawing.svg(shown, name), drawing.svg(of_files(said, answered), name))
        pictures += len(told.bars)
    return f"{pictures} pictures, each with its bar"


def lists():
    """A curve for each picture that a list names, and a mark for each that is missing."""
    said, answered = generated("chaos", 3, 400)
    told = [records.reply_of(reply) for reply in records.cut(answered)]
    named = [set(reply[key]) for reply in told if reply["kind"] == "lists" for key in ("l0", "l1")]
    missing = sum(records.MISSING in members for members in named)
    root = ElementTree.fromstring(drawing.svg(of_files(said, answered), "chaos", True))
    marks = [found.get("class") for group in root.iter(f"{SVG}g") if group.get("class") == "band"
             for found in group.iter()]
    same("missing", marks.count("missing"), missing)
    same("curves", marks.count("list"), sum(map(len, named)) - missing)
    without = drawing.svg(of_files(said, answered), "chaos")
    same("without --lists", 'class="list"' in without or 'class="missing"' in without, False)
    return f"{marks.count('list')} curves, {missing} missing"


# ---- ranges

def clipped(pair, first, last):
    """A bar's ends in a range; none where it is not seen there."""
    begins, ends = pair
    if begins > last or (ends is not None and ends < first):
        return None
    return [begins if begins >= first else None, ends if ends is not None and ends <= last else None]


def ranges():
    chance, count = random.Random(7), 0
    for profile in ("random-access", "wild", "damaged"):
        said, answered = generated(profile, 1, 500)
        whole = of_files(said, answered)
        everything = Drawn(drawing.svg(whole, profile), 1, whole.count)
        same(f"{profile}, all", drawing.svg(of_files(said, answered, 1, whole.count + 5), profile),
             drawing.svg(whole, profile))
        for _ in range(12):
            first = chance.randrange(1, whole.count)
            last = min(first + chance.choice([0, 3, 40, 300]), whole.count)
            shown = of_files(said, answered, first, last)
            part = Drawn(drawing.svg(shown, profile), first, last)
            asked = {serial: seen for serial, pair in everything.bars.items() if (seen := clipped(pair, first, last))}
            same(f"{profile} {first}:{last}", part.bars, asked)
            same(f"{profile} {first}:{last}, titles", part.titles,
                 {serial: everything.titles[serial] for serial in asked})
            for kind in ("moments", "refusals", "lists"):
                inside = [x for x in getattr(whole, kind) if first <= x.at <= last]
                same(f"{profile} {first}:{last}, {kind}", getattr(shown, kind), inside)
            count += 1
    return f"{count} ranges"


# ---- files that do not go on

def broken():
    """Drawn up to the reply that the recording's file names, as the recording that is cut there is."""
    count = 0
    for path in sorted(recordings.BROKEN.glob("*.txt")):
        asked, said, answered = test_ledger.damaged(path)
        shown = of_files(said, answered)
        same(f"{path.name}, ends before", (shown.count + 1, bool(shown.fault)), (asked.place, True))
        before = [b"".join(list(records.cut(data))[:asked.place - 1]) for data in (said, answered)]
        found = Drawn(drawing.svg(shown, path.stem), 1, shown.count)
        same(f"{path.name}, bars", found.bars, Told(*before).bars)
        same(f"{path.name}, marks", found.counts, Told(*before).counts)
        count += 1
    same("there are broken recordings", count > 20, True)
    return f"{count} broken recordings"


def cut():
    """Files cut at every byte: the other one then goes on. All that is paired is drawn."""
    count = 0
    for name in ("rescan", "hierarchical-b"):
        said, answered = example(name)
        for size in range(len(answered)):
            shown = of_files(said, answered[:size])
            same(f"{name}, {size} bytes of replies", (shown.count, bool(shown.fault)), (wholes(answered[:size]), True))
            Drawn(drawing.svg(shown, name), 1, shown.count)
            count += 1
        for size in range(len(said)):
            shown = of_files(said[:size], answered)
            same(f"{name}, {size} bytes of records", (shown.count, shown.fault),
                 (wholes(said[:size]), "the reply has no record"))
            count += 1
        kept = answered[:-len(list(records.cut(answered))[-1])]
        same(f"{name}, an incomplete last record", of_files(said[:-1], kept).fault, None)
    return f"{count} files"


def wholes(data):
    return sum(map(records.is_whole, records.cut(data)))


def damaged():
    """Any bytes are drawn as far as they go."""
    chance, faults = random.Random(11), 0
    said, answered = generated("wild", 2, 120)
    for _ in range(600):
        files = [bytearray(said), bytearray(answered)]
        for _ in range(chance.choice([1, 1, 3])):
            data = files[chance.random() < 0.8]
            data[chance.randrange(len(data))] = chance.choice([0, 1, 2, 7, 255, chance.randrange(256)])
        shown = of_files(*map(bytes, files))
        Drawn(drawing.svg(shown, "damaged", True), 1, shown.count)
        faults += bool(shown.fault)
    for kind in ("begin", "finish", "?"):
        refusal = records.reply_bytes({"kind": "refused", "of": kind, "number": 7})
        record = b"\0\0\0\0" if kind == "?" else bytes([0, 0, 4, 0])
        same(f"7 to {kind}", bool(of_files(record, refusal).fault), True)
    same("most are found", faults > 300, True)
    return f"600 files, {faults} of them end before"


# ---- pools

def pools():
    shown = of_pool(*[(pool_recordings.FOLDER / f"bus-reset.{end}").read_bytes() for end in ("calls", "answers")])
    same("displays", [tuple(found) for found in shown.displays()], POOL_DISPLAYS)
    same("refused", [tuple(found) for found in shown.refusals], POOL_REFUSED)
    for recording in pool_recordings.read():
        shown = of_pool(b"".join(recording.said), b"".join(recording.answered))
        same(recording.name, (shown.count, shown.fault), (len(recording.said), None))
        Drawn(drawing.svg(shown, recording.name), 1, shown.count)
    for damage in pool_recordings.read_broken():
        shown = of_pool(damage.calls, damage.answers)
        at = [int(found) for found in re.findall(r"(?:reply|call) (\d+)", f"{damage.ledger}\n{damage.pool}")]
        same(damage.name, (shown.count + 1, bool(shown.fault)), (min(at), True))
        Drawn(drawing.svg(shown, damage.name), 1, shown.count)
    return "as they should be"


class ToldByPool:
    """What the answers of a pool say: from when to when the display has a surface, and how many calls are refused."""

    def __init__(self, said, answered):
        self.displays, self.refused, out = [], 0, {}
        for at, (call, answer) in enumerate(zip(records.cut(said), records.cut(answered)), 1):
            number, _, reply = calls.answer_of(answer)
            self.refused += number != 0
            told = records.reply_of(reply) or {}
            for _, surface, _ in told.get("handed", []):
                out[surface] = at
            if calls.is_return(call) and number == 0:
                surface = calls.surface_in(calls.parts(call)[1])
                self.displays.append((surface, out.pop(surface), at))
        self.displays += [(surface, first, None) for surface, first in out.items()]


def generated_pools():
    displays = 0
    for profile, surfaces in (("encoders", 9), ("wild", 20), ("small", 5)):
        heard = list(pool_generate.recording(profile, 1, surfaces, 500))
        said, answered = [b"".join(pair[side] for pair in heard) for side in (0, 1)]
        told, shown = ToldByPool(said, answered), of_pool(said, answered)
        same(f"{profile}, fault", shown.fault, None)
        same(f"{profile}, displays", sorted(map(str, map(tuple, shown.displays()))), sorted(map(str, told.displays)))
        found = Drawn(drawing.svg(shown, profile), 1, shown.count)
        same(f"{profile}, refused", found.counts["refused"], told.refused)
        part = of_pool(said, answered, 100, 120)
        inside = {found for found in told.displays if clipped(found[1:], 100, 120)}
        same(f"{profile}, a range", set(map(tuple, part.displays())), inside)
        Drawn(drawing.svg(part, profile), 100, 120)
        displays += len(told.displays)
    return f"{displays} pictures at the display"


# ---- the command

def ended(*words, **ends):
    ends = {"stdout": subprocess.PIPE} | ends
    command = [sys.executable, str(SCRIPT), *map(str, words)]
    done = subprocess.run(command, stderr=subprocess.PIPE, timeout=60, check=False, **ends)
    return done.returncode, done.stderr.decode(errors="surrogateescape"), done.stdout


def command():
    files = [recordings.EXAMPLES / f"rescan.{end}" for end in ("records", "replies")]
    whole = drawing.svg(of_files(*example("rescan")), "rescan.records")
    same("drawn", ended(*files), (0, "", whole.encode()))
    status, wrong, text = ended(*files[::-1])
    same("changed about", (status, wrong), (1, f"timeline.py: {files[0]}, reply 1: the reply is not well-formed; "
                                               "drawn up to there\n"))
    ElementTree.fromstring(text)
    same("--help", (ended("--help")[0], ended("--help")[1]), (0, ""))
    same("no file", ended("no-such", files[1]), (2, "timeline.py: no-such: No such file or directory\n", b""))
    same("a folder", ended(files[0], "/"), (2, "timeline.py: /: Is a directory\n", b""))
    same("behind the end", ended("--range", "19:20", *files),
         (2, f"timeline.py: {files[0]} has 18 records, and none from 19 on\n", b""))
    for words in (["--range", "0:3"], ["--range", "3:2"], ["--range", "3"], ["--range", "1:10001"], ["--bad"], ["x"]):
        status, wrong, text = ended(*words, *files)
        same(f"{words}", (status, text, words[-1] in wrong), (2, b"", True))
    same("one file", ended(files[0])[0], 2)
    with open("/dev/full", "wb") as full:
        same("a full disk", ended(*files, stdout=full)[:2], (2, "timeline.py: standard output can't be written\n"))
    return "as it should be"


def names():
    """Any name of a file, and more records than are drawn at once."""
    with tempfile.TemporaryDirectory() as folder:
        odd = pathlib.Path(folder, "a<b>&\"'\x01\udcff.records")
        odd.write_bytes(example("first")[0])
        status, wrong, text = ended(odd, recordings.EXAMPLES / "first.replies")
        same("an odd name", (status, wrong), (0, ""))
        titles = [found.text for found in ElementTree.fromstring(text).findall(f"{SVG}title")]
        same("its title", titles, ["Timeline of a<b>&\"'??.records"])
        same("an odd name of no file", ended(f"{odd}?", odd),
             (2, f"timeline.py: {odd}?: No such file or directory\n", b""))
        files = pathlib.Path(folder, "long.records"), pathlib.Path(folder, "long.replies")
        for path, data in zip(files, (bytes([0, 0, 7, 0]), bytes([5, 0, 7, 1, 0, 0, 0, 0, 0]))):
            path.write_bytes(data * (drawing.MOST + 1))
        same("too long", ended(*files),
             (2, f"timeline.py: {files[0]} has more than 10000 records: give --range FIRST:LAST\n", b""))
        status, wrong, text = ended("--range", "9999:10004", *files)
        same("its end", (status, wrong, text.count(b'class="moment"')), (0, "", 3))
        same("nothing else is written", len(list(pathlib.Path(folder).iterdir())), 3)
    return "as they should be"


TESTS = [worked, drawn, lists, ranges, broken, cut, damaged, pools, generated_pools, command, names]

if __name__ == "__main__":
    script.helps(__doc__)
    sys.exit(tried.run("timeline", TESTS))
