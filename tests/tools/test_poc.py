#!/usr/bin/env python3
"""tools/poc.py, and the rule of docs/POC.md in lib/poc.py. Status 1 at the first that is not so.

- the POCs of the example poc are those worked out here by hand.
- every POC of the vectors, the examples, the recordings of the Rust, and of the model's replies to generated records of
  every profile is the rule's; they are counted here anew.
- `nearest` is the only number of its definition, found by looking at all, and the POC of clause 8.3.1's own text.
- each wrong rule, the rule with one edit, gives a picture of the vectors or examples another POC; nearly all do so in
  the example poc alone.
- every POC of the recordings of a pool and of generated calls of pools is the rule's too, and a wrong one is found at
  its own call.
- the rule stands alone: it imports nothing, and is as short as is said.
- the command ends with 0, 1 or 2, and names what is wrong; of files that are cut at any byte, broken or damaged it says
  as much as can be told.
"""
import ast
import io
import os
import pathlib
import random
import signal
import struct
import subprocess
import sys
import tempfile

ROOT = pathlib.Path(__file__).resolve().parents[2]
sys.path.insert(0, str(ROOT / "tools"))
import poc as script_poc
from lib import calls, exchanges, generate, model, poc, pool_generate, pool_recordings, recordings, records, script
from lib import timeline, tried
from lib.tried import Failed

SCRIPT = ROOT / "tools" / "poc.py"
RULE = ROOT / "tools" / "lib" / "poc.py"

# of each picture of the example poc: M, lsb, what it goes on from, and its POC; by hand, from document 01, step 2
ANEW, NONE = "IRAP with NoRaslOutputFlag", "none before"
WORKED = [
    (16, 0, ANEW, 0),
    (16, 9, "previous 0", -7),
    (16, 1, "previous -7", 1),
    (16, 12, "previous 1", -4),
    (16, 9, "previous 1", 9),
    (16, 2, "previous 1", 2),
    (16, 5, "previous 2", 5),
    (16, 15, "previous 2", -1),
    (32, 13, NONE, 13),
    (32, 29, "previous 13", 29),
    (32, 0, ANEW, 0),
    (32, 20, ANEW, 20),
    (32, 3, "previous 20", 35),
    (32, 19, "previous 35", 51),
    (32, 3, "previous 51", 67),
    (32, 4, "previous 51", 36),
    (32, 1, "previous 36", 33),
    (32, 18, "previous 36", 50),
    (32, 30, "previous 50", 62),
    (16, 3, NONE, 3),
    (16, 11, "previous 3", 11),
    (16, 12, "previous 3", -4),
]
# document 01, "Numbers to try": M, previous lsb q and MSB Q, lsb, and the POC
NUMBERS = [
    (16, 12, 0, 4, 20),
    (16, 12, 0, 5, 5),
    (16, 4, 0, 12, 12),
    (16, 4, 0, 13, -3),
    (16, 12, 0, 12, 12),
    (65536, 65535, 0, 0, 65536),
]
GENERATED = 40000
MOST_LINES = 12


def same(name, found, asked):
    if found != asked:
        raise Failed(f"{name}: {found!r:.300}, and {asked!r:.300} is asked")


# ---- recordings

def paired(folder):
    """The recordings of a folder: a name, and each record with its reply."""
    return [(found.name, list(zip(found.said, found.answered))) for found in recordings.read(folder)]


def generated():
    """The same of each profile, answered by the model."""
    for profile in generate.PROFILES:
        said = b"".join(generate.recording(profile, 12, GENERATED // len(generate.PROFILES) + 1))
        yield profile, list(zip(records.cut(said), records.cut(model.run(said))))


def given(exchanges, told=poc.told):
    """For each accepted begin: M, the previous POC or none, the one that the rule gives, and the reply's."""
    notes, found = poc.NOTHING, []
    for record, reply in exchanges:
        (m, _, previous), (notes, value) = notes, told(notes, record, reply)
        said = records.reply_of(reply)
        same("a POC for each accepted begin and for nothing else", value is not None, said["kind"] == "begun")
        if value is not None:
            found.append((m, previous, value, said["poc"]))
    return found


def worked():
    pictures = given(dict(paired(recordings.EXAMPLES))["poc"])
    same("by the rule", [value for _, _, value, _ in pictures], [value for *_, value in WORKED])
    same("by the replies", [value for *_, value in pictures], [value for *_, value in WORKED])
    return f"{len(WORKED)} pictures"


def every():
    """No reply has another POC than the rule gives; among them are ties and negative ones."""
    folders = (recordings.VECTORS, recordings.EXAMPLES, recordings.FROM_RUST)
    found, count = [], 0
    for name, exchanges in [*(pair for folder in folders for pair in paired(folder)), *generated()]:
        for m, previous, value, said in (pictures := given(exchanges)):
            same(f"{name}, M {m}, previous {previous}", said, value)
        found += pictures
        count += len(exchanges)
    on = [value - previous == m // 2 for m, previous, value, _ in found if previous is not None]
    below = sum(value < 0 for _, _, value, _ in found)
    same("enough", (count > GENERATED, len(on) > 5000, sum(on) > 100, below > 100), (True,) * 4)
    return f"{len(found)} POCs of {count} records, {sum(on)} on a tie, {below} negative"


# ---- one number

def window(m, p, lsb):
    """The definition, by looking at all numbers around p."""
    return [v for v in range(p - 2 * m, p + 2 * m + 1) if (v - lsb) % m == 0 and -m < 2 * (v - p) <= m]


def nearest():
    """For M = 16 and 32 every lsb and many p, and for each k some by chance."""
    tried_here = [(1 << k, p, lsb) for k in (4, 5) for p in range(-100, 101) for lsb in range(1 << k)]
    chance = random.Random(12)
    for k in range(4, 17):
        tried_here += [(1 << k, chance.randrange(-2**31, 2**31), chance.randrange(1 << k)) for _ in range(12)]
    for m, p, lsb in tried_here:
        same(f"M {m}, p {p}, lsb {lsb}", window(m, p, lsb), [poc.nearest(m, p, lsb)])
    return f"{len(tried_here)} windows, each with one number"


def clause_8_3_1(most, previous_lsb, previous_msb, lsb):
    """PicOrderCntVal by (8-1) and (8-2), word for word; `most` is MaxPicOrderCntLsb."""
    if (lsb < previous_lsb) and ((previous_lsb - lsb) >= (most / 2)):
        msb = previous_msb + most
    elif (lsb > previous_lsb) and ((lsb - previous_lsb) > (most / 2)):
        msb = previous_msb - most
    else:
        msb = previous_msb
    return msb + lsb


def clause():
    """The previous POC is its MSB, a multiple of M, and its lsb."""
    cases = [(1 << k, q, msb << k, lsb) for k in (4, 5, 6) for msb in range(-3, 4)
             for q in range(1 << k) for lsb in range(1 << k)]
    chance = random.Random(265)
    for k in range(4, 17):
        m, far = 1 << k, 2**31 >> k
        cases += [(m, chance.randrange(m), chance.randrange(-far, far) * m, chance.randrange(m)) for _ in range(2000)]
    for m, q, msb, lsb in cases:
        same(f"M {m}, q {q}, Q {msb}, lsb {lsb}", poc.nearest(m, msb + q, lsb), clause_8_3_1(m, q, msb, lsb))
    for m, q, msb, lsb, value in NUMBERS:
        found = poc.nearest(m, msb + q, lsb), clause_8_3_1(m, q, msb, lsb)
        same(f"M {m}, q {q}, Q {msb}, lsb {lsb}", found, (value, value))
    return f"{len(cases)} previous pictures, and {len(NUMBERS)} of document 01"


# ---- wrong rules

# what is wrong, and for each text that is changed the old and the new
EDITS = [
    ("the tie goes down", "p + m // 2 - (p + m // 2 - lsb) % m", "p - m // 2 + (lsb - p + m // 2) % m"),
    ("begin makes the previous picture", "(m, poc if flags & 4 else None, previous)",
     "(m, None, poc if flags & 4 else previous)"),
    ("configure keeps the previous picture", "(1 << record[4], None, None)", "(1 << record[4], None, previous)"),
    ("configure keeps M", "(1 << record[4], None, None)", "(1 << record[4] if m == 1 else m, None, None)"),
    ("abandon makes the previous picture", "in (4, 5)", "in (4, 5, 8)"),
    ("discard makes the previous picture", "in (4, 5)", "in (4, 5, 6)"),
    ("drain does not finish", "in (4, 5)", "in (4,)"),
    ("drain forgets the previous picture", "finished else previous", "finished else None if kind == 5 else previous"),
    ("discard forgets the previous picture", "finished else previous", "finished else None if kind == 6 else previous"),
    ("abandon forgets the previous picture", "finished else previous", "finished else None if kind == 8 else previous"),
    ("a picture that is not valid becomes the previous one", "poc if flags & 4 else None", "poc"),
    ("a picture that is not valid leaves none before", "current if finished else", "current if kind == 4 else"),
    ("IRAP with NoRaslOutputFlag goes on", "(16 <= record[4] <= 21 and flags & 1)", "False"),
    ("IRAP without NoRaslOutputFlag starts anew", "(16 <= record[4] <= 21 and flags & 1)", "16 <= record[4] <= 21"),
    ("NoRaslOutputFlag without IRAP starts anew", "(16 <= record[4] <= 21 and flags & 1)", "flags & 1"),
    ("end of sequence drops the current picture", "kind in (3, 7)", "kind == 3"),
    ("end of sequence finishes the current picture", "kind in (3, 7)", "kind == 3", "in (4, 5)", "in (4, 5, 7)"),
    ("lists drop the current picture", "kind in (3, 7)", "kind == 7"),
    ("a refused configure counts", "if u16(reply, 4) or", "if u16(reply, 4) and kind != 1 or"),
    ("a refused finish counts", "if u16(reply, 4) or", "if u16(reply, 4) and kind != 4 or"),
    ("a refused drain counts", "if u16(reply, 4) or", "if u16(reply, 4) and kind != 5 or"),
    ("a POC below 0 is read as one above", '"little", signed=True', '"little"'),
]
# the example poc has no lists, and refuses a begin only
ELSEWHERE = ["lists drop the current picture", "a refused configure counts", "a refused finish counts",
             "a refused drain counts"]


def edited(changes):
    """`told` of the rule's file with these texts changed."""
    text, made = RULE.read_text(), {}
    for old, new in zip(changes[::2], changes[1::2]):
        same(f"how often '{old}' stands in {RULE.name}", text.count(old), 1)
        text = text.replace(old, new)
    exec(text, made)
    return made["told"]


def finds(exchanges, told):
    return any(value != said for _, _, value, said in given(exchanges, told))


def wrong_rules():
    found = paired(recordings.VECTORS) + paired(recordings.EXAMPLES)
    same("the rule itself", [name for name, exchanges in found if finds(exchanges, poc.told)], [])
    elsewhere = []
    for what, *changes in EDITS:
        finding = [name for name, exchanges in found if finds(exchanges, edited(changes))]
        if not finding:
            raise Failed(f"no vector or example finds that {what}")
        elsewhere += [] if "poc" in finding else [what]
    same("not found by the example poc", elsewhere, ELSEWHERE)
    return f"{len(EDITS)} found, {len(EDITS) - len(elsewhere)} of them by the example poc"


def alone():
    """As short as docs/POC.md says, and without any other file."""
    tree = ast.parse(RULE.read_text())
    imports = [node for node in ast.walk(tree) if isinstance(node, (ast.Import, ast.ImportFrom))]
    same("imports", len(imports), 0)
    bodies = {node.name: node.body[1:] for node in tree.body if isinstance(node, ast.FunctionDef)}
    sizes = {name: bodies[name][-1].end_lineno - bodies[name][0].lineno + 1 for name in ("nearest", "told")}
    same("lines", (sizes["nearest"], sizes["told"] <= MOST_LINES), (1, True))
    return f"nothing imported, {sizes['told']} lines and one"


# ---- files

def files_of(name):
    return [recordings.EXAMPLES / f"{name}.{end}" for end in ("records", "replies")]


def example(name):
    return [path.read_bytes() for path in files_of(name)]


def of_files(said, answered):
    """The lines of two files, how many exchanges were taken, and what ended them."""
    shown, lines = script_poc.Pocs(), []
    for _ in timeline.read(shown, timeline.pairs(io.BytesIO(said), io.BytesIO(answered))):
        lines.append(shown.line)
    return "".join(lines), shown.count, shown.fault


def text_of(pictures):
    lines = [f"picture {serial}: M {m}, lsb {lsb}, {origin}: POC {value}\n"
             for serial, (m, lsb, origin, value) in enumerate(pictures)]
    return "".join(lines)


def wholes(data):
    return sum(map(records.is_whole, records.cut(data)))


def cut():
    """Files cut at every byte: the other one then goes on. Of what is paired each line is there."""
    said, answered = example("poc")
    whole, count, fault = of_files(said, answered)
    same("whole", (whole, count, fault), (text_of(WORKED), wholes(said), None))
    for size in range(len(answered)):
        text, count, fault = of_files(said, answered[:size])
        left = size - len(b"".join(list(records.cut(answered))[:count]))
        same(f"{size} bytes of replies", (count, fault, whole.startswith(text)),
             (wholes(answered[:size]), "the reply breaks off" if left else "the record has no reply", True))
    for size in range(len(said)):
        text, count, fault = of_files(said[:size], answered)
        same(f"{size} bytes of records", (count, fault, whole.startswith(text)),
             (wholes(said[:size]), "the reply has no record", True))
    kept = answered[:-len(list(records.cut(answered))[-1])]
    same("an incomplete last record", of_files(said[:-1], kept), (whole, wholes(kept), None))
    return f"{len(said) + len(answered)} files"


def flipped():
    """Every bit of every POC of the example: found at its own reply, with both POCs."""
    said, answered = example("poc")
    replies, tries = list(records.cut(answered)), 0
    begins = [at for at, reply in enumerate(replies) if records.reply_of(reply)["kind"] == "begun"]
    for serial, at in enumerate(begins):
        for bit in range(32):
            damaged = bytearray(replies[at])
            damaged[6 + bit // 8] ^= 1 << bit % 8
            text, count, fault = of_files(said, b"".join([*replies[:at], damaged, *replies[at + 1:]]))
            value, asked = struct.unpack_from("<i", damaged, 6)[0], WORKED[serial][-1]
            words = f"picture {serial}: POC {value}, and the rule of docs/POC.md gives {asked}"
            same(f"picture {serial}, bit {bit}", (text, count, fault), (text_of(WORKED[:serial]), at, words))
            tries += 1
    return f"{tries} bits"


def damaged():
    """Any bytes are read as far as they go; so are the broken recordings."""
    chance, faults = random.Random(11), 0
    said = b"".join(generate.recording("wild", 2, 120))
    answered = model.run(said)
    for _ in range(1500):
        files = [bytearray(said), bytearray(answered)]
        for _ in range(chance.choice([1, 1, 3])):
            data = files[chance.random() < 0.8]
            data[chance.randrange(len(data))] = chance.choice([0, 1, 2, 7, 255, chance.randrange(256)])
        faults += bool(of_files(*map(bytes, files))[2])
    for _ in range(300):
        of_files(*[chance.randbytes(chance.randrange(60)) for _ in range(2)])
    for path in sorted(recordings.BROKEN.glob("*.txt")):
        for _, *files in recordings.halves(path):
            of_files(*files)
    same("some are found", faults > 300, True)
    return f"1500 files, {faults} of them end before"


# ---- pools

# recordings/pool/bus-reset, as WORKED
RESET = [
    (16, 0, ANEW, 0),
    (16, 1, "previous 0", 1),
    (16, 2, "previous 1", 2),
    (16, 5, ANEW, 5),
    (16, 6, "previous 5", 6),
]


def of_pool(said, answered):
    shown, lines = script_poc.Pocs(timeline.PoolTimeline.words), []
    for _ in timeline.read(shown, exchanges.exchanges(io.BytesIO(said), io.BytesIO(answered))):
        lines.append(shown.line)
    return "".join(lines), shown.count, shown.fault


def begun_in(answer):
    """Whether it is that of an accepted begin."""
    reply = not calls.is_return(answer) and records.reply_of(calls.answer_of(answer)[2])
    return bool(reply) and reply["kind"] == "begun"


def one_off(answer):
    """The answer of an accepted begin with another POC: the lowest bit of it is the other."""
    number, surface, reply = calls.answer_of(answer)
    changed = bytearray(reply)
    changed[6] ^= 1
    return calls.answer_bytes(calls.parts(answer)[0], number, surface, bytes(changed))


def pools():
    """Calls of a pool and their answers: those by hand, and generated ones with their right answers and a wrong one."""
    files = [(pool_recordings.FOLDER / f"bus-reset.{end}").read_bytes() for end in ("calls", "answers")]
    same("bus-reset", of_pool(*files)[::2], (text_of(RESET), None))
    heard = [list(zip(recording.said, recording.answered)) for recording in pool_recordings.read()]
    heard += [list(pool_generate.recording(profile, 12, 5, 700)) for profile in pool_generate.PROFILES]
    pictures = 0
    for exchanged in heard:
        said, answered = map(list, zip(*exchanged))
        begins = [at for at, answer in enumerate(answered) if begun_in(answer)]
        text, count, fault = of_pool(b"".join(said), b"".join(answered))
        same("a pool", (text.count("\n"), count, fault), (len(begins), len(said), None))
        last = begins[-1]
        answered[last] = one_off(answered[last])
        _, count, fault = of_pool(b"".join(said), b"".join(answered))
        same("a wrong POC", (count, "and the rule of docs/POC.md gives" in fault), (last, True))
        pictures += len(begins)
    return f"{pictures} pictures of {len(heard)} pools"


# ---- the command

def ended(*words, **ends):
    ends = {"stdout": subprocess.PIPE} | ends
    command = [sys.executable, str(SCRIPT), *map(str, words)]
    done = subprocess.run(command, stderr=subprocess.PIPE, timeout=60, check=False, **ends)
    return done.returncode, done.stderr.decode(errors="surrogateescape"), (done.stdout or b"").decode()


def command():
    said, answered = files_of("poc")
    same("the example", ended(said, answered), (0, "", text_of(WORKED)))
    for words in (["--help"], [said, "--help"]):
        status, wrong, text = ended(*words)
        same("--help", (status, wrong, "poc.py RECORDS REPLIES" in text), (0, "", True))
    same("no file", ended("no-such", answered), (2, "poc.py: no-such: No such file or directory\n", ""))
    same("no replies", ended(said, "no-such"), (2, "poc.py: no-such: No such file or directory\n", ""))
    same("a folder", ended(said, "/"), (2, "poc.py: /: Is a directory\n", ""))
    for words in ([], [said], [said, answered, answered]):
        status, wrong, text = ended(*words)
        same(f"{len(words)} words", (status, text, "poc.py RECORDS REPLIES" in wrong), (2, "", True))
    same("changed about", ended(answered, said), (1, f"poc.py: {said}, reply 1: the reply is not well-formed\n", ""))
    same("nothing", ended("/dev/null", "/dev/null"), (0, "", ""))
    pool = [pool_recordings.FOLDER / f"bus-reset.{end}" for end in ("calls", "answers")]
    same("a pool", ended("--pool", *pool), (0, "", text_of(RESET)))
    same("no pool", ended("--pool", *files_of("poc")), (1, f"poc.py: {answered}, answer 1: the call has no answer\n", ""))
    begin = [b"".join(list(records.cut(data))[1:2]) for data in example("poc")]
    same("no configure", of_files(*begin), ("", 0, "a begin was accepted before any configure"))
    return "as it should be"


def ends():
    """Standard output that takes nothing, and a reader of it that goes away."""
    files = files_of("poc")
    with open("/dev/full", "wb") as full:
        same("a full disk", ended(*files, stdout=full)[:2], (2, "poc.py: standard output can't be written\n"))
    out, into = os.pipe()
    os.close(out)
    same("a reader that goes away", ended(*files, stdout=into)[:2], (-signal.SIGPIPE, ""))
    os.close(into)
    words = ["sh", "-c", 'exec "$@" >&-', "sh", sys.executable, str(SCRIPT), *map(str, files)]
    done = subprocess.run(words, stderr=subprocess.PIPE, timeout=60, check=False)
    same("closed", (done.returncode, done.stderr), (2, b"poc.py: standard output can't be written\n"))
    return "as they should be"


def wrong_files():
    """Replies that are not those of the example: the file, the reply and what is wrong, behind the lines before it."""
    said, answered = files_of("poc")
    replies = list(records.cut(answered.read_bytes()))
    tie = records.reply_bytes(records.reply_of(replies[5]) | {"poc": -15})
    refused = records.reply_bytes(records.reply_of_text("refused finish 4"))
    cases = [
        ([*replies[:5], tie, *replies[6:]], 2, "reply 6: picture 2: POC -15, and the rule of docs/POC.md gives 1"),
        ([*replies[:3], replies[2], *replies[4:]], 1, "reply 4: the reply is to another kind of record"),
        ([*replies[:3], refused, *replies[4:]], 1, "reply 4: the refusal is to another kind of record"),
        ([*replies[:3], b"\x02\x00\x02\x01\x00\x00"], 1, "reply 4: the reply is not well-formed"),
        # without the refusal: the next reply, POC 9, stands behind the begin that was refused
        ([*replies[:9], *replies[10:]], 4, "reply 10: a begin was accepted with lsb 16, which is not below M, 16"),
        (replies[1:], 0, "reply 1: the reply is to another kind of record"),
        (replies[:-1], len(WORKED), f"reply {len(replies)}: the record has no reply"),
        ([*replies[:-1], replies[-1][:-1]], len(WORKED), f"reply {len(replies)}: the reply breaks off"),
        ([*replies, replies[-1]], len(WORKED), f"reply {len(replies) + 1}: the reply has no record"),
    ]
    with tempfile.TemporaryDirectory() as folder:
        path = pathlib.Path(folder, "a night\udcff.replies")
        for pieces, lines, words in cases:
            path.write_bytes(b"".join(pieces))
            same(words, ended(said, path), (1, f"poc.py: {path}, {words}\n", text_of(WORKED[:lines])))
        for size in range(0, answered.stat().st_size, 23):
            path.write_bytes(answered.read_bytes()[:size])
            status, wrong, text = ended(said, path)
            same(f"{size} bytes", (status, wrong.count("\n"), text_of(WORKED).startswith(text)), (1, 1, True))
            same(f"{size} bytes", wrong.startswith(f"poc.py: {path}, reply "), True)
    return f"{len(cases)} files"


def memory():
    """A file of 300 MB, its records as long as a head can say, read with 150 MB of memory."""
    with tempfile.TemporaryDirectory() as folder:
        said, answered = pathlib.Path(folder, "long.records"), pathlib.Path(folder, "long.replies")
        with said.open("wb") as file:
            for _ in range(4600):
                file.write(b"\xff\xff\x09\x00")
                file.seek(65535, os.SEEK_CUR)
            file.truncate(file.tell())
        answered.write_bytes(records.reply_bytes(records.reply_of_text("refused ? 13")) * 4600)
        limited = ["sh", "-c", 'ulimit -v 150000 && exec "$@"', "sh", sys.executable]
        done = subprocess.run([*limited, str(SCRIPT), said, answered], capture_output=True, timeout=60, check=False)
        same("read", (done.returncode, done.stdout, done.stderr), (0, b"", b""))
        held = [*limited, "-c", f"open({str(said)!r}, 'rb').read()"]
        same("held at once", subprocess.run(held, capture_output=True, timeout=60, check=False).returncode, 1)
        return f"{said.stat().st_size} bytes"


TESTS = [worked, every, nearest, clause, wrong_rules, alone, cut, flipped, damaged, pools, command, ends, wrong_files,
         memory]

if __name__ == "__main__":
    script.helps(__doc__)
    sys.exit(tried.run("poc", TESTS))
