#!/usr/bin/env python3
"""The pool in python, the files of its calls and answers, and `ledger --pool` with a stand-in for the ledger. Status 1
at the first that is not so.

- lib/pool.py answers recordings/pool as asked, also as files; makes a pool of 1 to 64 surfaces and no other; gives 14
  before 13 and 18; and is left as before by every call that it refuses.
- calls and answers are the same bytes after they were text, and are cut at any byte.
- the records and replies that stand for calls and answers are those worked out here by hand; each file of
  recordings/pool/broken gets its lines, generated calls are kept.
- tools/pool_ledger.py passes on what the ledger says, at any length, and ends with 0, 1 or 2.
"""
import copy
import io
import os
import pathlib
import random
import signal
import subprocess
import sys
import tempfile
import time

ROOT = pathlib.Path(__file__).resolve().parents[2]
sys.path.insert(0, str(ROOT / "tools"))
from lib import calls, exchanges, pool, pool_generate, pool_recordings, records, script, tried
from lib.tried import Failed

BEGIN = "begin nal=19 surface=7"
CONFIGURE = "configure k=4 capacity=4 buffering=4 reorder=0 latency=0"
SCRIPT = ROOT / "tools" / "pool_ledger.py"
# as the program ledger: an exchange at a time, the accounts at the end
STAND_IN = f"""
import sys
sys.path.insert(0, {str(ROOT / "tools")!r})
from lib import calls, ledger, records
said, answered = [open(name, "rb") for name in sys.argv[1:]]
book, count = ledger.Ledger(), 0
while True:
    count += 1
    record, reply = calls.take(said), calls.take(answered)
    if not records.is_whole(record) or not records.is_whole(reply):
        part = 18 if reply and records.is_whole(reply) else 1 if reply else 17 if records.is_whole(record) else 0
        break
    try:
        book.take(record, reply)
    except ledger.Fault as fault:
        part = str(fault)
        break
print(f"broken at reply {{count}}: (part {{part}})" if part else f"kept: {{count - 1}} exchanges")
"""


def same(name, found, asked):
    if found != asked:
        raise Failed(f"{name}: {found!r:.300}, and {asked!r:.300} is asked")


def record(text):
    return records.record_bytes(records.record_of_text(text))


# ---- the pool

def vectors():
    found = pool_recordings.read()
    for recording in found:
        for line in pool_recordings.model_differences(recording):
            raise Failed(line)
        (said, _), (answered, _) = recording.files()
        same(recording.name, pool.run(recording.surfaces, said.read_bytes()), answered.read_bytes())
    same("some recordings", len(found) > 8, True)
    return f"{len(found)} recordings, {sum(len(r.said) for r in found)} calls"


def state(made):
    return copy.deepcopy((made.session.__dict__, made.pending))


def makes():
    """"20, a pool asked for with 0 or more than 64 surfaces, which makes none"."""
    for surfaces in range(1, 65):
        made = pool.Pool()
        same(f"make {surfaces}", (made.make(surfaces), made.free()), (0, list(range(surfaces))))
    made = pool.made(2)
    for text in (CONFIGURE, BEGIN, "finish"):
        made.step(record(text))
    before = state(made)
    for surfaces in (0, 65, 128, 256, 2**32 - 1):
        same(f"make {surfaces}", (made.make(surfaces), state(made)), (20, before))
    same("make again", (made.make(3), made.free(), made.give_back(0)), (0, [0, 1, 2], 19))
    never = pool.Pool()
    same("a pool that was not made", (never.step(record(BEGIN))[0], never.give_back(0)), (18, 19))
    return "64 sizes, and 20"


def fourteen():
    """"18 .. after 14 and 13": a reply buffer under 512 bytes comes first, and nothing is written."""
    made = pool.made(1)
    for text in (CONFIGURE, BEGIN):
        made.step(record(text))
    before = state(made)
    malformed = record("raw 00 00 02 00")
    for room in (0, 1, 511):
        for data in (record(BEGIN), malformed, record("drain"), b""):
            same(f"room {room}", (made.step(data, room), state(made)), ((14, b"", 64), before))
    refused = bytes([2, 0, 2, 1, 18, 0])
    for room in (512, 513, 65536):
        same(f"room {room}", made.step(record(BEGIN), room), (18, refused, 64))
        same(f"room {room}, malformed", made.step(malformed, room), (13, bytes([2, 0, 255, 1, 13, 0]), 64))
        same("the pool", state(made), before)
    return "14, 13, 18"


def refusals():
    """"None of them changes the pool or the session"; "A begin refused by the session leaves the pool as before"."""
    count = 0
    for profile in ("wild", "limits"):
        for surfaces in (1, 3):
            made = pool.made(surfaces)
            for call, answer in pool_generate.recording(profile, 7, surfaces, 500):
                before = state(made)
                same("the answer", pool.answer_to(made, call), answer)
                if calls.answer_of(answer)[0] != 0:
                    count += 1
                    same("the pool", state(made), before)
    return f"{count} refused calls"


def seven():
    """"number 7 never comes through it"; "the call answers that number .., or 64 if no begin was accepted"."""
    count, begun = 0, 0
    for surfaces in (1, 2, 5, 17, 64):
        watch = exchanges.Watch()
        for call, answer in pool_generate.recording("wild", 3, surfaces, 600):
            count, begun = count + 1, begun + (calls.answer_of(answer)[1] < surfaces)
            watch.take((call, answer))
        same(f"{surfaces} surfaces", watch.line, "")
    return f"{count} calls, {begun} pictures begun"


# ---- files and text

def texts():
    """Packing what was unpacked gives the same bytes, and a file is cut alike by both readers."""
    rng, count = random.Random(10), 0
    heard = [pair for surfaces in (1, 17) for pair in pool_generate.recording("limits", 2, surfaces, 400)]
    forms = ((calls.call_of_text, calls.call_text), (calls.answer_of_text, calls.answer_text))
    for which, (of_text, to_text) in enumerate(forms):
        for data in [pair[which] for pair in heard]:
            damaged = bytearray(data)
            damaged[rng.randrange(len(data))] ^= 1 << rng.randrange(8)
            for piece in (data, bytes(damaged), data[:rng.randrange(len(data))], data + data[:5]):
                text = records.unpack(piece, calls.some, to_text)
                same("packed", records.pack(text, of_text, calls.to_bytes), piece)
                stream = io.BytesIO(piece)
                same("taken", list(iter(lambda: calls.take(stream), b"")), list(records.cut(piece)))
                count += 1
    return f"{count} pieces"


def bodies():
    for body, surface in ((b"", 0), (b"\1", 1), (b"\0\1", 256), (b"\1\0\0\0\7", 1), (b"\xff" * 9, 2**32 - 1)):
        same(f"return {body!r}", calls.surface_in(body), surface)
    same("a return", calls.return_call(3), bytes([4, 0, 1, 0, 3, 0, 0, 0]))
    same("a record", calls.record_call(record("drain")), bytes([4, 0, 0, 0, 0, 0, 5, 0]))
    same("an answer", calls.answer_bytes(1, 19, 64), bytes([4, 0, 1, 0, 19, 0, 64, 0]))
    for data in ([3, 0, 0, 0, 0, 0, 64], [5, 0, 1, 0, 0, 0, 64, 0, 0], [4, 0, 2, 0, 0, 0, 64, 0]):
        same("no answer", calls.answer_of(bytes(data)), None)
    return "by hand"


# ---- records and replies for the ledger

SAID = """
configure k=4 capacity=4 buffering=4 reorder=0 latency=0
begin nal=19 surface=7
begin nal=19 surface=4294967295
return 0
raw 00 00 05
raw 00 00 09 00
drain
finish
begin nal=1 lsb=1 surface=9 neg=-1:1
"""
ANSWERED = """
done configure
on 5 begun poc=0 norasl output valid serial=0
refused begin 3
refused return 19
refused ? 13
refused ? 13
no reply 14
done finish handed=0:5:0
refused begin 18
"""
RECORDS = """
configure k=4 capacity=4 buffering=4 reorder=0 latency=0
begin nal=19 surface=5
begin nal=19 surface=64
raw 00 00 00 00
raw 00 00 00 00
raw 00 00 00 00
raw 00 00 00 00
finish
begin nal=1 lsb=1 surface=64 neg=-1:1
"""
REPLIES = """
done configure
begun poc=0 norasl output valid serial=0
refused begin 3
refused ? 13
refused ? 13
refused ? 13
refused ? 13
done finish handed=0:5:0
refused begin 18
"""


def exchanged(said, answered):
    pairs = list(exchanges.exchanges(io.BytesIO(said), io.BytesIO(answered)))
    return b"".join(pair[0] for pair in pairs), b"".join(pair[1] for pair in pairs)


def by_hand():
    said = records.pack(SAID.encode(), calls.call_of_text, calls.to_bytes)
    answered = records.pack(ANSWERED.encode(), calls.answer_of_text, calls.to_bytes)
    asked = (records.pack(RECORDS.encode(), records.record_of_text, records.record_bytes),
             records.pack(REPLIES.encode(), records.reply_of_text, records.reply_bytes))
    same("exchanges", exchanged(said, answered), asked)
    same("with an incomplete last call", exchanged(said + b"\4\0\0\0\0", answered), (asked[0] + b"\xff" * 5, asked[1]))
    same("within the last answer", exchanged(said, answered[:-1]), (asked[0], asked[1][:-6] + b"\xff" * 13))
    last = len(records.record_bytes(records.record_of_text(RECORDS.splitlines()[-1])))
    same("without the last answer", exchanged(said, answered[:-14]), (asked[0], asked[1][:-6]))
    same("without the last call", exchanged(said[:-last - 4], answered),
         (asked[0][:-last], asked[1][:-6] + exchanges.NOTHING_DONE))
    same("nothing", exchanged(b"", b""), (b"", b""))
    for size in range(len(said)):
        some = b"\xff" * size if size < 14 else asked[0][:10]
        same(f"{size} bytes, no answer", exchanged(said[:size], b""), (some, b""))
    return "9 calls, and files that do not pair"


class Ledger:
    """pool_ledger.py with the stand-in, or with another command."""

    def __init__(self, folder):
        self.folder = pathlib.Path(folder)

    def command(self, files, script=STAND_IN):
        return [sys.executable, "-IS", str(SCRIPT), "ledger", sys.executable, "-c", script, "--", *files]

    def wrote(self, said, answered):
        for name, data in (("calls", said), ("answers", answered)):
            (self.folder / name).write_bytes(data)
        return ["calls", "answers"]

    def ended(self, command, **ends):
        ends = {"stdout": subprocess.PIPE} | ends
        done = subprocess.run(command, cwd=self.folder, stderr=subprocess.PIPE, timeout=120, check=False, **ends)
        return (done.stdout or b"").decode(), done.stderr.decode(), done.returncode


def broken():
    """Each of recordings/pool/broken: the pool's line, and where the ledger is asked for a part of the files, that."""
    found = pool_recordings.read_broken()
    with tempfile.TemporaryDirectory() as folder:
        ledger = Ledger(folder)
        for damaged in found:
            said, wrong, status = ledger.ended(ledger.command(ledger.wrote(damaged.calls, damaged.answers)))
            same(damaged.name, (said.partition("\n")[2], wrong, status), (damaged.pool, "", 1))
            words = damaged.ledger.partition(" (")[0]
            # the stand-in finds more: that 7 is for a held surface alone, and that 13 is for malformed records
            if damaged.ledger != "kept":
                same(damaged.name, said.startswith(words), True)
            if any(f"(part {part})" in damaged.ledger for part in (17, 18)):
                same(damaged.name, said.splitlines()[0].endswith(damaged.ledger.partition(" (")[2]), True)
    same("some are broken", len(found) > 30, True)
    return f"{len(found)} pairs of files"


def kept():
    """Generated calls, in more bytes than pipes take; and a ledger that stops at once."""
    count = 0
    with tempfile.TemporaryDirectory() as folder:
        ledger = Ledger(folder)
        for surfaces in (1, 5, 64):
            heard = list(pool_generate.recording("wild", 5, surfaces, 3000))
            names = ledger.wrote(*[b"".join(pair[which] for pair in heard) for which in (0, 1)])
            found = ledger.ended(ledger.command(names))
            same(f"{surfaces} surfaces", found, (f"kept: {len(heard)} exchanges\n", "", 0))
            count += len(heard)
        for script in ("print('broken at reply 1: something (part 1)')", "import sys; open(sys.argv[1]).close(); "
                       "open(sys.argv[2]).close(); print('broken at reply 1: something (part 1)')"):
            same("a ledger that stops", ledger.ended(ledger.command(names, script)),
                 ("broken at reply 1: something (part 1)\n", "", 1))
        long = [calls.record_call(bytes([251, 255, 9, 0]) + bytes(65531))] * 30
        data = b"".join(long)
        found = ledger.ended(ledger.command(ledger.wrote(data, pool.run(1, data))))
        same("records of 65,535 bytes", found, ("kept: 30 exchanges\n", "", 0))
    return f"{count} calls"


def statuses():
    """What can't be read, written or said."""
    with tempfile.TemporaryDirectory() as folder:
        ledger = Ledger(folder)
        names = ledger.wrote(calls.record_call(record("drain")), pool.run(1, calls.record_call(record("drain"))))
        (ledger.folder / "a-folder").mkdir()
        for wrong in ("missing", "a-folder"):
            for files in ([wrong, "answers"], ["calls", wrong]):
                said, message, status = ledger.ended(ledger.command(files))
                same(f"{files}", (said, message.startswith(f"ledger: {wrong}: "), status), ("", True, 2))
        for files in ([], ["calls"], ["calls", "answers", "calls"]):
            usage = "usage: ledger --pool CALLS ANSWERS\n"
            same(f"{len(files)} files", ledger.ended(ledger.command(files)), ("", usage, 2))
        for script in ("raise SystemExit(3)", "import os; os.kill(os.getpid(), 9)", "print('neither')", ""):
            said, message, status = ledger.ended(ledger.command(names, script))
            same(script, (said, message.startswith("ledger: "), status), ("", True, 2))
        same("an error", ledger.ended(ledger.command(names, "print('bad', file=__import__('sys').stderr)")),
             ("", "bad\n", 2))
        missing = [*ledger.command(names)[:4], "/no/such/program", "--", *names]
        same("no ledger", ledger.ended(missing), ("", "ledger: /no/such/program: No such file or directory\n", 2))
        unwritten = ("", "ledger: standard output can't be written\n", 2)
        with open("/dev/full", "wb") as full:
            same("full output", ledger.ended(ledger.command(names), stdout=full), unwritten)
        closed = ["sh", "-c", 'exec "$@" >&-', "sh", *ledger.command(names)]
        same("closed output", ledger.ended(closed), unwritten)
        closed = ["sh", "-c", 'exec "$@" <&- 2>&-', "sh", *ledger.command(names)]
        same("other ends closed", ledger.ended(closed), ("kept: 1 exchanges\n", "", 0))
        os.mkfifo(ledger.folder / "pipe")
        for names in (["pipe", "answers"], ["calls", "pipe"]):
            data = (ledger.folder / ("calls" if names[0] == "pipe" else "answers")).read_bytes()
            with subprocess.Popen(["sh", "-c", "cat > pipe"], stdin=subprocess.PIPE, cwd=folder) as feeder:
                feeder.stdin.write(data)
                feeder.stdin.close()
                same("a pipe", ledger.ended(ledger.command(names)), ("kept: 1 exchanges\n", "", 0))
    return "as they should be"


def interrupted():
    """A signal ends both, and nothing is left in the folder for temporary files."""
    with tempfile.TemporaryDirectory() as folder:
        ledger = Ledger(folder)
        ledger.wrote(b"", b"")
        (ledger.folder / "temporary").mkdir()
        os.mkfifo(ledger.folder / "pipe")
        script = "import os, time; os.symlink(str(os.getpid()), 'child'); time.sleep(60)"
        environment = os.environ | {"TMPDIR": str(ledger.folder / "temporary")}
        held = os.open(ledger.folder / "pipe", os.O_RDWR)
        with subprocess.Popen(ledger.command(["pipe", "answers"], script), cwd=folder, env=environment,
                              stdout=subprocess.PIPE, stderr=subprocess.PIPE) as run:
            while not (ledger.folder / "child").is_symlink():
                same("the run", run.poll(), None)
                time.sleep(0.01)
            child = int(os.readlink(ledger.folder / "child"))
            run.send_signal(signal.SIGTERM)
            same("status", run.wait(timeout=30), -signal.SIGTERM)
        os.close(held)
        same("the ledger", pathlib.Path(f"/proc/{child}").exists(), False)
        same("left behind", list((ledger.folder / "temporary").iterdir()), [])
    return "by a signal"


def main():
    return tried.run("pool", (vectors, makes, fourteen, refusals, seven, texts, bodies, by_hand, broken, kept, statuses,
                              interrupted))


if __name__ == "__main__":
    script.helps(__doc__)
    sys.exit(main())
