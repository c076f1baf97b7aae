#!/usr/bin/env python3
"""Tests of the program pool: test_pool.py [--calls N] COMMAND.., as `test_pool.py ./run pool`. Status 1: some run
answered something else than what is asked, or `./run ledger --pool` said something else of it.

- recordings/pool, each from a pool of its own, against the answers that stand there.
- a file cut at every byte: an incomplete last call gets no answer, all before it do.
- damaged files, long calls and calls of other kinds, in pieces of any size, against lib/pool.py.
- an answer comes before the next call is sent; an end that fails, is closed or would block is named (failing.py).
- N generated calls (40,000), by pools of 1, 2, 5, 17, 63 and 64 surfaces, against lib/pool.py.
- SURFACES that is no number from 1 to 64: a message, no answer, status 2.
- `./run ledger --pool` on what was answered: kept, status 0. On recordings/pool/broken: each with its lines, status 1.
  Its help.
tools/pool.py is a stand-in for COMMAND: test_pool.py python3 tools/pool.py.
"""
import argparse
import pathlib
import random
import re
import subprocess
import sys
import tempfile
from concurrent.futures import ThreadPoolExecutor

sys.path.insert(0, str(pathlib.Path(__file__).resolve().parents[2] / "tools"))
import failing
from lib import calls, pool, pool_generate, pool_recordings, records, recordings, tried
from lib.tried import Failed

SEED = 20265
SECONDS = 600
SURFACES = (1, 2, 5, 17, 63, 64)
CUT = 6
LEDGER = [str(recordings.ROOT / "run"), "ledger", "--pool"]
REFUSED = "pool: 20: SURFACES must be a number from 1 to 64\n"


def ended(command, **ends):
    ends = {"stdout": subprocess.PIPE} | ends
    done = subprocess.run(command, stderr=subprocess.PIPE, timeout=SECONDS, check=False, **ends)
    return done.stdout or b"", done.stderr.decode(errors="replace"), done.returncode


def difference(data, found, asked):
    """The first call that is answered otherwise."""
    triples = zip(records.cut(data), records.cut(found), records.cut(asked))
    for place, (said, answer, wanted) in enumerate(triples, 1):
        if answer != wanted:
            texts = [calls.call_text({"bytes": said})] + [calls.answer_text({"bytes": x}) for x in (answer, wanted)]
            return f"call {place}, {texts[0]}\n  answered {texts[1]}\n  expected {texts[2]}"
    return f"{len(found)} bytes of answers, and {len(asked)} are asked"


class Tests:
    def __init__(self, command, folder, count):
        path = pathlib.Path(command[0])
        self.command = [str(path.resolve()) if path.exists() else command[0], *command[1:]]
        self.folder, self.count = pathlib.Path(folder), count

    def with_surfaces(self, surfaces):
        return [*self.command, str(surfaces)]

    def expect(self, name, surfaces, data, asked):
        """A run on these calls."""
        found, wrong, status = ended(self.with_surfaces(surfaces), input=data)
        if found != asked:
            raise Failed(f"{name}: {difference(data, found, asked)}")
        if (wrong, status) != ("", 0):
            raise Failed(f"{name}: status {status}, {wrong}")

    def judged(self, name, data, answers):
        """What the ledger says of two files, and its status."""
        paths = [self.folder / f"{name}.{end}" for end in ("calls", "answers")]
        for path, some in zip(paths, (data, answers)):
            path.write_bytes(some)
        said, wrong, status = ended([*LEDGER, *[str(path) for path in paths]], stdin=subprocess.DEVNULL)
        if wrong:
            raise Failed(f"{name}, the ledger: {wrong}")
        for path in paths:
            path.unlink()
        return said.decode(), status

    def expect_kept(self, name, data, answers):
        said, status = self.judged(name, data, answers)
        form = rf"kept: .*, {len(list(records.cut(answers)))} exchanges\n"
        if status != 0 or not re.fullmatch(form, said):
            raise Failed(f"{name}, the ledger: status {status}, {said}")

    def by_two(self, test, things):
        with ThreadPoolExecutor(2) as workers:
            list(workers.map(test, things))

    # ---- tests

    def vectors(self):
        found = pool_recordings.read()

        def one(recording):
            data, asked = b"".join(recording.said), b"".join(recording.answered)
            self.expect(recording.name, recording.surfaces, data, asked)
            self.expect_kept(recording.name, data, asked)

        self.by_two(one, found)
        return f"{len(found)} recordings, {sum(len(r.said) for r in found)} calls"

    def cuts(self):
        recording = next(r for r in pool_recordings.read() if r.name == "released-by-begin")
        said, answered = recording.said[:CUT], recording.answered[:CUT]
        ends = [len(b"".join(said[:count])) for count in range(CUT + 1)]

        def one(size):
            whole = sum(end <= size for end in ends) - 1
            data = b"".join(said)[:size]
            self.expect(f"{size} bytes", recording.surfaces, data, b"".join(answered[:whole]))

        self.by_two(one, range(ends[-1] + 1))
        return f"{ends[-1] + 1} files, each cut at another byte"

    def damaged(self):
        """All vectors as one file, by turns with bytes changed in kinds and bodies, and with bytes changed, left out
        and put in anywhere."""
        chance, count = random.Random(SEED), 0
        for turn in range(12):
            said = [call for recording in pool_recordings.read() for call in recording.said]
            data = bent(chance, said, turn * 10) if turn % 2 else torn(chance, b"".join(said), turn)
            asked = pool.run(SURFACES[turn % 4], data)
            self.expect(f"damaged {turn}", SURFACES[turn % 4], data, asked)
            count += len(list(records.cut(asked)))
        return f"12 files, {count} answers as lib/pool.py's"

    def edges(self):
        """Empty calls, the longest ones, and records about as long as a record may be."""
        begin = records.record_bytes(records.record_of_text("begin nal=19 surface=7"))
        bodies = [b"", *[size.to_bytes(2, "little") + bytes([5, 0]) + bytes(size) for size in (511, 512, 513, 65531)],
                  bytes(65535), b"\xff" * 65535, begin + bytes(600), begin]
        data = b"".join(calls.message(kind, body) for kind in (0, 1, 2, 256, 257, 65535) for body in bodies)
        self.expect("edges", 2, data, pool.run(2, data))
        self.expect("nothing", 64, b"", b"")
        return f"{len(bodies) * 6} calls"

    def piecewise(self):
        chance = random.Random(SEED)
        data = b"".join(b"".join(r.said) for r in pool_recordings.read())
        with subprocess.Popen(self.with_surfaces(3), stdin=subprocess.PIPE, stdout=subprocess.PIPE, bufsize=0) as run:
            at = 0
            while at < len(data):
                size = chance.randrange(1, 100)
                run.stdin.write(data[at:at + size])
                at += size
            run.stdin.close()
            found = run.stdout.read()
        asked = pool.run(3, data)
        if found != asked:
            raise Failed(difference(data, found, asked))
        return f"{len(data)} bytes in pieces"

    def pausing(self):
        """An answer comes before the next call is sent."""
        recording = pool_recordings.read()[0]
        with subprocess.Popen(self.with_surfaces(recording.surfaces), stdin=subprocess.PIPE, stdout=subprocess.PIPE,
                              bufsize=0) as run:
            for said, asked in zip(recording.said, recording.answered):
                run.stdin.write(said)
                found = b""
                while len(found) < len(asked) and (more := run.stdout.read(len(asked) - len(found))):
                    found += more
                if found != asked:
                    run.kill()
                    raise Failed(difference(said, found, asked))
            run.stdin.close()
            if run.stdout.read():
                raise Failed("more answers than calls")
        return f"{len(recording.said)} answers, each before the next call"

    def generated(self):
        plans = [(surfaces, profile) for surfaces in SURFACES for profile in pool_generate.PROFILES]
        share = -(-self.count // len(plans))
        sums = [0, 0, 0]

        def one(plan):
            surfaces, profile = plan
            heard = list(pool_generate.recording(profile, SEED, surfaces, share))
            data, asked = b"".join(call for call, _ in heard), b"".join(answer for _, answer in heard)
            name = f"generated-{profile}-{surfaces}"
            self.expect(name, surfaces, data, asked)
            self.expect_kept(name, data, asked)
            told = [calls.answer_of(answer) for _, answer in heard]
            sums[0] += len(heard)
            sums[1] += sum(surface < 64 for _, surface, _ in told)
            sums[2] += sum(number == 18 for number, _, _ in told)

        self.by_two(one, plans)
        return f"{sums[0]} calls of {len(plans)} pools, {sums[1]} pictures begun, {sums[2]} times 18"

    def arguments(self):
        """20: nothing is answered."""
        words = ["0", "65", "", "x", "1x", "-1", "256", "257", "65537", "4294967297", "18446744073709551617"]
        data = calls.record_call(records.record_bytes({"kind": "drain"}))
        for word in words:
            found = ended([*self.command, word], input=data)
            if found != (b"", REFUSED, 2):
                raise Failed(f"'{word}': {found}")
        for some in ([], ["1", "2"]):
            found, wrong, status = ended([*self.command, *some], input=data)
            if (found, "SURFACES" in wrong, status) != (b"", True, 2):
                raise Failed(f"{some}: {found}, {wrong}, status {status}")
        for surfaces in (1, 64):
            self.expect(f"{surfaces}", surfaces, data, pool.run(surfaces, data))
        return f"{len(words) + 2} refused"

    def failing(self):
        if self.command[-1] != "pool":
            return "not tried, since the command is no `.. pool`"
        data = calls.record_call(records.record_bytes({"kind": "drain"})) * 1000
        for line in failing.differences(self.with_surfaces(3), "pool", data):
            raise Failed(line)
        return f"{len(failing.WAYS)} ways to fail, each with its message"

    def broken(self):
        found = pool_recordings.read_broken()

        def one(damaged):
            said, status = self.judged(damaged.name, damaged.calls, damaged.answers)
            if status != 1 or not damaged.is_said(said):
                asked = f"{damaged.ledger}, {damaged.pool!r}"
                raise Failed(f"{damaged.name}: status {status}, {said!r}, and {asked} is asked")

        self.by_two(one, found)
        return f"{len(found)} pairs of files, each with its lines"

    def helps(self):
        """The help of both forms."""
        for words in (["--help"], ["--pool", "--help"]):
            said, wrong, status = ended([*LEDGER[:-1], *words], stdin=subprocess.DEVNULL)
            if (b"--pool CALLS ANSWERS" in said, wrong, status) != (True, "", 0):
                raise Failed(f"{words}: {said}, {wrong}, status {status}")
        return "of ledger, both forms"


def bent(chance, said, times):
    """Some bytes changed, none of them a call's length."""
    said = [bytearray(call) for call in said]
    for _ in range(times):
        call = chance.choice(said)
        call[chance.randrange(2, len(call))] = chance.choice([0, 1, 64, 255, chance.randrange(256)])
    return b"".join(said)


def torn(chance, data, times):
    """Some bytes changed, left out and put in."""
    data = bytearray(data)
    for _ in range(times):
        at = chance.randrange(len(data))
        data[at:at + chance.randrange(2)] = chance.randbytes(chance.randrange(3))
    return bytes(data)


def main():
    parser = argparse.ArgumentParser(description=__doc__, formatter_class=argparse.RawDescriptionHelpFormatter)
    parser.add_argument("--calls", type=int, default=40000)
    parser.add_argument("command", nargs="+")
    arguments = parser.parse_args()
    with tempfile.TemporaryDirectory() as folder:
        tests = Tests(arguments.command, folder, arguments.calls)
        return tried.run("pool", (
            tests.vectors, tests.cuts, tests.damaged, tests.edges, tests.piecewise, tests.pausing, tests.generated,
            tests.arguments, tests.failing, tests.broken, tests.helps))


if __name__ == "__main__":
    sys.exit(main())
