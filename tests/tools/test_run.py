#!/usr/bin/env python3
"""`./run` with stand-ins for the kit and for the programs: what it says, what it waits for, how it ends. Status 1 at
the first that is not so.

Tried are help and version, wrong words, a check that is quick, takes long, fails or is interrupted, several at once,
TRUSSHEMP_SILENT, a symbolic link, what is missing, and the status of each program.
"""
import contextlib
import os
import pathlib
import shutil
import signal
import subprocess
import sys
import tempfile
import time

ROOT = pathlib.Path(__file__).resolve().parents[2]
sys.path.insert(0, str(ROOT / "tools"))
from lib import prove, script, tried
from lib.tried import Failed

SECONDS = 60
SILENT = "TRUSSHEMP_SILENT"
LONG = "600"

# stands for `rt run` in a crate's folder, which proves and builds: where the file SLOW is there it starts a process that
# would go on, and says its number
RT = """#!/bin/sh
cd ../..
if [ -f slow ]; then
  echo "crate paper: modules loaded=0 checked=5"
  echo "logic=proved functions=0"
  sleep 600 &
  echo $! > child
  while [ -f slow ]; do sleep 0.05; done
  kill $!
fi
if [ -f wrong ]; then echo "some fact is not proved"; exit 1; fi
echo "rt: ok"
"""


SIGNALS = (signal.SIGINT, signal.SIGTERM, signal.SIGHUP)


def heeds_signals():
    """For a program that is started: what is started in the background, or by nohup, ignores some signals."""
    for number in SIGNALS:
        signal.signal(number, signal.SIG_DFL)


class House:
    """A repository with the ./run of this one, in which nothing is proved."""

    def __init__(self, folder):
        self.root, self.kit = folder / "repository", folder / "kit"
        shutil.copytree(ROOT / "tools", self.root / "tools", ignore=shutil.ignore_patterns("__pycache__"))
        for name in ("run", "VERSION", ".ci/kit"):
            (self.root / name).parent.mkdir(exist_ok=True)
            shutil.copy(ROOT / name, self.root / name)
        for text in ROOT.glob("crates/*/help.txt"):
            crate = self.root / "crates" / text.parent.name
            (crate / "src").mkdir(parents=True)
            shutil.copy(text, crate)
            (crate / "src" / "main.rt").touch()
            self.program(crate.name, "true")
        self.script(self.kit / "bin" / "rt", RT)
        # on a slow machine the stand-in too can take longer than usual
        self.places = {"PATH": f"{self.kit / 'bin'}:{os.environ['PATH']}", "RATTLE_HOME": str(self.kit), SILENT: LONG}

    def script(self, path, text):
        path.parent.mkdir(parents=True, exist_ok=True)
        path.write_text(text)
        path.chmod(0o755)

    def program(self, crate, text):
        self.script(prove.program(self.root, crate), f"#!/bin/sh\n{text}\n")

    def start(self, *words, run=None, **ends):
        """Started with `places` in its environment, but for those that are None."""
        ends = {"stdin": subprocess.DEVNULL, "stdout": subprocess.PIPE, "stderr": subprocess.PIPE} | ends
        places = os.environ | self.places | ends.pop("places", {})
        places = {name: value for name, value in places.items() if value is not None}
        return subprocess.Popen([run or str(self.root / "run"), *words], env=places, cwd=self.root, text=True,
                                preexec_fn=heeds_signals, **ends)

    def ended(self, *words, **ends):
        """Status, standard output and standard error."""
        with self.start(*words, **ends) as done:
            said = done.communicate(timeout=SECONDS)
        return done.returncode, *said

    @contextlib.contextmanager
    def having(self, name):
        """While the file of that name is there."""
        (self.root / name).touch()
        yield
        (self.root / name).unlink()


def expect(what, found, asked):
    if found != asked:
        raise Failed(f"{what}: {found!r:.400}, and {asked!r:.400} is asked")


def holds(what, text, *parts):
    for part in parts:
        if part not in text:
            raise Failed(f"{what}: {part!r} is not in {text!r:.400}")


def until(what, test):
    """Waits until something is so."""
    end = time.monotonic() + SECONDS
    while not test():
        if time.monotonic() > end:
            raise Failed(f"{what}: not so after {SECONDS} s")
        time.sleep(0.02)


# ---- words

def helps(house):
    status, said, wrong = house.ended("--help")
    expect("--help", (status, wrong), (0, ""))
    names = ["compare", "ledger", "pool", "replay", "show"]
    holds("--help", said, *names, SILENT, f"{prove.USUAL:g} where it is not set")
    version, kit = [(ROOT / name).read_text().strip() for name in ("VERSION", ".ci/kit")]
    expect("--version", house.ended("--version"), (0, f"trusshemp {version}, proved by {kit}\n", ""))
    for words in [[name, "--help"] for name in names] + [["ledger", "--pool", "--help"]]:
        status, said, wrong = house.ended(*words)
        expect(words, (status, wrong), (0, ""))
        holds(words, said, f"./run {words[0]}", "Status:")
    return f"{len(names)} programs"


def wrong_words(house):
    """Wrong words end with a message and 2; standard input, on which nothing ever comes, is not read."""
    calls = [[], ["no-such"], ["poolrun"], ["replay", "x"], ["show", "x"], ["show", "--records"],
             ["show", "--other", "x"], ["ledger"], ["ledger", "a"], ["ledger", "a", "b", "c"],
             ["ledger", "--pool", "a"], ["compare", "a"], ["pool"], ["pool", "1", "2"]]
    for words in calls:
        out, into = os.pipe()
        status, said, wrong = house.ended(*words, stdin=out)
        os.close(out)
        os.close(into)
        expect(words, (status, said), (2, ""))
        holds(words, wrong, "usage: ./run" if words[:1] and words[0] in ("replay", "show", "ledger", "compare", "pool")
              else "with NAME one of compare ledger pool replay show")
    return f"{len(calls)} calls"


# ---- proving

def quick(house):
    house.program("replay", "cat")
    with open(house.root / "VERSION") as file:
        expect("quick", house.ended("replay", stdin=file), (0, (ROOT / "VERSION").read_text(), ""))
    link = house.kit / "a-link"
    link.symlink_to(house.root / "run")
    expect("through a link", house.ended("replay", run=str(link)), (0, "", ""))
    return "nothing is said; through a symbolic link too"


def at_once(house, *silences):
    """Several at once, each with a TRUSSHEMP_SILENT or without: the first checks and the others wait for it, until all
    but those with LONG have said so. What each says, for how long none does, and the first one's number."""
    paths = [house.root / f"said.{place}" for place in range(len(silences))]
    usual = [path for path, silence in zip(paths, silences) if silence != LONG]
    runs, begun = [], time.monotonic()
    with house.having("slow"):
        for path, silence in zip(paths, silences):
            with path.open("w") as file:
                runs.append(house.start("show" if runs else "replay", stderr=file, places={SILENT: silence}))
            until("the check starts", (house.root / "child").exists)
        until("one says it", lambda: any("proves" in path.read_text() for path in paths))
        quiet = time.monotonic() - begun
        until("each says it", lambda: all("proves" in path.read_text() for path in usual))
    for run in runs:
        run.communicate(timeout=SECONDS)
        expect("one of several at once", run.returncode, 0)
    (house.root / "child").unlink()
    return [path.read_text() for path in paths], quiet, runs[0].pid


def slow(house):
    """A check that takes long says what it does; another ./run waits, and says for whom: after the usual time, or that
    of TRUSSHEMP_SILENT."""
    said, quiet, first = at_once(house, None, None, LONG)
    expect("not before the usual time", quiet >= prove.USUAL, True)
    holds("the first", said[0], "./run: proves and builds replay", "target/run-replay.log", "paper is proved (5 modules checked)")
    holds("the second", said[1], f"./run: waits for ./run replay (process {first}), which proves or checks")
    expect("a wait that may take long", said[2], "")
    said, quiet, first = at_once(house, LONG, "soon")
    expect("not before the usual time, with no number", quiet >= prove.USUAL, True)
    expect("a check that may take long", said[0], "./run: paper is proved (5 modules checked)\n")
    holds("no number", said[1], f"./run: waits for ./run replay (process {first}), which proves or checks")
    return "each step is said, where it takes longer than it may"


def settings(_):
    """What TRUSSHEMP_SILENT may be, and the seconds that it gives."""
    given = {"0.2": 0.2, "600": 600, " 7 ": 7, "inf": prove.LONGEST, "1e300": prove.LONGEST}
    given |= dict.fromkeys(("", "soon", "3 s", "0", "-1", "-inf", "nan"), 3)
    for setting, seconds in given.items():
        expect(repr(setting), prove.silent(setting), seconds)
    return f"{len(given)} values"


def interrupted(house):
    """A signal ends what was started, and the next ./run has the lock at once."""
    for number in SIGNALS:
        with house.having("slow"):
            run = house.start("replay")
            until("the check starts", lambda: (house.root / "child").exists() and (house.root / "child").read_text())
            child = pathlib.Path("/proc") / (house.root / "child").read_text().strip()
            run.send_signal(number)
            run.communicate(timeout=SECONDS)
        expect(number.name, run.returncode, -number)
        until("what it started is ended", lambda: not child.exists() or "zombie" in (child / "status").read_text())
        (house.root / "child").unlink()
        expect("the next one", house.ended("replay"), (0, "", ""))
    return f"{len(SIGNALS)} signals"


def failing(house):
    with house.having("wrong"):
        status, said, wrong = house.ended("show")
    expect("not proved", (status, said), (2, ""))
    holds("not proved", wrong, "some fact is not proved\n", "./run: show is not proved", "target/run-show.log")
    return "the end of the log, and its name"


def missing(house):
    few = house.kit / "few"
    few.mkdir()
    for name in ("dirname", "readlink", "sh"):
        (few / name).symlink_to(shutil.which(name))
    expect("no python3", house.ended("replay", places={"PATH": str(few)})[::2],
           (2, "./run: python3 is not there; README.md says what is needed\n"))
    (few / "python3").symlink_to(sys.executable)
    status, _, wrong = house.ended("replay", places={"PATH": str(few)})
    expect("no rt", status, 2)
    holds("no rt", wrong, "./run: rt is not there", (ROOT / ".ci" / "kit").read_text().strip())
    (house.root / "target").rename(house.root / "away")
    (house.root / "target").touch()
    status, _, wrong = house.ended("replay")
    expect("no folder", status, 2)
    holds("no folder", wrong, f"./run: can't make the folder {house.root / 'target'}: File exists")
    (house.root / "target").unlink()
    (house.root / "away").rename(house.root / "target")
    return "python3, rt, a folder"


# ---- statuses

def statuses(house):
    ends = [("replay", "cat", 0, ""), ("replay", "echo replay: bad >&2", 2, "replay: bad\n"),
            ("show", "echo 1 done", 0, ""), ("show", "exit 3", 2, "show: ended with status 3\n"),
            ("ledger", "echo kept: all", 0, ""), ("ledger", "echo broken at reply 3", 1, ""),
            ("ledger", "true", 2, "ledger: said nothing\n"), ("ledger", "echo ledger: a: No >&2", 2, "ledger: a: No\n"),
            ("compare", "true", 0, ""), ("compare", "echo 0 differ 4", 1, ""),
            ("poolrun", "cat", 0, ""), ("poolrun", "echo pool: 20 >&2", 2, "pool: 20\n")]
    words = {"ledger": ["a", "b"], "compare": ["a", "b"], "poolrun": ["3"]}
    for crate, text, status, wrong in ends:
        house.program(crate, text)
        found = house.ended(crate.removesuffix("run"), *words.get(crate, []))
        expect((crate, text), found[::2], (status, wrong))
    return f"{len(ends)} ends"


TESTS = [helps, wrong_words, quick, slow, settings, interrupted, failing, missing, statuses]


def main():
    with tempfile.TemporaryDirectory() as folder:
        house = House(pathlib.Path(folder).resolve())
        return tried.run("run", TESTS, house)


if __name__ == "__main__":
    script.helps(__doc__)
    sys.exit(main())
