"""Proves and builds a program where that is not yet done, and says so while it takes long.

One ./run at a time proves, for two programs of one pipe would do the same work twice; the others wait, and say so. A
signal that ends this program ends all that the check has started; the lock goes with this process.
"""
import fcntl
import os
import re
import select
import shutil
import signal
import subprocess
import sys
import time

# where all is proved and built that is found out in a second, and some more on a busy machine
USUAL = 3.0
# a day: `select` takes no number as large as some settings, `inf` among them
LONGEST = 86400.0
# between two looks at a lock that another ./run has
PAUSE = 0.03
END = 5.0
LAST = 20
CRATE = re.compile(rb"crate (\S+): modules loaded=\d+ checked=([1-9]\d*)")
PROVED = b"logic=proved "


def silent(setting):
    """How many seconds nothing is said: the setting, or the usual ones where it is no positive number."""
    try:
        seconds = float(setting)
    except ValueError:
        return USUAL
    return min(seconds, LONGEST) if seconds > 0 else USUAL


SILENT = silent(os.environ.get("TRUSSHEMP_SILENT", ""))


def program(root, crate):
    """Where a program stands once it is built."""
    return root / "crates" / crate / "out" / crate


def say(words):
    """On standard error, where there is one."""
    try:
        os.write(2, f"./run: {words}\n".encode())
    except OSError:
        pass


def need(root):
    """What is missing, in words; or nothing."""
    if shutil.which("rt") is None:
        return f"rt is not there: the Rattle kit is needed, {(root / '.ci' / 'kit').read_text().strip()}"
    try:
        (root / "target").mkdir(exist_ok=True)
    except OSError as bad:
        return f"can't make the folder {root / 'target'}: {bad.strerror}"
    return None


def is_free(file):
    """Whether nobody else has the lock, which this process then has."""
    try:
        fcntl.flock(file, fcntl.LOCK_EX | fcntl.LOCK_NB)
    except BlockingIOError:
        return False
    return True


def locked(path, name):
    """The lock's file, once this process has it; its words say who has it."""
    file, begun = open(path, "a+"), time.monotonic()
    while not is_free(file):
        if time.monotonic() - begun > SILENT:
            file.seek(0)
            say(f"waits for {file.read().strip() or 'another ./run'}, which proves or checks")
            fcntl.flock(file, fcntl.LOCK_EX)
            break
        time.sleep(PAUSE)
    file.truncate(0)
    print(f"./run {name} (process {os.getpid()})", file=file, flush=True)
    return file


def end(child):
    """Ends the check and all that it started."""
    for number in (signal.SIGTERM, signal.SIGKILL):
        try:
            os.killpg(child.pid, number)
            child.wait(END)
        except ProcessLookupError:
            pass
        except subprocess.TimeoutExpired:
            continue


def end_with(child):
    """A signal that ends this program ends the check too."""
    def ended(number, _):
        end(child)
        signal.signal(number, signal.SIG_DFL)
        os.kill(os.getpid(), number)

    numbers = (signal.SIGINT, signal.SIGTERM, signal.SIGHUP)
    return [(number, signal.signal(number, ended)) for number in numbers if signal.getsignal(number) != signal.SIG_IGN]


def follow(child, log, started):
    """Writes what the check says to the log, and a line for each crate that it proves. `started` is called once, where
    the check takes longer than SILENT."""
    begun, rest, named = time.monotonic(), b"", None
    while True:
        wait = None if started is None else max(0, SILENT - (time.monotonic() - begun))
        if not select.select([child.stdout], [], [], wait)[0]:
            started()
            started = None
            continue
        data = os.read(child.stdout.fileno(), 65536)
        if not data:
            return
        log.write(data)
        *lines, rest = (rest + data).split(b"\n")
        for line in lines:
            named = CRATE.fullmatch(line) or named
            if named and line.startswith(PROVED):
                say(f"{named[1].decode()} is proved ({named[2].decode()} modules checked)")
                named = None


def checked(root, name, crate, log):
    """Whether `rt run` proves and builds the crate. It also runs the program once, with no input and no arguments: how
    that ends says nothing of the proof."""
    child = subprocess.Popen(["rt", "run"], cwd=root / "crates" / crate, stdin=subprocess.DEVNULL,
                             stdout=subprocess.PIPE, stderr=subprocess.STDOUT, start_new_session=True)
    before = end_with(child)
    words = f"proves and builds {name} where that is not yet done (minutes, once); the log is "
    follow(child, log, lambda: say(words + os.path.relpath(log.name)))
    ended = child.wait()
    for number, handler in before:
        signal.signal(number, handler)
    return ended == 0


def proved(root, name, crate):
    """Whether the program can be run. Where it can't, standard error says why."""
    missing = need(root)
    if missing:
        say(missing)
        return False
    path = root / "target" / f"run-{name}.log"
    try:
        with locked(root / "target" / "run.lock", name), open(path, "wb") as log:
            done = checked(root, name, crate, log)
    except OSError as bad:
        say(f"{bad.filename or path}: {bad.strerror}")
        return False
    if not done:
        last = path.read_bytes().splitlines()[-LAST:]
        sys.stderr.buffer.write(b"".join(line + b"\n" for line in last))
        say(f"{name} is not proved or not built; the whole log is {os.path.relpath(path)}")
    return done
