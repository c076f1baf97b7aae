#!/usr/bin/env python3
"""tools/lib/status.py passes on what a command writes, byte for byte and at once, and ends with 0, 1 or 2 by the rule
of `compare`: nothing written, something, or an error; by that of `ledger`: kept, broken, or neither; and by none, as
for `pool`, which has standard output itself. Status 1 at the first that is not so."""
import os
import pathlib
import signal
import subprocess
import sys

TOOLS = pathlib.Path(__file__).resolve().parents[2] / "tools"
sys.path.insert(0, str(TOOLS))
from lib import script

SCRIPT = TOOLS / "lib" / "status.py"
UNWRITTEN = b"compare: standard output can't be written\n"


def command(text, name="compare"):
    return [sys.executable, "-IS", str(SCRIPT), name, "sh", "-c", text]


def ended(words, **ends):
    ends = {"stdout": subprocess.PIPE} | ends
    done = subprocess.run(words, stderr=subprocess.PIPE, timeout=60, check=False, **ends)
    return done.stdout or b"", done.stderr, done.returncode


def closed(text, ends, name="compare"):
    return ["sh", "-c", f'exec "$@" {ends}', "sh", *command(text, name)]


def plain():
    """Commands, and what is to come of each."""
    yield ended(command("true")), (b"", b"", 0)
    yield ended(command("echo line")), (b"line\n", b"", 1)
    yield ended(command("echo bad >&2")), (b"", b"bad\n", 2)
    yield ended(command("echo line; echo bad >&2; echo more")), (b"line\nmore\n", b"bad\n", 2)
    yield ended(command("exit 3")), (b"", b"compare: ended with status 3\n", 2)
    yield ended(command("echo line; kill -9 $$")), (b"line\n", b"compare: ended by signal 9\n", 2)
    yield ended(command("head -c 30000000 /dev/zero")), (bytes(30000000), b"", 1)
    yield ended([*command("")[:4], "/no/such/program"]), (b"", b"/no/such/program: No such file or directory\n", 2)
    yield ended(command("cat"), input=b"of standard input"), (b"of standard input", b"", 1)
    yield ended(command("cat", "pool"), input=b"of standard input"), (b"of standard input", b"", 0)
    yield ended(command("true", "pool")), (b"", b"", 0)
    yield ended(command("cat; echo bad >&2", "pool"), input=b"some"), (b"some", b"bad\n", 2)
    yield ended(command("kill -9 $$", "pool")), (b"", b"pool: ended by signal 9\n", 2)
    yield ended(command("echo kept: all", "ledger")), (b"kept: all\n", b"", 0)
    yield ended(command("printf ke; sleep 0.2; echo pt: all", "ledger")), (b"kept: all\n", b"", 0)
    yield ended(command("echo broken at reply 1", "ledger")), (b"broken at reply 1\n", b"", 1)
    yield ended(command("true", "ledger")), (b"", b"ledger: said nothing\n", 2)
    yield ended(command("echo what", "ledger")), (b"what\n", b"ledger: said nothing\n", 2)


def refusing():
    """Ends that take nothing."""
    with open("/dev/full", "wb") as full:
        yield ended(command("echo line"), stdout=full), (b"", UNWRITTEN, 2)
        yield ended(command("true"), stdout=full), (b"", b"", 0)
    yield ended(closed("echo line; sleep 60", ">&-")), (b"", UNWRITTEN, 2)
    yield ended(closed("true", ">&-")), (b"", b"", 0)
    yield ended(closed("echo line", "<&- 2>&-")), (b"line\n", b"", 1)
    yield ended(closed("echo bad >&2", "<&- >&- 2>&-")), (b"", b"", 2)
    yield ended(closed("cat; echo line", "<&- 2>/dev/null")), (b"line\n", b"", 2)
    out, into = os.pipe()
    os.close(out)
    yield ended(command("yes"), stdout=into), (b"", UNWRITTEN, 2)
    # a program without a rule meets the end itself, and a reader that goes away is no error
    yield ended(command("exec yes", "show"), stdout=into), (b"", b"", -signal.SIGPIPE)
    yield ended(closed("[ -e /dev/fd/1 ] || echo closed >&2", ">&-", "show")), (b"", b"closed\n", 2)
    yield ended(closed("[ -e /dev/fd/0 ] || echo closed", "<&-", "show")), (b"closed\n", b"", 0)
    os.close(into)


def at_once():
    """A line is there while the command still runs; a signal ends both."""
    words = command('echo $$; exec sleep 60')
    with subprocess.Popen(words, stdout=subprocess.PIPE, bufsize=0) as run:
        child = int(run.stdout.readline())
        run.send_signal(signal.SIGTERM)
        yield run.wait(timeout=30), -signal.SIGTERM
    yield pathlib.Path(f"/proc/{child}").exists(), False


def main():
    count = 0
    for part in (plain, refusing, at_once):
        for found, asked in part():
            count += 1
            if found != asked:
                print(f"{part.__name__}, {count}: {found!r:.300}, and {asked!r:.300} is asked")
                return 1
    print(f"{count} ends of a command, each with its status")
    return 0


if __name__ == "__main__":
    script.helps(__doc__)
    sys.exit(main())
