#!/usr/bin/env python3
"""The program ledger on the calls and answers of a pool: `./run ledger --pool CALLS ANSWERS` calls this as

    pool_ledger.py NAME COMMAND.. -- CALLS ANSWERS

lib/exchanges.py says which record and which reply stand for a call. COMMAND reads them from two pipes, so no file is
written and memory stays constant. It writes COMMAND's line, and one more where the pool's own promise is broken.
Status: 0 all is kept, 1 something is broken, 2 it can't be said; standard error says why.
"""
import os
import pathlib
import subprocess
import sys

sys.path.insert(0, str(pathlib.Path(__file__).resolve().parent))
from lib import exchanges, script, status
from lib.source import Source, Unread

# as much as the smallest pipe takes
ROOM = 4096


class Pipes:
    """Two pipes that a command reads as files. What waits for either is no more than one exchange or ROOM bytes: so the
    command, which reads on only in the file that it lacks, is never waited for while it waits."""

    def __init__(self):
        self.ends = [os.pipe(), os.pipe()]
        self.waiting, self.open = [b"", b""], True

    def names(self):
        return [f"/dev/fd/{out}" for out, _ in self.ends]

    def outs(self):
        return [out for out, _ in self.ends]

    def started(self):
        """The command has its ends."""
        for out in self.outs():
            os.close(out)

    def put(self, record, reply):
        more = [record, reply]
        if any(len(waits) + len(x) > ROOM for waits, x in zip(self.waiting, more)):
            self.flush()
        self.waiting = [waits + x for waits, x in zip(self.waiting, more)]

    def flush(self):
        """A command that has ended takes no more."""
        for (_, into), data in zip(self.ends, self.waiting):
            self.open = self.open and status.passed(into, data)
        self.waiting = [b"", b""]

    def close(self):
        self.flush()
        for _, into in self.ends:
            os.close(into)


def start(command, pipes):
    child = subprocess.Popen([*command, *pipes.names()], pass_fds=pipes.outs(), stdin=subprocess.DEVNULL,
                             stdout=subprocess.PIPE, stderr=subprocess.PIPE)
    status.end_with(child.pid)
    pipes.started()
    return child


def judge(command, calls, answers):
    """What the command wrote, its error, its status, and the line of the pool's promise."""
    pipes, watch = Pipes(), exchanges.Watch()
    child = start(command, pipes)
    try:
        for record, reply, together in exchanges.exchanges(calls, answers):
            watch.take(together)
            pipes.put(record, reply)
    except Unread:
        child.kill()
        child.communicate()
        raise
    pipes.close()
    said, wrong = child.communicate()
    return said, wrong, child.returncode, watch.line


def verdict(name, closed, said, wrong, ended, line):
    """The status, once all is written; `closed`: there is no standard output."""
    status.passed(2, wrong)
    known = said.startswith((b"kept", b"broken"))
    if wrong or ended != 0 or not known:
        if not wrong:
            status.say(name, f"ended with status {ended}" if ended else "said nothing")
        return 2
    if closed or not status.passed(1, said + line.encode()):
        status.say(name, "standard output can't be written")
        return 2
    return 1 if line or said.startswith(b"broken") else 0


def main(words):
    closed = 1 in status.hold_ends()
    at = words.index("--")
    name, command, files = words[0], words[1:at], words[at + 1:]
    if len(files) != 2:
        status.passed(2, f"usage: {name} --pool CALLS ANSWERS\n".encode())
        return 2
    try:
        found = judge(command, *[Source(file) for file in files])
    except Unread as unread:
        status.say(name, unread)
        return 2
    except OSError as bad:
        status.say(name, f"{command[0]}: {bad.strerror}")
        return 2
    return verdict(name, closed, *found)


if __name__ == "__main__":
    script.helps(__doc__)
    if "--" not in sys.argv[2:]:
        sys.exit(__doc__)
    sys.exit(main(sys.argv[1:]))
