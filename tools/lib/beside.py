"""`./run show --records FILE < REPLIES`: each line of the program `show` under the record that its reply answers.

The line of a reply is that of the program; a record is written by records.py, and nothing of that is proved. Both go
from front to back, in constant memory. What has no counterpart is said: a reply without its record, a record without
its reply, and the bytes at the end of FILE that are no whole record.
"""
import struct
import subprocess

from . import records, recordings, status
from .source import Source, Unread

HEAD = 4


class Records(Source):
    """The records of a file, one after the other."""

    def next(self):
        """The next one as text, or None at the end."""
        piece = self.read(HEAD)
        if len(piece) == HEAD:
            piece += self.read(struct.unpack_from("<H", piece)[0])
        if not piece:
            return None
        if not records.is_whole(piece):
            return f"({len(piece)} bytes that are no whole record)"
        return recordings.shown(piece, records.record_of, records.record_text)


def pairs(said, lines):
    """A text for each reply and its record, and for each record that is left."""
    for line in lines:
        number, _, reply = line.rstrip(b"\n").decode().partition(" ")
        yield f"{number} {said.next() or '(no record)'}\n  {reply}\n"
    while record := said.next():
        yield f"- {record}\n  (no reply)\n"


def written(said, child):
    """Whether standard output took all."""
    for text in pairs(said, child.stdout):
        if not status.passed(1, text.encode()):
            return False
    return True


def shown(name, said, command, closed):
    """The same with the command, whose errors are passed on; `closed`: there is no standard output."""
    child = subprocess.Popen(command, stdout=subprocess.PIPE, stderr=subprocess.PIPE, bufsize=65536)
    status.end_with(child.pid)
    try:
        taken = not closed and written(said, child)
    except Unread:
        child.kill()
        raise
    finally:
        child.stdout.close()
    wrong = child.stderr.read()
    status.passed(2, wrong)
    if not taken and not wrong:
        status.say(name, "standard output can't be written")
    return taken and not wrong and child.wait() == 0


def run(name, command, path):
    """The status: 0 all is shown, 2 an error was written."""
    closed = 1 in status.hold_ends()
    try:
        return 0 if shown(name, Records(path), command, closed) else 2
    except Unread as unread:
        status.say(name, unread)
        return 2
