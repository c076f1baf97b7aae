"""Standard input that can't be read, standard output that can't be written: a program stops, and names on standard
error which one it was.

Used by test_replay.py and test_show.py; the text decides, since a program's own status tells no more than whether it could be said.
"""
import os
import subprocess

SECONDS = 300
INPUT = "standard input can't be read"
OUTPUT = "standard output can't be written"


def ended(command, **ends):
    """What the command says on standard error."""
    try:
        return subprocess.run(command, stderr=subprocess.PIPE, timeout=SECONDS, check=False, **ends).stderr.decode()
    except subprocess.TimeoutExpired:
        return "(nothing: the run hangs)"


def closed(command, end):
    """The command with one of its ends closed, as in `COMMAND <&-`."""
    return ["sh", "-c", f'exec "$@" {end}', "sh", *command]


def full(command, data):
    with open("/dev/full", "wb") as output:
        return ended(command, input=data, stdout=output)


def directory(command, data):
    folder = os.open("/", os.O_RDONLY)
    try:
        return ended(command, stdin=folder, stdout=subprocess.DEVNULL)
    finally:
        os.close(folder)


def no_input(command, data):
    return ended(closed(command, "<&-"), stdout=subprocess.DEVNULL)


def no_output(command, data):
    return ended(closed(command, ">&-"), input=data)


def empty_pipe(command, data):
    """A read would wait, and the pipe is one that does not."""
    out, into = os.pipe()
    os.set_blocking(out, False)
    try:
        return ended(command, stdin=out, stdout=subprocess.DEVNULL)
    finally:
        os.close(out)
        os.close(into)


def full_pipe(command, data):
    """A write would wait, and the pipe is one that does not."""
    out, into = os.pipe()
    os.set_blocking(into, False)
    try:
        while True:
            os.write(into, b"\0" * 4096)
    except BlockingIOError:
        return ended(command, input=data, stdout=into)
    finally:
        os.close(out)
        os.close(into)


WAYS = [
    (full, OUTPUT), (directory, INPUT), (no_input, INPUT),
    (no_output, OUTPUT), (empty_pipe, INPUT), (full_pipe, OUTPUT),
]


def differences(command, name, data):
    """Each way to fail that does not end with its message; `data` is some input that is answered."""
    for way, message in WAYS:
        found = way(command, data)
        if found != f"{name}: {message}\n":
            yield f"{way.__name__}: said {found!r}, expected {name}: {message}"

