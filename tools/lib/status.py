#!/usr/bin/env python3
"""Runs a program and ends with a status that tells how it went: its own tells no more than whether it could say so.

    status.py NAME COMMAND..        as ./run calls it

What COMMAND writes goes on to standard output and standard error as it comes, unchanged; nothing of it is kept but its
first bytes. Status 2: it wrote to standard error, it was ended by a signal or ended with a status of its own, or
standard output did not take what it wrote, which is then said. Else the rule of NAME decides, from the first bytes;
where NAME has none the status is 0, and COMMAND has standard output itself. A reader of it that goes away, as `head`
does, then ends both without a word, as is usual in a pipe.
"""
import os
import select
import signal
import sys

# by the first bytes on standard output: what a program that wrote no error ends with
RULES = {
    "compare": lambda said: 1 if said else 0,
    "ledger": lambda said: 0 if said.startswith(b"kept") else 1 if said.startswith(b"broken") else 2,
}
BLOCK = 65536
FIRST = 16


def hold_ends():
    """Which of the three standard ends are closed. Each of these is held, so that no pipe made here takes its place."""
    closed = []
    for end in (0, 1, 2):
        try:
            os.fstat(end)
        except OSError:
            closed.append(end)
            os.open(os.devnull, os.O_RDWR)
    return closed


def passed(end, data):
    """Whether all of it could be written."""
    try:
        while data:
            data = data[os.write(end, data):]
    except OSError:
        return False
    return True


def say(name, words):
    # the name of a file may be any bytes
    passed(2, f"{name}: {words}\n".encode(errors="surrogateescape"))


def become(command, out, err, closed):
    """The command in this process's place; where `out` is 1 it has this one's standard output."""
    try:
        os.dup2(out, 1)
        os.dup2(err, 2)
        for end in {0, out} & set(closed):
            os.close(end)
        for ignored in (signal.SIGPIPE, signal.SIGXFSZ):
            signal.signal(ignored, signal.SIG_DFL)
        os.execvp(command[0], command)
    except OSError as bad:
        passed(2, f"{command[0]}: {bad.strerror}\n".encode())
    finally:
        os._exit(127)


def stop(child, number=signal.SIGTERM):
    try:
        os.kill(child, number)
        os.waitpid(child, 0)
    except OSError:
        pass


def end_with(child):
    """A signal that ends this program ends the command too."""
    def ended(number, _):
        stop(child, number)
        signal.signal(number, signal.SIG_DFL)
        os.kill(os.getpid(), number)

    for number in (signal.SIGINT, signal.SIGTERM, signal.SIGHUP):
        if signal.getsignal(number) != signal.SIG_IGN:
            signal.signal(number, ended)


def fail(name, ended):
    """What is said of a command that ended so and said nothing; and the status."""
    if ended == -signal.SIGPIPE and name not in RULES:
        signal.signal(signal.SIGPIPE, signal.SIG_DFL)
        os.kill(os.getpid(), signal.SIGPIPE)
    say(name, f"ended by signal {-ended}" if ended < 0 else f"ended with status {ended}" if ended else "said nothing")
    return 2


def passed_on(out, err, closed):
    """Passes on what comes from the two ends, `out` None where there is none: the first bytes of standard output,
    whether there was an error, and whether standard output took all."""
    said, wrong, ends = b"", False, [end for end in (out, err) if end is not None]
    while ends:
        for end in select.select(ends, [], [])[0]:
            data = os.read(end, BLOCK)
            if not data:
                ends.remove(end)
            elif end == err:
                wrong = True
                passed(2, data)
            else:
                said = (said + data)[:FIRST]
                if 1 in closed or not passed(1, data):
                    return said, wrong, False
    return said, wrong, True


def run(name, command):
    closed = hold_ends()
    out, into_out = os.pipe() if name in RULES else (None, 1)
    err, into_err = os.pipe()
    child = os.fork()
    if child == 0:
        become(command, into_out, into_err, closed)
    end_with(child)
    if out is not None:
        os.close(into_out)
    os.close(into_err)
    said, wrong, taken = passed_on(out, err, closed)
    if not taken:
        stop(child)
        say(name, "standard output can't be written")
        return 2
    ended = os.waitstatus_to_exitcode(os.waitpid(child, 0)[1])
    found = 2 if wrong or ended else RULES[name](said) if name in RULES else 0
    return fail(name, ended) if found == 2 and not wrong else found


if __name__ == "__main__":
    if len(sys.argv) < 3:
        asked = sys.argv[1:] == ["--help"]
        print(__doc__.strip(), file=sys.stdout if asked else sys.stderr)
        sys.exit(0 if asked else 2)
    sys.exit(run(sys.argv[1], sys.argv[2:]))
