#!/usr/bin/env python3
"""./run NAME [ARGUMENTS]     runs a program of this repository; standard input and output are passed through
./run NAME --help          what the program does, its arguments and its status
./run --help               this, and the programs
./run --version            the version of this repository, and the kit that proves it

A program is proved and built first where that is not yet done, which takes minutes, once; standard error says so, with
a line for each crate that is proved and the name of the log. Two of one pipe wait for each other, and say so. An
interrupted ./run ends what it started. The environment variable TRUSSHEMP_SILENT is how many seconds a check or a wait
may take before it is said, 3 where it is not set: for scripts that compare standard error.

Status: 0 all went well, 2 an error was written to standard error. `ledger`: 0 kept, 1 broken. `compare`: 0 equal,
1 different.
"""
import os
import pathlib
import subprocess
import sys
import textwrap

ROOT = pathlib.Path(__file__).resolve().parents[1]
sys.path.insert(0, str(ROOT / "tools"))
from lib import beside, prove, status
import pool_ledger

# a crate is a library or a program: the program of the crate pool has a crate of its own
CRATES = {"pool": "poolrun"}


def programs():
    """The name of each program, and its crate."""
    names = {crate: name for name, crate in CRATES.items()}
    crates = sorted(path.parent.parent.name for path in ROOT.glob("crates/*/src/main.rt"))
    return {names.get(crate, crate): crate for crate in crates}


def help_of(crate):
    return (ROOT / "crates" / crate / "help.txt").read_text()


def usages(crate):
    """The lines that a help text starts with: how the program is called."""
    return help_of(crate).split("\n\n")[0].splitlines()


def takes(usage, arguments):
    """Whether a program may be called so: a word of the usage that is an option stands for itself, any other for some
    word that is no option. `< FILE` and `> FILE` are no arguments."""
    words = usage.split("<")[0].split(">")[0].split()[2:]
    pairs = zip(words, arguments)
    fits = (word == said if word.startswith("--") else not said.startswith("--") for word, said in pairs)
    return len(words) == len(arguments) and all(fits)


def reads_input(usage):
    return "<" in usage


def first_sentence(crate):
    return " ".join(help_of(crate).split("\n\n")[1].split()).split(". ")[0].rstrip(".:")


def overview():
    found = programs()
    wide = max(map(len, found)) + 6
    texts = [(f"    {name}".ljust(wide), first_sentence(crate)) for name, crate in sorted(found.items())]
    lines = [textwrap.fill(text, 120, initial_indent=name, subsequent_indent=" " * wide) for name, text in texts]
    return "\n".join([__doc__, "NAME is one of", "", *lines, ""])


def version():
    return f"trusshemp {(ROOT / 'VERSION').read_text().strip()}, proved by {(ROOT / '.ci' / 'kit').read_text()}"


def starter():
    """The words in front of a program that the kit built, on this machine: none, or an emulator (tools/kit.sh)."""
    words = '. "$0"; [ -z "$emulator" ] || printf "%s\\0" "$emulator"'
    found = subprocess.run(["sh", "-c", words, str(ROOT / "tools" / "kit.sh")], stdin=subprocess.DEVNULL,
                           stdout=subprocess.PIPE, check=True).stdout
    return [os.fsdecode(word) for word in found.split(b"\0")[:-1]]


def hint(name, usage):
    """Nobody waits in front of a program that waits for them."""
    try:
        waits = reads_input(usage) and os.isatty(0)
    except OSError:
        return
    if waits:
        status.say(name, f"reads standard input, which is a terminal; usage: {usage}")


def run(name, crate, usage, arguments):
    hint(name, usage)
    command = [*starter(), str(prove.program(ROOT, crate))]
    if name == "ledger" and arguments[0] == "--pool":
        return pool_ledger.main([name, *command, "--", *arguments[1:]])
    if name == "show" and arguments:
        return beside.run(name, command, arguments[1])
    return status.run(name, [*command, *arguments])


def main(words):
    if words == ["--help"]:
        print(overview(), end="")
        return 0
    if words == ["--version"]:
        print(version(), end="")
        return 0
    found = programs()
    if not words or words[0] not in found:
        what = f"there is no program '{words[0]}'" if words else "no program is named"
        print(f"./run: {what}: ./run NAME [ARGUMENTS], with NAME one of {' '.join(sorted(found))}", file=sys.stderr)
        return 2
    name, arguments = words[0], words[1:]
    crate = found[name]
    if "--help" in arguments:
        print(help_of(crate), end="")
        return 0
    fitting = [usage for usage in usages(crate) if takes(usage, arguments)]
    if not fitting:
        print("usage: " + "\n       ".join(usages(crate)), file=sys.stderr)
        return 2
    return run(name, crate, fitting[0], arguments) if prove.proved(ROOT, name, crate) else 2


if __name__ == "__main__":
    sys.exit(main(sys.argv[1:]))
