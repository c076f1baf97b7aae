#!/usr/bin/env python3
"""What the documents say is what comes out: test_documents.py [PAGE..]. Status 1: something else came out.

A line `    $ COMMAND` of a page is run in a folder that has ./run, recordings and tools, after those above it; the
lines under it, up to the next text, must be what it writes, errors too, but for what ./run says of proving. A line that
ends with a backslash goes on in the next.
"""
import pathlib
import subprocess
import sys
import tempfile

ROOT = pathlib.Path(__file__).resolve().parents[2]
sys.path.insert(0, str(ROOT / "tools"))
from lib import script

SECONDS = 600
PAGES = [ROOT / "README.md", *(ROOT / "docs" / name for name in ("INTEGRATING.md", "OPERATING.md", "POC.md", "POOL.md"))]
LINKED = ("run", "recordings", "tools")
MARK = "    $ "


def worked(page):
    """The commands of a page, each with the text under it."""
    found, open_command, under = [], False, False
    for line in page.read_text().splitlines():
        if open_command:
            found[-1][0] += "\n" + line
        elif line.startswith(MARK):
            found.append([line.removeprefix(MARK), ""])
            under = True
        elif under and line.startswith("    "):
            found[-1][1] += line[4:] + "\n"
        else:
            under = under and not line
        open_command = (open_command or line.startswith(MARK)) and line.endswith("\\")
    return found


def differences(page):
    """How many commands a page has, and those that write something else than it says."""
    commands, wrong = worked(page), []
    with tempfile.TemporaryDirectory() as folder:
        for name in LINKED:
            (pathlib.Path(folder) / name).symlink_to(ROOT / name)
        for command, asked in commands:
            done = subprocess.run(["bash", "-c", command], cwd=folder, stdin=subprocess.DEVNULL, stdout=subprocess.PIPE,
                                  stderr=subprocess.STDOUT, timeout=SECONDS, text=True, check=False)
            said = "".join(line for line in done.stdout.splitlines(True) if not line.startswith("./run: "))
            if said != asked:
                wrong.append(f"{page.name}: {command}\n  writes {said!r}\n  not    {asked!r}")
    return len(commands), wrong


def main(arguments):
    bad = 0
    for page in [pathlib.Path(name) for name in arguments] or PAGES:
        count, wrong = differences(page)
        print("\n".join([*wrong, f"{page.name}: {count} commands, {len(wrong)} write something else"]), flush=True)
        bad += len(wrong) + (count == 0)
    return 1 if bad else 0


if __name__ == "__main__":
    script.helps(__doc__)
    sys.exit(main(sys.argv[1:]))
