#!/usr/bin/env python3
"""Every script says what it does: `--help` ends with status 0 and writes a text that names it to standard output,
nothing to standard error, and changes no file. The version stands in three places, and is the same. Status 1 at the
first that is not so."""
import pathlib
import re
import subprocess
import sys

ROOT = pathlib.Path(__file__).resolve().parents[2]
sys.path.insert(0, str(ROOT / "tools"))
from lib import script, tried
from lib.tried import Failed


FOLDERS = ("tools", "tests", "bench", "against-rust", "embed")
MADE = {"target", "__pycache__"}


def files():
    """Those of the folders that have scripts, but for what was made there."""
    found = [path for folder in FOLDERS for path in sorted((ROOT / folder).rglob("*")) if path.is_file()]
    return [path for path in found if not MADE & set(path.relative_to(ROOT).parts)]


def commands():
    """The scripts that can be started, each with the words that start it."""
    for path in files():
        if path.suffix == ".py" and "__main__" in path.read_text():
            yield [sys.executable, str(path)]
        elif path.suffix == ".sh" and path.name != "kit.sh":
            yield ["sh", str(path)]
    yield ["sh", str(ROOT / ".ci" / "run")]
    yield ["sh", str(ROOT / "run")]


def stamps():
    return {path: (path.stat().st_mtime_ns, path.stat().st_size) for path in files()}


def helps():
    before, count = stamps(), 0
    for words in commands():
        done = subprocess.run([*words, "--help"], stdin=subprocess.DEVNULL, capture_output=True, timeout=60,
                              check=False)
        if done.returncode != 0 or len(done.stdout) < 80 or done.stderr:
            raise Failed(f"{words[1]} --help: status {done.returncode}, {done.stdout!r:.80}, {done.stderr!r:.300}")
        count += 1
    if stamps() != before:
        raise Failed("a file was changed")
    return f"{count} scripts"


def versions():
    """Of the repository, of the C header and of the Rust crate."""
    version = (ROOT / "VERSION").read_text().strip()
    places = {"embed/trusshemp.h": rf'^#define TRUSSHEMP_VERSION "{re.escape(version)}"$',
              "embed/rust/Cargo.toml": rf'^version = "{re.escape(version)}"$'}
    for name, line in places.items():
        if not re.search(line, (ROOT / name).read_text(), re.M):
            raise Failed(f"{name} does not have the version {version}")
    return version


if __name__ == "__main__":
    script.helps(__doc__)
    sys.exit(tried.run("help", [helps, versions]))
