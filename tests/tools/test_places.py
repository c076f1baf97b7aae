#!/usr/bin/env python3
"""tools/places.py finds each kind of place, and nothing in a file where none is. Status 1 at the first that is not
so."""
import pathlib
import subprocess
import sys
import tempfile

ROOT = pathlib.Path(__file__).resolve().parents[2]
sys.path.insert(0, str(ROOT / "tools"))
from lib import script

PLACES = """pub enum Seen {
    Nothing,
    One(u8),
}

struct Heard {
    part: u8,
    lines: Lines,
}

fn size(n: usize) -> usize
    ensures { result ≡ n }
{
    if n < 4 { n } else { 0 }
}

fn first(xs: &[u32], at: usize, st: Reading) -> u32 {
    let a = wire::u32_at(xs, at);
    let b = wire::u32_at(xs, a);
    b + a
}

fn second(xs: &[u64], at: usize, st: Reading) -> u64 {
    let a = wire::u64_at(xs, at);
    let c = wire::u64_at(xs, a);
    c + a
}

fn third(xs: &[u64], at: usize, st: Reading) -> bool {
    let mut i = 0;
    while i < xs.len() {
        i += 1;
    }
    xs.0 == st.0
}

fn copied(p: Picture) -> Picture {
    Picture {
        serial: p.serial,
        surface: p.surface,
        poc: 0,
    }
}

struct Run {
    items: [u32; 16],
    len: usize,
}

fn wishes(pocs: &[i32; 16], hows: &[u8; 16]) {}

enum Ask {
    A,
    B,
    C,
}
"""
FOUND = """1 crates/x/src/lib.rt:1: pub enum Seen {
1 crates/x/src/lib.rt:7: struct Heard { part: u8,
1 crates/x/src/lib.rt:11: fn size
2 crates/x/src/lib.rt:17: fn first (shape of first, 2 of it)
2 crates/x/src/lib.rt:23: fn second (shape of first, 2 of it)
3 crates/x/src/lib.rt:31: while i < xs.len() {
4 crates/x/src/lib.rt:34: xs.0 == st.0
4 crates/x/src/lib.rt:37: fn copied copies fields
6 crates/x/src/lib.rt:45: struct Run { 1 array(s), 1 length(s)
6 crates/x/src/lib.rt:50: fn wishes: pocs, hows
7 crates/x/src/lib.rt:52: enum Ask {
"""
NONE = """// enum Seen { Nothing, One(u8) }
pub fn sum(xs: &[u32]) -> u32 {
    let mut all = 0;
    for x in xs {
        all += x;
    }
    while all > 9 {
        all /= 10;
    }
    all
}
"""


def listed(text, *words):
    with tempfile.TemporaryDirectory() as folder:
        source = pathlib.Path(folder) / "crates" / "x" / "src"
        source.mkdir(parents=True)
        (source / "lib.rt").write_text(text)
        return subprocess.run([sys.executable, str(ROOT / "tools" / "places.py"), *words], cwd=folder, text=True,
                              capture_output=True, timeout=60, check=False)


def main():
    wrong = []
    done = listed(PLACES, "1", "2", "3", "4", "6", "7")
    if (done.returncode, done.stdout) != (0, FOUND):
        wrong.append(f"places: status {done.returncode}\n{done.stdout}{done.stderr}")
    together = listed(PLACES.replace("&[u64]", "&[u32]"), "5")
    if together.stdout != "5 crates/x/src/lib.rt:17: at, st, xs: 3 functions, the first fn first\n":
        wrong.append(f"parameters that stand together: {together.stdout!r}")
    if listed(NONE).stdout != "":
        wrong.append(f"none: {listed(NONE).stdout!r}")
    if listed(NONE, "8").returncode != 2:
        wrong.append("a point that is not there")
    for line in wrong:
        print(f"test_places.py: {line}", file=sys.stderr)
    if not wrong:
        print("places.py: 12 kinds of place, 1 file without one")
    return bool(wrong)


if __name__ == "__main__":
    script.helps(__doc__)
    sys.exit(main())
