#!/usr/bin/env python3
"""Lists the places of crates/*/src that docs/DESIGN-PASS.md counts, point by point.

    places.py [--commit COMMIT] [POINT..]

Without a commit the files below the folder where it is started are read, without a point all seven are listed. A line
is a place: its point, its file and line, and what stands there; how many a point has goes to standard error. The rules
find places by their shape; which of them are kept, and what became of the others, is said on that page.

  1  an enum of two cases; a field that is a flag or a code (`CODES`) in a struct; a function that answers a code
  2  functions of one shape: alike but for names, numbers and types
  3  a `while` whose body counts its index up or down by one
  4  a comparison of `.0`; a struct that is copied field by field; a match that gives each case a number or a word
  5  parameters of one name and type that stand together, three or more, in three or more functions
  6  a struct with an array and a length; two lent arrays of one size; a buffer and how much of it is used
  7  an enum that a walk is told what to do by
"""
import pathlib
import re
import subprocess
import sys

from lib import script

CODES = "number|part|ended|failed|wrote|more|unread|unwritten|spent|surface"
FUNCTION = re.compile(r"^ *(?:pub(?:\(crate\))? )?(?:extern \"C\" )?fn (\w+)")


def sources(commit):
    """The .rt files by name, with their lines."""
    if commit is None:
        return {str(p): p.read_text().split("\n") for p in sorted(pathlib.Path(".").glob("crates/*/src/*.rt"))}
    listed = subprocess.run(["git", "ls-tree", "-r", "--name-only", commit, "crates"], check=True, text=True,
                            capture_output=True).stdout.split()
    names = [n for n in listed if re.fullmatch(r"crates/\w+/src/\w+\.rt", n)]
    show = lambda n: subprocess.run(["git", "show", f"{commit}:{n}"], check=True, text=True, capture_output=True).stdout
    return {n: show(n).split("\n") for n in sorted(names)}


def blocks(lines, opening):
    """(first line, head, body) of what begins with a line that `opening` matches and ends at a closing brace under
    it."""
    for i, line in enumerate(lines):
        if opening.search(line):
            indent = re.match(r" *", line).group(0)
            end = next((j for j in range(i, len(lines)) if lines[j].startswith(indent + "}")), i)
            yield i + 1, line.strip(), lines[i + 1:end]


def functions(lines):
    """(line, name, signature, body) of each function."""
    for at, head, rest in blocks(lines, FUNCTION):
        indent = re.match(r" *", lines[at - 1]).group(0)
        start = next((k for k, l in enumerate(rest) if l == indent + "{"), None)
        if start is None:
            start = -1
        text = " ".join(l.strip() for l in [lines[at - 1], *rest[:start + 1 or 1]])
        yield at, FUNCTION.search(lines[at - 1]).group(1), text, rest[start + 1:]


def parameters(signature):
    """(name, type) of each parameter."""
    inside = re.search(r"\((.*?)\)(?: ->| requires| ensures| \{|$)", signature)
    pairs = re.findall(r"(?:mut )?(\w+): ((?:&mut |&)?(?:\[[^\]]*\]|[\w:]+(?:<[^>]*>)?))", inside.group(1) if inside else "")
    return [p for p in pairs if p[0] != "self"]


def shape(body):
    """The body with each name, number and string taken for any other."""
    text = " ".join(l.strip() for l in body if not l.strip().startswith("//"))
    text = re.sub(r'b?"[^"]*"', "S", text)
    keep = "if|else|while|for|in|let|mut|match|return|true|false|as"
    return re.sub(r"\b(?!(?:%s)\b)\w+\b" % keep, "x", text)


def point1(files):
    for name, lines in files.items():
        for at, head, body in blocks(lines, re.compile(r"^(pub(\(crate\))? )?enum ")):
            if sum(bool(re.match(r"    \w", l)) for l in body) == 2:
                yield name, at, head
        for at, head, body in blocks(lines, re.compile(r"^(pub(\(crate\))? )?struct \w+.*\{$")):
            for k, l in enumerate(body):
                if re.match(r"    (pub(\(crate\))? )?(%s): (bool|u8|u16|u32)," % CODES, l):
                    yield name, at + 1 + k, head + " " + l.strip()
        for at, fn, text, body in functions(lines):
            flat = " ".join(body)
            if re.search(r"-> (u8|u16|u32|usize)\b", text) and re.search(
                    r"return 0;|else \{ 0 \}|=> 0,|=> \d+,|else \{ \d+ \}|NO_SURFACE|_ => 0|=> \{? ?\d+", flat):
                yield name, at, "fn " + fn


def point2(files):
    groups = {}
    for name, lines in files.items():
        for at, fn, text, body in functions(lines):
            key = shape(body)
            if len(key) > 25:
                groups.setdefault(key, []).append((name, at, fn))
    for group in groups.values():
        if len(group) > 1:
            for name, at, fn in group:
                yield name, at, f"fn {fn} (shape of {group[0][2]}, {len(group)} of it)"


def point3(files):
    for name, lines in files.items():
        for at, head, body in blocks(lines, re.compile(r"^ +while ")):
            test = re.match(r"while (\w+) < |while \w+ < (\w+) ", head)
            used = re.findall(r"\w+", head)
            if any(re.search(r"\b%s [+-]= 1;" % w, l) for l in body for w in used) or "left = " in " ".join(body):
                yield name, at, head


def point4(files):
    for name, lines in files.items():
        for i, l in enumerate(lines):
            if re.search(r"\.0 [=!]= ", l) and not l.strip().startswith("//"):
                yield name, i + 1, l.strip()
        for at, fn, text, body in functions(lines):
            flat = " ".join(l.strip() for l in body)
            fields = re.findall(r"(\w+): (\w+)\.(\w+)[,}]", flat)
            if sum(a == c for a, _, c in fields) >= 2 and re.search(r"\b(\w+) \{", flat):
                yield name, at, f"fn {fn} copies fields"
            arms = re.findall(r"=> (?:\d+|b\"[^\"]*\"|say\(out, b|text::put\(d, at, b|\w+::\w+),?", flat)
            if len(arms) >= 3:
                yield name, at, f"fn {fn} matches to numbers, cases or words"


def point5(files):
    every = [(name, at, fn, frozenset(parameters(text))) for name, lines in files.items()
             for at, fn, text, body in functions(lines)]
    wide = {ps for *_, ps in every if len(ps) >= 3}
    groups = {a & b for a in wide for b in wide if len(a & b) >= 3}
    users = {g: [e for e in every if g <= e[3]] for g in groups}
    for group, where in users.items():
        larger = any(group < other and len(users[other]) == len(where) for other in groups)
        if len(where) >= 3 and not larger:
            name, at, fn, _ = where[0]
            yield name, at, ", ".join(sorted(n for n, _ in group)) + f": {len(where)} functions, the first fn {fn}"


def point6(files):
    for name, lines in files.items():
        for at, head, body in blocks(lines, re.compile(r"^(pub(\(crate\))? )?struct ")):
            arrays = [l for l in body if re.search(r": \[\w+; ", l)]
            lengths = [l for l in body if re.search(r": usize,", l)]
            if arrays and lengths:
                yield name, at, f"{head} {len(arrays)} array(s), {len(lengths)} length(s)"
        for at, fn, text, body in functions(lines):
            ps = parameters(text)
            if any(n == "pocs" for n, _ in ps) and any(n == "hows" for n, _ in ps):
                yield name, at, f"fn {fn}: pocs, hows"
            if any(n in ("n", "m", "len", "held") and t == "usize" for n, t in ps) and any(
                    re.match(r"\[|&(mut )?\[", t) for _, t in ps):
                yield name, at, f"fn {fn}: an array and a length"


def point7(files):
    for name, lines in files.items():
        for at, head, body in blocks(lines, re.compile(r"^(pub(\(crate\))? )?enum (Sought|Ask|Change|Rule|Event|Move|Part)\b")):
            yield name, at, head


POINTS = [point1, point2, point3, point4, point5, point6, point7]


def main(words):
    commit = None
    if words[:1] == ["--commit"]:
        commit, words = words[1], words[2:]
    if any(w not in "1234567" or len(w) != 1 for w in words):
        print(__doc__, file=sys.stderr)
        return 2
    files = sources(commit)
    for n in sorted(map(int, words)) or range(1, 8):
        found = sorted(set(POINTS[n - 1](files)))
        for name, at, what in found:
            print(f"{n} {name}:{at}: {what}")
        print(f"point {n}: {len(found)}", file=sys.stderr)
    return 0


if __name__ == "__main__":
    script.helps(__doc__)
    script.filters()
    sys.exit(main(sys.argv[1:]))
