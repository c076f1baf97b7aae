#!/usr/bin/env python3
"""Spells this repository's own definitions and lemmas as today's Rattle does: words in snake case.

usage: python3 tools/respell.py [--check]      at the top of the repository, once, behind the kit's port.py

A name that specs/ or proofs/ declare and that begins with a small letter turns: `isMarked` to `is_marked`, `none-waits`
to `none_waits`. It turns whole words in crates/*/specs, proofs and src (clauses and comments; no strings), in the texts
of must-fail/*.edit, and in the documents: there camel case everywhere, and a name with a dash between backticks alone.
Not turned: a name that begins with a capital, names that an answer file declares for a goal (`.. : tie.Need-..`), what
stands behind `tie.`, a name that a file imports from a library, functions of src/ and exported C names.
A lemma that would have the name of a definition, of a local value or of the library beside it gets `_lem` behind it.
Others that would fall together get the name of the table OTHER. It says each name that it leaves, and why.
"""

import os
import re
import sys

WORD = re.compile(r"[\w'-]+")
DECLARED = re.compile(r"^ *((?:(?:pub|abbrev|unfoldable)\s+)*)([\w'-]+)((?: \{[^{}\n]*\})*) :(?= |$)(.*)")
USE = re.compile(r"^ *(?:pub |ghost )*use ([^\s{;]+?)\.?\{([^}]*)\}", re.M)
OWN = ("Rattle.",)
LIBRARY = re.compile(r"^Rattle\.(core|std|std_\w+|io|os|libc)\b")
ANSWER = re.compile(r"^\s*(tie\.|.*\bNeed-)")
# a field of two records; lemmas named as what they are about; definitions that would have the name of a parameter
OTHER = {
    "ltFoll": "lt_foll",
    "fields_in": "fields_in_lem",
    "in_step": "in_step_lem",
    "is_free": "is_free_lem",
    "same_from": "same_from_lem",
    "noPrior": "no_prior_pics",
    "noRasl": "no_rasl_pics",
    "allSaid": "all_records_said",
}


def snake(name):
    if name in OTHER:
        return OTHER[name]
    return re.sub(r"(?<=[a-z0-9])[A-Z]", lambda m: "_" + m[0].lower(), name).replace("-", "_")


def files(top, *endings):
    for folder, dirs, names in os.walk(top):
        dirs[:] = sorted(d for d in dirs if d not in ("out", ".git"))
        for name in sorted(names):
            if name.endswith(endings):
                yield os.path.join(folder, name)


def read(path):
    with open(path, encoding="utf-8") as f:
        return f.read()


def code(text):
    return re.sub(r"--[^\n]*", "", text)


def of_a_function(path):
    """Whether a file of proofs/ is the proof of one function."""
    return re.search(r"/proofs/(.*/)?(Proof|Answers|Invariants)(/\w+)?\.antt$", path.replace(os.sep, "/"))


def declared(texts):
    """The names that turn, and for each file the names that its answers have."""
    names, answers = set(), {}
    for path, text in texts.items():
        answers[path] = set()
        for line in code(text).splitlines():
            m = DECLARED.match(line)
            if not m or m[2][0].isupper() or not m[2][0].isalpha():
                continue
            if of_a_function(path) and ANSWER.match(m[4]):
                answers[path].add(m[2])
            else:
                names.add(m[2])
    return names, answers


def from_libraries(text):
    found = set()
    for path, items in USE.findall(text):
        if not path.startswith(OWN) or LIBRARY.match(path):
            found.update(it.split(" as ")[0].strip() for it in items.split(","))
    return found


def clashes(texts, table):
    """Gives a lemma another name where its own would fall together with another in some file."""
    left = set()
    for path, text in texts.items():
        words = set(re.findall(r"(?<![.\w'-])[\w'-]+", code(text)))
        for n in sorted(words & set(table)):
            others = [w for w in words if w != n and table.get(w, w) == table[n]]
            if not others or n in OTHER or n in left:
                continue
            if "-" in n:
                table[n] += "_lem"
                print(f"lemma: {n} is {table[n]}, since {path} has {', '.join(others)}")
            elif not any("-" in w for w in others):
                left.add(n)
                print(f"left: {n} would be {table[n]}, which {path} has as {', '.join(others)}")
    for n in left:
        del table[n]


def turned(text, table, keep):
    def one(m):
        before = text[max(0, m.start() - 5) : m.start()]
        if m[0] not in table or m[0] in keep or before.endswith(("tie.", "Bool.")):
            return m[0]
        return table[m[0]]

    return WORD.sub(one, text)


def turned_antt(text, table, keep):
    out = []
    for line in text.split("\n"):
        at = re.search(r"(?<![^\s])--(?= |$|-)", line)
        a, b = (line[: at.start()], line[at.start() :]) if at else (line, "")
        out.append(turned(a, table, keep) + in_prose(b, table))
    return "\n".join(out)


def in_prose(text, table):
    """Camel case everywhere; a dash between backticks alone."""
    camel = {a: b for a, b in table.items() if re.search(r"[a-z0-9][A-Z]", a)}
    text = WORD.sub(lambda m: camel.get(m[0], m[0]), text)
    return re.sub(r"`[^`\n]+`", lambda m: WORD.sub(lambda w: table.get(w[0], w[0]), m[0]), text)


def turned_rt(text, table):
    parts = re.split(r'("(?:\\.|[^"\\])*"|//[^\n]*)', text)
    return "".join(turned(p, table, set()) if i % 2 == 0 else in_prose(p, table) if p.startswith("//") else p for i, p in enumerate(parts))


def main():
    if sys.argv[1:] not in ([], ["--check"]):
        print(__doc__, file=sys.stderr if sys.argv[1:] != ["--help"] else sys.stdout)
        raise SystemExit(0 if sys.argv[1:] == ["--help"] else 2)
    write = sys.argv[1:] == []
    texts = {p: read(p) for p in files("crates", ".antt")}
    names, answers = declared(texts)
    table = {n: snake(n) for n in names if snake(n) != n}
    table.update({n: OTHER[n] for n in OTHER if n in names})
    clashes(texts, table)
    changed = 0
    for path, text in texts.items():
        new = turned_antt(text, table, from_libraries(text) | answers[path])
        changed += keep_if(path, text, new, write)
    for path in files("crates", ".rt"):
        text = read(path)
        changed += keep_if(path, text, turned_rt(text, table), write)
    for path in files("crates", ".edit"):
        text = read(path)
        changed += keep_if(path, text, turned(text, table, set()), write)
    for path in [*files("docs", ".md"), "README.md", "CHANGELOG.md", "CONTRIBUTING.md"]:
        text = read(path)
        changed += keep_if(path, text, in_prose(text, table), write)
    print(f"respell: {len(table)} names, {changed} files" + ("" if write else " would change"))


def keep_if(path, old, new, write):
    if old == new:
        return 0
    if write:
        with open(path, "w", encoding="utf-8") as f:
            f.write(new)
    return 1


if __name__ == "__main__":
    main()
