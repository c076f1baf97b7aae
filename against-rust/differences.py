#!/usr/bin/env python3
"""The examples of docs/DIFFERENCES.md, run against the Rust.

    differences.py JUDGE             run all, compare with against-rust/differences/*.txt, print a table (status 1: some
                                     differ, or an example has no file)
    differences.py JUDGE --write     write those files

Each example runs in a process of its own, ended after five seconds: some of them never end. A file has the example's
records, from the first configure on, and behind each what the Rust does: its reply in the words of
tools/lib/records.py, the DPB behind it, and what else can be seen of it.
"""
import argparse
import pathlib
import re
import sys

HERE = pathlib.Path(__file__).resolve().parent
sys.path.insert(0, str(HERE.parent / "tools"))
import examples
import rust
from lib import records

FOLDER = HERE / "differences"
SECONDS = 5
# the entry that speaks of an SCC extension
WITH_SCC = 3


def sections():
    """Number, title and records of each example."""
    for section in re.split(r"^### ", examples.DOCUMENT.read_text(), flags=re.M)[1:]:
        number, title = re.match(r"(\d+)\. (.*)", section).groups()
        lines = [line.strip() for line in section.splitlines() if line.startswith("    ")]
        said = [line[1:].strip() for line in lines if line.startswith(">")]
        if said and not said[0].startswith("configure"):
            said.insert(0, examples.FIRST)
        yield int(number), title, said


def picture(entry):
    serial, mark, waiting, count = entry
    return f"{serial} {mark}{' waiting' if waiting else ''} count {count}"


def named(serials):
    """Serials up to the last that is not missing."""
    while serials and serials[-1] == records.MISSING:
        serials = serials[:-1]
    return ",".join("missing" if serial == records.MISSING else str(serial) for serial in serials) or "none"


def lines_of(record, answer):
    """What the Rust does with one record."""
    if answer.failure is not None:
        return [f"= {answer.failure}"]
    reply = records.reply_of(answer.reply)
    out = [f"= {records.reply_text(reply) if reply else 'taken as an end of bitstream'}"]
    out.append("  DPB: " + ("; ".join(picture(entry) for entry in answer.stored) or "empty"))
    if answer.previous is not None:
        out.append(f"  previous Tid0: lsb {answer.previous[0]}, MSB {answer.previous[1]}")
    if record.startswith("lists") and answer.places:
        out.append(f"  all places: list 0 {named(answer.places[:16])}; list 1 {named(answer.places[16:])}")
    if record.startswith("begin") and answer.lt_foll:
        out.append(f"  all places of ref_pic_set_lt_foll: {named(answer.lt_foll)}")
    if answer.given:
        out.append(f"  memory given back: {named(answer.given)}")
    return out


def shown(judge, said, scc=False):
    data = b"".join(records.record_bytes(records.record_of_text(line)) for line in said)
    recordings, late = rust.run(judge, [data], show=True, scc=scc, timeout=SECONDS)
    answers = recordings[0] if recordings else []
    out = []
    for place, line in enumerate(said):
        out.append(f"> {line}")
        if place < len(answers):
            out += lines_of(line, answers[place])
        else:
            out.append("= never ends" if late else "= (the decoder is gone)")
            break
    return "\n".join(out) + "\n"


def main():
    parser = argparse.ArgumentParser(description=__doc__, formatter_class=argparse.RawDescriptionHelpFormatter)
    parser.add_argument("judge")
    parser.add_argument("--write", action="store_true")
    arguments = parser.parse_args()
    found = wrong = 0
    for number, title, said in sections():
        if not said:
            print(f"{number:3} {title}: no records can show it")
            continue
        path, text = FOLDER / f"{number:02}.txt", shown(arguments.judge, said)
        if number == WITH_SCC:
            text += "# and where the PPS has an SCC extension that does not make the current picture a reference\n"
            text += shown(arguments.judge, said, scc=True)
        if arguments.write:
            FOLDER.mkdir(exist_ok=True)
            path.write_text(f"# {number}. {title}\n{text}")
        same = path.exists() and path.read_text().partition("\n")[2] == text
        found, wrong = found + 1, wrong + (not same)
        print(f"{number:3} {title}: {'as recorded' if same else 'NOT as recorded: ' + text}")
    print(f"{found} examples run against the Rust, {wrong} not as recorded")
    return 1 if wrong or not found else 0


if __name__ == "__main__":
    sys.exit(main())
