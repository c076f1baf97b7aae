#!/usr/bin/env python3
"""Generated recordings, judged by the Rust.

    judge.py JUDGE [--program COMMAND] [--scale N] [--profile NAME] [--seed N] [--timeout SECONDS]

JUDGE is the harness that build.sh builds. Each recording of the plan is answered by the model (tools/lib/model.py) and,
with --program, by COMMAND (records on standard input, replies on standard output); its accepted records, up to where it
leaves the compared domain, by the Rust. Compared are the reply bytes (POC, flags, serial, the five sets, lists, what is
handed out, thrown away and released, in order) of all of them, and after each record the stored pictures in order with
their marks, waiting and latency counts, and the previous Tid0 picture, of model and Rust. Status 1: some difference.
"""
import argparse
import collections
import pathlib
import shlex
import subprocess
import sys
import time

sys.path.insert(0, str(pathlib.Path(__file__).resolve().parent.parent / "tools"))
import domain
import rust
from lib import generate, model, records

# profile, recordings, records each
PLAN = [
    ("random-access", 600, 250),
    ("low-delay", 500, 200),
    ("long-term", 600, 200),
    ("leading", 600, 200),
    ("layers", 400, 200),
    ("small", 500, 200),
    ("encoders", 60, 2000),
    ("chaos", 800, 250),
    ("edges", 300, 200),
    ("wild", 400, 150),
    ("limits", 300, 150),
    ("damaged", 400, 150),
    ("climb", 2, 134000),
]
BATCH = 40


class Told:
    """One recording: what is asked of the Rust, and what the session says."""

    def __init__(self, profile, seed, count):
        self.name = f"{profile} {seed} {count}"
        self.data = b"".join(generate.recording(profile, seed, count))
        self.pieces = [piece for piece in records.cut(self.data) if records.is_whole(piece)]
        self.replies, self.asked, self.kept = [], [], []
        self.passed, self.end = collections.Counter(), "end of the recording"
        self.seen = collections.Counter()
        self.follow()

    def follow(self):
        session, edge, ended = model.Session(), domain.Domain(), False
        for place, piece in enumerate(self.pieces):
            before = None if ended else domain.Before(session)
            number, reply = session.step(piece)
            self.replies.append(reply)
            if ended:
                continue
            why = edge.judge(before, records.record_of(piece), session) if number == 0 else "refused"
            if why in domain.STOPS:
                self.end, ended = domain.STOPS[why], True
            elif why:
                self.passed[domain.PASSES[why]] += 1
            else:
                self.asked.append(place)
                self.kept.append(kept(session))
                self.seen.update(contents(records.record_of(piece), records.reply_of(reply)))

    def question(self):
        return b"".join(self.pieces[place] for place in self.asked)


def contents(record, reply):
    """What a compared record and its reply have in them, in words to be counted."""
    kind = record["kind"]
    words = [kind]
    if kind == "begin":
        words.append("begin: " + nal_class(record["nal"]))
        for name in records.SETS:
            words += [f"{name}: {'missing' if serial == records.MISSING else 'found'}" for serial in reply[name]]
    elif kind == "lists":
        words += [f"lists: {name}" for bit, name in enumerate(records.LISTS_FLAGS) if record["flags"] >> bit & 1]
    for part in ("handed", "thrown", "released"):
        words += [part] * len(reply.get(part, []))
    return words


def nal_class(nal):
    for name, test in (("IDR", model.is_idr), ("BLA", model.is_bla), ("RADL", model.is_radl), ("RASL", model.is_rasl)):
        if test(nal):
            return name
    if nal == model.CRA:
        return "CRA"
    return "sub-layer non-reference" if model.is_sub_layer_non_reference(nal) else "other"


def kept(session):
    return [(p.serial, p.mark, p.waiting, p.count) for p in session.store], session.previous


def shown(reply):
    if reply is None:
        return "nothing"
    return records.reply_text(records.reply_of(reply) or {"kind": "raw", "bytes": reply})


def differences(told, answers):
    """Where model and Rust differ, as text; the first is enough."""
    for i, place in enumerate(told.asked):
        asked = records.record_text(records.record_of(told.pieces[place]))
        if i >= len(answers) or answers[i].failure is not None:
            failure = answers[i].failure if i < len(answers) else "no answer"
            return f"record {place}: {asked}\n  session {shown(told.replies[place])}\n  Rust    {failure}"
        answer = answers[i]
        if answer.reply != told.replies[place]:
            return f"record {place}: {asked}\n  session {shown(told.replies[place])}\n  Rust    {shown(answer.reply)}"
        stored, previous = told.kept[i]
        if answer.stored != stored:
            return f"record {place}: {asked}\n  session keeps {stored}\n  Rust keeps    {answer.stored}"
        if previous is not None and answer.previous != previous:
            sides = f"  session has previous Tid0 {previous}\n  Rust has              {answer.previous}"
            return f"record {place}: {asked}\n{sides}"
    return None


class Sums:
    def __init__(self):
        self.sums = collections.defaultdict(collections.Counter)
        self.ends, self.passed, self.seen = collections.Counter(), collections.Counter(), collections.Counter()
        self.found = []

    def add(self, profile, told):
        row = self.sums[profile]
        row["recordings"] += 1
        row["records"] += len(told.pieces)
        row["compared"] += len(told.asked)
        self.ends[told.end] += 1
        self.passed.update(told.passed)
        self.seen.update(told.seen)

    def differ(self, told, text):
        self.found.append(f"{told.name}, {text}")
        print(f"DIFFERENCE generate.py {self.found[-1]}", flush=True)

    def report(self):
        total = sum(self.sums.values(), collections.Counter())
        for name, row in list(self.sums.items()) + [("total", total)]:
            print(f"{name:14} {row['recordings']:6} recordings {row['records']:9} records {row['compared']:9} compared")
        print("recordings ended at:")
        for why, count in self.ends.most_common():
            print(f"{count:8} {why}")
        print("records passed over:")
        for why, count in self.passed.most_common():
            print(f"{count:8} {why}")
        print("in the records compared:")
        for what, count in sorted(self.seen.items()):
            print(f"{count:8} {what}")
        print(f"{len(self.found)} differences")


def judge_batch(batch, profile, arguments, sums):
    answers, late = rust.run(arguments.judge, [told.question() for told in batch], timeout=arguments.timeout)
    answers += [[]] * (len(batch) - len(answers))
    for told, said in zip(batch, answers):
        sums.add(profile, told)
        text = differences(told, said)
        if text:
            sums.differ(told, text + (" (timeout)" if late else ""))
        if arguments.program:
            done = subprocess.run(shlex.split(arguments.program), input=told.data, stdout=subprocess.PIPE, check=True)
            if done.stdout != b"".join(told.replies):
                sums.differ(told, "the program's replies are not the model's")


def main():
    parser = argparse.ArgumentParser(description=__doc__, formatter_class=argparse.RawDescriptionHelpFormatter)
    parser.add_argument("judge")
    parser.add_argument("--program")
    parser.add_argument("--scale", type=float, default=1)
    parser.add_argument("--profile")
    parser.add_argument("--seed", type=int, default=1)
    timeout = "seconds for a batch in the Rust; a loop that never ends is a difference"
    parser.add_argument("--timeout", type=float, default=600, help=timeout)
    arguments = parser.parse_args()
    sums, started = Sums(), time.time()
    for profile, recordings, count in PLAN:
        if arguments.profile not in (None, profile):
            continue
        seeds = range(arguments.seed, arguments.seed + max(1, int(recordings * arguments.scale)))
        for start in range(0, len(seeds), BATCH):
            judge_batch([Told(profile, seed, count) for seed in seeds[start:start + BATCH]], profile, arguments, sums)
            done = min(start + BATCH, len(seeds))
            print(f"{profile}: {done} of {len(seeds)} recordings, {time.time() - started:.0f} s", file=sys.stderr)
    sums.report()
    return 1 if sums.found or not sums.sums else 0


if __name__ == "__main__":
    sys.exit(main())
