#!/usr/bin/env python3
"""Many generated records through a program, streamed, with a ledger of every reply.

    soak.py [--records N] [--seed N] [--profile NAME] [--model] COMMAND...

For each profile of generate.py one long recording and some short ones go to COMMAND (./run replay), each in a process
of its own. Every record must get one reply, and lib/ledger.py must find no fault: every picture with output flag 1 is
exactly one of current, waiting, handed out once, thrown away by a named call; every begin's surface is still held or
was released exactly once; every list names only the current picture, missing entries and stored pictures whose surfaces
are unreleased. Every POC must be the one that the rule of docs/POC.md gives (lib/poc.py). With --model each reply must
also be the model's. Status 1 at the first fault.
"""
import argparse
import struct
import subprocess
import sys
import threading
import time
from collections import Counter, deque

from lib import generate, ledger, model, poc, records

SHORT = 400
CLIMB = 145000


def whole(pieces):
    """The records that the program cuts out of the pieces written; a rest that is not whole gets no reply."""
    rest = b""
    for piece in pieces:
        rest += piece
        while len(rest) >= 4:
            size = 4 + struct.unpack_from("<H", rest)[0]
            if len(rest) < size:
                break
            yield rest[:size]
            rest = rest[size:]


class Feeder(threading.Thread):
    """Writes a recording to the program and keeps its records until their replies come."""

    def __init__(self, pieces, stream):
        super().__init__(daemon=True)
        self.pieces, self.stream, self.records = pieces, stream, deque()

    def run(self):
        try:
            for record in whole(self.written()):
                self.records.append(record)
        except BrokenPipeError:
            pass
        finally:
            try:
                self.stream.close()
            except BrokenPipeError:
                pass

    def written(self):
        for piece in self.pieces:
            yield piece
            # the record is kept before its bytes go out, so no reply comes before its record
            self.stream.write(piece)


def replies_of(stream):
    while head := stream.read(4):
        yield head + stream.read(struct.unpack_from("<H", head)[0] if len(head) == 4 else 0)


def shown(record, reply):
    said = records.record_text(records.record_of(record) or {"kind": "raw", "bytes": record})
    return f"{said}\n  {records.reply_text(records.reply_of(reply) or {'kind': 'raw', 'bytes': reply})}"


class Checker:
    """One recording: each record with its reply."""

    def __init__(self, with_model):
        self.ledger, self.count = ledger.Ledger(), 0
        # what lib/poc.py notes, and how many POCs were compared with its rule
        self.notes, self.pocs = poc.NOTHING, 0
        self.session = model.Session() if with_model else None

    def fault(self, record, reply):
        """What the ledger finds or, where it finds nothing, the rule of POC; none where all is as it should be."""
        try:
            self.ledger.take(record, reply)
        except ledger.Fault as fault:
            return str(fault)
        self.notes, given = poc.told(self.notes, record, reply)
        if given is None:
            return None
        self.pocs += 1
        return poc.wrong(reply, given)

    def take(self, record, reply):
        self.count += 1
        fault = self.fault(record, reply)
        if fault:
            return f"record {self.count - 1}: {fault}: {shown(record, reply)}"
        if self.session is not None:
            wanted = self.session.step(record)[1]
            if wanted != reply:
                said = records.reply_text(records.reply_of(wanted))
                return f"record {self.count - 1}: {shown(record, reply)}\n  model: {said}"
        return None


def soak(command, profile, seed, count, with_model):
    """The checker, and what is wrong or none."""
    process = subprocess.Popen(command, stdin=subprocess.PIPE, stdout=subprocess.PIPE)
    feeder = Feeder(generate.recording(profile, seed, count), process.stdin)
    feeder.start()
    checker, wrong = Checker(with_model), None
    for reply in replies_of(process.stdout):
        if not feeder.records:
            wrong = "a reply without a record"
            break
        wrong = checker.take(feeder.records.popleft(), reply)
        if wrong:
            break
    if wrong:
        process.kill()
    feeder.join()
    status = process.wait()
    if not wrong and (feeder.records or status):
        wrong = f"{len(feeder.records)} records without a reply, status {status}"
    return checker, wrong


def plan(profile, total, seed):
    """A long recording, and short ones with a part of the records. Two climbs, where they are worth it to both ends."""
    if profile == "climb":
        yield seed, max(total, CLIMB) if total > CLIMB // 4 else total
        yield seed + 1, CLIMB if total > CLIMB // 4 else total
        return
    short = min(20, total // 2 // SHORT)
    yield seed, total - short * SHORT
    for i in range(short):
        yield seed + 1 + i, SHORT


def main():
    parser = argparse.ArgumentParser(description=__doc__, formatter_class=argparse.RawDescriptionHelpFormatter)
    parser.add_argument("--records", type=int, default=1000000)
    parser.add_argument("--seed", type=int, default=1)
    parser.add_argument("--profile", choices=generate.PROFILES)
    parser.add_argument("--model", action="store_true")
    parser.add_argument("command", nargs="+")
    arguments = parser.parse_args()
    profiles = [arguments.profile] if arguments.profile else generate.PROFILES
    started, sums, count, pocs, recordings = time.time(), Counter(), 0, 0, 0
    for profile in profiles:
        for seed, size in plan(profile, arguments.records // len(profiles) + 1, arguments.seed):
            checker, wrong = soak(arguments.command, profile, seed, size, arguments.model)
            if wrong:
                print(f"generate.py {profile} {seed} {size}, {wrong}")
                return 1
            recordings, count, pocs = recordings + 1, count + checker.count, pocs + checker.pocs
            sums.update(checker.ledger.sums)
        print(f"{profile}: {count} records so far, {time.time() - started:.0f} s", flush=True)
    words = ", ".join(f"{value} {name}" for name, value in sums.items())
    alike = " and the model’s" if arguments.model else ""
    print(f"{recordings} recordings, {count} records, every reply in order{alike}; pictures: {words}; "
          f"{pocs} POCs compared with the rule")
    return 0


if __name__ == "__main__":
    sys.exit(main())
