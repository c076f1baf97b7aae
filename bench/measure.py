#!/usr/bin/env python3
"""measure.py QEMU [--keep FILE] [--into PAGE]: counts the programs that run.sh has built, checks first that all of them
answer alike, and prints the tables.

--keep FILE writes the figures to a file; bench/before.json has those of an earlier state, which stand in the column
'before'. --into PAGE puts the tables between the marks of a page. $TOOLCHAIN is the kit's toolchain and $EMULATOR
the kit's emulator, empty where none is needed: run.sh sets both.
"""
import json
import os
import pathlib
import shutil
import subprocess
import sys
import threading

HERE = pathlib.Path(__file__).resolve().parent
ROOT = HERE.parent
OUT = ROOT / "target" / "bench"
sys.path[:0] = [str(HERE), str(ROOT / "tools")]
import check
import streams
from lib import model, pool, records, script

KINDS = {1: "configure", 2: "begin", 3: "lists", 4: "finish", 5: "drain"}
ROWS = ["mean", "begin", "lists", "finish", "drain"]
# name, program, the function that answers one record
PROGRAMS = {
    "ours": ("speed", "session::step"),
    "Rust": ("count-rust", "step"),
    "Rust, least": ("count-rust-least", "step"),
    "C++ g++ -O2": ("plain-gcc", "session_step"),
    "C++ clang -O3": ("plain-clang", "session_step"),
}
ANSWERING = ["ours", "C++ g++ -O2", "C++ clang -O3"]
# through the pool: the program, the function that answers one record, and the display's, which is counted apart
POOLED, POOL_STEP, RETURNS = "pooled", "pool::step", "pooled::returns"
DISPLAY = "display"
# the most surfaces that a pool has, and the least with which no begin finds none free if all is given back at once
SURFACES = [64, 18]
STREAMS = ["random-access", "low-delay"]
PICTURES, DEPTH_PICTURES = 1000, 200
DEPTHS = range(1, 17)
LENGTHS = [1000, 10000, 100000]
MARKS = ("<!-- counted by bench/run.sh -->", "<!-- end of the count -->")
POOL_MARKS = ("<!-- the pool, counted by bench/run.sh -->", "<!-- end of the count of the pool -->")


class Count:
    """What the plugin wrote."""

    def __init__(self, text):
        self.calls, self.functions = [], []
        for line in text.splitlines():
            word, *fields = line.split("\t")
            if word == "total":
                self.total, self.pages = int(fields[0]), int(fields[4])
            elif word == "call":
                self.calls.append([int(field) for field in fields])
            else:
                self.functions.append([fields[6], *map(int, fields[:6])])


def counted(qemu, command, mark=None, memory=True, given=None, less=None):
    """The environment is empty and the seed fixed: both can change what a program's start executes. `less` is a
    function whose own instructions no call has."""
    out = OUT / "count.txt"
    plugin = f"{OUT}/icount.so,out={out}" + ",mem=1" * memory + (f",mark={mark}+round_end" if mark else "")
    plugin += f",less={less}" if less else ""
    counting = [shutil.which(qemu), "-seed", "1", "-cpu", "qemu64", "-plugin", plugin, *command]
    with open(given or os.devnull, "rb") as source:
        subprocess.run(counting, env={}, stdin=source, stdout=subprocess.DEVNULL, check=True)
    return Count(out.read_text())


def kinds_of(data):
    return [KINDS[int.from_bytes(record[2:4], "little")] for record in records.cut(data)]


def means(kinds, calls):
    """Instructions, bytes read and bytes written for a record: of each kind, and of all."""
    assert len(kinds) == len(calls), "a record and its count do not go together"
    rows = {}
    for name in ROWS:
        chosen = [call for kind, call in zip(kinds, calls) if name in ("mean", kind)]
        rows[name] = [round(sum(column) / len(chosen), 1) for column in zip(*chosen)]
    return rows


def stream_file(name, count):
    path = OUT / f"{name}-{count}.bin"
    if not path.exists() or path.stat().st_mtime < (HERE / "streams.py").stat().st_mtime:
        path.write_bytes(streams.made(name, count))
    return path, path.read_bytes()


# ---- all of them answer alike

def check_replies(qemu, name, path, data):
    asked, made = model.run(data), OUT / "replies.bin"
    for program in ANSWERING:
        subprocess.run([qemu, OUT / PROGRAMS[program][0], path, "1", made], check=True)
        if made.read_bytes() != asked:
            sys.exit(f"measure.py: {program} answers {name} otherwise than model.py")
    handed = b""
    for reply in records.cut(asked):
        tail = records.reply_of(reply)
        handed += b"".join(serial.to_bytes(4, "little") for serial, _, _ in tail.get("handed", [])) + b"\xff" * 4
    for program in present():
        if program.startswith("Rust"):
            subprocess.run([qemu, OUT / PROGRAMS[program][0], path, "1", made], check=True)
            if made.read_bytes() != handed:
                sys.exit(f"measure.py: {program} hands out otherwise than model.py at {name}")


def through_pool(surfaces, data):
    """The replies through a pool, by the model, where each picture is given back as soon as it is handed out; and how
    many were."""
    lent, replies, returned = pool.made(surfaces), [], 0
    for record in records.cut(data):
        if not records.is_whole(record):
            break
        _, reply, _ = lent.step(record)
        replies.append(reply)
        for _, surface, _ in records.reply_of(reply).get("handed", []):
            lent.give_back(surface)
            returned += 1
    return b"".join(replies), returned


def present():
    return [name for name, (file, _) in PROGRAMS.items() if (OUT / file).exists()]


# ---- the figures

def of_streams(qemu):
    figures = {}
    for name in STREAMS:
        path, data = stream_file(name, PICTURES)
        check_replies(qemu, name, path, data)
        figures[name] = {}
        for program in present():
            file, mark = PROGRAMS[program]
            count = counted(qemu, [OUT / file, path, "1"], mark)
            figures[name][program] = means(kinds_of(data), count.calls)
            if program == "ours":
                figures[name]["functions"] = of_functions(count, len(count.calls))
    return figures


def of_functions(count, n):
    """For each function of ours: instructions of its own, copies that it calls for, and instructions of these, for a
    record."""
    ours = [
        (name, round(own / n, 1), round(copies / n, 1), round(copying / n, 1))
        for name, own, _, _, _, copies, copying in count.functions
        if "::" in name or name == "answer_all"
    ]
    return sorted(ours, key=lambda f: -f[1] - f[3])


def of_depths(qemu):
    figures = {}
    for depth in DEPTHS:
        path, data = stream_file(f"depth-{depth}", DEPTH_PICTURES)
        check_replies(qemu, f"depth {depth}", path, data)
        figures[str(depth)] = {}
        for program in present():
            file, mark = PROGRAMS[program]
            figures[str(depth)][program] = means(kinds_of(data), counted(qemu, [OUT / file, path, "1"], mark).calls)
    return figures


def of_pool(qemu):
    """Each recording through a pool, by how many surfaces it has; and what the display executes for each picture: it
    looks at every reply, and gives the picture back."""
    figures = {}
    for name in STREAMS:
        path, data = stream_file(name, PICTURES)
        figures[name] = {}
        for surfaces in SURFACES:
            made = OUT / "replies.bin"
            command = [OUT / POOLED, path, "1", made, str(surfaces)]
            subprocess.run([qemu, *command], check=True)
            asked, returned = through_pool(surfaces, data)
            if made.read_bytes() != asked:
                sys.exit(f"measure.py: {name} through a pool of {surfaces} is answered otherwise than by pool.py")
            count = counted(qemu, command, POOL_STEP, less=RETURNS)
            rows = means(kinds_of(data), count.calls)
            own = next(function for function in count.functions if function[0] == RETURNS)
            rows[DISPLAY] = [round(total / returned, 1) for total in (own[1], own[3], own[4])]
            figures[name][str(surfaces)] = rows
    return figures


def plain_replies(qemu, path):
    made = OUT / "replies.bin"
    subprocess.run([qemu, OUT / "plain-gcc", path, "1", made], check=True)
    return made.read_bytes()


def peak_of(command, path, asked):
    """The most memory that a process held when it had answered all of a recording, in kilobytes; its replies must be
    those asked for."""
    process = subprocess.Popen(command, stdin=subprocess.PIPE, stdout=subprocess.PIPE)
    feeding = threading.Thread(target=lambda: (process.stdin.write(path.read_bytes()), process.stdin.flush()))
    feeding.start()
    if process.stdout.read(len(asked)) != asked:
        sys.exit("measure.py: replay answers otherwise than the plain version")
    feeding.join()
    status = pathlib.Path(f"/proc/{process.pid}/status").read_text()
    process.stdin.close()
    process.wait()
    return int(next(line.split()[1] for line in status.splitlines() if line.startswith("VmHWM")))


def of_lengths(qemu):
    """The program `replay`, input and output included: instructions, 4,096-byte pages touched, and the most memory that
    the process held."""
    libraries = pathlib.Path(os.environ["TOOLCHAIN"]) / "lib"
    command = [libraries / "ld-linux-x86-64.so.2", "--library-path", libraries, OUT / "replay"]
    emulator = [os.environ["EMULATOR"]] if os.environ["EMULATOR"] else []
    start, figures = counted(qemu, command, memory=False).total, {}
    for length in LENGTHS:
        path, _ = stream_file("records", length)
        peak = peak_of([*emulator, *command], path, plain_replies(qemu, path))
        total = counted(qemu, command, memory=False, given=path).total
        pages = counted(qemu, command, given=path).pages
        each = round((total - start) / length, 1)
        figures[str(length)] = {"instructions": each, "pages": pages, "kilobytes": peak, "emulated": bool(emulator)}
    return figures


# ---- the tables

def table(heads, rows):
    return "".join("| " + " | ".join(row) + " |\n" for row in [heads, ["---"] * len(heads), *rows]) + "\n"


def whole(value):
    return f"{value:,.0f}"


def with_bytes(figures):
    return f"{whole(figures[0])} ({whole(figures[1])} / {whole(figures[2])})"


def ratio(figures, row, against):
    least = min((figures[name][row][0] for name in against if name in figures), default=None)
    return f"{figures['ours'][row][0] / least:.2f}" if least else ""


def show_streams(figures, before):
    cpp, text = ["C++ g++ -O2", "C++ clang -O3"], ""
    for name in STREAMS:
        here, old = figures[name], before and before[name]
        others = [program for program in present() if program != "ours"]
        heads = [name] + ["before"] * bool(old) + ["ours", *others, "ours / Rust", "ours / Rust, least", "ours / C++"]
        rows = []
        for row in ROWS:
            cells = [row] + ([whole(old["ours"][row][0])] if old else [])
            cells += [with_bytes(here[p][row]) for p in ["ours", *others]]
            rows.append(cells + [ratio(here, row, ["Rust"]), ratio(here, row, ["Rust, least"]), ratio(here, row, cpp)])
        text += table(heads, rows)
    return text


def show_functions(figures):
    text = ""
    for name in STREAMS:
        functions = figures[name]["functions"]
        every = sum(own + copying for _, own, _, copying in functions)
        rows = [
            [f"`{f}`", whole(own), f"{copies:.1f}", whole(copying), f"{100 * (own + copying) / every:.0f} %"]
            for f, own, copies, copying in functions[:10]
        ]
        sums = [sum(column) for column in zip(*[f[1:] for f in functions])]
        rows.append(["all", whole(sums[0]), f"{sums[1]:.1f}", whole(sums[2]), "100 %"])
        text += table([f"{name}: function", "own instructions", "copies", "instructions of the copies", "share"], rows)
    return text


def show_depths(figures, before):
    others = [program for program in present() if program != "ours"]
    heads = ["stored"] + ["before"] * bool(before) + ["ours", "begin", "lists", "finish", "drain", *others]
    rows = []
    for depth in DEPTHS:
        here = figures[str(depth)]
        old = [whole(before[str(depth)]["ours"]["mean"][0])] if before else []
        ours = [whole(here["ours"][row][0]) for row in ROWS]
        rows.append([str(depth), *old, *ours, *[whole(here[p]["mean"][0]) for p in others]])
    return table(heads, rows)


def show_lengths(figures, before):
    peak = "peak KB of the process" + " (emulator included)" * figures[str(LENGTHS[0])]["emulated"]
    heads = ["records"] + ["before"] * bool(before) + ["instructions a record", "pages touched", peak]
    rows = []
    for length in LENGTHS:
        here, old = figures[str(length)], [whole(before[str(length)]["instructions"])] if before else []
        rows.append([whole(length), *old, whole(here["instructions"]), whole(here["pages"]), whole(here["kilobytes"])])
    return table(heads, rows)


def show_pool(figures, streams):
    most, *others = SURFACES
    heads = ["session alone", f"pool of {most}", "more", "in 100", *[f"pool of {surfaces}" for surfaces in others]]
    text = ""
    for name in STREAMS:
        rows = []
        for row in [*ROWS, DISPLAY]:
            pooled = [figures[name][str(surfaces)][row][0] for surfaces in SURFACES]
            compared = ["", whole(pooled[0]), "", ""]
            if row in ROWS:
                alone = streams[name]["ours"][row][0]
                more = pooled[0] - alone
                compared = [whole(alone), whole(pooled[0]), whole(more), f"{100 * more / alone:.1f}"]
            rows.append([row, *compared, *[whole(figure) for figure in pooled[1:]]])
        text += table([name, *heads], rows)
    return text


def tables(figures, before):
    return "".join([
        f"Instructions a record (bytes read / written), {PICTURES:,} pictures:\n\n",
        show_streams(figures["streams"], before and before["streams"]),
        "Where ours go, for a record:\n\n",
        show_functions(figures["streams"]),
        "With the number of stored pictures, instructions a record (the columns begin to drain are ours):\n\n",
        show_depths(figures["depths"], before and before["depths"]),
        "`replay` on random-access recordings of these lengths, reading and writing included:\n\n",
        show_lengths(figures["lengths"], before and before["lengths"]),
    ])


def pool_tables(figures):
    says = "Instructions a record; the last row is what the display executes for each picture, which no other row has:"
    return f"{says}\n\n" + show_pool(figures["pool"], figures["streams"])


def put_into(page, marks, text):
    path = pathlib.Path(page)
    head, first, rest = path.read_text().partition(marks[0])
    _, last, tail = rest.partition(marks[1])
    if not first or not last:
        sys.exit(f"measure.py: {page} has not both marks")
    path.write_text(f"{head}{first}\n{text.rstrip()}\n{last}{tail}")


def main(arguments):
    words = dict(zip(arguments[1::2], arguments[2::2]))
    if len(arguments) % 2 == 0 or not set(words) <= {"--keep", "--into"}:
        print(__doc__, file=sys.stderr)
        return 2
    qemu = arguments[0]
    for program in ANSWERING:
        check.main([qemu, str(OUT / PROGRAMS[program][0])])
    check.main([qemu, str(OUT / POOLED)], lambda data: through_pool(SURFACES[0], data)[0])
    figures = {}
    for name, count in (("streams", of_streams), ("pool", of_pool), ("depths", of_depths), ("lengths", of_lengths)):
        print(f"measure.py: counts {name}", file=sys.stderr)
        figures[name] = count(qemu)
    earlier = HERE / "before.json"
    before = json.loads(earlier.read_text()) if earlier.exists() else None
    text, of_the_pool = tables(figures, before), pool_tables(figures)
    print("\n" + text + of_the_pool, end="")
    if "--keep" in words:
        pathlib.Path(words["--keep"]).write_text(json.dumps(figures) + "\n")
    if "--into" in words:
        put_into(words["--into"], MARKS, text)
        put_into(words["--into"], POOL_MARKS, of_the_pool)
    return 0


if __name__ == "__main__":
    script.helps(__doc__)
    sys.exit(main(sys.argv[1:]))
