"""Records and replies of a picture session as text, one line each, and as bytes.

Records:
    configure k=4 capacity=4 buffering=4 reorder=1 latency=0
    begin nal=1 tid=0 output=1 noprior=0 lsb=4 surface=7 neg=-1:1,-3:0 pos=2:1 lt=3:used+msb:1,5:unused:0
    lists B modify0 own a0=2 a1=1 e0=0,1
    finish | drain | discard | end | abandon
    raw 06 00 01 00                 any bytes
neg and pos are DELTA:USED, lt is LSB:FLAGS:CYCLE. In begin, tid, noprior and lsb are 0 and output is 1 unless given; in
lists, a0 and a1 are 0. `flags=N` in place of output and noprior, or of modify0, modify1 and own, sets any bits; so does
a number as FLAGS of lt, and a number as slice type.

Replies:
    refused begin 7                 refused ? 13 has reply kind 511
    done finish handed=0:7:-3 thrown=3 released=7,8
    begun poc=0 norasl output valid noprior serial=0 before=1 after=2 foll=missing ltcurr=3 ltfoll=4 handed=.. thrown=..
        released=..                 (on the same line)
    lists l0=0,1 l1=missing
    raw 02 00 FF 01
handed is SERIAL:SURFACE:POC. What is left out is empty, or a flag that is 0.

A '#' starts a comment. What is no whole well-formed record or reply is unpacked as a raw line, so packing what was
unpacked gives the same bytes.
"""
import re
import struct

KINDS = ["configure", "begin", "lists", "finish", "drain", "discard", "end", "abandon"]
LIMITS = ["k", "capacity", "buffering", "reorder", "latency"]
SETS = ["before", "after", "foll", "ltcurr", "ltfoll"]
SLICES = ["B", "P", "I"]
LONG_FLAGS = ["unused", "used", "unused+msb", "used+msb"]
BEGUN_FLAGS = ["norasl", "output", "valid", "noprior"]
LISTS_FLAGS = ["modify0", "modify1", "own"]
REFUSALS = dict(enumerate([
    "not-configured", "bad-limits", "picture-current", "no-current", "out-of-range", "outside-i32", "surface-held",
    "serials-spent", "store-full", "no-candidate", "too-many", "bad-entry", "malformed", "no-room",
], 1)) | {18: "none-free"}
MISSING = 4294967295
BODY_LIMIT = 512
U8, U16, U32 = (0, 255), (0, 65535), (0, 4294967295)
I32 = (-2147483648, 2147483647)


class Bad(Exception):
    """Text that is no record or reply."""


# ---- words of a line

def number(text, limits):
    low, high = limits
    if not re.fullmatch(r"-?[0-9]+", text) or not low <= int(text) <= high:
        raise Bad(f"'{text}' is not a number from {low} to {high}")
    return int(text)


def serial(text):
    return MISSING if text == "missing" else number(text, U32)


def items(text, item):
    """A list with commas: each part by `item`."""
    found = [item(part) for part in text.split(",")] if text else []
    if len(found) > 255:
        raise Bad("more than 255 in one list")
    return found


def parts(text, *readers):
    """A group with colons: each part by its reader."""
    found = text.split(":")
    if len(found) != len(readers):
        raise Bad(f"'{text}' does not have {len(readers)} parts")
    return tuple(read(part) for read, part in zip(readers, found))


def taker(limits):
    return lambda text: number(text, limits)


u8, u16, u32, i32 = taker(U8), taker(U16), taker(U32), taker(I32)


def arguments(words, keys, flags=()):
    """The key=value words as a dict, and the set of bare words."""
    values, bare = {}, set()
    for word in words:
        key, equals, value = word.partition("=")
        if key in values or word in bare:
            raise Bad(f"'{key}' stands twice")
        if equals and key in keys:
            values[key] = value
        elif not equals and word in flags:
            bare.add(word)
        else:
            raise Bad(f"'{word}' is not known here")
    return values, bare


def needed(values, key, read):
    if key not in values:
        raise Bad(f"'{key}=' is not there")
    return read(values[key])


def flags_of(values, bare, names):
    """A flags byte: `flags=N`, or the bits of the bare words."""
    if "flags" in values and bare:
        raise Bad("'flags=' stands beside a flag's name")
    return u8(values["flags"]) if "flags" in values else sum(1 << i for i, name in enumerate(names) if name in bare)


def raw_of(words):
    if not all(re.fullmatch(r"[0-9A-Fa-f]{2}", word) for word in words):
        raise Bad("raw takes bytes of two hexadecimal digits")
    return {"kind": "raw", "bytes": bytes(int(word, 16) for word in words)}


# ---- records: text

def configure_of(words):
    values, _ = arguments(words, ["k", "capacity", "buffering", "reorder", "latency"])
    record = {key: needed(values, key, u8) for key in ["k", "capacity", "buffering", "reorder"]}
    return record | {"latency": needed(values, "latency", u16)}


def long_flags(text):
    return LONG_FLAGS.index(text) if text in LONG_FLAGS else u8(text)


def begin_of(words):
    values, _ = arguments(words, ["nal", "tid", "output", "noprior", "flags", "lsb", "surface", "neg", "pos", "lt"])
    if "flags" in values and ("output" in values or "noprior" in values):
        raise Bad("'flags=' stands beside output or noprior")
    bit = taker((0, 1))
    flags = bit(values.get("output", "1")) + 2 * bit(values.get("noprior", "0"))
    return {
        "nal": needed(values, "nal", u8),
        "tid": u8(values.get("tid", "0")),
        "flags": u8(values.get("flags", str(flags))),
        "lsb": u16(values.get("lsb", "0")),
        "surface": needed(values, "surface", u32),
        "neg": items(values.get("neg", ""), lambda t: parts(t, i32, u8)),
        "pos": items(values.get("pos", ""), lambda t: parts(t, i32, u8)),
        "lt": items(values.get("lt", ""), lambda t: parts(t, u16, long_flags, u32)),
    }


def lists_of(words):
    if not words:
        raise Bad("lists has no slice type")
    values, bare = arguments(words[1:], ["flags", "a0", "a1", "e0", "e1"], LISTS_FLAGS)
    record = {
        "type": SLICES.index(words[0]) if words[0] in SLICES else u8(words[0]),
        "flags": flags_of(values, bare, LISTS_FLAGS),
        "a0": u8(values.get("a0", "0")),
        "a1": u8(values.get("a1", "0")),
        "e0": items(values.get("e0", ""), u8),
        "e1": items(values.get("e1", ""), u8),
    }
    if (len(record["e0"]), len(record["e1"])) != entry_counts(record["flags"], record["a0"], record["a1"]):
        raise Bad("the entries are not as many as flags and active counts call for")
    return record


def entry_counts(flags, a0, a1):
    return (a0 if flags & 1 else 0, a1 if flags & 2 else 0)


def record_of_text(line):
    kind, *words = line.split()
    if kind == "raw":
        return raw_of(words)
    if kind not in KINDS:
        raise Bad(f"'{kind}' is no record")
    fields = {"configure": configure_of, "begin": begin_of, "lists": lists_of}
    if kind not in fields and words:
        raise Bad(f"{kind} has no fields")
    return {"kind": kind} | (fields[kind](words) if kind in fields else {})


def joined(values):
    return ",".join(":".join(str(x) for x in v) if isinstance(v, tuple) else str(v) for v in values)


def named(pairs):
    """key=value for each list that is not empty."""
    return "".join(f" {key}={joined(values)}" for key, values in pairs if values)


def flag_words(flags, names):
    if flags >> len(names):
        return f" flags={flags}"
    return "".join(f" {name}" for i, name in enumerate(names) if flags >> i & 1)


def begin_text(r):
    flags = f"flags={r['flags']}" if r["flags"] > 3 else f"output={r['flags'] & 1} noprior={r['flags'] >> 1}"
    lt = [(lsb, LONG_FLAGS[flags] if flags < 4 else flags, cycle) for lsb, flags, cycle in r["lt"]]
    head = f"begin nal={r['nal']} tid={r['tid']} {flags} lsb={r['lsb']} surface={r['surface']}"
    return head + named([("neg", r["neg"]), ("pos", r["pos"]), ("lt", lt)])


def lists_text(r):
    slice_type = SLICES[r["type"]] if r["type"] < 3 else r["type"]
    head = f"lists {slice_type}{flag_words(r['flags'], LISTS_FLAGS)} a0={r['a0']} a1={r['a1']}"
    return head + named([("e0", r["e0"]), ("e1", r["e1"])])


def raw_text(data):
    return " ".join(["raw"] + [f"{byte:02X}" for byte in data])


def record_text(r):
    if r["kind"] == "raw":
        return raw_text(r["bytes"])
    if r["kind"] == "configure":
        return "configure " + " ".join(f"{key}={r[key]}" for key in LIMITS)
    return {"begin": begin_text, "lists": lists_text}.get(r["kind"], lambda r: r["kind"])(r)


# ---- records: bytes

def body_of(r):
    if r["kind"] == "configure":
        return struct.pack("<BBBBH", r["k"], r["capacity"], r["buffering"], r["reorder"], r["latency"])
    if r["kind"] == "begin":
        counts = [len(r["neg"]), len(r["pos"]), len(r["lt"])]
        body = struct.pack("<BBBHI3B", r["nal"], r["tid"], r["flags"], r["lsb"], r["surface"], *counts)
        body += b"".join(struct.pack("<iB", *entry) for entry in r["neg"] + r["pos"])
        return body + b"".join(struct.pack("<HBI", *entry) for entry in r["lt"])
    if r["kind"] == "lists":
        return bytes([r["type"], r["flags"], r["a0"], r["a1"], *r["e0"], *r["e1"]])
    return b""


def record_bytes(r):
    if r["kind"] == "raw":
        return r["bytes"]
    body = body_of(r)
    return struct.pack("<HH", len(body), KINDS.index(r["kind"]) + 1) + body


def body_length(kind, body):
    """What kind and counts call for; none where the body has not even these."""
    if kind == "configure":
        return 6
    if kind == "begin":
        return 12 + 5 * (body[9] + body[10]) + 7 * body[11] if len(body) >= 12 else None
    if kind == "lists":
        return 4 + sum(entry_counts(*body[1:4])) if len(body) >= 4 else None
    return 0


def begin_fields(body):
    nal, tid, flags, lsb, surface, neg, pos, lt = struct.unpack_from("<BBBHI3B", body)
    short = list(struct.iter_unpack("<iB", body[12:12 + 5 * (neg + pos)]))
    long = list(struct.iter_unpack("<HBI", body[12 + 5 * (neg + pos):]))
    entries = {"neg": short[:neg], "pos": short[neg:], "lt": long}
    return {"nal": nal, "tid": tid, "flags": flags, "lsb": lsb, "surface": surface} | entries


def lists_fields(body):
    n0, _ = entry_counts(*body[1:4])
    head = {"type": body[0], "flags": body[1], "a0": body[2], "a1": body[3]}
    return head | {"e0": list(body[4:4 + n0]), "e1": list(body[4 + n0:])}


def record_of(data):
    """A well-formed record, or none: number 13."""
    if len(data) < 4:
        return None
    length, kind = struct.unpack_from("<HH", data)
    body = data[4:]
    if length != len(body) or length > BODY_LIMIT or not 1 <= kind <= len(KINDS):
        return None
    name = KINDS[kind - 1]
    if body_length(name, body) != length:
        return None
    if name == "configure":
        return {"kind": name} | dict(zip(LIMITS, struct.unpack("<BBBBH", body)))
    return {"kind": name} | {"begin": begin_fields, "lists": lists_fields}.get(name, lambda body: {})(body)


# ---- replies: text

def tail_of(values):
    return {
        "handed": items(values.get("handed", ""), lambda t: parts(t, serial, u32, i32)),
        "thrown": items(values.get("thrown", ""), serial),
        "released": items(values.get("released", ""), u32),
    }


def refused_of(words):
    if len(words) != 2 or words[0] not in KINDS + ["?"]:
        raise Bad("refused takes a kind or ?, and a number")
    return {"kind": "refused", "of": words[0], "number": number(words[1], (1, 65535))}


def done_of(words):
    if not words or words[0] not in KINDS or words[0] in ["begin", "lists"]:
        raise Bad("done takes configure, finish, drain, discard, end or abandon")
    values, _ = arguments(words[1:], ["handed", "thrown", "released"])
    return {"kind": "done", "of": words[0]} | tail_of(values)


def begun_of(words):
    values, bare = arguments(words, ["poc", "flags", "serial", "handed", "thrown", "released"] + SETS, BEGUN_FLAGS)
    reply = {"kind": "begun", "poc": needed(values, "poc", i32), "flags": flags_of(values, bare, BEGUN_FLAGS)}
    reply |= {"serial": needed(values, "serial", serial)} | {key: items(values.get(key, ""), serial) for key in SETS}
    return reply | tail_of(values)


def listed_of(words):
    values, _ = arguments(words, ["l0", "l1"])
    return {"kind": "lists"} | {key: items(values.get(key, ""), serial) for key in ["l0", "l1"]}


def reply_of_text(line):
    kind, *words = line.split()
    readers = {"raw": raw_of, "refused": refused_of, "done": done_of, "begun": begun_of, "lists": listed_of}
    if kind not in readers:
        raise Bad(f"'{kind}' is no reply")
    return readers[kind](words)


def serials(values):
    return ["missing" if value == MISSING else value for value in values]


def tail_text(r):
    return named([(key, r[key]) for key in ["handed", "thrown", "released"]])


def reply_text(r):
    if r["kind"] == "raw":
        return raw_text(r["bytes"])
    if r["kind"] == "refused":
        return f"refused {r['of']} {r['number']}"
    if r["kind"] == "done":
        return f"done {r['of']}{tail_text(r)}"
    if r["kind"] == "lists":
        return "lists" + named([(key, serials(r[key])) for key in ["l0", "l1"]])
    head = f"begun poc={r['poc']}{flag_words(r['flags'], BEGUN_FLAGS)} serial={r['serial']}"
    return head + named([(key, serials(r[key])) for key in SETS]) + tail_text(r)


# ---- replies: bytes

def words32(values):
    return struct.pack(f"<{len(values)}I", *values)


def tail_bytes(r):
    handed = b"".join(struct.pack("<IIi", *picture) for picture in r["handed"])
    runs = [bytes([len(r[key])]) + words32(r[key]) for key in ["thrown", "released"]]
    return bytes([len(r["handed"])]) + handed + b"".join(runs)


def reply_body(r):
    if r["kind"] == "done":
        return tail_bytes(r)
    if r["kind"] == "lists":
        return bytes([len(r["l0"]), len(r["l1"])]) + words32(r["l0"] + r["l1"])
    if r["kind"] == "begun":
        head = struct.pack("<iBI5B", r["poc"], r["flags"], r["serial"], *[len(r[key]) for key in SETS])
        return head + b"".join(words32(r[key]) for key in SETS) + tail_bytes(r)
    return b""


def reply_bytes(r):
    if r["kind"] == "raw":
        return r["bytes"]
    of = {"begun": "begin", "lists": "lists"}.get(r["kind"]) or r["of"]
    kind = 511 if of == "?" else 257 + KINDS.index(of)
    body = reply_body(r)
    return struct.pack("<HHH", 2 + len(body), kind, r.get("number", 0)) + body


class Cursor:
    """Reads a body from the front; struct.error past its end."""

    def __init__(self, data):
        self.data, self.at = data, 0

    def take(self, form):
        found = struct.unpack_from("<" + form, self.data, self.at)
        self.at += struct.calcsize("<" + form)
        return found

    def words(self, count):
        return list(self.take(f"{count}I"))

    def tail(self):
        handed = [self.take("IIi") for _ in range(self.take("B")[0])]
        return {"handed": handed, "thrown": self.words(self.take("B")[0]), "released": self.words(self.take("B")[0])}


def accepted_reply(kind, cursor):
    if kind == "lists":
        n0, n1 = cursor.take("BB")
        return {"kind": kind, "l0": cursor.words(n0), "l1": cursor.words(n1)}
    if kind == "begin":
        poc, flags, number_, *counts = cursor.take("iBI5B")
        reply = {"kind": "begun", "poc": poc, "flags": flags, "serial": number_}
        return reply | {key: cursor.words(count) for key, count in zip(SETS, counts)} | cursor.tail()
    return {"kind": "done", "of": kind} | cursor.tail()


def reply_of(data):
    """A well-formed reply, or none."""
    try:
        length, kind, refusal = struct.unpack_from("<HHH", data)
        if length != len(data) - 4 or not (257 <= kind <= 264 or kind == 511):
            return None
        of = "?" if kind == 511 else KINDS[kind - 257]
        if refusal:
            return {"kind": "refused", "of": of, "number": refusal} if length == 2 else None
        cursor = Cursor(data[6:])
        reply = None if of == "?" else accepted_reply(of, cursor)
        return reply if cursor.at == len(data) - 6 else None
    except struct.error:
        return None


# ---- whole files

def cut(data):
    """The heads cut a file into records or replies; a rest that is not whole is one piece."""
    at = 0
    while at < len(data):
        size = 4 + struct.unpack_from("<H", data, at)[0] if len(data) - at >= 4 else len(data) - at
        yield data[at:at + size]
        at += size


def is_whole(piece):
    """Whether bytes are exactly head plus body: others can be lent to a call, and not stand in a stream."""
    return len(piece) >= 4 and len(piece) == 4 + struct.unpack_from("<H", piece)[0]


def pack(text, of_text, to_bytes):
    out = []
    for place, line in enumerate(text.split(b"\n"), 1):
        try:
            said = line.partition(b"#")[0].decode().strip()
            out.append(to_bytes(of_text(said)) if said else b"")
        except (Bad, UnicodeDecodeError) as bad:
            raise Bad(f"line {place}: {bad}") from None
    return b"".join(out)


def unpack(data, of_bytes, to_text):
    return "".join(to_text(of_bytes(piece) or {"kind": "raw", "bytes": piece}) + "\n" for piece in cut(data)).encode()
