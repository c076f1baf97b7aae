"""Calls of a pool and their answers (docs/POOL.md) as bytes and as text, one line each.

A call is a message: u16 length of its body, u16 kind, body. Kind 1 is the return of a surface, and its body is the
surface, u32: a body that is too short is read as if zeros stood behind it, further bytes are ignored. Any other kind
(0 is written) is a record, and its body is the record's bytes as they are lent, whatever they are.
An answer is a message too: its kind is 1 for a return and 0 for a record, its body u16 number, u16 surface (64 if
none), then the reply's bytes (none for a return).

Calls:
    begin nal=19 surface=7              a record, in the form of records.py
    return 3                            the return of surface 3
    call 1 03 00                        a call of any kind, with any bytes as its body
Answers:
    on 3 begun poc=0 serial=0           a begin was accepted, on surface 3
    done finish handed=0:3:0            any other reply, in the form of records.py: its number, and no surface
    done return                         a return was taken
    refused return 19
    no reply 14
    answer 0 5 64 02 00 02 01 00 00     an answer of any kind, number and surface, with any bytes as its reply
In both, `bytes 05 00` is no whole message, or one that is not laid out as its file calls for.
"""
import struct

from . import records
from .records import Bad

RECORD, RETURN = 0, 1
NO_SURFACE = 64
NO_ROOM = 14


# ---- bytes

def message(kind, body):
    return struct.pack("<HH", len(body), kind) + body


def parts(whole):
    """Kind and body of a whole message."""
    return struct.unpack_from("<H", whole, 2)[0], whole[4:]


def record_call(record):
    return message(RECORD, record)


def return_call(surface):
    return message(RETURN, struct.pack("<I", surface))


def is_return(whole):
    """Of a call or an answer."""
    return parts(whole)[0] == RETURN


def surface_in(body):
    """The surface that a return names."""
    return int.from_bytes(body[:4], "little")


def answer_bytes(kind, number, surface, reply=b""):
    return message(kind, struct.pack("<HH", number, surface) + reply)


def answer_of(whole):
    """Number, surface and reply of a whole answer; none where it is not laid out as one."""
    kind, body = parts(whole)
    if kind not in (RECORD, RETURN) or len(body) < 4 or (kind == RETURN and len(body) > 4):
        return None
    return (*struct.unpack_from("<HH", body), body[4:])


# ---- files

def take(stream):
    """The next message of a file; fewer bytes where the file ends inside it, none at its end."""
    head = stream.read(4)
    return head + stream.read(struct.unpack_from("<H", head)[0]) if len(head) == 4 else head


def whole(stream):
    """The whole messages of a file; an incomplete last one is left out."""
    while records.is_whole(found := take(stream)):
        yield found


# ---- text: a line gives a dict with its bytes, as records.pack asks for

def bytes_in(words):
    return records.raw_of(words)["bytes"]


def some(data):
    return {"bytes": data}


def to_bytes(line):
    return line["bytes"]


def call_of_text(text):
    kind, *words = text.split()
    if kind == "bytes":
        return some(bytes_in(words))
    if kind == "return" and len(words) == 1:
        return some(return_call(records.u32(words[0])))
    if kind == "call" and words:
        return some(message(records.u16(words[0]), bytes_in(words[1:])))
    return some(record_call(records.record_bytes(records.record_of_text(text))))


def reply_answer(text, surface=NO_SURFACE):
    reply = records.reply_of_text(text)
    return answer_bytes(RECORD, reply.get("number", 0), surface, records.reply_bytes(reply))


def answer_of_text(text):
    kind, *words = text.split()
    if kind == "bytes":
        return some(bytes_in(words))
    if kind == "answer" and len(words) >= 3:
        return some(answer_bytes(*[records.u16(word) for word in words[:3]], bytes_in(words[3:])))
    if text.split() == ["no", "reply", str(NO_ROOM)]:
        return some(answer_bytes(RECORD, NO_ROOM, NO_SURFACE))
    if text.split() == ["done", "return"]:
        return some(answer_bytes(RETURN, 0, NO_SURFACE))
    if kind == "refused" and words[:1] == ["return"] and len(words) == 2:
        return some(answer_bytes(RETURN, records.u16(words[1]), NO_SURFACE))
    if kind == "on" and len(words) > 1:
        return some(reply_answer(" ".join(words[1:]), records.u16(words[0])))
    return some(reply_answer(text))


def hexed(*words):
    return " ".join([str(word) for word in words[:-1]] + [f"{byte:02X}" for byte in words[-1]])


def first_that_packs(data, of_text, texts):
    """The first of some texts that gives these bytes; the last one does."""
    for text in texts:
        try:
            if of_text(text)["bytes"] == data:
                return text
        except Bad:
            pass
    raise Bad(f"{data.hex(' ')} has no text")


def call_text(line):
    data = line["bytes"]
    texts = [hexed("bytes", data)]
    if records.is_whole(data):
        kind, body = parts(data)
        record = records.record_of(body) or {"kind": "raw", "bytes": body}
        texts = [f"return {surface_in(body)}", records.record_text(record), hexed("call", kind, body), *texts]
    return first_that_packs(data, call_of_text, texts)


def answer_text(line):
    data = line["bytes"]
    texts, said = [hexed("bytes", data)], answer_of(data) if records.is_whole(data) else None
    if said is not None:
        number, surface, reply = said
        text = records.reply_text(records.reply_of(reply) or {"kind": "raw", "bytes": reply})
        texts = ["done return", f"refused return {number}", f"no reply {NO_ROOM}", text, f"on {surface} {text}",
                 hexed("answer", parts(data)[0], number, surface, reply), *texts]
    return first_that_packs(data, answer_of_text, texts)
