"""The picture order count (POC) of every picture by one rule, told from records and replies alone (docs/POC.md).

A picture goes on from the previous Tid0 picture: the last one that was finished of those whose begin's reply says
"valid". Where this one has POC p, the POC is the only whole number v with remainder lsb modulo M and
-M/2 < v - p <= M/2: the nearest to p, and upward on a tie. Where there is none before, or the picture is IRAP with
NoRaslOutputFlag, the POC is lsb. An accepted configure makes M = 2^k, and there is none before; finish and drain finish
the current picture, discard and abandon drop it; what was refused, lists and end of sequence change nothing.

Where each number is found, by its place from 0; all are little-endian:

    a record     2  u16  kind: 1 configure, 2 begin, 3 lists, 4 finish, 5 drain, 6 discard, 7 end of sequence, 8 abandon
                 4  u8   of a configure: k; of a begin: the NAL type, which is IRAP from 16 to 21
                 7  u16  of a begin: lsb
    its reply    4  u16  refusal number, 0 where the record was accepted
                 6  i32  of a begin: the POC
                10  u8   of a begin: flags, bit 0 NoRaslOutputFlag, bit 2 valid
                11  u32  of a begin: the serial

Nothing here uses another file of this project, so it can be copied into other tools. The notes from one exchange to the
next are M, the POC of the current picture if it is valid, and the POC of the previous Tid0 picture; none where there is
no such picture.
"""
NOTHING = (1, None, None)


def u16(data, at):
    return int.from_bytes(data[at:at + 2], "little")


def u32(data, at):
    return int.from_bytes(data[at:at + 4], "little")


def i32(data, at):
    return int.from_bytes(data[at:at + 4], "little", signed=True)


def nearest(m, p, lsb):
    """The only v with remainder lsb modulo M and -M/2 < v - p <= M/2. Python's remainder by M is never negative."""
    return p + m // 2 - (p + m // 2 - lsb) % m


def told(notes, record, reply):
    """The notes behind an exchange; and, where it is an accepted begin, the POC that the rule gives its picture."""
    (m, current, previous), kind = notes, u16(record, 2)
    if u16(reply, 4) or kind in (3, 7):                     # refused; lists and end of sequence
        return notes, None
    if kind == 1:                                           # configure
        return (1 << record[4], None, None), None
    if kind == 2:                                           # begin
        lsb, poc, flags = u16(record, 7), i32(reply, 6), reply[10]
        anew = previous is None or (16 <= record[4] <= 21 and flags & 1)
        return (m, poc if flags & 4 else None, previous), lsb if anew else nearest(m, previous, lsb)
    finished = kind in (4, 5) and current is not None       # finish, drain; discard and abandon leave the previous
    return (m, None, current if finished else previous), None


def wrong(reply, given):
    """What is wrong with the reply to an accepted begin, whose POC the rule gives; none where it is that one."""
    poc = i32(reply, 6)
    return None if poc == given else f"picture {u32(reply, 11)}: POC {poc}, and the rule of docs/POC.md gives {given}"
