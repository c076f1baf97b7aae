"""Where a recording leaves the compared domain of docs/01-scope.md ('Where the Rust is left') and docs/DIFFERENCES.md.

Told from the record, the session of tools/lib/model.py before and after it, and what the Rust remembers that the
session does not.
"""
from lib import model

STOPS = {
    "discard": "discard, which the Rust has not (21)",
    "abandon": "abandon, which the Rust has not (22)",
    "equal": "a picture is stored beside one of equal POC (1, 2, 17)",
    "forgot": "the POC depends on the previous Tid0 picture that configure forgot (8)",
    "after-end": "IRAP after end of sequence with pictures stored (13)",
    "first": "the first picture is no IRAP (14)",
    "rasl": "RASL picture whose last IRAP had NoRaslOutputFlag (15)",
    "i32": "a long-term sum, product or cast leaves i32 on the way (19)",
}
PASSES = {
    "refused": "refused",
    "last-place": "lists with the current picture in the last active place (4)",
    "past-15": "lists with a candidate written past place 15 (5)",
}


def in_i32(*values):
    return all(-2**31 <= value < 2**31 for value in values)


class Before:
    """What a record finds."""

    def __init__(self, session):
        self.pocs = {p.poc for p in session.store}
        self.current = session.current
        self.previous = session.previous
        self.after_end = session.after_end
        self.first = session.first_in_bitstream


class Domain:
    """Follows the accepted records of one recording, beside the session."""

    def __init__(self):
        self.irap_flag = False
        self.rust_previous = False

    def judge(self, before, r, session):
        """Of an accepted record: why the recording ends here (a key of STOPS), why this record is passed over (of
        PASSES), or none."""
        kind = r["kind"]
        if kind in ("discard", "abandon"):
            return kind
        if kind in ("finish", "drain", "configure") and before.current is not None:
            if before.current.poc in before.pocs:
                return "equal"
            self.rust_previous = self.rust_previous or before.current.valid
        if kind == "begin":
            return self.begin(before, r, session)
        return self.lists(r, session) if kind == "lists" else None

    def begin(self, before, r, session):
        irap = model.is_irap(r["nal"])
        no_rasl = irap and self.no_rasl(before, r)
        if before.first and not before.after_end and not irap:
            return "first"
        if no_rasl and before.after_end and before.pocs:
            return "after-end"
        if model.is_rasl(r["nal"]) and self.irap_flag:
            return "rasl"
        if not no_rasl and before.previous is None and self.rust_previous:
            return "forgot"
        if not self.sums_fit(r, session):
            return "i32"
        if irap:
            self.irap_flag = no_rasl
        return None

    def no_rasl(self, before, r):
        nal = r["nal"]
        return model.is_idr(nal) or model.is_bla(nal) or (nal == model.CRA and before.first) or before.after_end

    def sums_fit(self, r, session):
        """Each step of the Rust's `poc_lt` stays in i32."""
        poc, m = session.current.poc, 2 ** session.limits["k"]
        for lsb, flags, cycle in r["lt"]:
            steps = (cycle, cycle * m, lsb + poc, lsb + poc - cycle * m, lsb + poc - cycle * m - poc % m)
            if flags & 2 and not in_i32(*steps):
                return False
        return True

    def lists(self, r, session):
        if r["type"] == 2 or not r["flags"] & 4:
            return None
        sets = session.current.sets
        n = len(sets["before"]) + len(sets["after"]) + len(sets["ltcurr"]) + 1
        if not r["flags"] & 1 and n > r["a0"]:
            return "last-place"
        active = [r["a0"]] + [r["a1"]] * (r["type"] == 0)
        if any(max(a, n) == 16 and 16 % n for a in active):
            return "past-15"
        return None
