#!/usr/bin/env python3
"""Answers the script of `crates/test_books` by the plain model of document 01: usage `python3 books.py < stdin > stdout` in that folder
(its src/main.rt says what each line asks)."""
import os
import sys

sys.dont_write_bytecode = True
sys.path.insert(0, os.path.dirname(os.path.abspath(__file__)))
import model
import tables
from tables import fingerprint, number

ROOMS = {"T": 33_000, "B": 20_000, "I": 20_000, "R": 4_096}
WHY = {2: "stop", 3: "timeout"}


def ended(n, b):
    return f"{n}|{fingerprint(b)}"


def double(bits):
    return "-" if bits is None else f"{bits:016x}"


def integer(f):
    """an i64: digits, perhaps behind `-`, or `x` and the bits in hexadecimal"""
    if f[:1] == b"x":
        n = int(f[1:], 16)
        return n - 2**64 if n >= 2**63 else n
    return int(f)


class Script(tables.Script):
    def __init__(self):
        self.text = b""
        self.bytes = {k: bytearray(n) for k, n in ROOMS.items()}
        self.lent = {"T": 32_768, "B": 416, "I": 416, "R": 2_048}

    def get(self, k):
        return bytes(self.bytes[k][: self.lent[k]])

    def set(self, k, b):
        self.bytes[k][: self.lent[k]] = b

    def sheet(self, *books):
        """8 and 9, then the sheet: of the table and of books of one length"""
        if len(self.get("T")) != tables.LENGTH or not all(model.book_len_ok(b) and len(b) == len(books[0]) for b in books):
            return 8, None
        return number(tables.read_table, self.get("T"))

    def compile(self):
        n = 8
        if len(self.get("T")) == tables.LENGTH:
            n, sh = number(model.read_sheet, self.text)
            if n == 0:
                self.set("T", tables.table_of(sh))
        return ended(n, self.get("T"))

    def fresh(self):
        n, b = model.fresh(self.get("B"))
        self.set("B", b)
        return ended(n, b)

    def feed(self, f):
        bar = model.Bar(integer(f[1]), integer(f[2]), integer(f[3]), int(f[4], 16))
        return self.fed(model.feed, bar)

    def fed(self, feed, bar):
        """what a feed of a bar, or of a comma line, says"""
        b, said = self.get("B"), ""
        n, sh = self.sheet(b)
        if n == 0:
            n, b, chosen, rec = feed(sh, b, bar, self.text)
            if n == 0:
                if rec is not None:
                    why = rec.event if rec.desc == 1 else WHY[rec.desc]
                else:
                    why = "-" if chosen is None else chosen
                said = f"{b[24] - 1}|{b[25]}|{why}|"
                self.set("B", b)
        return said + ended(n, b)

    def copy(self, source, target):
        a, z = self.get(source), self.get(target)
        n, sh = self.sheet(a, z)
        if n == 0:
            n, z = model.copied(sh, a, z)
            self.set(target, z)
        return ended(n, z)

    def row(self, i, rows, short=False):
        b = self.get("B")
        n, sh = self.sheet(b)
        if short and n != 8 and len(self.get("R")) < 2048:
            n = 8
        if n == 0:
            if not model.full_ok(sh, b):
                return 10, None
            found = rows(sh, model.decode(b))
            return (0, found[i]) if 0 <= i < len(found) else (15, None)
        return n, None

    def start(self, text):
        r = self.get("R")
        self.set("R", text + r[len(text) :])

    def pair(self, i):
        n, r = self.row(i, model.pair_rows, True)
        said, lots = "", ""
        if n == 0:
            self.start(r["symbol"] + r["mark"] + r["seq"])
            values = [r["side"].decode(), r["open"], r["close"], double(r["po"]), double(r["pc"]), r["gap"], double(r["days"]), double(r["yld"])]
            texts = [r[k].decode() for k in ("symbol", "mark", "seq")]
            said, lots = "|".join(str(v) for v in values + texts) + "|", f"|{r['lots']}"
        return said + ended(n, self.get("R")) + lots

    def hold(self, i):
        n, r = self.row(i, lambda sh, st: model.hold_rows(st))
        said = "" if n else f"{r['local']}|{r['pos']}|{double(r['price'])}|{double(r['yld'])}|"
        return f"{said}{n}"

    def name(self, i):
        n, said = 8, ""
        if len(self.get("T")) == tables.LENGTH and len(self.get("R")) >= 256:
            n, sh = number(tables.read_table, self.get("T"))
            if n == 0:
                n = 15
                if 0 <= i < len(sh.events):
                    n, name = 0, sh.events[i].name
                    self.start(name)
                    said = name.decode() + "|"
        return said + ended(n, self.get("R"))

    def changed(self, f, passes):
        """the places where a byte of the book may be changed so, and it passes still"""
        mask, out = int(f[1]), []
        for at in range(int(f[2]), int(f[3])):
            b = bytearray(self.get("B"))
            if at < len(b):
                b[at] ^= mask
            if passes(bytes(b)):
                out.append(str(at))
        return " ".join(out)

    def can_save(self, b):
        n, sh = self.sheet(b, self.get("I"))
        if n == 0 and model.full_ok(sh, b):
            self.set("I", b)
            return True
        return False

    def can_feed(self, b):
        return self.sheet(b)[0] == 0 and model.header_ok(b)

    def answer(self, line):
        tag, f = line[:1], line.split(b"|")
        if tag in b"+.*%":
            return super().answer(line)
        if tag == b"L":
            self.lent = {k: min(int(n), ROOMS[k]) for k, n in zip("TBIR", f[1:])}
        elif tag == b"P":
            k, at, new = f[1].decode(), int(f[2]), bytes.fromhex(f[3].decode())
            self.bytes[k][at : at + len(new)] = new
        elif tag in b"CBX":
            calls = {b"C": self.compile, b"B": lambda: self.feed(f), b"X": lambda: self.fed(model.feed_line, line[2:])}
            out, self.text = calls[tag](), b""
            return out
        elif tag == b"H":
            return self.get(f[1].decode())[int(f[2]) : int(f[3])].hex()
        elif tag == b"N":
            return self.fresh()
        elif tag in b"SR":
            return self.copy("B", "I") if tag == b"S" else self.copy("I", "B")
        elif tag in b"VWE":
            return {b"V": self.pair, b"W": self.hold, b"E": self.name}[tag](integer(f[1]))
        elif tag in b"FG":
            return self.changed(f, self.can_save if tag == b"F" else self.can_feed)
        return None


if __name__ == "__main__":
    tables.main(Script())
