#!/usr/bin/env python3
"""A plain model of the compiled table, written from document 01 and docs/TABLE.md: a sheet's table, which bytes are a table, the sheet that they mean.

Run as a program it answers the script of `crates/test_tables`: usage `python3 tables.py < stdin > stdout` in that folder (its src/main.rt says
what each line asks)."""
import os
import struct
import sys

sys.dont_write_bytecode = True
sys.path.insert(0, os.path.dirname(os.path.abspath(__file__)))
import model
from model import ANY, Refused

LENGTH = 32_768
LAYOUT = 0xFF00_0002
HEAD = 80
WILD = 65_535
KINDS = [b"A", b"Y", b"N"]


# ---------- writing ----------
class Book:
    """words in the order of first use"""

    def __init__(self):
        self.words = []

    def number(self, word):
        if word not in self.words:
            self.words.append(word)
        return self.words.index(word)

    def rows(self):
        order = sorted(range(len(self.words)), key=lambda i: self.words[i])
        at, out = 0, b""
        for i, w in enumerate(self.words):
            out += struct.pack("<4H", at, len(w), order.index(i), order[i])
            at += len(w)
        return out

    def texts(self):
        return b"".join(self.words)


def kind_of(e):
    """the lots beyond 1 stand above the lowest bit, which says exit"""
    return 2 * (e.lots - 1) + e.exit


def table_of(sh):
    """the table of a sheet"""
    keys, values = Book(), Book()
    events, clauses, names, first = b"", b"", b"", 0
    for e in sh.events:
        events += struct.pack("<6H", kind_of(e), e.op, len(names), len(e.name), first, len(e.clauses))
        names += e.name
        first += len(e.clauses)
        for c in e.clauses:
            key = keys.number(c.key)
            codes = [WILD if v == ANY else values.number(v) + 1 for v in c.vs]
            clauses += struct.pack("<6H", KINDS.index(c.kind), key, *codes, c.score)
    parts = [events, clauses, keys.rows(), values.rows(), sh.name + sh.symbol, names, keys.texts(), values.texts()]
    places = [HEAD]
    for p in parts:
        places.append(places[-1] + len(p))
    head = struct.pack("<4I2H", LAYOUT, sh.interval, sh.timeout, sh.stop, sh.t0, sh.evening)
    head += struct.pack("<6I", len(sh.events), first, len(keys.words), len(values.words), len(sh.name), len(sh.symbol))
    head += struct.pack("<9I", *places)
    used = head + b"".join(parts)
    assert len(used) == places[-1] <= LENGTH
    return used + bytes(LENGTH - len(used))


# ---------- reading ----------
def need(test):
    if not test:
        raise Refused(9)


def clean(b):
    need(model.utf8_ok(b) and b"|" not in b and b"\n" not in b)
    return b


def first_use(uses, n):
    """numbers in order of first use, all n of them"""
    seen = 0
    for u in uses:
        need(u <= seen)
        seen += u == seen
    need(seen == n)


def words_of(rows, texts, parts):
    """the words, one after another in their texts, distinct, with their ranks and order"""
    words, at = [], 0
    for a, length, _, _ in rows:
        need(a == at)
        at += length
        words.append(texts[a : a + length])
    need(at == len(texts))
    for w in words:
        ps = clean(w).split(b"_")
        need(len(ps) <= parts and ANY not in ps)
    need(len(set(words)) == len(words))
    order = sorted(range(len(words)), key=lambda i: words[i])
    need([r[3] for r in rows] == order)
    need([r[2] for r in rows] == [order.index(i) for i in range(len(words))])
    return words


def read_table(t):
    """the sheet that a table means; 9 where it is none"""
    need(len(t) == LENGTH)
    layout, interval, timeout, stop, t0, evening = struct.unpack_from("<4I2H", t, 0)
    need(layout == LAYOUT)
    need(interval <= 4_102_444_800 and timeout <= 2_147_483_647 and stop <= 100_000_000 and t0 <= 1 and evening <= 1_439)
    e, c, k, v, name, symbol = struct.unpack_from("<6I", t, 20)
    need(e <= 32 and c <= 256 and k <= 256 and v <= 768 and name <= 256 and symbol <= 256)
    places = struct.unpack_from("<9I", t, 44)
    need(places[0] == HEAD)
    need([b - a for a, b in zip(places, places[1:6])] == [12 * e, 12 * c, 8 * k, 8 * v, name + symbol])
    need(list(places) == sorted(places) and places[8] <= LENGTH)

    def section(i):
        return t[places[i] : places[i + 1]]

    def rows(i, w):
        b = section(i)
        return [struct.unpack_from(f"<{w}H", b, 2 * w * j) for j in range(len(b) // (2 * w))]

    sh = model.Sheet()
    sh.interval, sh.timeout, sh.stop, sh.t0, sh.evening = interval, timeout, stop, t0, evening
    sh.name, sh.symbol = clean(section(4)[:name]), clean(section(4)[name:])
    keys = words_of(rows(2, 4), section(6), 3)
    values = words_of(rows(3, 4), section(7), 1)
    clauses = rows(1, 6)
    for kind, key, v1, v2, v3, score in clauses:
        need(kind <= 2 and key < k and score <= model.SCORE)
        need(all(x == WILD or 1 <= x <= v for x in (v1, v2, v3)))
    first_use([r[1] for r in clauses], k)
    first_use([x - 1 for r in clauses for x in r[2:5] if x != WILD], v)
    at, begin, names = 0, 0, section(5)
    for kind, op, a, length, first, count in rows(0, 6):
        need((kind == 1 or kind % 2 == 0 and kind // 2 + 1 <= model.LOTS) and op <= 6 and length <= 256 and a == at and first == begin)
        at, begin = at + length, begin + count
        ev = model.Event(kind == 1, op, names[a:at], kind // 2 + 1)
        for ck, key, v1, v2, v3, score in clauses[first:begin]:
            texts = [ANY if x == WILD else values[x - 1] for x in (v1, v2, v3)]
            cl = model.Clause(KINDS[ck], [keys[key]], texts, score)
            cl.key = keys[key]
            ev.clauses.append(cl)
        sh.events.append(ev)
    need(at == len(names) and begin == c)
    for ev in sh.events:
        clean(ev.name)
    return sh


def number(call, *args):
    try:
        return 0, call(*args)
    except Refused as r:
        return r.n, None


# ---------- the script ----------
def fingerprint(b):
    h = 0
    for x in b:
        h = (h * 31 + x) % 2**32
    return h


def chosen(table, signals):
    """9, then the signals' refusals, then the event"""
    n, sh = number(read_table, bytes(table))
    if n == 0:
        n, d = number(model.read_signals, signals)
    if n:
        return f"{n}"
    i = model.choose(sh, d)
    return "0|-" if i is None else f"0|{i}"


class Script:
    def __init__(self):
        self.text, self.table = b"", bytearray(LENGTH)

    def compile(self):
        n, sh = number(model.read_sheet, self.text)
        if n == 0:
            self.table = bytearray(table_of(sh))
            assert shown(read_table(bytes(self.table))) == shown(sh)
        return f"{n}|{fingerprint(self.table)}"

    def flipped(self, mask, start, end):
        """the places where a byte may be changed so, and the bytes are a table still"""
        out = []
        for at in range(start, end):
            self.table[at] ^= mask
            if number(read_table, bytes(self.table))[0] == 0:
                out.append(str(at))
            self.table[at] ^= mask
        return " ".join(out)

    def answer(self, line):
        """what a line adds to the text, or its answer"""
        tag, rest = line[:1], line[1:]
        f = line.split(b"|")
        if tag == b"+":
            self.text += rest + b"\n"
        elif tag == b".":
            self.text += rest
        elif tag == b"*":
            n, unit = rest.split(b"|", 1)
            for i in range(int(n)):
                self.text += unit.replace(b"#", str(i).encode()) + b"\n"
        elif tag == b"%":
            self.text += bytes.fromhex(f[1].decode()) * int(f[0][1:])
        elif tag == b"P":
            new = bytes.fromhex(f[2].decode())
            self.table[int(f[1]) : int(f[1]) + len(new)] = new
        elif tag == b"C":
            out, self.text = self.compile(), b""
            return out
        elif tag == b"M":
            out, self.text = chosen(self.table, self.text), b""
            return out
        elif tag == b"T":
            return str(number(read_table, bytes(self.table))[0])
        elif tag == b"F":
            return self.flipped(int(f[1]), int(f[2]), int(f[3]))
        elif tag == b"H":
            return bytes(self.table[int(f[1]) : int(f[2])]).hex()
        return None


def shown(sh):
    """a sheet as plain values"""
    events = [(e.exit, e.op, e.name, e.lots, [(c.kind, c.key, c.vs, c.score) for c in e.clauses]) for e in sh.events]
    return sh.name, sh.symbol, sh.interval, sh.timeout, sh.stop, sh.t0, sh.evening, events


def main(script):
    for line in sys.stdin.buffer.read().split(b"\n")[:-1]:
        out = None if line[:1] == b"#" else script.answer(line)
        sys.stdout.buffer.write(line + (b"" if out is None else b" = " + out.encode()) + b"\n")


if __name__ == "__main__":
    main(Script())
