#!/usr/bin/env python3
"""A plain model of document 01: sheets, matching, the machine, the book's bytes and checks, rows, the run program; and
of document 02: W1, the exchange's comma lines, W2, stops in hundredths of a basis point, W3, the trading day that opens
in the evening, W4, lots, and W8, scores up to 1,000.

It is independent of the definitions and of the code: it was written before they were read. (One line was changed after that:
`choose` asks openings before exits in a table that mixes them.) Tables are left out: a call here takes the sheet.
Run as a program it tries case *1, some roundings and some lines. `cases.py` beside it sets it against every case of the
proved table."""
import re
import struct
from datetime import datetime, timedelta
from fractions import Fraction

ANY = "任意".encode()
CODES = [b"HL", b"HS", b"HO", b"LO", b"LE", b"SO", b"SE"]
NAMES = [s.encode() for s in ("持多", "持空", "持币", "开多", "平多", "开空", "平空")]
HL, HS, HO, LO, LE, SO, SE = range(7)
SHORT, FLAT, LONG = 0, 1, 2
IMAX = 4_102_444_799_999_999
OMAX = 86_399
IDMAX = 2_147_483_647
DAY = 86_400_000_000
MINUTE = 60_000_000
LOTS = 1_000
SCORE = 1_000
TEXT = 16_384


class Refused(Exception):
    def __init__(self, n):
        self.n = n


# ---------- doubles ----------
def of_bits(b):
    return struct.unpack("<d", struct.pack("<Q", b))[0]


def bits(x):
    return struct.unpack("<Q", struct.pack("<d", x))[0]


def is_nan(x):
    return x != x


def finite(x):
    return x == x and x not in (float("inf"), float("-inf"))


def neg(x):
    return (bits(x) >> 63) == 1


def div(a, b):
    if b == 0.0:
        if a == 0.0 or is_nan(a) or is_nan(b):
            return float("nan")
        return float("-inf") if neg(a) != neg(b) else float("inf")
    return a / b


def hold_yield(old, new):
    """in basis points; none where the old price is not above 0"""
    return (div(new, old) - 1.0) * 10000.0 if old > 0.0 else None


def rnd(x):
    """to a whole number, ties away from zero, sign kept, infinities stay"""
    if not finite(x) or x == 0.0:
        return x
    q = abs(Fraction(x)) + Fraction(1, 2)
    w = q.numerator // q.denominator
    r = float(w)
    assert Fraction(r) == w
    return -r if neg(x) else r


# ---------- texts ----------
def utf8_ok(b):
    try:
        b.decode("utf-8", "strict")
        return True
    except UnicodeDecodeError:
        return False


def digits(b, lo, hi):
    return lo <= len(b) <= hi and all(48 <= c <= 57 for c in b)


def unsigned(b, top):
    """an unsigned field: 1 to 10 digits, at most top; else 3"""
    if not digits(b, 1, 10) or int(b) > top:
        raise Refused(3)
    return int(b)


STOP = re.compile(rb"([0-9]{1,10})(?:\.([0-9]{1,2}))?")


def read_stop(b):
    """a stop in hundredths (02, W2): digits, perhaps a point and one or two decimals, at most 1,000,000; else 3"""
    form = STOP.fullmatch(b)
    if form is None:
        raise Refused(3)
    whole, behind = form.groups(default=b"")
    stop = Fraction(int(whole)) + Fraction(int(behind or b"0"), 10 ** len(behind))
    if stop > 1_000_000:
        raise Refused(3)
    return int(stop * 100)


def stop_double(hundredths):
    """a stop's double: hundredths divided by 100, rounded once"""
    return float(hundredths) / 100.0


def stop_text(hundredths):
    """as the Rust shows that double: the shortest decimals that read back, and none where it is whole"""
    said = repr(stop_double(hundredths))
    return said[:-2] if said.endswith(".0") else said


def read_i32(b):
    """optional + or -, one or more digits, fitting i32; else None"""
    s = b
    sign = 1
    if s[:1] == b"+":
        s = s[1:]
    elif s[:1] == b"-":
        s = s[1:]
        sign = -1
    if len(s) == 0 or not all(48 <= c <= 57 for c in s):
        return None
    v = sign * int(s)
    return v if -2**31 <= v <= 2**31 - 1 else None


def key_of(ks):
    return b"_".join(k for k in ks if k != ANY)


class Clause:
    def __init__(self, kind, ks, vs, score):
        self.kind, self.ks, self.vs, self.score = kind, ks, vs, score
        self.key = key_of(ks)


def read_signal(b):
    """seven parts, else 5; the last a score of 0 to 1,000 (02, W8), else 6"""
    p = b.split(b"_")
    if len(p) != 7:
        raise Refused(5)
    s = read_i32(p[6])
    if s is None or not 0 <= s <= SCORE:
        raise Refused(6)
    return p[0:3], p[3:6], s


def read_operate(b):
    for i in range(7):
        if b == CODES[i] or b == NAMES[i]:
            return i
    raise Refused(4)


def check_text(b):
    """a text: 7, 1"""
    if len(b) > TEXT:
        raise Refused(7)
    if not utf8_ok(b):
        raise Refused(1)


def alone(b, read):
    """a signal or an operate alone: 7, 1, 2, then its own refusals"""
    check_text(b)
    if b"|" in b or b"\n" in b:
        raise Refused(2)
    return read(b)


def signal_alone(b):
    return alone(b, read_signal)


def operate_alone(b):
    return alone(b, read_operate)


class Event:
    def __init__(self, exit_, op, name, lots=1):
        self.exit, self.op, self.name, self.lots, self.clauses = exit_, op, name, lots, []

    def of(self, kind):
        return [c for c in self.clauses if c.kind == kind]


class Sheet:
    def __init__(self):
        self.events = []


def lines_of(text):
    """(line, ended by LF) from left to right"""
    parts = text.split(b"\n")
    out = [(p, True) for p in parts[:-1]]
    if parts[-1] != b"":
        out.append((parts[-1], False))
    return out


def name_field(b):
    if len(b) > 256:
        raise Refused(7)
    return b


def first_line(sh, f):
    """the position: six values, or seven (02, W3), the last in minutes; without it that is 0"""
    if f[0] != b"P" or len(f) not in (7, 8):
        raise Refused(2)
    sh.name = name_field(f[1])
    sh.symbol = name_field(f[2])
    sh.interval = unsigned(f[3], 4_102_444_800)
    sh.timeout = unsigned(f[4], 2_147_483_647)
    sh.stop = read_stop(f[5])
    sh.t0 = unsigned(f[6], 1)
    sh.evening = unsigned(f[7], 1_439) if len(f) == 8 else 0


def read_lots(b):
    """lots (02, W4): 1 to 10 digits, else 3; 1 to 1,000, else 18"""
    if not digits(b, 1, 10):
        raise Refused(3)
    if not 1 <= int(b) <= LOTS:
        raise Refused(18)
    return int(b)


def event_line(sh, f):
    """an event: operate and name; an opening's lots may follow (02, W4), and without them they are 1"""
    exit_ = f[0] == b"X"
    if len(f) != 3 and (exit_ or len(f) != 4):
        raise Refused(2)
    if not exit_ and any(e.exit for e in sh.events):
        raise Refused(2)
    op = read_operate(f[1])
    name = name_field(f[2])
    lots = read_lots(f[3]) if len(f) == 4 else 1
    if len(sh.events) == 32:
        raise Refused(7)
    sh.events.append(Event(exit_, op, name, lots))


def read_sheet(text):
    check_text(text)
    ls = lines_of(text)
    if not ls:
        raise Refused(2)
    sh = Sheet()
    clauses = 0
    for n, (line, ended) in enumerate(ls):
        f = line.split(b"|")
        tag = f[0]
        # 2: no final LF, wrong tag, place or field count
        if not ended:
            raise Refused(2)
        if n == 0:
            first_line(sh, f)
        elif tag in (b"O", b"X"):
            event_line(sh, f)
        elif tag in (b"A", b"Y", b"N"):
            if len(f) != 2 or not sh.events:
                raise Refused(2)
            ks, vs, s = read_signal(f[1])
            if clauses == 256:
                raise Refused(7)
            clauses += 1
            sh.events[-1].clauses.append(Clause(tag, ks, vs, s))
        else:
            raise Refused(2)
    return sh


# ---------- matching ----------
def read_signals(text):
    """the bar's signals as a dict, or refused: 7, 1, then per line 2, 12, count"""
    check_text(text)
    d = {}
    for line, ended in lines_of(text):
        f = line.split(b"|")
        if not ended or len(f) != 2:
            raise Refused(2)
        if f[0] in d:
            raise Refused(12)
        if len(d) == 256:
            raise Refused(7)
        d[f[0]] = f[1]
    return d


def counted(d):
    out = {}
    for k, v in d.items():
        p = v.split(b"_")
        if len(p) == 4:
            s = read_i32(p[3])
            if s is not None:
                out[k] = (p[0:3], s)
    return out


def clause_holds(c, vals):
    if c.key not in vals:
        return False
    vs, s = vals[c.key]
    return s >= c.score and all(cv == ANY or cv == v for cv, v in zip(c.vs, vs))


def event_matches(e, vals):
    if any(clause_holds(c, vals) for c in e.of(b"N")):
        return False
    if not all(clause_holds(c, vals) for c in e.of(b"A")):
        return False
    ys = e.of(b"Y")
    return not ys or any(clause_holds(c, vals) for c in ys)


def choose(sh, d):
    vals = counted(d)
    # openings before exits (a sheet has them so; a table need not)
    for kind in (False, True):
        for i, e in enumerate(sh.events):
            if e.exit == kind and event_matches(e, vals):
                return i
    return None


# ---------- the plain machine ----------
class Time:
    def __init__(self, instant, offset):
        self.instant, self.offset = instant, offset

    def local(self):
        return self.instant + self.offset * 1_000_000

    def day(self, evening):
        """the trading day (02, W3): the evening's minutes are added to local time before the day is taken"""
        return (self.local() + evening * MINUTE) // DAY


class Bar:
    """id, instant, offset, price as bits"""

    def __init__(self, id_, instant, offset, price):
        self.id, self.time, self.price = id_, Time(instant, offset), price

    def in_range(self):
        return (0 <= self.id <= IDMAX and time_ok(self.time) and finite(of_bits(self.price)))


def time_ok(t):
    return 0 <= t.instant <= IMAX and -OMAX <= t.offset <= OMAX


class Record:
    def __init__(self, time, id_, price, op, pos, desc, event, lots):
        self.time, self.id, self.price, self.op = time, id_, price, op
        self.pos, self.desc, self.event, self.lots = pos, desc, event, lots


class Hold:
    def __init__(self, time, pos, price, lots):
        self.time, self.pos, self.price, self.lots, self.yld = time, pos, price, lots, None


class Ref:
    def __init__(self, bar, op, event):
        self.bar, self.op, self.event = bar, op, event


class State:
    """the open lots (02, W4) are 0 where the position is Flat"""

    def __init__(self):
        self.pos, self.changed, self.lots = FLAT, 0, 0
        self.end = self.lo = self.so = self.ref = None
        self.records, self.holds = [], []


def seconds_between(a, b):
    return (b.instant - a.instant) // 1_000_000


def step(sh, st, bar, d):
    """one accepted bar; returns the index of the event chosen or None"""
    st.changed = 0
    i = choose(sh, d)
    op = HO if i is None else sh.events[i].op
    now = bar.time
    st.end = now
    if op in (LO, SO):
        st.ref = Ref(bar, op, i)

    def rec(o, desc, lots):
        st.records.append(Record(now, bar.id, bar.price, o, st.pos, desc, i if desc == 1 else 0, lots))
        st.changed = 1

    def opened(o, pos):
        """lots are fixed here, also where the other side is left: its lots are in no record of this bar"""
        st.pos, st.lots = pos, sh.events[i].lots
        rec(o, 1, st.lots)

    def closed(o, desc):
        """the record carries the lots that were open"""
        lots, st.pos, st.lots = st.lots, FLAT, 0
        rec(o, desc, lots)

    def free(last):
        return sh.t0 == 1 or last is None or last.day(sh.evening) != now.day(sh.evening)

    # steps 3 and 4: each side's open, pos, last open; the other side's close, pos, last open
    for open_, pos, own, close, other_pos, other in ((LO, LONG, "lo", SE, SHORT, "so"), (SO, SHORT, "so", LE, LONG, "lo")):
        if op != open_:
            continue
        last = getattr(st, own)
        allowed = last is None or seconds_between(last, now) > sh.interval
        if allowed and st.pos != pos:
            setattr(st, own, now)
            opened(open_, pos)
        elif st.pos == other_pos and free(getattr(st, other)):
            closed(close, 1)
    price = of_bits(bar.price)
    limit = div(-stop_double(sh.stop), 10000.0)
    # steps 5 and 6
    for close, pos, own, gain in ((LE, LONG, "lo", lambda q: q - 1.0), (SE, SHORT, "so", lambda q: 1.0 - q)):
        if st.pos != pos or st.ref is None or not free(getattr(st, own)):
            continue
        why = None
        if op == close:
            why = 1
        elif gain(div(price, of_bits(st.ref.bar.price))) < limit:
            why = 2
        elif bar.id - st.ref.bar.id > sh.timeout:
            why = 3
        if why:
            closed(close, why)
    if st.holds:
        y = hold_yield(of_bits(st.holds[-1].price), price)
        if y is not None:
            st.holds[-1].yld = bits(y)
    st.holds.append(Hold(now, st.pos, bar.price, st.lots))
    return i


# ---------- the exchange's comma lines (document 02, W1) ----------
LINE = re.compile(
    rb"([0-9]{1,10}),"
    rb"([0-9]{4})-([0-9]{2})-([0-9]{2}) ([0-9]{2}):([0-9]{2}):([0-9]{2})([+-])([0-9]{2}):([0-9]{2}),"
    rb"([0-9]+)(?:\.([0-9]+))?"
)


def moment(fields):
    """of a real day and time of the years 1970 to 2099; else 16"""
    try:
        wall = datetime(*map(int, fields))
    except ValueError:
        raise Refused(16)
    if not 1970 <= wall.year <= 2099:
        raise Refused(16)
    return wall


def offset_of(sign, hours, minutes):
    """at most 23:59 on either side; else 16"""
    if int(hours) > 23 or int(minutes) > 59:
        raise Refused(16)
    away = timedelta(hours=int(hours), minutes=int(minutes))
    return -away if sign == b"-" else away


def price_of(whole, behind):
    """the bits of all digits over a power of ten, at most 15 digits and six behind the point; else 17"""
    if len(whole + behind) > 15 or len(behind) > 6:
        raise Refused(17)
    return bits(float(int(whole + behind)) / float(10 ** len(behind)))


def read_line(line):
    """the bar that a line says: 16 of the whole line, then 17; its ranges (11) are asked of every bar alike"""
    form = LINE.fullmatch(line)
    if form is None:
        raise Refused(16)
    id_, *wall, sign, hours, minutes, whole, behind = form.groups(default=b"")
    wall, offset = moment(wall), offset_of(sign, hours, minutes)
    instant = (wall - datetime(1970, 1, 1) - offset) // timedelta(microseconds=1)
    return Bar(int(id_), instant, offset // timedelta(seconds=1), price_of(whole, behind))


# ---------- book ----------
def enc_hold(h):
    return struct.pack("<qiBBHQQ", h.time.instant, h.time.offset, h.pos, 0 if h.yld is None else 1, h.lots,
                       h.price, 0 if h.yld is None else h.yld)


def enc_record(r):
    return struct.pack("<qiiQBBBBHH", r.time.instant, r.time.offset, r.id, r.price, r.op, r.pos, r.desc, 0, r.event, r.lots)


def encode(st, c):
    z = Time(0, 0)
    end, lo, so = st.end or z, st.lo or z, st.so or z
    if st.ref is None:
        rid, rt, rop, rev, rpr = 0, z, 0, 0, 0
    else:
        rid, rt, rop, rev, rpr = st.ref.bar.id, st.ref.bar.time, st.ref.op, st.ref.event, st.ref.bar.price
    b = struct.pack("<6I", len(st.holds), len(st.records), c, 96, 96 + 32 * c, 96 + 64 * c)
    b += bytes([st.pos, st.changed, st.lo is not None, st.so is not None, st.ref is not None, rop, 0, 0])
    b += struct.pack("<qiiqqiiqiIQ", end.instant, end.offset, lo.offset, lo.instant, so.instant, so.offset, rid,
                     rt.instant, rt.offset, rev, rpr)
    assert len(b) == 96
    hs = b"".join(enc_hold(h) for h in st.holds)
    rs = b"".join(enc_record(r) for r in st.records)
    return b + hs + bytes(32 * c - len(hs)) + rs + bytes(32 * c - len(rs))


def book_len_ok(b):
    n = len(b) - 96
    return n % 64 == 0 and 1 <= n // 64 <= 1_000_000


def u16(b, o):
    return struct.unpack_from("<H", b, o)[0]


def u32(b, o):
    return struct.unpack_from("<I", b, o)[0]


def i32(b, o):
    return struct.unpack_from("<i", b, o)[0]


def i64(b, o):
    return struct.unpack_from("<q", b, o)[0]


def u64(b, o):
    return struct.unpack_from("<Q", b, o)[0]


def fin_bits(x):
    return finite(of_bits(x))


def header_ok(b):
    """the header check, on a book of right length"""
    c = (len(b) - 96) // 64
    H, R = u32(b, 0), u32(b, 4)
    if (u32(b, 8), u32(b, 12), u32(b, 16), u32(b, 20)) != (c, 96, 96 + 32 * c, 96 + 64 * c):
        return False
    if not R <= H <= c:
        return False
    pos, changed, lop, sop, refp, rop, z1, z2 = b[24:32]
    if pos > 2 or changed > 1 or lop > 1 or sop > 1 or refp > 1 or z1 or z2:
        return False
    end = Time(i64(b, 32), i32(b, 40))
    lo = Time(i64(b, 48), i32(b, 44))
    so = Time(i64(b, 56), i32(b, 64))
    ref = Time(i64(b, 72), i32(b, 80))
    rid, rev, rpr = i32(b, 68), u32(b, 84), u64(b, 88)
    if not (time_ok(end) and time_ok(lo) and time_ok(so) and time_ok(ref)):
        return False
    if rid < 0 or not fin_bits(rpr):
        return False
    if not lop and (lo.instant or lo.offset):
        return False
    if not sop and (so.instant or so.offset):
        return False
    if refp:
        if rop not in (LO, SO):
            return False
    elif rop or rid or ref.instant or ref.offset or rev or rpr:
        return False
    if H == 0:
        return b[:96] == encode(State(), c)[:96]
    if (lop and lo.instant > end.instant) or (sop and so.instant > end.instant) or (refp and ref.instant > end.instant):
        return False
    o = 96 + 32 * (H - 1)
    if not hold_ok(b, o):
        return False
    return (i64(b, o) == end.instant and i32(b, o + 8) == end.offset and b[o + 12] == pos and b[o + 13] == 0)


def hold_ok(b, o):
    """in range, absent yield zero; the yield itself may be NaN here"""
    if not time_ok(Time(i64(b, o), i32(b, o + 8))):
        return False
    if b[o + 12] > 2 or b[o + 13] > 1 or u16(b, o + 14) > (0 if b[o + 12] == FLAT else LOTS):
        return False
    if not fin_bits(u64(b, o + 16)):
        return False
    return b[o + 13] == 1 or u64(b, o + 24) == 0


def record_ok(b, o, events):
    if not time_ok(Time(i64(b, o), i32(b, o + 8))) or i32(b, o + 12) < 0 or not fin_bits(u64(b, o + 16)):
        return False
    op, pos, desc, z, ev = b[o + 24], b[o + 25], b[o + 26], b[o + 27], u16(b, o + 28)
    if op not in (LO, LE, SO, SE) or pos > 2 or desc not in (1, 2, 3) or z or u16(b, o + 30) > LOTS:
        return False
    return ev < events if desc == 1 else ev == 0


def full_ok(sh, b):
    if not header_ok(b):
        return False
    n = len(sh.events)
    c = (len(b) - 96) // 64
    H, R = u32(b, 0), u32(b, 4)
    if b[28] and u32(b, 84) >= n:
        return False
    last = None
    for i in range(H):
        o = 96 + 32 * i
        if not hold_ok(b, o):
            return False
        if b[o + 13] and is_nan(of_bits(u64(b, o + 24))):
            return False
        if last is not None and i64(b, o) <= last:
            return False
        last = i64(b, o)
    last = None
    for i in range(R):
        o = 96 + 32 * c + 32 * i
        if not record_ok(b, o, n):
            return False
        if last is not None and i64(b, o) <= last:
            return False
        last = i64(b, o)
    return True


# ---------- calls (the table is given as its sheet; its own numbers 8 and 9 apart) ----------
def decode(b):
    """the machine's state that a good book holds; lots of 0 (02, W4) read as 1 in a record and in a hold with a position"""
    c = (len(b) - 96) // 64
    H, R = u32(b, 0), u32(b, 4)
    st = State()
    st.pos, st.changed = b[24], b[25]
    if H:
        st.end = Time(i64(b, 32), i32(b, 40))
    if b[26]:
        st.lo = Time(i64(b, 48), i32(b, 44))
    if b[27]:
        st.so = Time(i64(b, 56), i32(b, 64))
    if b[28]:
        st.ref = Ref(Bar(i32(b, 68), i64(b, 72), i32(b, 80), u64(b, 88)), b[29], u32(b, 84))
    for i in range(H):
        o = 96 + 32 * i
        lots = 0 if b[o + 12] == FLAT else u16(b, o + 14) or 1
        h = Hold(Time(i64(b, o), i32(b, o + 8)), b[o + 12], u64(b, o + 16), lots)
        if b[o + 13]:
            h.yld = u64(b, o + 24)
        st.holds.append(h)
        st.lots = lots
    for i in range(R):
        o = 96 + 32 * c + 32 * i
        st.records.append(Record(Time(i64(b, o), i32(b, o + 8)), i32(b, o + 12), u64(b, o + 16), b[o + 24], b[o + 25],
                                 b[o + 26], u16(b, o + 28), u16(b, o + 30) or 1))
    return st


def fresh(b):
    if not book_len_ok(b):
        return 8, b
    return 0, encode(State(), (len(b) - 96) // 64)


def feed(sh, b, bar, sigs):
    """(number, book after, event chosen or None, record written or None)"""
    return fed(sh, b, lambda: bar, sigs)


def feed_line(sh, b, line, sigs):
    """the same of the bar that a comma line says: 16 and 17 come after 10 and before 11"""
    return fed(sh, b, lambda: read_line(line), sigs)


def checked_bar(bar):
    """every field in its range; else 11"""
    if not bar.in_range():
        raise Refused(11)
    return bar


def fed(sh, b, read, sigs):
    """a feed of the bar that is read after the book's check"""
    if not book_len_ok(b):
        return 8, b, None, None
    if not header_ok(b):
        return 10, b, None, None
    try:
        bar = checked_bar(read())
        d = read_signals(sigs)
    except Refused as r:
        return r.n, b, None, None
    c = (len(b) - 96) // 64
    H, R = u32(b, 0), u32(b, 4)
    if H > 0 and bar.time.instant <= i64(b, 32):
        return 13, b, None, None
    if H == c:
        return 14, b, None, None
    # a feed reads the header and the last hold; all other slots keep their bytes
    st = decode(b)
    i = step(sh, st, bar, d)
    out = bytearray(b)
    out[0:96] = encode(st, c)[0:96]
    if H:
        out[96 + 32 * (H - 1):96 + 32 * H] = enc_hold(st.holds[H - 1])
    out[96 + 32 * H:96 + 32 * H + 32] = enc_hold(st.holds[H])
    rec = None
    if len(st.records) > R:
        assert len(st.records) == R + 1
        rec = st.records[R]
        o = 96 + 32 * c + 32 * R
        out[o:o + 32] = enc_record(rec)
    return 0, bytes(out), i, rec


def copied(sh, source, target):
    """(number, target after) of copying a checked book of the target's length"""
    if not book_len_ok(source) or not book_len_ok(target) or len(source) != len(target):
        return 8, target
    if not full_ok(sh, source):
        return 10, target
    return 0, source


def save(sh, book, image):
    """(number, image after)"""
    return copied(sh, book, image)


def restore(sh, image, book):
    """(number, book after)"""
    return copied(sh, image, book)


# ---------- rows ----------
def desc_text(sh, r):
    if r.desc == 1:
        return sh.events[r.event].name
    side = "平空" if r.op == SE else "平多"
    if r.desc == 2:
        return f"{side}@{stop_text(sh.stop)}BP止损".encode()
    return f"{side}@{sh.timeout}K超时".encode()


def marked(t):
    if b"@" in t:
        return t
    for o in (LO, SO, LE, SE):
        if t.startswith(CODES[o] + b"#") or t.startswith(NAMES[o] + b"#"):
            return t + b"@" + CODES[o]
    return t + b"@is_match"


def pair_rows(sh, st):
    out = []
    for a, b in zip(st.records, st.records[1:]):
        if a.op not in (LO, SO):
            continue
        pa, pb = of_bits(a.price), of_bits(b.price)
        if pa == 0.0:
            y = None
        else:
            q = div(pb, pa)
            y = q - 1.0 if a.op == LO else 1.0 - q
            y = bits(div(rnd(y * 10000.0 * 100.0), 100.0))
        days = bits(div(float(seconds_between(a.time, b.time)), 86400.0))
        seq = marked(desc_text(sh, a)) + b" -> " + marked(desc_text(sh, b))
        out.append(dict(symbol=sh.symbol, mark=sh.name, side=b"L" if a.op == LO else b"S", open=a.time.local(),
                        close=b.time.local(), po=a.price, pc=b.price, gap=b.id - a.id, seq=seq, days=days, yld=y, lots=a.lots))
    return out


def hold_rows(st):
    return [dict(local=h.time.local(), pos=h.pos - 1, price=h.price, yld=h.yld) for h in st.holds]


def asked(sh, book, i, rows):
    """(number, row or None): 8, 10, 15; an index below 0 is past the last as well"""
    if not book_len_ok(book):
        return 8, None
    if not full_ok(sh, book):
        return 10, None
    found = rows(decode(book))
    return (0, found[i]) if 0 <= i < len(found) else (15, None)


def pair_row(sh, book, i, buf):
    """(number, row or None, buffer after)"""
    if len(buf) < 2048:
        return 8, None, buf
    n, r = asked(sh, book, i, lambda st: pair_rows(sh, st))
    if n:
        return n, None, buf
    t = r["symbol"] + r["mark"] + r["seq"]
    return 0, r, t + buf[len(t):]


def hold_row(sh, book, i):
    """(number, row or None)"""
    return asked(sh, book, i, hold_rows)


# ---------- run program ----------
def hex16(x):
    return b"-" if x is None else b"%016x" % x


def dec(n):
    return str(n).encode()


def read_b(f):
    if not digits(f[1], 1, 10):
        raise Refused(3)
    if not digits(f[2], 1, 16):
        raise Refused(3)
    o = f[3]
    sign = 1
    if o[:1] == b"-":
        sign, o = -1, o[1:]
    if not digits(o, 1, 10):
        raise Refused(3)
    if len(f[4]) != 16 or not all(c in b"0123456789abcdef" for c in f[4]):
        raise Refused(3)
    return Bar(int(f[1]), int(f[2]), sign * int(o), int(f[4], 16))


def run(inp):
    try:
        return run_(inp)
    except Refused as r:
        return b"E|%d\n" % r.n


def run_(inp):
    if len(inp) > 65_536:
        raise Refused(7)
    ls = lines_of(inp)
    text = b""
    for k, (line, ended) in enumerate(ls):
        if ended and line == b"-":
            rest = ls[k + 1:]
            break
        text += line + b"\n"
    else:
        raise Refused(2)
    sh = read_sheet(text)
    bars = []
    for line, ended in rest:
        if not ended:
            raise Refused(2)
        f = line.split(b"|")
        if f[0] == b"B":
            if len(f) != 5:
                raise Refused(2)
            bars.append([read_b(f), b""])
        elif f[0] == b"S":
            if len(f) != 3 or not bars:
                raise Refused(2)
            bars[-1][1] += line[2:] + b"\n"
        else:
            raise Refused(2)
    book = encode(State(), 900)
    out = b""
    for bar, sigs in bars:
        n, book, _, _ = feed(sh, book, bar, sigs)
        out += b"F|%d|%d|%d\n" % (n, book[24] - 1, book[25])
    st = decode(book)
    for r in pair_rows(sh, st):
        out += b"|".join([b"R", r["symbol"], r["mark"], r["side"], dec(r["open"]), dec(r["close"]), hex16(r["po"]),
                          hex16(r["pc"]), dec(r["gap"]), r["seq"], hex16(r["days"]), hex16(r["yld"]), dec(r["lots"])]) + b"\n"
    for h in hold_rows(st):
        out += b"|".join([b"H", dec(h["local"]), dec(h["pos"]), hex16(h["price"]), hex16(h["yld"])]) + b"\n"
    return out


CASE1 = """P|soy|M1|0|5|100|0
O|LO|go
A|d1_u_w_up_任意_任意_10
X|LE|out
A|d1_u_w_down_任意_任意_0
-
B|1|0|0|4059000000000000
S|d1_u_w|up_a_b_10
B|2|86400000000|0|405f400000000000
S|d1_u_w|down_a_b_5
""".encode()
OUT1 = """F|0|1|1
F|0|0|1
R|M1|soy|L|0|86400000000|4059000000000000|405f400000000000|1|go@is_match -> out@is_match|3ff0000000000000|40a3880000000000|1
H|0|1|4059000000000000|40a3880000000000
H|86400000000|0|405f400000000000|-
""".encode()

if __name__ == "__main__":
    assert run(CASE1) == OUT1, run(CASE1).decode()
    assert rnd(2.5) == 3.0 and rnd(-2.5) == -3.0 and bits(rnd(-0.3)) == 1 << 63
    assert rnd(0.49999999999999994) == 0.0
    assert [stop_text(h) for h in (1250, 725, 5, 50_000, 0, 100_000_000)] == ["12.5", "7.25", "0.05", "500", "0", "1000000"]
    # the local day -1 from 21:00 on, day 0 at both sides of 21:00, and both sides of midnight, without a value and with 180
    evening = 21 * 60 * MINUTE
    moments = [evening - DAY - 1, evening - DAY, -1, 0, evening - 1, evening, DAY - 1, DAY]
    assert [Time(t, 0).day(0) for t in moments] == [-1, -1, -1, 0, 0, 0, 0, 1]
    assert [Time(t, 0).day(180) for t in moments] == [-1, 0, 0, 0, 0, 1, 1, 1]
    said = read_sheet(b"P|soy|M1|0|5|100|1\nO|LO|a|5\nO|SO|b|0001000\nO|LO|c\nX|LO|d\n")
    assert [e.lots for e in said.events] == [5, 1000, 1, 1]
    plain = read_sheet(b"P|soy|M1|0|5|100|0\n")
    one = feed(plain, fresh(bytes(160))[1], Bar(1, 0, 0, bits(1.0)), b"")[1]
    assert [hold_row(plain, one, i)[0] for i in (-1, 0, 1)] == [15, 0, 15]
    read = [feed_line(plain, fresh(bytes(160))[1], b"1,%s 00:00:00+00:00,%s" % said, b"") for said in (
        (b"1970-01-01", b"1"), (b"2023-02-29", b"1"), (b"2024-02-29", b"1.0000000"))]
    assert [r[0] for r in read] == [0, 16, 17] and read[0][1] == one
    print("model ok")
