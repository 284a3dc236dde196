"""The independent model that made `stdout`: usage `python3 expected.py < stdin > stdout`.

Written from documents 01 and 02 (with RFC 3629 and IEEE 754) and not from the program: UTF-8 is Python's own strict
decoder, numbers are Python's unbounded integers, doubles are Python's floats (binary64, each operation rounds once), ties
are decided on exact fractions, days are Python's own.
A line that begins with `#` or is empty is written back; any other asks, and is written back with ` = ` and the answer."""

import math
import re
import struct
import sys
from datetime import date
from decimal import Decimal
from fractions import Fraction

WILDCARD = "任意".encode()
OPERATES = [("HL", "持多"), ("HS", "持空"), ("HO", "持币"), ("LO", "开多"), ("LE", "平多"), ("SO", "开空"), ("SE", "平空")]
TEXT_LIMIT = 16384
DAY = 86_400_000_000


# ---- what a question gives


def real(text):
    return struct.unpack(">d", bytes.fromhex(text.decode()))[0]


# ---- answers as text


def joined(*values):
    return b"|".join(v if isinstance(v, bytes) else str(v).encode() for v in values)


def bits(x):
    return b"nan" if math.isnan(x) else struct.pack(">d", x).hex().encode()


def or_else(none, shown, value):
    return none if value is None else shown(value)


# ---- texts


def is_utf8(data):
    try:
        data.decode("utf-8", "strict")
    except UnicodeDecodeError:
        return False
    return True


def i32_of(text):
    """An optional + or -, then one or more digits, fitting i32; else None."""
    if not re.fullmatch(rb"[+-]?[0-9]+", text):
        return None
    value = int(text)
    return value if -(2**31) <= value < 2**31 else None


def decimal_of(text, limit):
    """1 to limit decimal digits; else None."""
    return int(text) if re.fullmatch(rb"[0-9]+", text) and len(text) <= limit else None


def refusal_alone(text):
    """A signal or operate alone: 7, 1, 2 (`|` or LF); else 0."""
    if len(text) > TEXT_LIMIT:
        return 7
    if not is_utf8(text):
        return 1
    return 2 if b"|" in text or b"\n" in text else 0


def operate(text):
    number = refusal_alone(text)
    if number:
        return joined(number, 0)
    for code, names in enumerate(OPERATES):
        if text in [name.encode() for name in names]:
            return joined(0, code)
    return joined(4, 0)


def operate_name(text):
    code = int(text)
    return joined(0, OPERATES[code][1].encode()) if code < len(OPERATES) else joined(4, b"")


def signal(text):
    number = refusal_alone(text)
    parts = text.split(b"_")
    if not number and len(parts) != 7:
        number = 5
    score = i32_of(parts[-1])
    if not number and (score is None or not 0 <= score <= 1_000):
        number = 6
    if number:
        return joined(number, b"", b"", b"", b"", 0)
    return joined(0, b"_".join(k for k in parts[:3] if k != WILDCARD), *parts[3:6], score)


def value(text):
    parts = text.split(b"_")
    score = i32_of(parts[-1])
    return b"-" if len(parts) != 4 or score is None else joined(*parts[:3], score)


# ---- doubles


def divided(a, b):
    """a / b as IEEE 754 has it; Python refuses a divisor of zero."""
    if b != 0:
        return a / b
    if a == 0 or math.isnan(a):
        return math.nan
    return math.copysign(math.inf, math.copysign(1, a) * math.copysign(1, b))


def rounded(x):
    """To a whole number, ties away from zero, the sign kept; infinities stay."""
    if math.isnan(x) or math.isinf(x):
        return x
    return math.copysign(float(math.floor(Fraction(abs(x)) + Fraction(1, 2))), x)


def share(side, price, reference):
    return divided(price, reference) - 1 if side == b"L" else 1 - divided(price, reference)


def hold_yield(own, later):
    return (divided(later, own) - 1) * 10000 if own > 0 else None


def pair_yield(side, opening, closing):
    return None if opening == 0 else rounded(share(side, closing, opening) * 10000 * 100) / 100


def stop_hit(side, stop, reference, price):
    return share(side, price, reference) < -stop / 10000


# ---- stops (document 02, W2)


def stop_of(text):
    """Digits, perhaps a point and one or two decimals, at most 1,000,000, as hundredths; else None."""
    if not re.fullmatch(rb"[0-9]{1,10}(\.[0-9]{1,2})?", text):
        return None
    stop = Decimal(text.decode())
    return int(stop * 100) if stop <= 1_000_000 else None


def stop_shown(hundredths):
    """The fewest decimals that say the stop, and its double."""
    text = f"{Decimal(hundredths) / 100:.2f}".rstrip("0").removesuffix(".")
    double = hundredths / 100
    assert float(text) == double
    return joined(text.encode(), bits(double))


# ---- one answer for each letter


def stored(text):
    """The little-endian bytes of a number, read as u64, i64, u32, i32, u16 and a double from their first on."""
    data = bytes.fromhex(text.decode())[::-1]
    return joined(*(struct.unpack_from(kind, data)[0] for kind in ("<Q", "<q", "<I", "<i", "<H")), bits(struct.unpack("<d", data)[0]))


def local_time(instant, offset, evening):
    """Local time, and the day of local time with the evening's minutes added (document 02, W3)."""
    local = int(instant) + int(offset) * 1_000_000
    return joined(local, (local + int(evening) * 60_000_000) // DAY)


def elapsed(earlier, later):
    seconds = (int(later) - int(earlier)) // 1_000_000
    return joined(seconds, bits(float(seconds) / 86400))


def day_number(year, month, day):
    """Of a real day of 1970 to 2099, counted from 1970-01-01; else None."""
    try:
        real_day = date(year, month, day)
    except (ValueError, OverflowError):
        return None
    return (real_day - date(1970, 1, 1)).days if 1970 <= year <= 2099 else None


# Letters whose question is one text, `|` and all.
WHOLE = {
    b"B": stored,
    b"C": operate_name,
    b"F": lambda s: joined(int(math.isfinite(real(s)))),
    b"I": lambda s: or_else(b"none", joined, i32_of(s)),
    b"N": lambda s: joined(s.count(b"_") + 1),
    b"O": operate,
    b"R": lambda s: bits(rounded(real(s))),
    b"S": signal,
    b"U": lambda s: joined(int(is_utf8(bytes.fromhex(s.decode())))),
    b"V": value,
    b"X": lambda s: operate(bytes.fromhex(s.decode())),
    b"Y": lambda s: signal(bytes.fromhex(s.decode())),
    b"W": lambda s: b"%d|%016x" % (int(s, 16), int(s, 16)),
    b"Z": lambda s: or_else(b"-", joined, stop_of(s)),
    b"z": lambda s: stop_shown(int(s)),
}

# Letters whose question is fields.
FIELDS = {
    b"D": lambda digits, limit: or_else(b"-", joined, decimal_of(digits, int(limit))),
    b"E": elapsed,
    b"G": lambda *fields: or_else(b"-", joined, day_number(*map(int, fields))),
    b"H": lambda own, later: or_else(b"-", bits, hold_yield(real(own), real(later))),
    b"K": lambda side, *xs: joined(int(stop_hit(side, *map(real, xs)))),
    b"P": lambda side, *xs: or_else(b"-", bits, pair_yield(side, *map(real, xs))),
    b"T": local_time,
}

for line in sys.stdin.buffer.read().split(b"\n")[:-1]:
    letter, rest = line[:1], line[2:]
    if letter in (b"", b"#"):
        answered = line
    else:
        answered = line + b" = " + (WHOLE[letter](rest) if letter in WHOLE else FIELDS[letter](*rest.split(b"|")))
    sys.stdout.buffer.write(answered + b"\n")
