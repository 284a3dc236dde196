#!/usr/bin/env python3
"""Sets the model against every row of the proved tables (crates/position/specs/Cases.antt, Further.antt, TradingDay.antt,
Lots.antt): the printed lines and the records' operates of each run, the lots of its records and holds where they are
said, and the doubles that are rounded."""
import os
import re
import sys

sys.dont_write_bytecode = True
import model

FILES = ("Cases.antt", "Further.antt", "TradingDay.antt", "Lots.antt")
SPECS = os.path.join(os.path.dirname(os.path.abspath(__file__)), "..", "crates", "position", "specs")
TEXT = "".join(open(os.path.join(SPECS, name), encoding="utf-8").read() for name in FILES)
NAMES = dict(re.findall(r'^(up|down) = (".*")$', TEXT, re.M))


def strings(t):
    """the quoted texts of a list, with `up` and `down` for their own"""
    return [NAMES.get(m, m).strip('"') for m in re.findall(r'"[^"]*"|\b(?:up|down)\b', t)]


def sheet(name, position, bars):
    """what `soy`, `both` and `hedge` put around the bars"""
    body = re.search(rf"^{name} position bars =\n(.*?)\n\n", TEXT, re.M | re.S).group(1)
    return [position] + strings(body) + bars


def lines(t):
    m = re.match(r'\s*(soy|both|hedge) ("[^"]*")\s*\((.*)\)\s*$', t, re.S)
    return sheet(m.group(1), m.group(2).strip('"'), strings(m.group(3))) if m else strings(t)


def joined(ls):
    return "".join(l + "\n" for l in ls).encode()


def state(inp):
    """the machine's state after a run; the fresh one where the input is refused"""
    kept = []
    rows, model.pair_rows = model.pair_rows, lambda sh, st: kept.append(st) or rows(sh, st)
    try:
        model.run(inp)
    finally:
        model.pair_rows = rows
    return kept[0] if kept else model.State()


# a case, and behind it the lots of its records and holds, if it says them
CASE = re.compile(
    r"input =(.*?);\s*output =(.*?);\s*operates =([^;}]*);?\s*\}(?:;\s*records =([^;]*);\s*holds =([^;]*);)?", re.S
)


def numbers(t):
    return [int(n) for n in re.findall(r"\d+", t)]


def is_right(inp, out, ops, records, holds):
    """whether the model does what a case says"""
    asked = joined(lines(inp))
    st = state(asked)
    right = model.run(asked) == joined(lines(out))
    right &= [r.op for r in st.records] == [getattr(model, o) for o in re.findall(r"\b(LO|LE|SO|SE)\b", ops)]
    if records is not None:
        right &= [r.lots for r in st.records] == numbers(records) and [h.lots for h in st.holds] == numbers(holds)
    return right


def double(t):
    """the double of a row of roundings"""
    return float(eval(t.replace("whole", "").replace("÷", "/").replace("neg", "-"), {}))


def main():
    cases = [m.groups() for m in CASE.finditer(TEXT)]
    wrong = 0
    for n, case in enumerate(cases):
        if not is_right(*case):
            wrong += 1
            asked = joined(lines(case[0]))
            print(f"case {n + 1} differs:\n{asked.decode()}\nthe model prints\n{model.run(asked).decode()}", file=sys.stderr)
    # rows of the form `Rounds (..) (..)`, as in (whole 5 ÷ whole 2) (whole 3)
    rounded = re.findall(r"^    ∷ Rounds \((.*)\) \((.*)\)$", TEXT, re.M)
    for x, y in rounded:
        if model.rnd(double(x)) != double(y):
            wrong += 1
            print(f"the model rounds {double(x)} to {model.rnd(double(x))}", file=sys.stderr)
    print(f"{len(cases)} cases and {len(rounded)} roundings, {wrong} differ")
    sys.exit(wrong > 0 or not cases or not rounded)


main()
