#!/usr/bin/env python3
"""Reads what the run program prints, with times of day for microseconds and decimal numbers for the bits of doubles:
crates/run/out/run < examples/season | python3 examples/read.py"""
import datetime
import struct
import sys

POSITION = {"-1": "short", "0": "flat", "1": "long"}
SIDE = {"L": "long", "S": "short"}


def time(micros):
    return (datetime.datetime(1970, 1, 1) + datetime.timedelta(microseconds=int(micros))).strftime("%Y-%m-%d %H:%M")


def real(bits):
    return "-" if bits == "-" else "%.2f" % struct.unpack(">d", bytes.fromhex(bits))[0]


bar = 0
for line in sys.stdin:
    f = line.rstrip("\n").split("|")
    if f[0] == "F":
        bar += 1
        said = "refused with " + f[1] if f[1] != "0" else "changed" if f[3] == "1" else ""
        print(f"bar {bar:2}  {POSITION[f[2]]:5}  {said}".rstrip())
    elif f[0] == "R":
        lots = "1 lot" if f[12] == "1" else f[12] + " lots"
        print(f"pair    {SIDE[f[3]]:5}  {time(f[4])} at {real(f[6])} to {time(f[5])} at {real(f[7])}, {real(f[11])} bp, {lots}: {f[9]}")
    elif f[0] == "H":
        print(f"hold    {POSITION[f[2]]:5}  {time(f[1])} at {real(f[3])}, {real(f[4])} bp")
    else:
        print("the input is refused with " + f[1])
