#!/usr/bin/env python3
"""Writes the example sheets, and a table in CSV, beside this file; with --check only sees that they are those. The noise is a fixed sequence, so every run
writes the same bytes.

    small.sheet          (0, 10) with smoothing 1, no line filed
    small_line.sheet     the same with its line, (1, 1)(1, 9)
    hour.sheet           60 minutes: two plateaus with noise
    hour.csv             the samples of hour.sheet
    shift.sheet          480 minutes, eight hours: five plateaus and three short peaks, with noise; the picture in docs/line.svg
    month.sheet          44,640 minutes, 31 days: a delay that steps now and then, with noise
    wrong_line.sheet     (0, 10) with smoothing 1 and the line (1, 2)(1, 8): refused, 9 at minute 1
    wrong_field.sheet    small.sheet with 1 in field 28: refused, 12 at byte 28
    far_sample.sheet     (0, 16777217): refused, 3 at minute 2
    cut.sheet            the first 31 bytes of small.sheet: refused, 10
"""
import pathlib
import struct
import sys


def sheet(samples, smoothing, line=(), last_field=0):
    n, m = len(samples), len(line)
    head = struct.pack("<4IQ2I", n, m, 32, 32 + 4 * n, smoothing, 32 + 4 * n + 12 * m, last_field)
    return head + struct.pack(f"<{n}i", *samples) + b"".join(struct.pack("<Iq", *s) for s in line)


def csv(samples):
    return "".join(f"{k},{y}\r\n" for k, y in enumerate(samples, 1)).encode()


def noisy(levels):
    """Each level with the sum of four numbers from -8 to 7 added, from a linear congruential generator."""
    state, out = 2013, []
    for level in levels:
        noise = 0
        for _ in range(4):
            state = (state * 6364136223846793005 + 1442695040888963407) % 2**64
            noise += (state >> 60) - 8
        out.append(level + noise)
    return out


def shift():
    levels = [40] * 95 + [110] * 60 + [75] * 130 + [190] * 85 + [55] * 110
    for first, length, peak in ((47, 2, 90), (228, 1, 140), (420, 3, 80)):
        for k in range(first, first + length):
            levels[k] += peak
    return levels


small = sheet([0, 10], 1)
hour = noisy([40] * 25 + [90] * 35)
sheets = {
    "small": small,
    "small_line": sheet([0, 10], 1, [(1, 1), (1, 9)]),
    "hour": sheet(hour, 60),
    "shift": sheet(noisy(shift()), 200),
    "month": sheet(noisy([30 + 20 * (k // 1440 % 5) + 60 * (k % 1440 // 480 == 1) for k in range(44640)]), 200),
    "wrong_line": sheet([0, 10], 1, [(1, 2), (1, 8)]),
    "wrong_field": sheet([0, 10], 1, last_field=1),
    "far_sample": sheet([0, 16777217], 1),
    "cut": small[:31],
}
files = {f"{name}.sheet": content for name, content in sheets.items()}
files["hour.csv"] = csv(hour)
here = pathlib.Path(__file__).parent
if "--check" in sys.argv:
    good = {path.name: path.read_bytes() for kind in ("sheet", "csv") for path in here.glob(f"*.{kind}")} == files
    print(f"examples: {len(sheets)} sheets, 1 table" + ("" if good else "; the files differ"))
    sys.exit(0 if good else 1)
for name, content in files.items():
    (here / name).write_bytes(content)
