#!/usr/bin/env python3
"""Draws a completed sheet: its samples as dots, its line as steps over them, in seconds.

    draw.py SHEET PICTURE      SHEET has its line (examples/complete.c writes such a one); PICTURE gets an SVG
"""
import struct
import sys
from fractions import Fraction

WIDTH, HEIGHT = 960, 400
LEFT, RIGHT, TOP, BOTTOM = 72, 936, 52, 344
TEXT, GRID = "#334155", "#e5e9ef"
DOTS = 'fill="none" stroke="#8a9bb0" stroke-width="3.4" stroke-linecap="round"'
STEPS = 'fill="none" stroke="#c2410c" stroke-width="2.6" stroke-linejoin="round"'


def read(path):
    """Samples, smoothing and line, [(length, total)]; samples and totals in tenths of a second."""
    with open(path, "rb") as f:
        sheet = f.read()
    if len(sheet) < 32:
        sys.exit(f"{path}: under 32 bytes")
    n, m, samples, segments, smoothing, size, _ = struct.unpack_from("<4IQ2I", sheet)
    if size != len(sheet) or size != segments + 12 * m or segments != samples + 4 * n:
        sys.exit(f"{path}: the header does not fit the file")
    if m == 0:
        sys.exit(f"{path}: no line is filed; complete the sheet first")
    return struct.unpack_from(f"<{n}i", sheet, samples), smoothing, list(struct.iter_unpack("<Iq", sheet[segments:]))


def unit(span, most, power=1):
    """The least of 1, 2, 5, 10, 20, 50, ... times the power that fits into the span at most that many times."""
    while True:
        for step in (1, 2, 5):
            if span <= most * step * power:
                return step * power
        power *= 10


class Plane:
    """Minutes and seconds to places in the picture; the lowest and highest seconds are ticks."""

    def __init__(self, samples):
        low, high = Fraction(min(samples), 10), Fraction(max(samples), 10)
        self.tick = unit(high - low, 5, Fraction(1, 10))
        self.low = low // self.tick * self.tick
        self.high = max(-(-high // self.tick) * self.tick, self.low + self.tick)
        self.minutes = len(samples)

    def x(self, minute):
        """The middle of a minute; half a minute away are its ends."""
        return round(LEFT + (minute - 0.5) * (RIGHT - LEFT) / self.minutes, 1)

    def y(self, seconds):
        return round(float(BOTTOM - (seconds - self.low) * (BOTTOM - TOP) / (self.high - self.low)), 1)


def text(x, y, words, anchor="middle", more=""):
    return f'<text x="{x}" y="{y}" text-anchor="{anchor}"{more}>{words}</text>'


def axes(plane):
    out = []
    digits = 1 if plane.tick < 1 else 0
    for k in range(int((plane.high - plane.low) / plane.tick) + 1):
        seconds = plane.low + k * plane.tick
        y = plane.y(seconds)
        out.append(f'<path d="M{LEFT} {y}H{RIGHT}" stroke="{GRID}"/>')
        out.append(text(LEFT - 10, y + 4.5, f"{float(seconds):,.{digits}f}", "end"))
    step = unit(plane.minutes, 9)
    for minute in [1] + list(range(step, plane.minutes + 1, step)):
        x = plane.x(minute)
        out.append(f'<path d="M{x} {BOTTOM}v5" stroke="{TEXT}"/>')
        out.append(text(x, BOTTOM + 20, f"{minute:,}"))
    out.append(f'<path d="M{LEFT} {BOTTOM}H{RIGHT}" stroke="{TEXT}"/>')
    out.append(text((LEFT + RIGHT) / 2, BOTTOM + 42, "minute"))
    middle = (TOP + BOTTOM) / 2
    out.append(text(20, middle, "delay, seconds", more=f' transform="rotate(-90 20 {middle})"'))
    return out


def dots(plane, samples):
    places = "".join(f"M{plane.x(k)} {plane.y(Fraction(y, 10))}h0" for k, y in enumerate(samples, 1))
    return f'<path d="{places}" {DOTS}/>'


def steps(plane, line):
    path, first = "", 1
    for length, total in line:
        path += ("V" if path else f"M{LEFT} ") + f"{plane.y(Fraction(total, 10 * length))}H{plane.x(first + length - 0.5)}"
        first += length
    return f'<path d="{path}" {STEPS}/>'


def heading(title):
    """The title on the left, on the right what dots and steps are."""
    return [
        text(LEFT, 30, title, "start", ' font-size="16" font-weight="600"'),
        f'<path d="M{RIGHT - 170} 21h0m9 7h0m8-5h0" {DOTS}/>',
        text(RIGHT - 144, 30, "samples", "start"),
        f'<path d="M{RIGHT - 62} 28h14v-6h14" {STEPS}/>',
        text(RIGHT, 30, "line", "end"),
    ]


def picture(samples, smoothing, line):
    plane = Plane(samples)
    title = f"{len(samples):,} minutes of mail delay: {len(line):,} segments at smoothing {smoothing:,}"
    return "\n".join(
        [
            f'<svg xmlns="http://www.w3.org/2000/svg" viewBox="0 0 {WIDTH} {HEIGHT}" role="img" font-family="system-ui, sans-serif" font-size="14" fill="{TEXT}">',
            f"<title>{title}</title>",
            f'<rect width="{WIDTH}" height="{HEIGHT}" rx="8" fill="#ffffff"/>',
            *heading(title),
            *axes(plane),
            dots(plane, samples),
            steps(plane, line),
            "</svg>\n",
        ]
    )


if len(sys.argv) != 3:
    sys.exit("usage: draw.py SHEET PICTURE")
drawn = picture(*read(sys.argv[1]))
with open(sys.argv[2], "w") as f:
    f.write(drawn)
