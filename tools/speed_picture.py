#!/usr/bin/env python3
"""Draws docs/speed.svg from the measured cells in docs/speed.tsv: how many times as long other libraries take.

    tools/speed_picture.py            writes docs/speed.svg
    tools/speed_picture.py --check    compares it; the last line is 'N as wanted, M not'

A bar is the geometric mean, over the types that both libraries have, of the other library's time by this one's. Bars of more
than ten end at ten.
"""
import collections
import math
import pathlib

from made import write_or_check

TOP = pathlib.Path(__file__).resolve().parent.parent
CELLS, PICTURE = TOP / "docs/speed.tsv", TOP / "docs/speed.svg"
OURS = "dns-rdata"
CALLS = {
    "read": "read RDATA",
    "emit": "emit with compression",
    "print": "print text",
    "parse": "read text",
    "clone": "clone",
    "cmp": "compare",
}
COLOURS = ["#33658a", "#86bbd8", "#758e4f", "#f6ae2d", "#f26419", "#6b4e71"]
LEFT, WIDTH, BAR, GAP = 170, 500, 13, 22
# Bars of larger ratios end here.
MOST = 10


def means():
    """For each call and other library the mean ratio of its time by ours."""
    times = collections.defaultdict(dict)
    for line in CELLS.read_text(encoding="utf-8").splitlines():
        if not line.startswith("#"):
            call, library, kind, time = line.split("\t")
            times[call, library][kind] = float(time)
    found = collections.defaultdict(dict)
    for (call, library), theirs in times.items():
        ours = times[call, OURS]
        both = [theirs[kind] / ours[kind] for kind in theirs if kind in ours and theirs[kind] > 0]
        if library != OURS and both:
            found[call][library] = math.exp(sum(map(math.log, both)) / len(both))
    return found


def picture():
    found = means()
    libraries = list(dict.fromkeys(library for row in found.values() for library in row))
    scale = WIDTH / MOST
    out, y = [], 56
    for call, text in CALLS.items():
        out.append(f'<text x="{LEFT - 8}" y="{y + BAR * len(found[call]) / 2 + 4:.0f}" text-anchor="end">{text}</text>')
        for library, ratio in found[call].items():
            colour, length = COLOURS[libraries.index(library)], min(ratio, MOST) * scale
            out.append(f'<rect x="{LEFT}" y="{y}" width="{length:.1f}" height="{BAR - 2}" fill="{colour}"/>')
            out.append(f'<text x="{LEFT + length + 4:.1f}" y="{y + BAR - 4}" class="n">{ratio:.1f} {library}</text>')
            y += BAR
        y += GAP
    line = LEFT + scale
    head = [
        f'<svg xmlns="http://www.w3.org/2000/svg" width="{LEFT + WIDTH + 130}" height="{y}" font-family="sans-serif" font-size="13">',
        "<style>.n { font-size: 10px; fill: #444 }</style>",
        f'<rect width="100%" height="100%" fill="white"/>',
        '<text x="10" y="22" font-size="15">How many times as long other libraries take (1 is dns-rdata)</text>',
        f'<line x1="{line:.1f}" y1="40" x2="{line:.1f}" y2="{y - GAP}" stroke="#999" stroke-dasharray="3 3"/>',
    ]
    return "\n".join([*head, *out, "</svg>"]) + "\n"


write_or_check(PICTURE, picture())
