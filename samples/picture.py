#!/usr/bin/env python3
"""picture.py TRACE > picture.svg: draws the lines that `spechint trace` prints.

Three lanes show what the program, its shadow and the cache did, in the order of the lines; a matched
read is joined to the hint that told of it. A trace gives an order and no time, so each line has the
same width, and where there are more lines than columns a column sums up the lines that fall into it.
"""

import re
import sys
from html import escape

WIDTH, LEFT, RIGHT, COLUMNS = 1200, 90, 20, 545
LANES = {
    "program": ["call", "match", "stall", "restart", "text", "exit", "trap", "fault", "turns"],
    "shadow": ["hint", "fill", "park", "use"],
    "cache": ["fetch", "drop", "lost"],
}
COLOURS = {
    "call": "#b8c4d0", "match": "#2e8b57", "stall": "#c0392b", "restart": "#e08e0b", "text": "#6f7f8f",
    "exit": "#222222", "trap": "#222222", "fault": "#222222", "turns": "#222222",
    "hint": "#2f6fb3", "fill": "#7fb3e6", "park": "#8e44ad", "use": "#d35480",
    "fetch": "#2a9d9d", "drop": "#c0392b", "lost": "#e08e0b",
}
LANE_TOP = {"program": 150, "shadow": 300, "cache": 420}
LANE_HEIGHT = {"program": 90, "shadow": 70, "cache": 50}

NUMBER = r"(?:0|[1-9][0-9]*)"
NAME = r"(?:[0-9a-f]{2}){1,255}"
SPOT = rf"{NAME} {NUMBER} {NUMBER}"
BODY = "|".join([
    rf"call {NUMBER} {NUMBER} {NUMBER} {NUMBER} -?{NUMBER}", r"text [12] (?:[0-9a-f]{2})+",
    rf"(?:match|restart|hint|fill) {SPOT}", rf"(?:stall|fetch|drop|lost) {NAME} {NUMBER}",
    r"park (?:Exit|Fault|Regions|LogFull|Store)", rf"exit {NUMBER}",
    r"trap (?:Illegal|FetchOut|Misaligned|LoadOut|StoreOut|Break) 0x[0-9a-f]+",
    r"fault store", rf"use {NUMBER}", r"turns",
])
LINE = re.compile(rf"({NUMBER}) ({NUMBER}) ({BODY})\n".encode())


def read_lines(path):
    """The lines of a trace as (own, shadow, words), or the end of the program at a line that is none."""
    read = []
    with open(path, "rb") as file:
        for number, line in enumerate(file, 1):
            found = LINE.fullmatch(line)
            if not found:
                sys.exit(f"{path}: line {number} is no line of a trace: {line[:60]!r}")
            read.append((int(found[1]), int(found[2]), found[3].decode().split(" ")))
    return read


def joined(lines):
    """The places of the hints and of the reads that matched them: a restart forgets the hints before it."""
    waiting, pairs = {}, []
    for place, (_, _, words) in enumerate(lines):
        spot = tuple(words[1:])
        if words[0] == "restart":
            waiting = {}
        elif words[0] == "hint":
            waiting.setdefault(spot, []).append(place)
        elif words[0] == "match" and waiting.get(spot):
            pairs.append((waiting[spot].pop(0), place))
    return pairs


def counts(lines):
    """What the report of the run tells, as far as the lines show it."""
    told = {kind: 0 for kind in COLOURS}
    for _, _, words in lines:
        told[words[0]] += 1
    return {
        "instructions": lines[-1][0] if lines else 0, "stalls": told["stall"], "restarts": told["restart"],
        "matched": told["match"], "hints": told["hint"], "fills": told["fill"], "parks": told["park"],
        "fetches": told["fetch"], "drops": told["drop"],
    }


class Picture:
    """A picture as it is drawn, in the order of its parts."""

    def __init__(self, lines):
        self.lines = lines
        self.columns = max(1, min(COLUMNS, len(lines)))
        self.step = (WIDTH - LEFT - RIGHT) / self.columns
        self.parts = []

    def column(self, place):
        return place * self.columns // max(1, len(self.lines))

    def left(self, place):
        return LEFT + self.column(place) * self.step

    def bar_width(self):
        return max(1.0, min(self.step * 0.9, 14))

    def text(self, x, y, words, size=12, colour="#333333", extra=""):
        self.parts.append(f'<text x="{x:.1f}" y="{y:.1f}" font-size="{size}" fill="{colour}"{extra}>{escape(words)}</text>')

    def bar(self, x, y, width, height, colour, title):
        self.parts.append(
            f'<rect x="{x:.2f}" y="{y:.1f}" width="{width:.2f}" height="{height:.1f}" fill="{colour}">'
            f"<title>{escape(title)}</title></rect>"
        )

    def lane(self, lane, kinds):
        """One lane: in each column a bar for each kind, as high as its share of the column's lines."""
        top, height = LANE_TOP[lane], LANE_HEIGHT[lane]
        self.text(10, top + height / 2 + 4, lane, 13)
        self.parts.append(f'<line x1="{LEFT}" y1="{top + height}" x2="{WIDTH - RIGHT}" y2="{top + height}" stroke="#cccccc"/>')
        sums = {}
        for place, (_, _, words) in enumerate(self.lines):
            if words[0] in kinds:
                sums.setdefault(self.column(place), {}).setdefault(words[0], []).append(place)
        most = max((sum(map(len, one.values())) for one in sums.values()), default=1)
        width = self.bar_width()
        for column, one in sums.items():
            y = top + height
            for kind in kinds:
                if kind in one:
                    share = len(one[kind]) / most * height
                    y -= share
                    self.bar(LEFT + column * self.step, y, width, share, COLOURS[kind], self.title(kind, one[kind]))

    def title(self, kind, places):
        own, shadow, words = self.lines[places[0]]
        if len(places) > 1:
            return f"{len(places)} of {kind}, the first at instruction {own}"
        return f"{' '.join(words)}, at instruction {own}, shadow {shadow}"[:200]

    def joins(self, pairs):
        """A curve from each hint to its match; those between the same two columns are one."""
        seen = {}
        for hint, match in pairs:
            key = self.column(hint), self.column(match)
            seen[key] = seen.get(key, 0) + 1
        half = self.bar_width() / 2
        low, high = LANE_TOP["shadow"], LANE_TOP["program"] + LANE_HEIGHT["program"]
        for (hint, match), count in seen.items():
            a, b = LEFT + hint * self.step + half, LEFT + match * self.step + half
            self.parts.append(
                f'<path d="M {a:.1f} {low} C {a:.1f} {(low + high) / 2:.0f}, {b:.1f} {(low + high) / 2:.0f}, {b:.1f} {high}" '
                f'fill="none" stroke="#2e8b57" stroke-opacity="{min(0.9, 0.25 + 0.1 * count):.2f}"/>'
            )

    def legend(self):
        x = LEFT
        for kind, colour in COLOURS.items():
            self.bar(x, 76, 10, 10, colour, kind)
            self.text(x + 14, 85, kind, 12)
            x += 34 + 7 * len(kind)

    def axis(self):
        y = LANE_TOP["cache"] + LANE_HEIGHT["cache"] + 22
        for part in range(0, 11):
            place = min(len(self.lines) - 1, part * len(self.lines) // 10)
            if place >= 0:
                anchor = ' text-anchor="end"' if part == 10 else ""
                x = WIDTH - RIGHT if part == 10 else self.left(place)
                self.text(x, y, str(self.lines[place][0]), 11, "#666666", anchor)
        self.text(LEFT, y + 20, "instructions of the program that were completed by then", 11, "#666666")

    def draw(self, name):
        told = counts(self.lines)
        self.text(LEFT, 28, name, 18)
        self.text(LEFT, 52, "  ".join(f"{word} {count}" for word, count in told.items()), 13)
        self.legend()
        self.joins(joined(self.lines))
        for lane, kinds in LANES.items():
            self.lane(lane, kinds)
        self.axis()
        head = f'<svg xmlns="http://www.w3.org/2000/svg" width="{WIDTH}" height="530" font-family="sans-serif" role="img">'
        back = f'<title>{escape(name)}</title><rect width="{WIDTH}" height="530" fill="#ffffff"/>'
        return "\n".join([head, back, *self.parts, "</svg>"])


def main():
    if len(sys.argv) != 2:
        sys.exit("usage: picture.py TRACE > picture.svg")
    try:
        lines = read_lines(sys.argv[1])
    except OSError as fault:
        sys.exit(f"{sys.argv[1]}: {fault.strerror}")
    print(Picture(lines).draw(sys.argv[1]))


if __name__ == "__main__":
    main()
