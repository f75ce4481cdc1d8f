#!/usr/bin/env python3
"""Writes the largest texts of several shapes into a folder.

    python3 tools/benchmark/make_texts.py FOLDER

Each file is SHAPE-LIMIT.txt: as many lines of the shape as fit into LIMIT bytes. All of them are valid texts, and the
same on every run.
"""

import sys
from datetime import date, timedelta
from pathlib import Path

LONGEST_TEXT = 65_536
DOUBLING = [LONGEST_TEXT // 8, LONGEST_TEXT // 4, LONGEST_TEXT // 2, LONGEST_TEXT]


def posts():
    """One deal and nothing but postings: the most lines that a text can have."""
    yield "DL 2023-01-02 2023-07-02 6 SL U A360 4125"
    yield "HO 1000000"
    while True:
        yield "PO"


def deals():
    """The most deals: each has its two dates and no holder."""
    while True:
        yield "DL 2023-01-02 2023-01-03 1 SF U A360 0"


def schedules():
    """The most work on closed days: each date of each deal is asked for up to seven days, and the calendar is full.

    Only Sundays are open. The dated list and the Easter rule close days that the pattern closes too, so that they are
    looked through to their end and no date is refused.
    """
    yield "CW 1111110"
    saturday = date(1960, 1, 2)
    for week in range(512):
        yield f"CD {saturday + timedelta(weeks=week)}"
    for offset in (-60, -46, -3, -2, 1, 39, 50, 60):
        yield f"CE {offset:+d}"
    while True:
        yield "DL 1960-01-01 1999-12-22 1 SL F A360 4125"
        yield "HO 1"


def calls():
    """Sixteen holders, and every day an advance, a transfer, a redemption and a payment, all of them accepted."""
    start = date(1960, 1, 1)
    yield f"DL {start} 1999-12-22 12 SL U A365 4125"
    for _ in range(16):
        yield "HO 100000000"
    day, turn = start, 0
    while True:
        day += timedelta(days=1)
        turn += 1
        holder = turn % 16
        yield f"AD {day}"
        yield f"TR {holder} {(holder + 5) % 16} {1000 + turn}"
        yield f"RD {(holder + 9) % 16} {turn}"
        if (day.month, day.day) == (start.month, start.day):
            yield "PO"
        yield f"PY {(holder + 3) % 16}"


SHAPES = {"posts": (posts, DOUBLING), "deals": (deals, DOUBLING), "schedules": (schedules, [LONGEST_TEXT]),
          "calls": (calls, DOUBLING)}


def cut(lines, limit):
    """The first lines that fit into so many bytes."""
    text, size = [], 0
    for line in lines:
        size += len(line) + 1
        if size > limit:
            return "".join(text)
        text.append(line + "\n")


def main():
    if len(sys.argv) != 2:
        sys.exit("usage: make_texts.py FOLDER")
    folder = Path(sys.argv[1])
    folder.mkdir(parents=True, exist_ok=True)
    for shape, (lines, limits) in SHAPES.items():
        for limit in limits:
            (folder / f"{shape}-{limit}.txt").write_text(cut(lines(), limit), "ascii", newline="\n")


if __name__ == "__main__":
    main()
