#!/usr/bin/env python3
"""Compares the tables of crates/texts/data with the second ledger, and with a program if one is named.

    python3 tools/check_cases.py [BIN]

The values in the tables were worked out by hand from the rules, so a line that is printed here means that the table,
the second ledger or the program misreads a rule.
"""

import re
import subprocess
import sys
from pathlib import Path

import oracle

DATA = Path(__file__).resolve().parent.parent / "crates" / "texts" / "data"


def unescaped(piece):
    """The bytes of a piece without repetition: `/` is byte 10, `\\xHH` any byte."""
    written = piece.replace("/", "\n").encode("ascii")
    return re.sub(rb"\\x([0-9A-F]{2})", lambda found: bytes([int(found[1], 16)]), written)


def expanded(text):
    """The bytes of a case: `{N*PIECE}` is the piece N times, everything else is itself."""
    whole, behind = b"", 0
    for found in re.finditer(r"\{([0-9]+)\*([^}]*)\}", text):
        whole += unescaped(text[behind : found.start()]) + int(found[1]) * unescaped(found[2])
        behind = found.end()
    return whole + unescaped(text[behind:])


def cases():
    """File, number of the case, number of the line that tells, that line, and the text."""
    for number, case in enumerate((DATA / "cases.txt").read_text("ascii").splitlines(), start=1):
        expected, text = case.split("|")
        yield "cases.txt", number, 1, expected, text
    for number, case in enumerate((DATA / "lines.txt").read_text("ascii").splitlines(), start=1):
        nth, expected, text = case.split("|")
        yield "lines.txt", number, int(nth), expected, text


def printed_by(program, raw):
    return subprocess.run([program], input=raw, stdout=subprocess.PIPE, check=True).stdout


def nth_line(printed, nth):
    lines = printed.decode("ascii").split("\n")[:-1]
    return lines[nth - 1] if nth <= len(lines) else ""


def main():
    programs = {"the second ledger": oracle.statement}
    for name in sys.argv[1:]:
        programs[name] = lambda raw, name=name: printed_by(name, raw)
    tried = wrong = 0
    for file, number, nth, expected, text in cases():
        raw = expanded(text)
        for name, program in programs.items():
            told = nth_line(program(raw), nth)
            tried += 1
            if told != expected:
                wrong += 1
                print(f"{file}:{number}: line {nth} should be {expected!r}, {name} has {told!r}: {text[:100]}")
    print(f"{tried} comparisons, {wrong} differences")
    return 1 if wrong else 0


if __name__ == "__main__":
    sys.exit(main())
