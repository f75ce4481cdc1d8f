#!/usr/bin/env python3
"""Compares a program with the second ledger on random texts.

    python3 tools/fuzz.py BIN --seed=1 --count 1000

Text number i is made from seed + i alone, so that one text is made again by `--seed THAT --count 1`. Most texts are valid
and most of their calls are accepted; the others have some bytes, words or lines changed. At the first difference the seed, the
text and both outputs are printed, and the status is 1.
"""

import argparse
import random
import subprocess
import sys
from datetime import date, timedelta

import oracle

ODD_DATES = ["1899-12-31", "1900-01-01", "1900-02-29", "2023-02-29", "2023-2-2", "2023-13-01", "2199-12-31", "2200-01-01",
             "0000-01-01"]
ODD_OFFSETS = ["+0", "-0", "+00", "0", "1", "+60", "-60", "+61", "-61", "+007", "+", "+99999999999", "+100000000000"]
ODD_NUMBERS = ["0", "00", "01", "+1", "1", "16", "17", "50000", "50001", "4294967295", "4294967296", "4294967297", "4294967302",
               "10000000000", "10000000001", "99999999999", "100000000000"]
ODD_WORDS = ["", "x", "1111111", "000000", "0000011", "SF", "SL", "sf", "F", "f", "U", "A360", "E360", "PO", "DL", "CW",
             "HO", "PY"]
MONTHS = [1, 2, 3, 4, 6, 12]
DAY_0, LAST = date(1900, 1, 1), date(2199, 12, 31)


def any_day(dice):
    """A day of the range, often near one of its ends, near a leap day or at the end of a month."""
    kind = dice.randrange(8)
    if kind == 0:
        return DAY_0 + timedelta(days=dice.randrange(70))
    if kind == 1:
        return LAST - timedelta(days=dice.randrange(400))
    if kind == 2:
        return date(dice.choice([1904, 2000, 2024, 2096]), 2, 29)
    day = DAY_0 + timedelta(days=dice.randrange(oracle.LAST_DAY + 1))
    return oracle.end_of_month(day) if kind == 3 else day


def near(day, days):
    """The day so many days away, or the end of the range that it lies beyond."""
    return min(max(day + timedelta(days=days), DAY_0), LAST)


def later_day(dice, start):
    """An end for a deal, often so that its stub has few days and two dates may roll onto one."""
    if dice.randrange(3) == 0 and start.year < 2150:
        return near(oracle.months_from(start, 12 * dice.randrange(1, 10)), dice.randrange(-3, 4))
    longest = dice.choice([14_599, 14_600, 14_601])
    terms = [dice.randrange(40), dice.randrange(40, 400), dice.randrange(400, 4000), longest]
    term = dice.choices(terms, [1, 6, 6, 1])[0]
    if dice.randrange(40) == 0:
        term = -term
    return near(start, term)


def deal_line(dice, start):
    months = dice.choice(MONTHS) if dice.randrange(40) else dice.choice([0, 5, 24, 4294967302])
    rate = dice.choice([0, 1, 4125, 50000, dice.randrange(50001)]) if dice.randrange(40) else 50001
    return (f"DL {start} {later_day(dice, start)} {months} {dice.choice(['SF', 'SL'])} {dice.choice('FMPUFM')} "
            f"{dice.choice(['A360', 'A365', 'B360', 'E360'])} {rate}")


def calendar_lines(dice, starts):
    lines = []
    if dice.randrange(4):
        lines.append("CW " + dice.choice(["0000011", "0000011", "0000000", "1111110", "0101010", "1000000"]))
    for start in starts:
        for _ in range(dice.choice([0, 0, 3, 10])):
            lines.append(f"CD {near(start, dice.randrange(-200, 400))}")
        if dice.randrange(4) == 0:  # a stretch about as long as rolling reaches
            first = dice.choice([dice.randrange(-35, 5), dice.randrange(300)])
            for step in range(dice.randrange(25, 36)):
                lines.append(f"CD {near(start, first + step)}")
    for _ in range(dice.choice([0, 0, 2, 4, 8])):
        lines.append(f"CE {dice.choice([-2, 1, 39, 50, 0, dice.randrange(-60, 61)]):+d}")
    dice.shuffle(lines)
    return lines


def holdings(dice):
    count = dice.choice([1, 2, 3, 5, 16]) if dice.randrange(30) else 0
    largest = dice.choice([10, 1000, 1_000_000, 600_000_000, 10_000_000_000, 10_000_000_100])
    return [dice.choice([largest // max(count, 1), dice.randrange(largest // max(count, 1) + 1)]) for _ in range(count)]


class Caller:
    """Writes calls that the register mostly accepts, by following the rolled dates and the holdings."""

    def __init__(self, dice, dates, held):
        self.dice, self.dates, self.held = dice, dates, held
        self.today, self.period = dates[0], 0

    def holder(self):
        return self.dice.randrange(len(self.held) or 1) if self.dice.randrange(30) else len(self.held)

    def amount(self, holder):
        held = self.held[holder] if holder < len(self.held) else 1
        return self.dice.choice([held, held // 2, 1, 0, held + 1, self.dice.randrange(held + 1)])

    def advance(self):
        ends = self.dates[min(self.period + 1, len(self.dates) - 1)]
        between = self.dice.randint(min(self.today, ends), ends)
        month_end = min(oracle.day_of(oracle.end_of_month(oracle.date_of(between))), ends)
        day = self.dice.choice([ends, ends, self.today, between, month_end, month_end - 1])
        day += self.dice.choice([1, -1]) if self.dice.randrange(12) == 0 else 0
        day = min(max(day, 0), oracle.LAST_DAY)
        if self.today <= day <= ends:
            self.today = day
        return f"AD {oracle.date_of(day)}"

    def post(self):
        if self.period + 1 < len(self.dates) and self.today == self.dates[self.period + 1]:
            self.period += 1
        return "PO"

    def transfer(self):
        giver, taker = self.holder(), self.holder()
        amount = self.amount(giver)
        if max(giver, taker) < len(self.held) and giver != taker and amount <= self.held[giver]:
            self.held[giver] -= amount
            self.held[taker] += amount
        return f"TR {giver} {taker} {amount}"

    def redeem(self):
        holder = self.holder()
        amount = self.amount(holder)
        if holder < len(self.held) and amount <= self.held[holder]:
            self.held[holder] -= amount
        return f"RD {holder} {amount}"

    def pay(self):
        return f"PY {self.holder()}"

    def call(self):
        return self.dice.choices([self.advance, self.post, self.transfer, self.redeem, self.pay], [5, 4, 2, 1, 2])[0]()


def rolled_dates(lines):
    """The dates of the last deal, or two that stand for them if its schedule is refused."""
    text = oracle.read("".join(line + "\n" for line in lines).encode("ascii"))
    try:
        return oracle.schedule(text.deals[-1], oracle.ClosedDays(text))
    except oracle.Refusal:
        first = min(oracle.day_of(text.deals[-1].start), oracle.LAST_DAY - 1)
        return [first, first + 1]


def valid_lines(dice):
    starts = [any_day(dice) for _ in range(dice.choice([0, 1, 1, 1, 2, 3]))]
    calendar = calendar_lines(dice, starts)[: oracle.MOST_OF["CD"]]
    lines = list(calendar)
    for start in starts:
        deal, held = deal_line(dice, start), holdings(dice)
        dates = rolled_dates([*calendar, deal])
        lines += [deal, *(f"HO {holding}" for holding in held)]
        caller = Caller(dice, dates, held)
        lines += [caller.call() for _ in range(dice.choice([0, 5, 20, 60]))]
        if dice.randrange(100) == 0:  # about as many lines as a report has room for
            lines += ["PO"] * dice.choice([4000, 13080 + dice.randrange(30)])
    return lines


def odd_like(dice, word):
    """A word of the same kind at the edge of what is allowed, or one of another kind."""
    kinds = [ODD_DATES, ODD_OFFSETS, ODD_NUMBERS, ODD_WORDS]
    if dice.randrange(6) == 0:
        return dice.choice(dice.choice(kinds))
    is_of_kind = [word.count("-") == 2, word[:1] in ("+", "-"), word.isdigit(), True]
    return dice.choice(kinds[is_of_kind.index(True)])


def changed_line(dice, line):
    words = line.split(" ")
    place = dice.randrange(len(words))
    kind = dice.choice([0, 0, 0, 1, 2, 3, 4, 4])
    if kind == 4:  # another digit
        digits = [index for index, letter in enumerate(line) if letter.isdigit()]
        if not digits:
            return line
        index = dice.choice(digits)
        return line[:index] + dice.choice("0123456789") + line[index + 1 :]
    if kind == 0:
        words[place] = odd_like(dice, words[place])
    elif kind == 1:
        words.insert(place, odd_like(dice, words[place]))
    elif kind == 2:
        del words[place]
    else:
        words[place] += dice.choice(["0", " ", "\r", "x"])
    return " ".join(words)


def change_lines(dice, lines):
    if not lines:
        return
    place, kind = dice.randrange(len(lines)), dice.randrange(5)
    if kind == 0:
        lines[place : place + 1] = []
    elif kind == 1:
        lines.insert(dice.randrange(len(lines) + 1), lines[place])
    elif kind == 2:
        lines[place : place + 1] = [lines[place]] * dice.choice([2, 9, 17, 513, 6000])
    else:
        lines[place] = changed_line(dice, lines[place])


def change_bytes(dice, raw):
    place, kind = dice.randrange(len(raw) + 1), dice.randrange(4)
    if kind == 0:
        raw[place:] = b""
    elif kind == 1:
        raw[place : place + 1] = b""
    else:
        byte = dice.choice([dice.randrange(256), *b" \n\r-+019DF"])
        raw[place : place + (kind == 2)] = bytes([byte])


def make_text(seed):
    dice = random.Random(seed)
    lines = valid_lines(dice)
    kind = dice.randrange(8)
    if kind in (5, 6):
        for _ in range(dice.choice([1, 1, 2])):
            change_lines(dice, lines)
    raw = bytearray("".join(line + "\n" for line in lines).encode("ascii"))
    if kind == 7:
        change_bytes(dice, raw)
    if dice.randrange(200) == 0:  # about as many bytes as a text may have
        raw += b"PO\n" * (oracle.LONGEST_TEXT // 3)
        raw[oracle.LONGEST_TEXT + dice.randrange(-1, 2) :] = b""
    return bytes(raw)


def first_difference(ours, theirs):
    ours, theirs = ours.split(b"\n"), theirs.split(b"\n")
    for number, (mine, other) in enumerate(zip(ours, theirs), start=1):
        if mine != other:
            return number
    return min(len(ours), len(theirs)) + 1


def main():
    parser = argparse.ArgumentParser(description="Compare a program with the second ledger on random texts.")
    parser.add_argument("bin", metavar="BIN", help="the statement program")
    parser.add_argument("--seed", type=int, default=1)
    parser.add_argument("--count", type=int, default=1000)
    chosen = parser.parse_args()
    for seed in range(chosen.seed, chosen.seed + chosen.count):
        raw = make_text(seed)
        ran = subprocess.run([chosen.bin], input=raw, stdout=subprocess.PIPE)
        expected = oracle.statement(raw)
        if ran.returncode != 0 or ran.stdout != expected:
            out = sys.stdout.buffer
            line = first_difference(expected, ran.stdout)
            out.write(f"seed {seed}: status {ran.returncode}, first difference in line {line}\n--- text\n".encode())
            out.write(raw + b"--- expected\n" + expected + b"--- printed\n" + ran.stdout)
            return 1
    print(f"{chosen.count} texts from seed {chosen.seed}: no difference")
    return 0


if __name__ == "__main__":
    sys.exit(main())
