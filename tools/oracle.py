#!/usr/bin/env python3
"""A second ledger, to compare the proved one with.

Reads a text of deals on standard input and prints what the statement program prints for it: the report of each deal
from deal 0 on, or the `FT` line that ends the run. It is written from the rules alone and shares nothing
with the library: dates are those of Python's `datetime`, months and Easters are those of
`dateutil` where it is installed, and sums are Python's whole numbers, which have no bound.

    python3 tools/oracle.py < examples/stub.txt
"""

import re
import sys
from datetime import date, timedelta

try:
    from dateutil.easter import easter as easter_of_dateutil
    from dateutil.relativedelta import relativedelta
except ImportError:  # the ledger then counts months and Easters by itself
    easter_of_dateutil = relativedelta = None

DAY_0 = date(1900, 1, 1)
LAST_DAY = 109_572
LONGEST_TEXT = 65_536
BUFFER = 65_536
LONGEST_TERM = 14_600
LONGEST_ROLL = 30
LONGEST_PERIOD = 800
MOST_DATES = 481
MOST_OF = {"CD": 512, "CE": 8, "HO": 16}
HIGHEST_RATE = 50_000
MOST_HOLDERS = 16
LARGEST_NOMINAL = 10_000_000_000


class TextRefusal(Exception):
    """A refusal of the whole text, with the line and the column where it was seen."""

    def __init__(self, number, line, column):
        super().__init__(number, line, column)
        self.number, self.line, self.column = number, line, column


class Refusal(Exception):
    """A refusal of a schedule or of a call on a register."""

    LAYER = {12: "C", **{n: "D" for n in (9, 10, 11, 13)}, **{n: "R" for n in range(14, 25)}}

    def __init__(self, number, place=0):
        super().__init__(number, place)
        self.number, self.layer, self.place = number, self.LAYER[number], place


# --- days --------------------------------------------------------------------------------------------------------


def day_of(when):
    return (when - DAY_0).days


def date_of(day):
    return DAY_0 + timedelta(days=day)


def end_of_month(when):
    """The last day of the month, as the day before the first of the next one."""
    if when.month == 12:
        return date(when.year, 12, 31)
    return date(when.year, when.month + 1, 1) - timedelta(days=1)


def months_from(when, months):
    """The date some months away (back, if negative), on the same day or on the last of a shorter month."""
    if relativedelta is not None:
        return when + relativedelta(months=months)
    count = when.year * 12 + when.month - 1 + months
    first = date(count // 12, count % 12 + 1, 1)
    return first.replace(day=min(when.day, end_of_month(first).day))


def own_easter(year):
    """Easter Sunday by golden number, century corrections and epact: another road than the anonymous computus."""
    golden = year % 19 + 1
    century = year // 100 + 1
    solar = 3 * century // 4 - 12
    lunar = (8 * century + 5) // 25 - 5
    sunday = 5 * year // 4 - solar - 10
    epact = (11 * golden + 20 + lunar - solar) % 30
    if epact == 24 or (epact == 25 and golden > 11):
        epact += 1
    full_moon = 44 - epact
    if full_moon < 21:
        full_moon += 30
    in_march = full_moon + 7 - (sunday + full_moon) % 7
    return date(year, 3, 1) + timedelta(days=in_march - 1)


def easter(year):
    return easter_of_dateutil(year) if easter_of_dateutil is not None else own_easter(year)


# --- reading a text ----------------------------------------------------------------------------------------------

NUMBER = re.compile(rb"(0|[1-9][0-9]{0,10})\Z")
OFFSET = re.compile(rb"(\+0|[+-][1-9][0-9]{0,10})\Z")
DATE = re.compile(rb"[0-9]{4}-[0-9]{2}-[0-9]{2}\Z")
PATTERN = re.compile(rb"[01]{7}\Z")
STUB = re.compile(rb"(SF|SL)\Z")
CONVENTION = re.compile(rb"[FMPU]\Z")
BASIS = re.compile(rb"(A360|A365|B360|E360)\Z")

FIELDS = {
    "CW": [PATTERN],
    "CD": [DATE],
    "CE": [OFFSET],
    "DL": [DATE, DATE, NUMBER, STUB, CONVENTION, BASIS, NUMBER],
    "HO": [NUMBER],
    "AD": [DATE],
    "TR": [NUMBER, NUMBER, NUMBER],
    "RD": [NUMBER, NUMBER],
    "PO": [],
    "PY": [NUMBER],
}
CALENDAR = ("CW", "CD", "CE")
CALLS = ("AD", "TR", "RD", "PO", "PY")


class Deal:
    def __init__(self, line, start, end, months, stub, convention, basis, rate):
        self.line, self.start, self.end, self.months = line, start, end, months
        self.stub, self.convention, self.basis, self.rate = stub, convention, basis, rate
        self.holdings = []
        self.calls = []  # (line, mark, values)


class Text:
    def __init__(self):
        self.pattern = None
        self.closed_dates = []
        self.offsets = []
        self.deals = []

    def allows(self, mark):
        if mark == "CW":
            return not self.deals and self.pattern is None
        if mark in CALENDAR:
            return not self.deals
        if mark == "DL":
            return True
        if mark == "HO":
            return bool(self.deals) and not self.deals[-1].calls
        return mark in CALLS and bool(self.deals)

    def is_full_of(self, mark):
        lines = {"CD": self.closed_dates, "CE": self.offsets, "HO": self.deals[-1].holdings if self.deals else []}
        return mark in MOST_OF and len(lines[mark]) >= MOST_OF[mark]

    def take(self, number, mark, values):
        if mark == "CW":
            self.pattern = values[0]
        elif mark == "CD":
            self.closed_dates.append(values[0])
        elif mark == "CE":
            self.offsets.append(values[0])
        elif mark == "DL":
            self.deals.append(Deal(number, *values))
        elif mark == "HO":
            self.deals[-1].holdings.append(values[0])
        else:
            self.deals[-1].calls.append((number, mark, values))


def words_of(line):
    """The words of a line, each with the column where it begins."""
    words, column = [], 1
    for word in line.split(b" "):
        words.append((word, column))
        column += len(word) + 1
    return words


def date_in_range(word):
    """The date that a well-written word names, or nothing if it is no day from 1900 to 2199."""
    year, month, day = (int(part) for part in word.split(b"-"))
    if not 1900 <= year <= 2199:
        return None
    try:
        return date(year, month, day)
    except ValueError:
        return None


def check_form(fields, forms, number, length):
    for index, form in enumerate(forms):
        if index == len(fields):
            raise TextRefusal(4, number, length + 1)
        if not form.match(fields[index][0]):
            raise TextRefusal(4, number, fields[index][1])
    if len(fields) > len(forms):
        raise TextRefusal(4, number, fields[len(forms)][1])


def value_of(word, form, number, column):
    if form is DATE:
        when = date_in_range(word)
        if when is None:
            raise TextRefusal(5, number, column)
        return when
    if form is PATTERN:
        if word == b"1111111":
            raise TextRefusal(6, number, column)
        return [mark == ord("1") for mark in word]
    if form is OFFSET:
        if abs(int(word)) > 60:
            raise TextRefusal(7, number, column)
        return int(word)
    return int(word) if form is NUMBER else word.decode("ascii")


def read_line(text, number, line):
    words = words_of(line)
    mark = words[0][0].decode("latin-1")
    if mark not in FIELDS or not text.allows(mark):
        raise TextRefusal(3, number, 1)
    fields, forms = words[1:], FIELDS[mark]
    check_form(fields, forms, number, len(line))
    values = [value_of(word, form, number, column) for (word, column), form in zip(fields, forms)]
    if text.is_full_of(mark):
        raise TextRefusal(8, number, 1)
    text.take(number, mark, values)


def read(raw):
    if len(raw) > LONGEST_TEXT:
        raise TextRefusal(1, 0, 0)
    text = Text()
    *lines, rest = raw.split(b"\n")
    for number, line in enumerate(lines, start=1):
        read_line(text, number, line)
    if rest:
        raise TextRefusal(2, len(lines) + 1, 1)
    return text


# --- closed days and rolling -------------------------------------------------------------------------------------


class ClosedDays:
    def __init__(self, text):
        self.weekdays = {index for index, closed in enumerate(text.pattern or []) if closed}
        self.days = {day_of(when) for when in text.closed_dates}
        for year in range(1900, 2200) if text.offsets else ():
            self.days.update(day_of(easter(year)) + offset for offset in text.offsets)

    def closes(self, day):
        return day > LAST_DAY or date_of(day).weekday() in self.weekdays or day in self.days


def first_open(closed, days):
    return next((day for day in days if not closed.closes(day)), None)


def roll(closed, convention, day):
    if convention == "U":
        return day
    if convention == "F":
        return first_open(closed, range(day, day + LONGEST_ROLL + 1))
    if convention == "M":
        in_month = first_open(closed, range(day, day_of(end_of_month(date_of(day))) + 1))
        if in_month is not None:
            return in_month
    return first_open(closed, range(day, max(day - LONGEST_ROLL, 0) - 1, -1))


# --- schedules ---------------------------------------------------------------------------------------------------


def unrolled(deal):
    between, k = [], 1
    while True:
        if deal.stub == "SF":
            counted = months_from(deal.end, -k * deal.months)
        else:
            counted = months_from(deal.start, k * deal.months)
        if not deal.start < counted < deal.end:
            break
        between.append(counted)
        k += 1
    return [deal.start, *sorted(between), deal.end]


def schedule(deal, closed):
    term = day_of(deal.end) - day_of(deal.start)
    if not 0 < term <= LONGEST_TERM:
        raise Refusal(9)
    if deal.months not in (1, 2, 3, 4, 6, 12):
        raise Refusal(10)
    rolled = [roll(closed, deal.convention, day_of(when)) for when in unrolled(deal)]
    if None in rolled:
        raise Refusal(12, rolled.index(None))
    for index in range(1, len(rolled)):
        if rolled[index - 1] == rolled[index]:
            raise Refusal(13, index)
    return rolled


# --- day counts --------------------------------------------------------------------------------------------------


def count(basis, a, b):
    if basis in ("A360", "A365"):
        return b - a
    first, second = date_of(a), date_of(b)
    day_1, day_2 = first.day, second.day
    if day_1 == 31:
        day_1 = 30
    if day_2 == 31 and (basis == "E360" or day_1 > 29):
        day_2 = 30
    return 360 * (second.year - first.year) + 30 * (second.month - first.month) + (day_2 - day_1)


def denominator(basis):
    return 365 if basis == "A365" else 360


# --- the register ------------------------------------------------------------------------------------------------


class Row:
    def __init__(self, holding):
        self.holding, self.paid, self.due, self.ticks = holding, 0, 0, 0


class Register:
    def __init__(self, basis):
        self.basis = basis
        self.unit = 100_000 * denominator(basis)
        self.state = "empty"
        self.rows = []

    def open(self, dates, rate, holdings):
        if self.state != "empty":
            raise Refusal(14)
        gaps = [later - earlier for earlier, later in zip(dates, dates[1:])]
        if not 2 <= len(dates) <= MOST_DATES or min(gaps) < 1 or max(gaps) > LONGEST_PERIOD or dates[-1] > LAST_DAY:
            raise Refusal(15)
        if rate > HIGHEST_RATE:
            raise Refusal(16)
        if not 1 <= len(holdings) <= MOST_HOLDERS:
            raise Refusal(17)
        if not 1 <= sum(holdings) <= LARGEST_NOMINAL:
            raise Refusal(18)
        self.state, self.dates, self.rate = "open", dates, rate
        self.rows = [Row(holding) for holding in holdings]
        self.today, self.period = dates[0], 0
        return sum(holdings)

    def stands(self, even_closed=False):
        if self.state == "empty":
            raise Refusal(19)
        if self.state == "closed" and not even_closed:
            raise Refusal(20)

    def row(self, holder):
        if holder >= len(self.rows):
            raise Refusal(22)
        return self.rows[holder]

    def advance(self, when):
        self.stands()
        day, first = day_of(when), self.dates[self.period]
        if not self.today <= day <= self.dates[self.period + 1]:
            raise Refusal(21)
        days = count(self.basis, first, day) - count(self.basis, first, self.today)
        for row in self.rows:
            row.ticks += row.holding * self.rate * days
        self.today = day
        return days

    def transfer(self, giver, taker, amount):
        self.stands()
        from_row, to_row = self.row(giver), self.row(taker)
        if giver == taker:
            raise Refusal(23)
        if not 1 <= amount <= from_row.holding:
            raise Refusal(24)
        from_row.holding -= amount
        to_row.holding += amount
        return amount

    def redeem(self, holder, amount):
        self.stands()
        row = self.row(holder)
        if not 1 <= amount <= row.holding:
            raise Refusal(24)
        row.holding -= amount
        return amount

    def post(self):
        self.stands()
        posted = 0
        for row in self.rows:
            units, row.ticks = divmod(row.ticks, self.unit)
            row.due += units
            posted += units
        if self.today == self.dates[self.period + 1]:
            self.period += 1
            if self.period == len(self.dates) - 1:
                self.state = "closed"
        return posted

    def pay(self, holder):
        self.stands(even_closed=True)
        row = self.row(holder)
        amount, row.due = row.due, 0
        row.paid += amount
        return amount

    def call(self, mark, values):
        calls = {"AD": self.advance, "TR": self.transfer, "RD": self.redeem, "PO": self.post, "PY": self.pay}
        return calls[mark](*values)


# --- reports -----------------------------------------------------------------------------------------------------


def refused(refusal, line):
    return f"NO {refusal.number} {refusal.layer} {refusal.place} {line}"


def opening_lines(deal, closed, register):
    try:
        dates = schedule(deal, closed)
        yield from (f"SC {index} {date_of(day)}" for index, day in enumerate(dates))
        register.open(dates, deal.rate, deal.holdings)
    except Refusal as refusal:
        yield refused(refusal, deal.line)


def report_lines(deal, closed):
    register = Register(deal.basis)
    yield from opening_lines(deal, closed, register)
    for line, mark, values in deal.calls:
        try:
            yield f"OK {register.call(mark, values)}"
        except Refusal as refusal:
            yield refused(refusal, line)
    for holder, row in enumerate(register.rows):
        yield f"ST {holder} {row.holding} {row.paid} {row.due} {row.ticks}"


def report(deal, closed):
    """The bytes of a deal's report that fit the buffer, and whether all of it did."""
    written = bytearray()
    for line in report_lines(deal, closed):
        piece = line.encode("ascii") + b"\n"
        if len(written) + len(piece) > BUFFER:
            return bytes(written), False
        written += piece
    return bytes(written), True


def statement(raw):
    """All that the statement program prints for a text."""
    try:
        text = read(raw)
    except TextRefusal as fault:
        return f"FT {fault.number} {fault.line} {fault.column}\n".encode("ascii")
    closed = ClosedDays(text)
    printed = []
    for deal in text.deals:
        written, whole = report(deal, closed)
        printed.append(written)
        if not whole:
            printed.append(b"FT 26 0 0\n")
            break
    return b"".join(printed)


if __name__ == "__main__":
    sys.stdout.buffer.write(statement(sys.stdin.buffer.read()))
