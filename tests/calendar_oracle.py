#!/usr/bin/env python3
"""What crates/calendar_cases must print, from sources of its own: the dates of Python's datetime, Easter by the
algorithm of Oudin (1940), and closing days as sets of dates. It shares nothing with the Rattle code.

Run it so: tests/calendar_oracle.py > crates/calendar_cases/stdout"""
import pathlib
import re
import sys
from datetime import date, timedelta

ROOT = pathlib.Path(__file__).resolve().parent.parent
CASES = ROOT / "crates" / "calendar_cases"
FIRST, LAST = date(2000, 1, 1), date(2199, 12, 31)
DAY = timedelta(days=1)


def easter(y):
    g, c = y % 19, y // 100
    h = (c - c // 4 - (8 * c + 13) // 25 + 19 * g + 15) % 30
    i = h - (h // 28) * (1 - (29 // (h + 1)) * ((21 - g) // 11))
    j = (y + y // 4 + i + 2 - c + c // 4) % 7
    p = i - j
    m = 3 + (p + 40) // 44
    return date(y, m, p + 28 - 31 * (m // 4))


CLOSED = set()
for y in range(2000, 2201):
    e = easter(y)
    CLOSED |= {date(y, 1, 1), e - 2 * DAY, e + DAY, date(y, 5, 1), date(y, 12, 25), date(y, 12, 26)}


def days(first, last):
    while first <= last:
        yield first
        first += DAY


def business(d):
    return d.isoweekday() <= 5 and d not in CLOSED


def kept(d):
    return d if business(d) else kept(d + DAY)


def slid(d):
    """The calendar days from the date to its kept date."""
    return (kept(d) - d).days


def before(d):
    while FIRST < d:
        d -= DAY
        if business(d):
            return d
    return None


def business_after(d, n):
    for _ in range(n):
        d = kept(d + DAY)
    return d


def months_after(d, n):
    y, m = divmod(d.year * 12 + d.month - 1 + n, 12)
    for day in range(d.day, 27, -1):
        try:
            return date(y, m + 1, day)
        except ValueError:
            pass
    return date(y, m + 1, d.day)


def number(d):
    return int(d.strftime("%Y%m%d")) if d is not None and FIRST <= d <= LAST else 0


def period(d, months, days, open_days):
    m = months_after(d, months)
    if m > LAST or m + days * DAY > LAST:
        return None
    return business_after(m + days * DAY, open_days)


def answers(d):
    return [
        int(business(d)),
        number(kept(d)),
        slid(d),
        number(before(d)),
        number(period(d, 0, 0, 5)),
        number(period(d, 0, 56, 2)),
        number(period(d, 13, 30, 4)),
        number(months_after(d, 13)),
        number(months_after(d, 36)),
        number(d + 14 * DAY),
    ]


def parsed(x):
    try:
        return date(x // 10000, x // 100 % 100, x % 100)
    except ValueError:
        return None


def expected():
    source = (CASES / "src" / "main.rt").read_text(encoding="utf-8")
    table = source[source.index("const DATES"):source.index("];")]
    lines = []
    for x in (int(v) for v in re.findall(r"\b(\d{8}),", table)):
        d = parsed(x)
        row = answers(d) if d is not None and FIRST <= d <= LAST else [0] * 10
        lines.append([x] + row)
    for y in range(2000, 2200):
        h, most = 0, 0
        for d in days(date(y, 1, 1), date(y, 12, 31)):
            for v in answers(d):
                h = (h * 31 + v) % 1000000007
            most = max(most, slid(d))
        lines.append([y, number(easter(y)), h, most])
    return "".join(" ".join(map(str, row)) + " \n" for row in lines)


if __name__ == "__main__":
    sys.stdout.write(expected())
