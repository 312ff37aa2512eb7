#!/usr/bin/env python3
"""What crates/positions_cases must write, worked out from documents 01 and 02 with no look at the crate `positions`.

Run from the repository's root: tests/positions_oracle.py > crates/positions_cases/stdout
The inputs are taken from the program's text; compensation is worked out with exact fractions, a table of positions is a dictionary.
Three limits are not document 01's: 999 days (document 02, (g)), the compensation of the largest amount, rate and days, and 4 * 10^18
on either side for the numbers that a posting adds, the last two being the crate's own."""
import math
import re
from fractions import Fraction

AMOUNT, RATE, DAYS, CAPACITY = 10**11 - 1, 9999, 999, 4 * 10**18


def compensation(date, amount, rate, days):
    """K in cents. The rate is in hundredths of a percent of a year of 360 days. A half cent goes up until the end of 2025, and from 2026 on
    to the even cent, as `round` has it of a fraction: document 02, (b)."""
    cents = amount * Fraction(rate, 100 * 100) * Fraction(days, 360)
    return round(cents) if date >= 2026_01_01 else math.floor(cents + Fraction(1, 2))


def compensated(date, amount, rate, days):
    inside = 1 <= amount <= AMOUNT and rate <= RATE and days <= DAYS
    return compensation(date, amount, rate, days) if inside else "outside"


def products(amount, rate, days):
    """The product of days and rate and that of all three, or 5: document 02, (g)."""
    sound = [0 <= days <= DAYS and 0 <= rate <= RATE, 1 <= amount <= AMOUNT]
    return " ".join(f"product {math.prod(factors)}" if ok else "refused 5"
                    for ok, factors in ((sound[0], (days, rate)), (all(sound), (days, rate, amount))))


def posted(table, moves):
    """Adds to the entries all that is moved, or nothing."""
    if any(entry not in table for entry, _ in moves):
        return "no entry"
    if any(abs(n) > CAPACITY for entry, cents in moves for n in (table[entry], cents)):
        return "too large"
    for entry, cents in moves:
        table[entry] += cents
    return "posted"


def moves(call, numbers):
    if call == "post":
        return [tuple(numbers)]
    giver, taker, cents = numbers
    return [(giver, -cents), (taker, cents)]


def amounts(call, amount, cents=0):
    """Debtor, creditor, debtor bank, creditor bank, total compensation: "Postings" of document 01. The largest compensation is that of the
    older rule, which gives no less than the other."""
    if amount > AMOUNT or cents > compensation(0, AMOUNT, RATE, DAYS):
        return ["outside"]
    if call == "settlement":
        return [-amount, amount, -amount, amount, 0]
    if call == "reversed":
        return [amount, -amount, amount, -amount, 0]
    return [amount, -(amount + cents), amount + cents, -(amount + cents), cents]


def integers(text):
    return [int(n) for n in re.findall(r"-?\d+", text)]


def constant(text, name):
    """What stands between the brackets of an array."""
    return re.search(rf"const {name}: [^=]*= \[(.*?)\];", text, re.S).group(1)


def rows(text, name):
    """The tuples of numbers of a constant."""
    return [integers(row) for row in re.findall(r"\(([-\d,\s]+)\)", constant(text, name))]


def main():
    with open("crates/positions_cases/src/main.rt", encoding="utf-8") as file:
        text = file.read()
    dates = integers(constant(text, "DATES"))
    for case in rows(text, "CASES"):
        print(*case, *(compensated(date, *case) for date in dates))
        print(*case, products(*case))
    for case in rows(text, "LIMITS"):
        print(*case, products(*case))
    table = {entry: 0 for entry in range(1, 5)}
    for call, name in (("post", "POSTS"), ("transfer", "TRANSFERS"), ("post", "LAST_POSTS")):
        for numbers in rows(text, name):
            print(posted(table, moves(call, numbers)), *table.values())
    for call, numbers in re.findall(r"show_amounts\(rt, (settlement|reversed|refunded)\(([\d, ]+)\)\)", text):
        print(*amounts(call, *integers(numbers)))


main()
