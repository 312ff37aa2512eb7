#!/usr/bin/env python3
"""What crates/events_cases must write, worked out from document 01 with no look at the crate `events`.

Run from the repository's root: tests/events_oracle.py > crates/events_cases/stdout
The lines are taken from the program's text; their answers, and every event's, are worked out here by a regular
expression, Python's own calendar and the sentences of "Ten events"."""
import ast
import datetime
import itertools
import re
import sys

WIDTHS = [2, 9, 10, 10, 10, 10, 12, 9, 2]
FIELD = re.compile(rb" *(0|[1-9][0-9]*)\Z")
CREDITOR, DEBTOR, BANK, NUMBER = range(1, 257), range(1, 4097), range(1, 65), range(1, 10**9)
CENTS, RATE = range(1, 10**11), range(0, 10000)
# by kind and code: the fields that are named, with their numbers; "second" is by a rule
NAMED = {(1, 0): dict(a=CREDITOR, b=BANK), (3, 0): dict(mandate=NUMBER, c=BANK), (3, 1): dict(mandate=NUMBER, a=CREDITOR),
         (4, 0): dict(mandate=NUMBER)}
for kind in (6, 7, 8, 10):
    NAMED[kind, 0] = dict(a=NUMBER)
for code in (0, 1):
    NAMED[2, code] = dict(mandate=NUMBER, a=CREDITOR, b=DEBTOR, c=BANK, second="signing")
    NAMED[9, code] = dict(a=NUMBER, b=RATE)
for code in range(4):
    NAMED[5, code] = dict(mandate=NUMBER, a=NUMBER, amount=CENTS, second="requested")


def in_range(x):
    try:
        day = datetime.date(x // 10000, x // 100 % 100, x % 100)
    except (ValueError, OverflowError):
        return False
    return datetime.date(2010, 1, 1) <= day <= datetime.date(2189, 12, 31)


def answer(event):
    kind, date, mandate, a, b, c, amount, second, code = event
    if not 1 <= kind <= 10:
        return 3
    if not in_range(date):
        return 4
    named = NAMED.get((kind, code))
    if named is None:
        return 5
    for name, value in dict(mandate=mandate, a=a, b=b, c=c, amount=amount).items():
        if value not in named.get(name, (0,)):
            return 5
    rule = named.get("second")
    if rule is None:
        return 0 if second == 0 else 5
    if not in_range(second) or (rule == "signing" and second > date):
        return 5
    return 0


def read(line):
    if len(line) != 75 or line[74] != 10:
        return 1, None
    event, at = [], 0
    for width in WIDTHS:
        found = FIELD.match(line[at:at + width])
        if not found:
            return 1, None
        event.append(int(found.group(1)))
        at += width
    return answer(event), event


def line_of(event):
    return "".join(str(v).rjust(w) for v, w in zip(event, WIDTHS)).encode() + b"\n"


def written(event, out):
    """The answer of writing an event, and the buffer after it."""
    number = 2 if len(out) < 75 else answer(event)
    return number, line_of(event) + out[75:] if number == 0 else out


def main():
    text = open("crates/events_cases/src/main.rt", encoding="utf-8").read()
    put = sys.stdout.buffer.write
    for literal in re.findall(r'^    (b"(?:[^"\\]|\\.)*"),$', text, re.M):
        number, event = read(ast.literal_eval(literal))
        put(b"%d\n" % number)
        if number == 0:
            again, out = written(event, b"#" * 80)
            put(b"%d\n%s\n" % (again, out))
    most = 2**64 - 1
    for size, events in [(0, [(1, 20240325, 1)]), (74, [(1, 20240325, 1), (0, 0, 0)]),
                         (75, [(0, 0, 0), (1, 0, 0), (1, 20240325, 0), (1, 20240325, 257), (most, most, most), (1, 20240325, 1)]),
                         (76, [(1, 20240325, 256)])]:
        out = b"." * size
        for kind, date, a in events:
            number, out = written((kind, date, 0, a, 1, 0, 0, 0, 0), out)
            put(b"%d\n%s|\n" % (number, out))
    values = list(itertools.product([0, 1, 10**9 - 1, 10**9], [0, 1, 256, 257, 10**9 - 1, 10**9],
                                    [0, 1, 64, 65, 4096, 4097, 9999, 10000], [0, 1, 64, 65], [0, 1, 10**11 - 1, 10**11],
                                    [0, 20091231, 20240325, 20240326, 20240230]))
    for kind, code in itertools.product(range(12), range(6)):
        counts = dict.fromkeys(range(6), 0)
        for mandate, a, b, c, amount, second in values:
            counts[answer((kind, 20240325, mandate, a, b, c, amount, second, code))] += 1
        put(b"%d\n%d\n%d\n" % (counts[0], counts[3], counts[5]))


main()
