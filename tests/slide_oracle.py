#!/usr/bin/env python3
"""What the program `slide` must write for crates/slide/stdin: the kept due of each requested date and the days slid,
by the calendar of calendar_oracle.py.

Run it so: tests/slide_oracle.py > crates/slide/stdout"""
import functools
import re
import sys
from datetime import date

from calendar_oracle import ROOT, days, kept, number, slid

COLUMNS, LINES = 9, 999_999
FIELD = re.compile(rb" *(0|[1-9][0-9]*)")
# The answer, the kept due and the days slid; for each date of the events' range those of an accepted line.
NO_LINE, NO_DATE = (1, 0, 0), (5, 0, 0)
ACCEPTED = {number(d): (0, number(kept(d)), slid(d)) for d in days(date(2010, 1, 1), date(2189, 12, 31))}
UNENDED = b"slide: the last line has no line end and was not answered\n"
PAST = b"slide: lines past 999999 were not read\n"


@functools.lru_cache(maxsize=2000)
def answer(line):
    """What follows the number of a line, which comes without its byte 10."""
    field = FIELD.fullmatch(line) if len(line) == COLUMNS else None
    return b"%3d%9d%2d" % (ACCEPTED.get(int(field[1]), NO_DATE) if field else NO_LINE)


def written(data):
    """What an input gives on standard output and on standard error."""
    *lines, rest = data.split(b"\n", LINES)
    out = b"".join(b"%6d%b\n" % (at, answer(line)) for at, line in enumerate(lines, 1))
    said = PAST if len(lines) == LINES else UNENDED
    return out, said if rest else b""


if __name__ == "__main__":
    printed, _ = written((ROOT / "crates/slide/stdin").read_bytes())
    sys.stdout.buffer.write(printed)
