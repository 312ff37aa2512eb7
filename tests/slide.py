#!/usr/bin/env python3
"""slide.py PROGRAM: what `slide` writes for generated inputs, byte for byte as by slide_oracle.py, and what it does
with streams that fail. A failure names its check and the file that keeps its input. Each run has the same inputs."""
import functools
import random
import tempfile

from calendar_oracle import ROOT
from runs import CHECKS, agree, check, come_late, cut, differs, ended, failing, in_pieces, make_checks, start
from slide_oracle import ACCEPTED, COLUMNS, LINES, UNENDED, written

EXAMPLE = (ROOT / "crates/slide/stdin").read_bytes()
ANSWERS = (ROOT / "crates/slide/stdout").read_bytes()
DATES = list(ACCEPTED)
SOUND = b" 20240329\n"
# A piece of input ends here, whatever power of two up to this one its size is, where no line before it is cut.
PIECE = 262_144
FILLER = b"x" * 15 + b"\n"
SHAPES = b" 0123456789"
NEAR = SHAPES + b"+-./:;\t\v\f\r\0Oxe\x7f\x80\xa0\xb2\xff"
RANDOM = random.Random(20240329)
# The lines of each input that was compared.
COMPARED = []


# ---- inputs

def lines(values):
    return b"".join(b"%9d\n" % value for value in values)


def pick(alphabet, size):
    return bytes(RANDOM.choices(alphabet, k=size))


def every_date():
    return lines(DATES)


def around_dates():
    """Months 0 to 13 and days 0 to 32 of the years 2008 to 2191."""
    return lines(y * 10000 + m * 100 + d for y in range(2008, 2192) for m in range(14) for d in range(33))


def random_dates():
    return lines(RANDOM.choices(DATES, k=20_000))


def random_numbers():
    """Of 1 to 9 digits."""
    return lines(RANDOM.randrange(10 ** RANDOM.randint(1, COLUMNS)) for _ in range(20_000))


def random_bytes():
    return RANDOM.randbytes(400_000) + b"\n"


def random_shapes():
    """The bytes of sound lines, and those with bytes that a careless reader takes for them."""
    return pick(SHAPES + b"\n", 200_000) + b"\n" + pick(NEAR + b"\n\n\n", 200_000) + b"\n"


def changed(line):
    """With a byte in place of another, with one more, or with one less; the line end is one of them."""
    at = RANDOM.randrange(len(line))
    put, taken = RANDOM.choice([(1, 1), (1, 0), (0, 1)])
    return line[:at] + pick(NEAR, put) + line[at + taken :]


def changed_lines():
    return b"".join(changed(b"%9d\n" % date) for date in RANDOM.choices(DATES, k=30_000))


def short_lines():
    """Of 0 to 30 columns: digits, sound but for their length, blanks, zeros and anything."""
    made = []
    for size in list(range(31)) * 20:
        date = b"%d" % RANDOM.choice(DATES)
        made += [pick(b"123456789", size), pick(SHAPES, size), pick(NEAR, size), b" " * size, b"0" * size]
        made += [date.rjust(size), date.ljust(size), date.zfill(size), b"0".rjust(size)]
    return b"\n".join(made) + b"\n"


def long_lines():
    """Of two lengths that are 9 but for high bits, and of many bytes: with a sound line at the beginning, at the end
    and as the line after."""
    made = []
    for size in (256 + COLUMNS, 65_536 + COLUMNS, 300_000, 1_000_000):
        rest = pick(SHAPES, 1000) * (size // 1000 + 1)
        date = b"%9d" % RANDOM.choice(DATES)
        made += [date + rest[COLUMNS:size], rest[COLUMNS:size] + date, b" " * (size - COLUMNS) + date, b"\0" * size]
    made.append(b"0" * 10_000_000)
    return b"".join(line + b"\n" + SOUND for line in made)


def many(count):
    """So many lines, cheaply: each thousand is the same, and a third of it is sound."""
    dates = RANDOM.choices(DATES, k=333)
    thousand = b"\n" + b"".join(b"%9d\n%8d\n%9d\n" % (date, date, date + 90) for date in dates)
    return thousand * (count // 1000) + b"".join(thousand.splitlines(True)[: count % 1000])


INPUTS = {
    "no input": bytes,
    "every date of the range": every_date,
    "numbers around the dates": around_dates,
    "random dates": random_dates,
    "random numbers": random_numbers,
    "random bytes": random_bytes,
    "random shapes": random_shapes,
    "lines with a byte changed": changed_lines,
    "lines of 0 to 30 columns": short_lines,
    "long lines": long_lines,
    "an unended piece of 5 megabytes": lambda: SOUND + b"9" * 5_000_000,
    "as many lines as the limit": lambda: many(LINES),
    "an unended piece as the last line": lambda: many(LINES - 1) + SOUND[:COLUMNS],
    "an unended piece past the limit": lambda: many(LINES) + SOUND[:COLUMNS],
    "lines past the limit": lambda: many(LINES + 200_000),
}


# ---- comparisons

def kept(data):
    with tempfile.NamedTemporaryFile(prefix="slide-", delete=False) as file:
        file.write(data)
        return file.name


def compare(data, judge):
    """What is said of an input by a judge of what has to be written for it."""
    out, err = written(data)
    COMPARED.append(out.count(b"\n"))
    said = judge(out, err)
    return f"{said}; the input is kept in {kept(data)}" if said else ""


def compare_made(make):
    data = make()
    return compare(data, functools.partial(agree, data))


def compare_pieces(pieces):
    """The pieces as single reads of a pipe."""
    return compare(b"".join(pieces), lambda out, err: differs(in_pieces(pieces, 0.0005), out, err))


def first(said):
    return next(filter(None, said), "")


for title, make_input in INPUTS.items():
    CHECKS[title] = functools.partial(compare_made, make_input)


@check("the example")
def example():
    return differs(ended(start(), EXAMPLE), ANSWERS, UNENDED)


@check("a sound input cut at each byte")
def cut_inputs():
    data = lines(RANDOM.choices(DATES, k=3))
    inputs = (data[:size] for size in range(len(data)))
    return first(compare(part, functools.partial(agree, part)) for part in inputs)


def filled(size):
    """So many bytes of bad lines, each of which ends at a multiple of 16; but the last has what is over."""
    count, over = divmod(size, len(FILLER))
    return FILLER * (count - 1) + b"x" * over + FILLER


@check("lines across the end of a piece")
def across_pieces():
    """Bad lines, so that the end of the piece falls on every byte of two sound lines behind them."""
    inputs = (filled(PIECE - before) + lines(RANDOM.choices(DATES, k=4)) for before in range(21))
    return first(compare(data, functools.partial(agree, data)) for data in inputs)


@check("byte by byte")
def byte_by_byte():
    return compare_pieces(cut(EXAMPLE[:600] + b"\n" + SOUND, 1))


@check("random small pieces")
def small_pieces():
    """Each most often less than a line, or some lines."""
    data = random_dates()[:8_000] + changed_lines()[:8_000]
    ends = sorted(RANDOM.sample(range(1, len(data)), 1_200))
    return compare_pieces([data[since:end] for since, end in zip([0] + ends, ends + [len(data)])])


@check("bytes past the limit that come late")
def late_past():
    data = many(LINES)
    return compare(data + b"abc", lambda out, err: differs(come_late(data, b"abc"), out, err))


@check("a last line that is ended late")
def late_end():
    data = many(LINES - 1) + SOUND[:COLUMNS]
    return compare(data + b"\n", lambda out, err: differs(come_late(data, b"\n"), out, err))


CHECKS.update(failing("slide", SOUND))
make_checks("slide")
print(f"slide: {len(CHECKS)} checks as they have to be, {sum(COMPARED)} lines of {len(COMPARED)} inputs compared")
