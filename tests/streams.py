#!/usr/bin/env python3
"""streams.py LEDGER TWIN: what the ledger does with its streams. A failure names its check.

The twin says what is to be written for inputs that no case file should hold: the limit of lines, lines of megabytes, lines at every place
across the end of a piece that is read, rows looked up in later pieces than they were added in. A read that would block or was interrupted,
and a write that would block, is tried again; one that fails ends the run, with one line on standard error. A run that came to its end is
known by the last line that it wrote (tests/whole); its exit status is 0 whatever becomes of them."""
import errno
import functools
import os
import resource
import signal
import socket
import struct
import subprocess
import sys
import tempfile
import time
from pathlib import Path

from runs import CHECKS, LINES, SECONDS, agree, check, come_late, cut, differs, ended, failed, failing, feed, in_pieces
from runs import make_checks, opened, pause, start

TOP = Path(__file__).resolve().parent.parent
EXAMPLE = (TOP / "crates/ledger/stdin").read_bytes()
ANSWERS = (TOP / "crates/ledger/stdout").read_bytes()
PIECE = 262_144
STACK = 3100 * 1024  # the README's
WIDTHS = 2, 9, 10, 10, 10, 10, 12, 9, 2
PAST = b"ledger: lines past 999999 were not read\n"


# ---- inputs

def line(*fields):
    return "".join(str(x).rjust(w) for x, w in zip(fields, WIDTHS)).encode() + b"\n"


def rows_of_earlier_pieces(step):
    """Mandates and collections whose numbers are so far apart, then events on them, and on numbers that are not there,
    each some pieces of input later. Numbers 4,096 apart have the same last bits."""
    mandates = [7 + step * k for k in range(100)]
    collections = [11 + step * k for k in range(100)]
    apart = b"x" * PIECE + b"\n"
    data = line(1, 20240325, 0, 1, 1, 0, 0, 0, 0)
    for k, m in enumerate(mandates):
        data += line(2, 20240325, m, 1, 1 + k, 2, 0, 20240325, 0)
    data += apart
    for k, c in enumerate(collections):
        data += line(5, 20240325, mandates[k], c, 0, 0, 1000 + k, 20240328, 0)
    data += apart
    for m in reversed(mandates + [7 + step * 100]):
        data += line(3, 20240326, m, 0, 0, 3, 0, 0, 0)
        data += line(2, 20240326, m, 1, 9, 4, 0, 20240325, 0)
    for k, c in enumerate(collections + [11 + step * 100]):
        data += line(7 if k % 3 else 6, 20240328, 0, c, 0, 0, 0, 0, 0)
    data += apart
    for k, c in enumerate(collections):
        data += line(8 + k % 3, 20240402, 0, c, 360 if k % 3 == 1 else 0, 0, 0, 0, 0)
    return data + b"".join(line(4, 20240402, m, 0, 0, 0, 0, 0, 0) for m in mandates[::2] + mandates)


# The last line ends where a piece does.
FULL = b"x" * (4 * PIECE - LINES) + b"\n" * LINES
# The input, and whether there are bytes past the last line.
STREAMS = {
    "rows of earlier pieces, with the same last bits": (rows_of_earlier_pieces(4096), False),
    "rows of earlier pieces, one after the other": (rows_of_earlier_pieces(1), False),
    "rows of earlier pieces, far apart": (rows_of_earlier_pieces(1_234_577), False),
    "no input": (b"", False),
    "as many lines as the limit": (b"\n" * LINES, False),
    "as many lines as the limit, at the end of a piece": (FULL, False),
    "a line past the limit": (b"\n" * (LINES + 1), True),
    "lines past the limit, at the end of a piece": (FULL + EXAMPLE, True),
    "lines past the limit, pieces of them": (FULL * 3, True),
    "an unended piece as the last line": (b"\n" * (LINES - 1) + b"abc", False),
    "an unended piece past the limit": (b"\n" * LINES + b"abc", True),
    "an unended piece past the limit, at the end of a piece": (FULL + b"a", True),
    "events across the limit": (b"\n" * (LINES - 3) + EXAMPLE, True),
    "a line of 10 megabytes": (b"x" * 10_000_000 + b"\n" + EXAMPLE, False),
    "an unended piece of 5 megabytes": (EXAMPLE + b"9" * 5_000_000, False),
    "a sound line without its end": (EXAMPLE[: 75 * 3 - 1], False),
}


# ---- runs

@functools.lru_cache(maxsize=2)
def expected(data):
    """What the twin writes."""
    return subprocess.run([sys.argv[2]], input=data, capture_output=True, check=True).stdout


def whole(*arguments, data=b""):
    return subprocess.run([TOP / "tests/whole", *arguments], input=data, check=False).returncode == 0


# ---- inputs that come to their end

def agrees(data, past):
    return agree(data, expected(data), PAST if past else b"")


for title, stream in STREAMS.items():
    CHECKS[title] = functools.partial(agrees, *stream)


@check("lines across the end of a piece")
def across_pieces():
    """A long bad line, so that the end of the first piece falls on every byte of the example's first two lines."""
    inputs = (b"x" * (PIECE - 1 - before) + b"\n" + EXAMPLE for before in range(2 * 75 + 2))
    return next(filter(None, (differs(ended(start(opened(data))), expected(data)) for data in inputs)), "")


@check("byte by byte")
def byte_by_byte():
    return differs(in_pieces(cut(EXAMPLE, 1), 0.0005), ANSWERS)


@check("bytes past the limit that come late")
def late_past():
    return differs(come_late(b"\n" * LINES, b"abc"), expected(b"\n" * LINES), PAST)


@check("a stack of 3,100 KiB besides the environment")
def small_stack():
    run = start(before=lambda: resource.setrlimit(resource.RLIMIT_STACK, (STACK, STACK)), env={})
    return differs(ended(run, EXAMPLE), ANSWERS)


# ---- reads that are tried again

def used():
    """Seconds of the processor in programs that have ended."""
    return sum(resource.getrusage(resource.RUSAGE_CHILDREN)[:2])


@check("a pipe that would block, fed slowly")
def blocking_read():
    """The waits are no work: they take less than half of the time on the processor."""
    theirs, ours = os.pipe()
    os.set_blocking(theirs, False)
    since, worked = time.monotonic(), used()
    run = start(theirs)
    os.close(theirs)
    feed(functools.partial(os.write, ours), cut(EXAMPLE, 40), pause(0.05))
    os.close(ours)
    seen = ended(run)
    busy = used() - worked > (time.monotonic() - since) / 2
    return differs(seen, ANSWERS) or ("busy while it waits" if busy else "")


def from_socket(timeout, disturb):
    """A read of a socket with a time limit: past the limit it would block; when the process is stopped and goes on, it was interrupted."""
    ours, theirs = socket.socketpair()
    theirs.setsockopt(socket.SOL_SOCKET, socket.SO_RCVTIMEO, struct.pack("ll", *timeout))
    run = start(theirs)
    theirs.close()
    feed(ours.sendall, cut(EXAMPLE, 100), functools.partial(disturb, run))
    ours.close()
    return differs(ended(run), ANSWERS)


@check("a read with a time limit")
def timed_read():
    return from_socket((0, 10_000), lambda run: time.sleep(0.05))


@check("a read that is interrupted")
def interrupted_read():
    def stop(run):
        for number in (signal.SIGSTOP, signal.SIGCONT):
            time.sleep(0.05)
            run.send_signal(number)
    return from_socket((SECONDS, 0), stop)


# ---- reads that fail

# And the writes that fail of every program.
CHECKS.update(failing("ledger", EXAMPLE))


@check("a connection that is reset within a line")
def read_reset():
    """The answers to lines before may have been written, and nothing else."""
    with socket.create_server(("127.0.0.1", 0)) as server:
        ours = socket.create_connection(server.getsockname())
        theirs, _ = server.accept()
    run = start(theirs)
    theirs.close()
    ours.sendall(EXAMPLE[: 2 * 75 + 30])
    time.sleep(0.2)
    ours.setsockopt(socket.SOL_SOCKET, socket.SO_LINGER, struct.pack("ii", 1, 0))
    ours.close()
    seen = ended(run)
    out = next((ANSWERS[:size] for size in (20, 10) if seen[1] == ANSWERS[:size]), b"")
    return differs(seen, out, failed("ledger", "input", errno.ECONNRESET))


# ---- writes that are tried again

@check("a pipe that would block, read slowly")
def blocking_write():
    data = b"\n" * 50_000
    ours, theirs = os.pipe()
    os.set_blocking(theirs, False)
    run = start(opened(data), theirs)
    os.close(theirs)
    out = b""
    while piece := os.read(ours, 4096):
        out += piece
        time.sleep(0.002)
    os.close(ours)
    status, _, err = ended(run)
    return differs((status, out, err), expected(data))


# ---- writes that fail

def into_limited(data, size):
    """Into a file that may not grow past a size."""
    def limit():
        signal.signal(signal.SIGXFSZ, signal.SIG_IGN)
        resource.setrlimit(resource.RLIMIT_FSIZE, (size, size))
    with tempfile.TemporaryFile() as file:
        seen = ended(start(opened(data), file, limit), file=file)
        return differs(seen, expected(data)[:size], failed("ledger", "output", errno.EFBIG))


@check("a file that fills up within an answer")
def write_within():
    return into_limited(b"\n" * LINES, 5_000_005)


@check("a file that fills up before the listing, and lines past the limit")
def write_before_listing():
    return into_limited(b"\n" * LINES * 2, 10 * LINES)


# ---- whether an output is whole

@check("whole outputs")
def whole_outputs():
    good = [ANSWERS, ANSWERS[-27:], expected(b""), b" 4     0 10000000000000000\n"]
    with tempfile.NamedTemporaryFile() as file:
        file.write(ANSWERS)
        file.flush()
        named = whole(file.name)
    return "" if named and all(whole(data=data) for data in good) else "not taken for whole"


@check("cut outputs")
def cut_outputs():
    """Cut at every byte, and last lines that are nearly of kind 4."""
    last = ANSWERS[-27:]
    near = [last.replace(old, new) for old, new in [(b" 4", b" 3"), (b" 0 ", b" 1 "), (b"10\n", b"010\n"), (b" 10", b"-10"), (b" 10", b"1 0"),
                                                    (b"  10", b"10"), (b" 10", b" 010"), (b"10\n", b"  \n"), (b"\n", b"|"), (b"\n", b"\r\n")]]
    bad = [ANSWERS[:size] for size in range(len(ANSWERS))] + near + [ANSWERS + b"x", ANSWERS + b"\n", b"x" + last, last * 2 + b"     1  0\n"]
    taken = [data[-27:] for data in bad if whole(data=data)]
    return f"taken for whole: {taken}" if taken else ""


# ---- all of them

make_checks("streams")
print(f"streams: {len(CHECKS)} as they have to be")
