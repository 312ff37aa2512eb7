"""Runs of a program and checks of them, for streams.py and slide.py. The path of the program is the first argument of
either. A check says in words what is not as it has to be, and nothing where all is."""
import errno
import functools
import os
import signal
import subprocess
import sys
import tempfile
import time

LINES = 999_999
SECONDS = 60  # for each check
CHECKS = {}
STARTED = []


def check(name):
    def noted(function):
        CHECKS[name] = function
        return function
    return noted


# ---- runs

def opened(data):
    """A file of these bytes. A file is read in whole pieces, a pipe in whatever has come."""
    file = tempfile.TemporaryFile()
    file.write(data)
    file.seek(0)
    return file


def start(stdin=subprocess.PIPE, stdout=subprocess.PIPE, before=None, env=None):
    """The program, with something to be done in its process before it begins."""
    command = [sys.argv[1]]
    run = subprocess.Popen(command, stdin=stdin, stdout=stdout, stderr=subprocess.PIPE, preexec_fn=before, env=env)
    STARTED.append(run)
    return run


def ended(run, data=None, file=None):
    """The exit status and what was written, to a file where there is one."""
    out, err = run.communicate(data)
    if file is not None:
        file.seek(0)
        out = file.read()
    return run.returncode, out, err


def parting(seen, out):
    """The first line in which they differ."""
    return 1 + out.count(b"\n", 0, len(os.path.commonprefix([seen, out])))


def differs(seen, out, err=b"", status=0):
    """In words what is not as it has to be; nothing where all is."""
    words = [] if seen[0] == status else [f"exit status {seen[0]}, not {status}"]
    if seen[1] != out:
        words.append(f"{len(seen[1])} bytes on standard output are not the {len(out)} bytes that they have to be, "
                     f"from line {parting(seen[1], out)} on")
    if seen[2] != err:
        words.append(f"{seen[2][:200]} on standard error, not {err}")
    return ", ".join(words)


def agree(data, out, err=b""):
    """The input by a pipe, and as a file."""
    return differs(ended(start(), data), out, err) or differs(ended(start(opened(data))), out, err)


def cut(data, size):
    return [data[at : at + size] for at in range(0, len(data), size)]


def feed(write, pieces, rest):
    """Writes the pieces, each with a rest behind it, for as long as somebody reads them."""
    try:
        for piece in pieces:
            write(piece)
            rest()
    except BrokenPipeError:
        pass


def pause(seconds):
    return functools.partial(time.sleep, seconds)


def in_pieces(pieces, seconds):
    """What a run gives whose input comes in these pieces, so long after each other."""
    run = start()
    feed(functools.partial(os.write, run.stdin.fileno()), pieces, pause(seconds))
    return ended(run)


def come_late(data, rest):
    """What a run gives that has read all but the rest before that comes."""
    with tempfile.TemporaryFile() as file:
        run = start(stdout=file)
        run.stdin.write(data)
        run.stdin.flush()
        time.sleep(0.2)
        return ended(run, rest, file)


# ---- streams that fail, the same for every program: its name, and an input that it answers

def failed(program, stream, number):
    return f"{program}: standard {stream}: {os.strerror(number)}\n".encode()


def read_directory(program):
    folder = os.open("/", os.O_RDONLY)
    run = start(folder)
    os.close(folder)
    return differs(ended(run), b"", failed(program, "input", errno.EISDIR))


def read_closed(program):
    return differs(ended(start(before=lambda: os.close(0))), b"", failed(program, "input", errno.EBADF))


def write_full(program, data):
    with open("/dev/full", "wb") as full:
        status, _, err = ended(start(stdout=full), data)
    return differs((status, b"", err), b"", failed(program, "output", errno.ENOSPC))


def write_closed(program, data):
    return differs(ended(start(before=lambda: os.close(1)), data), b"", failed(program, "output", errno.EBADF))


def unread(program, data, before=None):
    """A reader that closes its end before the first answer, and one that does so after some."""
    err = failed(program, "output", errno.EPIPE)
    early = start(before=before)
    early.stdout.close()
    late = start(opened(b"\n" * LINES), before=before)
    late.stdout.read(100_000)
    late.stdout.close()
    return differs(ended(early, data), b"", err) or differs(ended(late), b"", err)


def ignore_broken_pipe():
    signal.signal(signal.SIGPIPE, signal.SIG_IGN)


def failing(program, data):
    """The checks of them, by their names."""
    bound = functools.partial
    return {
        "a directory for input": bound(read_directory, program),
        "closed input": bound(read_closed, program),
        "a full device for output": bound(write_full, program, data),
        "closed output": bound(write_closed, program, data),
        "a reader that goes": bound(unread, program, data),
        "a reader that goes, the signal ignored": bound(unread, program, data, ignore_broken_pipe),
    }


# ---- all of them

def verdict(function):
    """What a check says, or what kept it from its end."""
    signal.alarm(SECONDS)
    try:
        return function()
    except (OSError, subprocess.SubprocessError) as error:
        return repr(error)
    finally:
        signal.alarm(0)
        for run in STARTED:
            run.kill()
            run.wait()
        STARTED.clear()


def overdue(*_):
    raise TimeoutError(f"not at its end after {SECONDS} seconds")


def make_checks(title):
    """All of CHECKS; what they say ends the script with status 1."""
    signal.signal(signal.SIGALRM, overdue)
    said = {name: verdict(function) for name, function in CHECKS.items()}
    wrong = [f"{title}: {name}: {words}" for name, words in said.items() if words]
    if wrong:
        sys.exit("\n".join(wrong))
