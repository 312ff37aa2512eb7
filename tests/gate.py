#!/usr/bin/env python3
"""A test of the gate: .ci/run in a scratch tree whose tools and steps are stand-ins, all of which pass but for those that a case
changes. The last line has to be 'N passed, 0 failed' when every step passed, and else has to name the step that failed."""
import re
import shutil
import subprocess
import sys
import tempfile
from pathlib import Path

TOP = Path(__file__).resolve().parent.parent
ORACLES = [path.name.removesuffix("_oracle.py") for path in TOP.glob("tests/*_oracle.py")]
PROGRAMS = ["slide"]  # whose oracle is that of a program itself, not of its cases
SYSTEM = ["bash", "env", "dirname", "mktemp", "cat", "rm", "cmp", "grep", "sleep", "touch"]
RT = '[ "$1" = ci ] || { echo crates.txt; exit; }\necho a line\n'
WELL = {"crates.txt": "", "bin/rt": RT + "echo 3 passed, 0 failed", "bin/python3": f'exec {sys.executable} "$@"', "bin/rustc": "",
        "bin/cc": "", "tests/gate.py": "", "tests/declarations.py": "",
        "tests/pages.py": "", "tests/streams.py": "", "tests/slide.py": "", "twin/compare": "", "examples/run": "", "tools/build": ""}
AGREES = "print('#!/bin/sh\\n1')"
STDOUT = {oracle: f"crates/{oracle if oracle in PROGRAMS else oracle + '_cases'}/stdout" for oracle in ORACLES}
for oracle in ORACLES:
    WELL |= {f"tests/{oracle}_oracle.py": AGREES, STDOUT[oracle]: "1\n"}

# What is changed, where None takes a file away, and the step that fails by it.
FAILING = [
    ({"bin/rustc": None}, "tools"),
    ({"bin/rustc": "exit 1"}, "tools"),
    ({"bin/rt": "exit 1"}, "tools"),
    ({"bin/python3": None}, "tools"),
    ({"tests/gate.py": "exit(1)"}, "tests/gate.py"),
    ({"bin/rt": RT + "echo 2 passed, 1 failed; exit 1"}, "rt ci"),
    ({"bin/rt": RT + "echo 2 passed, 1 failed"}, "rt ci"),
    ({"bin/rt": RT + "echo 3 passed, 0 failed; exit 1"}, "rt ci"),
    ({"bin/rt": RT + "echo 0 passed, 0 failed"}, "rt ci"),
    ({"bin/rt": RT}, "rt ci"),
    ({"bin/rt": RT + "echo 'rt: ok; must-fail edits: 2 refused, 1 bad; all done'; echo 3 passed, 0 failed"}, "rt ci"),
    ({"tools/build": "exit 1"}, "tools/build"),
    ({"tests/declarations.py": "exit(1)"}, "tests/declarations.py"),
    ({"tests/pages.py": "exit(1)"}, "tests/pages.py"),
    ({"examples/run": "exit 1"}, "examples/run"),
    ({"examples/run": None}, "examples/run"),
    ({"twin/compare": "exit 1"}, "twin/compare"),
    ({"tests/streams.py": "exit(1)"}, "tests/streams.py"),
    ({"tests/slide.py": "exit(1)"}, "tests/slide.py"),
]
for oracle in ORACLES:
    FAILING.append(({f"tests/{oracle}_oracle.py": AGREES + "\nexit(1)"}, f"tests/{oracle}_oracle.py"))
    FAILING.append(({STDOUT[oracle]: "2\n"}, f"tests/{oracle}_oracle.py"))


def plant(top, changed):
    (top / ".ci").mkdir()
    (top / "bin").mkdir()
    shutil.copy(TOP / ".ci/run", top / ".ci")
    for tool in SYSTEM:
        (top / "bin" / tool).symlink_to(shutil.which(tool))
    for name, text in (WELL | changed).items():
        path = top / name
        path.parent.mkdir(parents=True, exist_ok=True)
        if text is not None:
            path.write_text(text if path.suffix == ".py" else "#!/bin/sh\n" + text)
            path.chmod(0o755)


def gate(top, changed):
    plant(top, changed)
    env = {"PATH": str(top / "bin"), "HOME": str(top)}
    return subprocess.Popen([top / ".ci/run"], env=env, stdout=subprocess.PIPE, stderr=subprocess.PIPE, text=True)


def outcome(changed):
    """The exit status, and the lines of standard output and of standard error."""
    with tempfile.TemporaryDirectory() as folder:
        run = gate(Path(folder), changed)
        out, err = run.communicate(timeout=60)
        return run.returncode, out.splitlines(), err.splitlines()


def passes(changed, said):
    status, out, err = outcome(changed)
    tallies = [line for line in out if re.search("passed|failed|FAILED", line)]
    return status == 0 and out[-1:] == tallies == ["3 passed, 0 failed"] and "a line" in out and err == said


def fails(changed, step):
    status, out, err = outcome(changed)
    named = step != "tools" or (len(err) == 1 and next(iter(changed)).removeprefix("bin/") in err[0])
    return status != 0 and out[-1:] == [f"gate: FAILED: {step}"] and named and not re.search("[0-9] passed, 0 failed", "\n".join(out + err))


def lives():
    """The Rattle gate's lines come while it runs: the stand-in ends well once its first line was read."""
    with tempfile.TemporaryDirectory() as folder:
        waits = "for i in 1 2 3 4 5 6 7 8; do [ ! -e seen ] || { echo 3 passed, 0 failed; exit; }; sleep 0.5; done; exit 1"
        run = gate(Path(folder), {"bin/rt": RT + waits})
        seen = run.stdout.readline() == "a line\n"
        (Path(folder) / "seen").touch()
        out, _ = run.communicate(timeout=60)
        return seen and run.returncode == 0 and out == "3 passed, 0 failed\n"


def main():
    wrong = [f"{changed} is not laid to {step}" for changed, step in FAILING if not fails(changed, step)]
    if not passes({}, []):
        wrong.append("all well")
    if not passes({"bin/cc": None}, ["gate: no C compiler (cc or gcc): the example in C is left out"]):
        wrong.append("no C compiler")
    if not lives():
        wrong.append("lines that come late")
    if wrong:
        sys.exit("gate test: " + "; ".join(wrong))
    print(f"gate test: {len(FAILING) + 3} cases as they have to be")


main()
