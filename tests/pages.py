#!/usr/bin/env python3
"""The pages say what is there: each name cited in docs/RULES.md and docs/PROMISES.md is defined in the file cited with it, and PROMISES
cites every must-fail edit. With the paths of `ledger` and `slide`: the example lines of docs/EVENTS.md get the answers that stand there."""
import pathlib
import re
import subprocess
import sys

ROOT = pathlib.Path(__file__).resolve().parent.parent
CITATION = re.compile(r"`([a-z_]+/[\w/]+\.(?:antt|rt)|[a-z_]+/must-fail)`(?: \(((?:`[^`]+`(?:, )?)+)\))?")
DEFINITION = {
    ".antt": r"^\s*(?:abbrev |unfoldable )?(?:pub )?(?:record |data )?%s(?: [^=\n]*)?:",
    ".rt": r'^\s*(?:pub )?(?:extern "C" )?(?:fn|struct|enum|const|trait) %s\b',
}
SLIDES = re.compile(r"^```dates\n(.*?)^```$.*?^```kept\n(.*?)^```$", re.S | re.M)
EXAMPLE = re.compile(r"^```events ?(\S*)\n(.*?)^```$.*?^```answers\n(.*?)^```$", re.S | re.M)


def cited(page):
    """Each file or folder of edits that a page cites, with each name; the name is empty where the file stands alone."""
    text = " ".join((ROOT / "docs" / page).read_text().split())
    return {(path, name) for path, names in CITATION.findall(text) for name in re.findall("`([^`]+)`", names) or [""]}


def is_there(path, name):
    """The file is there and defines the name; a must-fail folder has the edit."""
    place = ROOT / "crates" / path
    if place.name == "must-fail":
        return (place / (name + ".edit")).is_file()
    return place.is_file() and (not name or re.search(DEFINITION[place.suffix] % re.escape(name), place.read_text(), re.M))


def citations():
    """What is cited and not there, and the edits that PROMISES does not cite."""
    rules, promises = cited("RULES.md"), cited("PROMISES.md")
    edits = {(f"{f.parts[-3]}/must-fail", f.stem) for f in ROOT.glob("crates/*/must-fail/*.edit")}
    wrong = [f"cited, but not there: {path} {name}" for path, name in rules | promises if not is_there(path, name)]
    wrong += [f"not cited in PROMISES.md: {path} {name}" for path, name in edits - promises]
    return wrong + ["no rule cites a definition"] * (not rules)


def output_of(program, given):
    return subprocess.run([program], input=given, capture_output=True, text=True, check=True).stdout


def slides(slide):
    """The examples of dates whose answers are others."""
    found = SLIDES.findall((ROOT / "docs/EVENTS.md").read_text())
    wrong = ["EVENTS.md: slide gives other answers than\n" + answers for dates, answers in found if output_of(slide, dates) != answers]
    return wrong + ["EVENTS.md: no example of dates"] * (not found)


def examples(ledger):
    """The examples whose answers are others. An example may begin with a file; of its own lines those without a printed answer get 0."""
    wrong, found = [], EXAMPLE.findall((ROOT / "docs/EVENTS.md").read_text())
    for file, own, answers in found:
        begin = (ROOT / file).read_text() if file else ""
        output = output_of(ledger, begin + own)
        unprinted = output.removesuffix(answers).splitlines()[begin.count("\n"):]
        printed = sum(len(line) == 9 for line in answers.splitlines())
        if not output.endswith(answers) or len(unprinted) + printed != own.count("\n") or not all(line.endswith("  0") for line in unprinted):
            wrong.append("EVENTS.md: the program gives other answers than\n" + answers)
    return wrong + ["EVENTS.md: no example"] * (not found)


LEDGER, SLIDE = sys.argv[1:] or (None, None)
WRONG = sorted(citations() + (examples(LEDGER) + slides(SLIDE) if LEDGER else []))
print("\n".join(WRONG) or "pages: all that is cited is there")
sys.exit(bool(WRONG))
