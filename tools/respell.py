#!/usr/bin/env python3
"""Spells the repository's own definitions, lemmas and fields in snake case, as today's Rattle has them.

usage: tools/respell.py        at the top, once, right after the kit's port.py

A name that specs/ or proofs/ declares changes where it has a dash, or a capital behind a small letter and none at its head:
each dash becomes '_', each such capital '_' and the small letter. Types, modules and facts keep their capitals. Functions of
src/, exported names, strings, inputs and outputs are not touched: in src/ only clauses, ghost imports and comments are read.
Names that the kit's script respelled are brought over too where it reads nothing: in must-fail/, README.md and docs/.
The names that the checker makes of the code (tie.*, and the steps of a walk) keep their old form here.
"""
import glob
import os
import re
import sys

NAME = r"[^\s(){}\[\].;,@\"«»\\`]+"
DECLARED = re.compile(rf"(?m)^ *(?:(?:abbrev|unfoldable|pub|record|data|constructor) )*({NAME})(?: [{{(][^\n]*?[)}}])* *:(?= |\n)")
# What follows a step of a walk.
OF_A_STEP = re.compile(r"\.(ensures|result|true|false|given|is|new|now|old|before|exit|entry|invariant|args|requires|auto)\b")
# A new spelling that another name has already where both stand: the lemma or field gets '_lem'.
OTHERWISE = {
    "at-row": "at_row_lem",
    "in-range": "in_range_lem",
    "is_known": "is_known_lem",
    "is_open": "is_open_lem",
    "stands_live": "stands_live_lem",
}
CLAUSE = re.compile(r"\b(?:requires|ensures)(?: \w+)? \{")


def read(path):
    with open(path, encoding="utf-8") as f:
        return f.read()


def write(path, text):
    with open(path, "w", encoding="utf-8") as f:
        f.write(text)


def snake(name):
    if re.match(r"[A-Z]", name):
        return name.replace("-", "_")
    return re.sub(r"(?<=[a-z0-9])[A-Z]", lambda m: "_" + m[0].lower(), name).replace("-", "_")


def is_odd(name):
    return bool(re.search(r"[a-zA-Z0-9]", name)) and snake(name) != name and not name.startswith("-")


def antt():
    return sorted(p for p in glob.glob("crates/*/specs/**/*.antt", recursive=True) + glob.glob("crates/*/proofs/**/*.antt", recursive=True))


def walks(path):
    return os.path.basename(path) == "Proof.antt"


def declared():
    names = set()
    for p in antt():
        for m in DECLARED.finditer(re.sub(r"--[^\n]*", "", read(p))):
            name = m[1]
            # Answers of a walk go by the checker's names.
            line = m.string[m.start():m.string.find("\n", m.end())]
            if walks(p) and "tie." in line.split(":", 1)[1][:6]:
                continue
            if walks(p) and name.endswith("-spec"):
                continue
            names.add(name)
    return names


def table():
    """The new spelling of each name. Of two that would meet, a lemma and what it is about, the one with a dash gets '_lem'."""
    odd = {n for n in declared() if is_odd(n)}
    straight = {n for n in odd if "-" not in n}
    taken = {snake(n) for n in straight}
    out = {}
    for n in odd:
        new = snake(n)
        if n not in straight and new in taken:
            new += "_lem"
        out[n] = new
    return {**out, **OTHERWISE}


def turn(text, names, walk=False):
    def each(m):
        name = m[0]
        if name not in names:
            return name
        if walk:
            before = m.string[max(0, m.start() - 5):m.start()]
            if before.endswith("tie."):
                return name
            if before.endswith(".") and OF_A_STEP.match(m.string, m.end()):
                return name
        return names[name]

    return re.sub(NAME, each, text)


def lent(text):
    """The names that a file imports from a library."""
    out = set()
    for m in re.finditer(r"(?m)^use (\S+?)\.\{([^}]*)\}", text):
        if not re.match(r"Rattle\.(?!std\b|core\b|libc\b|os\b|io\b)", m[1]):
            out |= set(re.split(r"[,\s]+", m[2]))
    return out


def by_code(text, names, walk):
    """Turns what is no comment; in a comment only what stands in backticks or has a capital inside."""
    out = []
    foreign = lent(text)
    names = {n: v for n, v in names.items() if n not in foreign}
    for line in text.split("\n"):
        at = re.search(r"(?:^|(?<=\s))--(?=\s|$)", line)
        cut = at.start() if at else len(line)
        out.append(turn(line[:cut], names, walk) + told(line[cut:], names))
    return "\n".join(out)


def told(text, names):
    camel = {n: v for n, v in names.items() if re.search(r"[a-z0-9][A-Z]", n)}
    text = re.sub(r"`[^`\n]*`", lambda m: turn(m[0], names), text)
    return turn(text, camel)


def closing(text, at):
    depth = 0
    for i in range(at, len(text)):
        depth += {"{": 1, "}": -1}.get(text[i], 0)
        if depth == 0:
            return i + 1
    return len(text)


def of_source(text, names):
    """Turns ghost imports, clauses and comments of a .rt file."""
    text = re.sub(r"(?m)^(\s*ghost use )([^;]*;)", lambda m: m[1] + turn(m[2], names), text)
    out, at = [], 0
    for m in CLAUSE.finditer(text):
        if m.start() < at:
            continue
        end = closing(text, m.end() - 1)
        out.append(text[at:m.end()])
        out.append(turn(text[m.end():end], names))
        at = end
    text = "".join(out) + text[at:]
    return re.sub(r"//[^\n]*", lambda m: told(m[0], names), text)


def tight(text):
    """A projection without its space, as the kit's script writes it."""
    text = re.sub(r"\((\w+(?: \.\w+)+)\)", lambda m: m[1].replace(" .", "."), text)
    return re.sub(r"(?<=[\w)]) \.(?=\w)", ".", text)


def kits(names):
    """The names that the kit's script respelled, by its list; the script's own texts have them already."""
    out = dict(names)
    for line in read("tools/respelled.txt").splitlines():
        if line and not line.startswith("#"):
            out[line] = names.get(snake(line), snake(line))
    return out


def main():
    names = table()
    meet = {}
    for old, new in names.items():
        meet.setdefault(new, set()).add(old)
    for new, olds in sorted(meet.items()):
        if len(olds) > 1:
            print("meet:", new, sorted(olds))
    if "--list" in sys.argv:
        for n in sorted(names):
            print(n, names[n])
        return
    for p in antt():
        write(p, by_code(read(p), names, walks(p)))
    for p in sorted(glob.glob("crates/*/src/**/*.rt", recursive=True)):
        write(p, of_source(read(p), names))
    more = {n: v for n, v in kits(names).items() if is_odd(n)}
    for p in sorted(glob.glob("crates/*/must-fail/*.edit")):
        write(p, tight(turn(read(p), more)))
    for p in ["README.md", *sorted(glob.glob("docs/*.md"))]:
        write(p, re.sub(r"`[^`\n]*`", lambda m: turn(m[0], more), read(p)))


main()
