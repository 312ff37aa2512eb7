#!/usr/bin/env python3
"""include/kalanhav.h and include/kalanhav.rs declare the functions of crates/foreign_c as they are: names, order and types of the
parameters, and the result. A slice passes as a pointer and a length. Their numbers are those of the code. A difference fails."""
import re
import sys
from pathlib import Path

TOP = Path(__file__).resolve().parent.parent
C_TYPES = {"uint64_t": "u64", "int64_t": "i64", "uint8_t": "u8", "size_t": "usize", "bool": "bool"}
# The constants of the code that a number in include/ repeats.
CONSTANTS = {
    "common/src/lib.rt": {"CREDITORS": "CREDITORS", "DEBTORS": "DEBTORS", "BANKS": "BANKS", "MANDATE_ROWS": "MANDATE_ROWS",
                          "COLLECTION_ROWS": "COLLECTION_ROWS"},
    "tables/src/rows.rt": {"ROW_CELLS": "STRIDE"},
    "cells/src/lib.rt": {name: name for name in ("LATEST", "MANDATES_USED", "COLLECTIONS_USED", "LINES", "FILLED", "WRITTEN", "PAST",
                                                "COMPENSATION", "FIGURE")},
    "cells/src/reading.rt": {"STATE_CELLS": "STATE_CELLS", "CENTS_CELLS": "CENTS_CELLS"},
    "events/src/lib.rt": {"EVENT_CELLS": "FIELDS"},
    "lines/src/line.rt": {"LINE_BYTES": "LINE"},
    "report/src/layout.rt": {"ANSWER_BYTES": "ANSWER", "POSITION_BYTES": "POSITION", "LAST_LINE": "LAST_NUMBER"},
}


def parameters(text):
    return [part.strip() for part in text.split(",") if part.strip()]


def source(text):
    """Each function of a Rattle file, as a pair of its parameters, a slice as two, and its result."""
    found = {}
    for name, inside, result in re.findall(r'pub extern "C" fn (\w+)\(([^)]*)\) -> (\w+)', text):
        flat = []
        for parameter in parameters(inside):
            own, kind = parameter.split(": ")
            slice_of = re.fullmatch(r"&(mut )?\[(\w+)\]", kind)
            if slice_of:
                flat += [(own, f"*{'mut' if slice_of[1] else 'const'} {slice_of[2]}"), (own + "_length", "usize")]
            else:
                flat.append((own, kind))
        found[name] = flat, result
    return found


def header(text):
    """The same of the header for C."""
    found = {}
    for result, name, inside in re.findall(r"^(\w+) (kalanhav_\w+)\(([^)]*)\);", text, re.M):
        flat = []
        for parameter in parameters(inside):
            const, kind, star, own = re.fullmatch(r"(const )?(\w+) (\*?)(\w+)", parameter).groups()
            pointer = f"*{'const' if const else 'mut'} " if star else ""
            flat.append((own, pointer + C_TYPES[kind]))
        found[name] = flat, C_TYPES[result]
    return found


def module(text):
    """The same of the module for Rust."""
    declared = re.findall(r"fn (kalanhav_\w+)\(([^)]*)\) -> (\w+);", text)
    return {name: ([tuple(part.split(": ")) for part in parameters(inside)], result) for name, inside, result in declared}


def numbers(text, pattern):
    return {name: int(value.replace("_", "")) for name, value in re.findall(pattern, text, re.M)}


def wrong_numbers():
    """The names whose number is not that of the code, and those that the code does not have."""
    known = {}
    for path, names in CONSTANTS.items():
        code = numbers((TOP / "crates" / path).read_text(), r"^(?:pub )?const (\w+): \w+ = ([\d_]+);")
        known |= {name: code[own] for name, own in names.items()}
    in_header = numbers((TOP / "include/kalanhav.h").read_text(), r"^(?:#define | +)KALANHAV_(\w+)(?: =)? (\d+)\b")
    in_module = numbers((TOP / "include/kalanhav.rs").read_text(), r"^pub const (\w+): \w+ = ([\d_]+);")
    wrong = [f"include/kalanhav.h: {name}" for name in in_header.keys() | known.keys() if in_header.get(name) != known.get(name)]
    return wrong + [f"include/kalanhav.rs: {name}" for name in in_module if known.get(name) != in_module[name]]


def main():
    files = sorted((TOP / "crates/foreign_c/src").glob("*.rt"))
    there = {name: made for file in files for name, made in source(file.read_text()).items()}
    declared = {path: read((TOP / path).read_text()) for path, read in (("include/kalanhav.h", header), ("include/kalanhav.rs", module))}
    wrong = [f"{path}: {name}" for path, made in declared.items() for name in there.keys() | made.keys() if there.get(name) != made.get(name)]
    wrong += wrong_numbers()
    if wrong or not there:
        sys.exit("declarations: not as in the code: " + "; ".join(sorted(wrong)))
    print(f"declarations: {len(there)} functions and their numbers as they are, for C and for Rust")


main()
