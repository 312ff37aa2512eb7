#!/usr/bin/env python3
"""What crates/report_cases must write, worked out from document 01, "The text line", with no look at the crate `report`.

Run from the repository's root: tests/report_oracle.py > crates/report_cases/stdout
The calls are taken from the program's text in the order in which it makes them. A line is written when its numbers fit their columns,
its cents lie within the limit of positions and the buffer has room for it; else the buffer stays as it was."""
import ast
import re
import sys

ANSWER, POSITION = (6, 3), (2, 6, 18)  # the columns of each
LIMIT = 10**16
CALL = re.compile(r"""let\ mut\ (?P<name>\w+)\ =\ \*(?P<bytes>b"[^"]*");
    | \b(?P<call>answer|position|answer_to|position_to|end)\(rt,\ (?:&mut\ (?P<buffer>\w+),\ |(?P<text>b"[^"]*"),\ )?(?P<numbers>[-\d,\ ]+)\)""", re.X)


def placed(out, at, widths, values):
    """Whether the line was written, and the buffer after it."""
    line = "".join(str(value).rjust(width) for value, width in zip(values, widths)).encode() + b"\n"
    cents = values[-1] if widths == POSITION else 0
    if len(line) != sum(widths) + 1 or abs(cents) > LIMIT or at + len(line) > len(out):
        return False, out
    return True, out[:at] + line + out[at + len(line):]


def bytes_of(found, buffers):
    """What one call writes."""
    call, numbers = found["call"], [int(n) for n in found["numbers"].split(",")]
    if call == "end":
        at = ast.literal_eval(found["text"]).find(b"\n", *numbers)
        return b"none\n" if at < 0 else b"%d\n" % at
    widths = ANSWER if call.startswith("answer") else POSITION
    if not call.endswith("_to"):
        return placed(b"#" * (sum(widths) + 1), 0, widths, numbers)[1]
    name = found["buffer"]
    written, buffers[name] = placed(buffers[name], numbers[0], widths, numbers[1:])
    return b"%d\n%s|\n" % (written, buffers[name])


def body(text, name):
    return re.search(rf"^fn {name}\([^)]*\)[^{{]* \{{\n(.*?)^\}}", text, re.M | re.S).group(1)


def main():
    with open("crates/report_cases/src/main.rt", encoding="utf-8") as file:
        text = file.read()
    for part in re.findall(r"(\w+)\(&rt\)", body(text, "main")):
        buffers = {}
        for found in CALL.finditer(body(text, part)):
            if found["name"]:
                buffers[found["name"]] = ast.literal_eval(found["bytes"])
            else:
                sys.stdout.buffer.write(bytes_of(found, buffers))


main()
