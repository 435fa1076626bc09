#!/usr/bin/env python3
"""What the operations make of small texts, computed by this program alone.

It prints the table in crates/test_parts/src/operation_cases.rt: each line has a text and what each of the operations makes of
it, in their order. `~` stands for a line feed and `_` for a space. `--check` says whether that file has this table.
"""
import os
import random
import sys

FILE = os.path.join(os.path.dirname(__file__), "..", "crates/test_parts/src/operation_cases.rt")

OPS = [
    "pass", "keep a", "keep ab", "without b", "head 2", "tail 2", "skip 2", "sort", "uniq", "count", "tally", "has b",
    "match a_b~_b~b_a~ab_~a_a~", "match aa_bb~~b~", "match ",
]


def texts():
    """A hundred texts of bytes that make lines short, keys equal and words occur."""
    chance = random.Random(7)
    return ["".join(chance.choice("aab ~") for _ in range(chance.randrange(24))) for _ in range(100)]


def lines_of(text):
    return text.split("~")[:-1] if text.endswith("~") else text.split("~") if text else []


def text_of(lines):
    return "".join(line + "~" for line in lines)


def key(line):
    return line.partition(" ")[0]


def matched(lines, others):
    firsts = {}
    for other in others:
        firsts.setdefault(key(other), other[len(key(other)):])
    return [line + firsts[key(line)] for line in lines if key(line) in firsts]


def value(op, text):
    name, _, operand = op.partition(" ")
    operand = operand.replace("_", " ")
    lines = lines_of(text)
    return {
        "pass": lambda: text_of(lines),
        "keep": lambda: text_of(line for line in lines if operand in line),
        "without": lambda: text_of(line for line in lines if operand not in line),
        "head": lambda: text_of(lines[:int(operand)]),
        "tail": lambda: text_of(lines[max(0, len(lines) - int(operand)):]),
        "skip": lambda: text_of(lines[int(operand):]),
        "sort": lambda: text_of(sorted(lines)),
        "uniq": lambda: text_of(line for k, line in enumerate(lines) if k == 0 or lines[k - 1] != line),
        "count": lambda: f"{len(lines)}~",
        "tally": lambda: text_of(f"{lines.count(line)} {line}" for line in sorted(set(lines))),
        "has": lambda: "yes~" if any(operand in line for line in lines) else "no~",
        "match": lambda: text_of(matched(lines, lines_of(operand))),
    }[name]()


def table():
    for text in texts():
        fields = [text, *(value(op, text) for op in OPS)]
        yield "|".join(field.replace(" ", "_") for field in fields)


def main():
    rows = list(table())
    if "--check" in sys.argv:
        with open(FILE, encoding="utf-8") as file:
            held = file.read()
        return 0 if all(row in held for row in ["|".join(OPS), *rows]) else "operation_cases.rt has another table"
    print("\n".join(rows))
    return 0


if __name__ == "__main__":
    sys.exit(main())
