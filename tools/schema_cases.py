#!/usr/bin/env python3
"""Holds share/flow-graph.schema.json against graph files of the examples and the tests, by python3-jsonschema.

Each file that the program takes has to be taken. Each that it refuses for its shape has to be refused: for a field, or
for a pipeline. Names, circles of modules and most limits are beyond a schema, and so are the few shapes that BEYOND
names: such files have to be taken, unless they have another fault besides, so that the list stays true. Without
python3-jsonschema it says so, and ends with status 0.
"""
import json
import pathlib
import sys

from flow_tools.json_places import decoded, parse
from flow_tools.plans import text_of
from flow_tools.refusals import refusals

TOP = pathlib.Path(__file__).resolve().parent.parent
SCHEMA = TOP / "share/flow-graph.schema.json"
TABLE = TOP / "crates/test_graphs/stdin"

# The beginnings of refusals that aren't a matter of shape.
NAMES_AND_CIRCLES = ("no such name", "repeated name in name", "module cycle", "too many")
# Refusals for a field that a schema can't express: a test on the file's text and the parsed file, and what it is.
BEYOND = {
    "a whole number with a fraction, an exponent or a sign":
        lambda file: any(sign in file for sign in ("1.0", "2.0", "1e0", "-0")),
    "two rows of defer for one token": lambda file: file.count('"token":1,') > 1,
    "a string by its bytes": lambda file: not file.isascii(),
}


def cases():
    """The files: what they are called, the program's refusal or nothing, and their text."""
    for path in sorted((TOP / "examples").glob("*/graph.json")):
        notes = path.with_name("expected.err")
        said = notes.read_text().partition("bad graph: ")[2].strip() if notes.exists() else ""
        yield str(path.relative_to(TOP)), said, text_of(path)
    for number, line in enumerate(TABLE.read_text().split("\n")[:-1], 1):
        said, _, file = line.partition(" | ")
        is_plan = said.startswith("{")
        yield f"line {number} of crates/test_graphs/stdin", "" if is_plan else said, file
        if is_plan:
            yield f"the plan in line {number} of crates/test_graphs/stdin", "", said
    yield from at_limits()


def at_limits():
    """Files at the limits of one list or string, and past them."""
    task, serial = '{"name":"a","op":"%s",%s}', '{"serial":true,"op":"pass"}'
    pieces = [
        ("words", 256, lambda count: task % ("route", '"words":[%s]' % ",".join(['""'] * count))),
        ("bytes of a word", 4096, lambda count: task % ("keep", '"word":"%s"' % ("x" * count))),
        ("bytes of a text's name", 4096, lambda count: task % ("read", '"text":"%s"' % ("x" * count))),
        ("bytes of a name", 64, lambda count: '{"name":"%s","op":"pass"}' % ("x" * count)),
        ("pipes", 32, lambda count: task % ("pipe", '"lines":1,"pipes":[%s]' % ",".join([serial] * count))),
        ("lines of a pipeline", 64, lambda count: task % ("pipe", '"lines":%d,"pipes":[%s]' % (count, serial))),
        ("rows of defer", 256, lambda count: task % ("pipe", '"lines":1,"pipes":[%s],"defer":[%s]' % (
            serial, ",".join('{"token":%d,"to":[0]}' % token for token in range(count))))),
        ("tasks", 10_000, lambda count: ",".join('{"name":"%d","op":"pass"}' % number for number in range(count))),
    ]
    for what, most, tasks in pieces:
        yield f"{most} {what}", "", '{"tasks":[%s]}' % tasks(most)
        yield f"{most + 1} {what}", "bad field", '{"tasks":[%s]}' % tasks(most + 1)
    letters = task % ("keep", '"word":"%s"' % ("é" * 2049))
    yield "a word of 4,098 bytes and 2,049 letters", "bad field", '{"tasks":[%s]}' % letters


def is_shape(said):
    return bool(said) and not said.startswith(NAMES_AND_CIRCLES)


def verdict(is_taken, said, file):
    """Whether the schema answers as it should on a file, and whether the file is beyond it."""
    if is_taken:
        is_beyond = bool(said)
        return not is_shape(said) or any(test(file) for test in BEYOND.values()), is_beyond
    has_other_fault = bool(said) and len(refusals(parse(decoded(file.encode())))) > 1
    return is_shape(said) or has_other_fault, False


def main():
    try:
        import jsonschema
    except ImportError:
        print("schema: python3-jsonschema isn't here, so the schema isn't tried")
        return
    schema = json.loads(SCHEMA.read_text())
    jsonschema.Draft202012Validator.check_schema(schema)
    validator = jsonschema.Draft202012Validator(schema)
    count = beyond = faults = 0
    for called, said, file in cases():
        if said == "not JSON":
            continue
        is_taken = validator.is_valid(json.loads(file))
        is_right, is_beyond = verdict(is_taken, said, file)
        count, beyond, faults = count + 1, beyond + is_beyond, faults + (not is_right)
        if not is_right:
            answer = "taken" if is_taken else "refused"
            print(f"schema: {called} is {answer}; the program: {said or 'taken'}", file=sys.stderr)
    print(f"schema: {count} files, of which {beyond} are refused by the program alone; {faults} with a difference")
    sys.exit(1 if faults else 0)


if __name__ == "__main__":
    main()
