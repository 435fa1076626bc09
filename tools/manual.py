#!/usr/bin/env python3
"""Holds the manual page and the completion against docs/FORMATS.md, and this against the program's definitions.

The tables of commands, options, fields, operations and exit codes in docs/FORMATS.md are where these stand. The
regions of man/flow.1 and share/flow.bash between their lines `begin NAME` and `end NAME` are made from them.

    manual.py --check    prints what differs, and ends with status 1 if anything does
    manual.py --write    writes the regions
    manual.py --calls    prints command lines, each behind `takes` or `refuses`, as the program has to find it
"""
import argparse
import re
import sys
import textwrap

from flow_tools.findings import listed
from format_tables import (CODE, FORMATS, NUMBERS, OPERATIONS, REQUESTS, TOP, commands, constants, defined_commands,
                           defined_operations, documented_commands, documented_operations, operations, options,
                           statuses, task_fields)

PAGE = TOP / "man/flow.1"
COMPLETION = TOP / "share/flow.bash"


# ---- mdoc

def mdoc(text):
    """A piece of Markdown as lines of mdoc: code in bold, links without their targets, a line for each sentence."""
    text = re.sub(r"\[([^\]]*)\]\([^)]*\)", r"\1", text)
    text = text.replace("\\", "\\e")
    text = CODE.sub(lambda match: "\\fB" + match[1].replace("-", "\\-").replace(" ", "\0") + "\\fP", text)
    sentences = re.split(r"(?<=[.:;]) (?=[A-Z])", text)
    lines = [line for sentence in sentences
             for line in textwrap.wrap(sentence, 76, break_long_words=False, break_on_hyphens=False)]
    return [("\\&" if line[0] in ".'" else "") + line.replace("\0", " ") for line in lines]


def item(head, text):
    return [f".It {head}", *mdoc(text)]


def tagged(items, width):
    """A list of items, behind heads of this width."""
    return [f".Bl -tag -width {width}", *(line for lines in items for line in lines), ".El"]


def sentence(text):
    return f"{text[0].upper()}{text[1:]}{'' if text.endswith('.') else '.'}"


def usage(command):
    """The macros of a command with its arguments and options."""
    values = {option.name: option.value for option in options()}
    lines = [f".Cm {command.name}"]
    lines += [f".Ar {argument}" for argument in command.arguments]
    lines += [f".Op Fl -{name}{' Ar ' + values[name] if values[name] else ''}" for name in command.options]
    return lines


def synopsis_lines():
    return [line for command in commands() for line in (".Nm", *usage(command))]


def command_lines():
    return tagged((item(f"Cm {command.name}", sentence(command.text)) for command in commands()), "generate")


def option_lines():
    return tagged((item(option_head(option), option_text(option)) for option in options()), "\"--until WORD\"")


def option_head(option):
    return f"Fl -{option.name}{' Ar ' + option.value if option.value else ''}"


def option_text(option):
    users = listed(f"`{command.name}`" for command in commands() if option.name in command.options)
    numbers = f" A number from {option.least:,} to {option.most:,}, and {option.default} if it isn't given."
    return f"For {users}: {option.text}.{numbers if option.is_number else ''}"


def field_lines():
    return tagged((item(f"Ic {name}", sentence(text)) for name, text in task_fields()), "acquire")


def operation_lines():
    return tagged((item(f"Ic {' , '.join(names)}", operation_text(text)) for names, text in operations()), "spread")


def operation_text(text):
    """What an operation does; where docs/FORMATS.md refers to another part of it, so does the page."""
    return "See below." if text.startswith("see") else sentence(text)


def code_lines():
    return tagged((item(code, status_text(name, line, when)) for name, code, line, when in statuses()), "13")


def status_text(name, line, when):
    return f"{name}: {when}." if line == "none" else f"{name}, {line}: {when}."


# ---- the completion

def completion_lines():
    names = " ".join(command.name for command in commands())
    cases = [f"        {command.name}) echo '{' '.join(f'--{name}' for name in command.options)}' ;;"
             for command in commands() if command.options]
    return [f"_flow_commands='{names}'", "_flow_options() {", "    case $1 in", *cases, "    esac", "}"]


# ---- regions

# For each file how its comments begin, and what makes the lines of each region.
REGIONS = {
    PAGE: (".\\\" ", {"synopsis": synopsis_lines, "commands": command_lines, "options": option_lines,
                      "fields": field_lines, "operations": operation_lines, "codes": code_lines}),
    COMPLETION: ("# ", {"options": completion_lines}),
}


def written(path):
    """The text of a file with its regions made anew."""
    mark, regions = REGIONS[path]
    text = path.read_text()
    for name, lines in regions.items():
        begin, end = f"{mark}begin {name}\n", f"{mark}end {name}\n"
        before, rest = text.split(begin)
        text = before + begin + "".join(line + "\n" for line in lines()) + end + rest.split(end)[1]
    return text


def differences():
    """What doesn't agree, a sentence each: the tables with the program, and if they do, the regions with the tables."""
    found = list(table_differences())
    yield from found or region_differences()


def table_differences():
    if not defined_commands() or defined_commands() != documented_commands():
        yield f"{called(FORMATS)} has other commands than {called(REQUESTS)}"
    if not defined_operations() or defined_operations() != documented_operations():
        yield f"{called(FORMATS)} has other operations or fields than {called(OPERATIONS)}"
    numbers = constants()
    for option in options():
        name = option.name.upper()
        wanted = (numbers.get(f"GREATEST_{name}"), numbers.get(f"DEFAULT_{name}", 1))
        if option.is_number and (option.most, int(option.default.replace(",", ""))) != wanted:
            yield f"{called(FORMATS)} has another range of --{option.name} than {called(NUMBERS)}"
    used = {name for command in commands() for name in command.options}
    for option in options():
        if option.name not in used:
            yield f"{called(FORMATS)} has the option --{option.name}, which no command has"


def region_differences():
    for path in REGIONS:
        if path.read_text() != written(path):
            yield f"{called(path)} isn't what tools/manual.py --write makes of {called(FORMATS)}"


def called(path):
    return path.relative_to(TOP)


# ---- calls

def calls():
    """Each command with each option of the table, and with values at the ends of its range and beyond them."""
    for command in commands():
        words = [command.name, *command.arguments]
        yield "takes", words
        yield "refuses", words[:-1]
        yield "refuses", [*words, "more"]
        for option in options():
            for value, is_good in values_of(option):
                is_taken = is_good and option.name in command.options
                yield "takes" if is_taken else "refuses", [*words, f"--{option.name}", *value]


def values_of(option):
    if not option.value:
        return [([], True)]
    if not option.is_number:
        return [(["word"], True), ([], False)]
    outside = [option.most + 1] + ([option.least - 1] if option.least else [])
    return [([str(value)], value not in outside) for value in (option.least, option.most, *outside)]


def main():
    words = argparse.ArgumentParser(description=__doc__, formatter_class=argparse.RawDescriptionHelpFormatter)
    ways = words.add_mutually_exclusive_group(required=True)
    ways.add_argument("--check", action="store_true")
    ways.add_argument("--write", action="store_true")
    ways.add_argument("--calls", action="store_true")
    asked = words.parse_args()
    if asked.write:
        for path in REGIONS:
            path.write_text(written(path))
    elif asked.calls:
        for verdict, call in calls():
            print(verdict, *call)
    else:
        found = list(differences())
        for what in found:
            print(what, file=sys.stderr)
        sys.exit(1 if found else 0)


if __name__ == "__main__":
    main()
