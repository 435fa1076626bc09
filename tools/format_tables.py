"""The tables of docs/FORMATS.md, in which commands, options, operations and exit codes stand.

And commands, options and operations as the definitions have them that the program's contracts cite.
"""
import itertools
import pathlib
import re
from dataclasses import dataclass

TOP = pathlib.Path(__file__).resolve().parent.parent
FORMATS = TOP / "docs/FORMATS.md"
REQUESTS = TOP / "crates/command_line/specs/Requests.antt"
NUMBERS = TOP / "crates/command_line/src/numbers.rt"
OPERATIONS = TOP / "crates/graph_drafts/specs/OpRows.antt"

CODE = re.compile(r"`([^`]+)`")


# ---- the tables

@dataclass(frozen=True)
class Command:
    """A command: its name, the names of the arguments that it needs, its options, and what it does."""

    name: str
    arguments: tuple
    options: tuple
    text: str


@dataclass(frozen=True)
class Option:
    """An option: `value` and `default` are empty if it has none; `least` and `most` are its range if it is a number."""

    name: str
    value: str
    least: int
    most: int
    default: str
    text: str

    @property
    def is_number(self):
        return self.most > 0


def table(before, heading):
    """The rows of the first table with such a first column behind this text, as lists of cells."""
    text = FORMATS.read_text()
    lines = text[text.index(before):].splitlines()
    start = next(number for number, line in enumerate(lines) if line.startswith(f"| {heading} |"))
    rows = itertools.takewhile(lambda line: line.startswith("| "), lines[start + 2:])
    return [[cell.strip() for cell in row.strip("| ").split(" | ")] for row in rows]


def commands():
    return [command_of(cells) for cells in table("## The command line", "Command")]


def command_of(cells):
    words = CODE.search(cells[0])[1]
    name, *arguments = re.sub(r"\[.*?\]", "", words).split()[1:]
    return Command(name, tuple(arguments), tuple(re.findall(r"\[--(\w+)", words)), cells[1])


def options():
    return [option_of(cells) for cells in table("## The command line", "Option")]


def option_of(cells):
    words = CODE.search(cells[0])[1].removeprefix("--").split()
    value = words[1] if len(words) > 1 else ""
    bounds = re.fullmatch(r"([\d,]+) to ([\d,]+)", cells[1])
    least, most = (int(bound.replace(",", "")) for bound in bounds.groups()) if bounds else (0, 0)
    return Option(words[0], value, least, most, cells[2] if bounds else "", cells[3])


def task_fields():
    """The fields of tasks: name, and what it holds."""
    return [(CODE.search(cells[0])[1], cells[1]) for cells in table("\nA task is an object", "Field")]


def operations():
    """The rows of operations: their names, and their value."""
    return [(CODE.findall(cells[0]), cells[1]) for cells in table("\n## Operations", "`op`")]


def statuses():
    """The exit codes: status, code, line, and when."""
    return table("\n## Exit codes", "Status")


# ---- the program's definitions

def defined_commands():
    """The commands of the program: name, arguments, and options with those that have no value."""
    rows = dict(re.findall(r"^(\w+)_app(?: name)? = (.*)$", REQUESTS.read_text(), re.M))
    shared = rules_in(rows.pop("runs"))
    found = {}
    for row in rows.values():
        base = re.search(r"\(?(runs_app|command_named) \(codes \"(\w+)\"\)", row)
        found[base[2]] = (shared if base[1] == "runs_app" else []) + rules_in(row)
    return found


def rules_in(row):
    return re.findall(r"\((required|option|flag) \(codes \"(\w+)\"\)\)", row)


def documented_commands():
    """The commands of the tables in the form of those of the program."""
    flags = {option.name for option in options() if not option.value}
    return {command.name: [("required", argument.lower()) for argument in command.arguments]
            + [("flag" if name in flags else "option", name) for name in command.options] for command in commands()}


def constants():
    """The numbers that the program's command line names."""
    rows = re.findall(r"const (\w+): u\d+ = ([\d_]+);", NUMBERS.read_text())
    return {name: int(number.replace("_", "")) for name, number in rows}


def defined_operations():
    """The operations of the program, with their own fields."""
    text = OPERATIONS.read_text()
    found = {name: set() for name in re.findall(r"bare \(codes \"(\w+)\"\)", text)}
    found |= {name: {field} for name, field in re.findall(r"single \(codes \"(\w+)\"\) \(codes \"(\w+)\"\)", text)}
    for name, fields in re.findall(r"record \{ name = codes \"(\w+)\"; fields = ([^;]*);", text):
        found[name] = set(re.findall(r"codes \"(\w+)\"", fields))
    return {name: fields for name, fields in found.items() if name not in ("number", "stamp")}


def documented_operations():
    """The operations of the tables, with their own fields."""
    found = {name: set() for names, _ in operations() for name in names}
    for field, text in task_fields():
        for users in re.findall(r"[Ff]or ((?:`\w+`(?:, | and )?)+)", text):
            for user in CODE.findall(users):
                found.setdefault(user, set()).add(field)
    return found
