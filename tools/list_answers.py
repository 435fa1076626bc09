#!/usr/bin/env python3
"""Lists what each public call of a crate may answer, and holds the tables of docs/ANSWERS.md to it.

An answer is a variant of what a call returns: of a Result, an Option or an enum of the repository, or of such a field
of the struct that it returns. Prints the calls of the crates that are named, with their answers and the names of their
clauses (`ensures` stands for one without a name). With --check it prints a line for each answer without a row, for each
row of a call or an answer that isn't there, for each clause that a row names and the call hasn't, for each test that
isn't there, and for each crate that has no table and that OMITTED has no reason for. A cause begins with the clauses,
or has them in parentheses. With --unproved it prints the rows in which some of the cause is not proved.
"""
import collections
import re
import sys
from dataclasses import dataclass, field

from spec_files import TOP

PAGE = "docs/ANSWERS.md"
# The crates without a table, by the reason.
OMITTED = {
    "definitions, laws, and trials of both: no call of them is refused": (
        "claims", "library_claims", "pipe_laws", "pipe_values", "report_laws", "run_laws",
    ),
    "a program, or a crate for tests or measurements": (
        "async_trials", "bench", "desk_trials", "flow", "library_tour", "test_async", "test_calls", "test_desk",
        "test_graphs", "test_grains", "test_jobs", "test_lines", "test_nets", "test_parts", "test_runs",
    ),
    "called by one crate above, whose answers are in a table": ("graph_drafts", "table_steps"),
    "parts of other crates' answers, which are in their tables": ("journal_rules", "json_values"),
}
# How the lines begin that name calls without rows of their own.
MEMORY_ALONE = "Refused only if an allocation fails: "
NO_REFUSAL = "Not refused: "
# How a cause begins that is no clause.
CAUSES = ("Free", "Tested", "Not proved", "Not returned")

CODE = re.compile(r"`([^`]+)`")
CODES = r"(`[a-z_0-9]+`(?:(?:, | and )`[a-z_0-9]+`)*)"
CLAUSES = re.compile(CODES + ": ")
ASIDE = re.compile(r"\(" + CODES + r"\)")
TESTS = re.compile(r"[Tt]ested by ((?:`[^`]+`(?:, | and )?)+)")
FUNCTION = re.compile(r"^ *(pub )?fn ([a-z_0-9]+)", re.M)
BLOCK = re.compile(r"^(pub )?(impl|trait)\b([^{;]*)\{", re.M)
CLAUSE = re.compile(r"\s*(requires|ensures)\s*([a-z_0-9]*)\s*\{")
WHERE = re.compile(r"\s*where\b[^{;]*?(?=\s(?:requires|ensures)\b|\s*\{)")
TEST = re.compile(r"#\[test\](?:\s*#\[[^\]]*\])*\s*(?:pub )?fn ([a-z_0-9]+)")


# ---- the sources

@dataclass
class Crate:
    """What a crate has: its enums with their variants, structs with their fields, and calls; and whence names come."""

    name: str
    exported: set = field(default_factory=set)
    imports: dict = field(default_factory=dict)
    enums: dict = field(default_factory=dict)
    structs: dict = field(default_factory=dict)
    calls: dict = field(default_factory=dict)


@dataclass(frozen=True)
class Call:
    """A call: its name, what it returns, the names of its clauses, and the trait's call whose contract it has too."""

    name: str
    returns: str
    clauses: tuple
    of_trait: str


def end_of(text, start, opening, closing):
    """The index of the bracket that closes the one at an index."""
    depth = 0
    for i in range(start, len(text)):
        depth += (text[i] == opening) - (text[i] == closing)
        if depth == 0:
            return i
    return len(text)


def end_of_head(text, start):
    """The index behind a function's parameters and what it returns."""
    depth = 0
    for i in range(start, len(text)):
        depth += text[i] in "([<"
        depth -= text[i] in ")]" or (text[i] == ">" and text[i - 1] not in "-=")
        if depth == 0 and (text[i] in "{;" or re.match(r"\s(requires|ensures|where)\b", text[i:i + 12])):
            return i
    return len(text)


def clauses_at(text, start):
    """The names of the clauses of a contract."""
    found = []
    where = WHERE.match(text, start)
    match = CLAUSE.match(text, where.end() if where else start)
    while match:
        if match[1] == "ensures":
            found.append(match[2] or "ensures")
        match = CLAUSE.match(text, end_of(text, match.end() - 1, "{", "}") + 1)
    return tuple(found)


def blocks_in(text):
    """The impl blocks and traits of a file: where each ends, its type or trait, and the trait that it is of."""
    for match in BLOCK.finditer(text):
        head = " ".join(match[3].split())
        if head.startswith("<"):
            head = head[end_of(head, 0, "<", ">") + 1:].strip()
        of, _, owner = head.partition(" for ") if " for " in head else ("", "", head)
        names = [re.match(r"\w*", name)[0] for name in (owner, of)]
        yield match.start(), end_of(text, match.end() - 1, "{", "}"), match[2], *names


def calls_in(text, exported):
    """The public calls of a file."""
    blocks = list(blocks_in(text))
    for match in FUNCTION.finditer(text):
        around = [block for block in blocks if block[0] < match.start() < block[1]]
        _, _, kind, owner, of = around[-1] if around else (0, 0, "", "", "")
        if (not match[1] and kind != "trait" and not of) or (owner or match[2]) not in exported:
            continue
        end = end_of_head(text, match.end())
        returns = re.search(r"\)\s*-> (.*)$", " ".join(text[match.end():end].split()))
        name = f"{owner}::{match[2]}" if owner else match[2]
        yield Call(name, returns[1] if returns else "", clauses_at(text, end), f"{of}::{match[2]}" if of else "")


def exported_by(folder, root):
    """The names that a root file exports, or a module that it makes public."""
    text = re.sub(r"//.*", "", root.read_text())
    names = set(re.findall(r"^pub (?:fn|struct|enum|trait) (\w+)", text, re.M))
    for used in re.findall(r"pub use ([^;]*);", text):
        names |= set(re.findall(r"\b(\w+)\b(?!::)", used))
    for module in re.findall(r"pub mod (\w+);", text):
        names |= exported_by(folder, folder / f"{module}.rt")
    return names


def crate_at(folder):
    """A crate by its folder."""
    crate = Crate(folder.parent.name)
    crate.exported = exported_by(folder, folder / "lib.rt")
    for path in sorted(folder.rglob("*.rt")):
        text = re.sub(r"//.*", "", path.read_text())
        for name, body in re.findall(r"^pub enum (\w+)[^{]*\{(.*?)^\}", text, re.M | re.S):
            crate.enums.setdefault(name, re.findall(r"^    ([A-Z]\w*)", body, re.M))
        for name, body in re.findall(r"^pub struct (\w+)[^{;(]*\{(.*?)^\}", text, re.M | re.S):
            crate.structs.setdefault(name, re.findall(r"^    pub (\w+): (.*),$", body, re.M))
        for other, names in re.findall(r"^use (\w+)::\{?([^;{}]*)\}?;", text, re.M):
            crate.imports.update(dict.fromkeys(re.findall(r"\w+", names), other))
        for call in calls_in(text, crate.exported):
            crate.calls[call.name] = call
    return crate


def crates_in(top):
    folders = [path for path in sorted(top.glob("crates/*/src")) if (path / "lib.rt").is_file()]
    return {path.parent.name: crate_at(path) for path in folders}


# ---- the answers

def type_of(text):
    """A type's name and its arguments."""
    text = re.sub(r"^(?:&|'\w+ |mut )*", "", text.strip())
    name = re.match(r"[\w:]*", text)[0]
    rest = text[len(name):].strip()
    return name, arguments_of(rest[1:-1]) if rest.startswith("<") else []


def arguments_of(text):
    """A list of arguments, cut at the commas that stand in no bracket."""
    depth, parts = 0, [""]
    for i, sign in enumerate(text):
        depth += sign in "(<["
        depth -= sign in ")]" or (sign == ">" and text[i - 1] != "-")
        if sign == "," and depth == 0:
            parts.append("")
        else:
            parts[-1] += sign
    return [part.strip() for part in parts if part.strip() and not part.strip().startswith("'")]


def found_in(kind, name, crate, crates):
    """What a crate knows by a name: its own, else that of the crate that it names, else what some crate exports."""
    homes = [crate, *[crates[other] for other in [crate.imports.get(name)] if other in crates]]
    homes += [other for other in crates.values() if name in other.exported]
    home = next((other for other in homes if name in other.enums or name in other.structs), crate)
    return getattr(home, kind).get(name)


def answers_of(text, crate, crates):
    """The answers of a call that returns this; none where it returns no choice."""
    name, arguments = type_of(text)
    if name == "Result":
        return (answers_of(arguments[0], crate, crates) or ["Ok"]) + errors_of(arguments[1], crate, crates)
    if name == "Option":
        return ["Some", "None"]
    variants = found_in("enums", name, crate, crates)
    if variants is not None:
        return list(variants)
    fields = found_in("structs", name, crate, crates) or []
    return [f"{key}: {answer}" for key, kind in fields for answer in field_answers(kind, crate, crates)]


def field_answers(text, crate, crates):
    """The answers in a field: of a bool, of an enum, or of an Option of an enum."""
    name, arguments = type_of(text)
    if name == "bool":
        return ["true", "false"]
    inner = type_of(arguments[0])[0] if name == "Option" and arguments else name
    variants = found_in("enums", inner, crate, crates) or []
    return (["None"] if name == "Option" and variants else []) + list(variants)


def errors_of(text, crate, crates):
    name = type_of(text)[0]
    variants = found_in("enums", name, crate, crates)
    return list(variants) if variants is not None else ["NoMemory" if name == "NoMemory" else "Err"]


def answers_by_call(crate, crates):
    """The answers of each call that has some. Yes and no are answers to be listed only if the call has no clause."""
    found = {name: answers_of(call.returns, crate, crates) for name, call in crate.calls.items()}
    for name, call in crate.calls.items():
        if is_bool(call) and not clauses_of(call, crates):
            found[name] = ["true", "false"]
    return {name: answers for name, answers in found.items() if answers}


def clauses_of(call, crates):
    """The names of the clauses of a call, and of the trait's call whose contract it has."""
    found = set(call.clauses)
    for crate in crates.values():
        if call.of_trait in crate.calls:
            found |= set(crate.calls[call.of_trait].clauses)
    return found


# ---- the tables

@dataclass
class Table:
    """A crate's part of the page: its rows, and the calls without rows, by how their line begins."""

    rows: list = field(default_factory=list)
    alone: dict = field(default_factory=lambda: collections.defaultdict(dict))


def tables_in(text):
    """The tables of a page, by crates."""
    found, crate = {}, None
    for line in text.split("\n"):
        heading = re.match(r"## `(\w+)`$", line)
        if line.startswith("## "):
            crate = heading[1] if heading else None
            if heading:
                found[crate] = Table()
        if crate is None:
            continue
        if line.startswith("| `"):
            cells = [cell.strip() for cell in line.strip().strip("|").split(" | ")]
            found[crate].rows.append((CODE.findall(cells[0]), CODE.findall(cells[1]), cells[-1]))
        for start in (MEMORY_ALONE, NO_REFUSAL):
            if line.startswith(start):
                found[crate].alone[start].update(calls_named(line))
    return found


def calls_named(line):
    """The calls that a line names, each with the clauses that stand in parentheses before the next one."""
    found, last = {}, None
    for place, part in enumerate(re.split(r"\(([^)]*)\)", line)):
        names = CODE.findall(part)
        if place % 2 == 1:
            found[last] += names
            continue
        found.update({name: [] for name in names})
        last = names[-1] if names else last
    return found


def is_bool(call):
    return call.returns == "bool"


def row_faults(row, crate, crates, answers, tests):
    """What is wrong with a row."""
    names, said, cause = row
    begins = CLAUSES.match(cause)
    clauses = ([begins[1]] if begins else []) + ASIDE.findall(cause)
    if begins is None and not cause.startswith(CAUSES):
        yield f"the cause of {', '.join(said)} of {', '.join(names)} names no clause and isn't {', '.join(CAUSES)}"
    for name in names:
        if name not in crate.calls:
            yield f"{name} isn't a public call"
            continue
        known = ["true", "false"] if is_bool(crate.calls[name]) else answers.get(name, [])
        for answer in said:
            if answer not in known:
                yield f"{name} doesn't answer {answer}"
        yield from clause_faults(name, CODE.findall(" ".join(clauses)), crate, crates)
    for test in CODE.findall(" ".join(TESTS.findall(cause))):
        if test not in tests:
            yield f"there is no test {test}"


def clause_faults(name, clauses, crate, crates):
    for clause in clauses:
        if clause not in clauses_of(crate.calls[name], crates):
            yield f"{name} has no clause {clause}"


def alone_faults(table, crate, crates, answers):
    """What is wrong with the calls without rows."""
    for start, names in table.alone.items():
        for name, clauses in names.items():
            if name in crate.calls:
                yield from clause_faults(name, clauses, crate, crates)
            if name not in answers:
                yield f"{name} has no answers to be listed"
            elif start == MEMORY_ALONE and answers[name] not in (["Ok", "NoMemory"], ["Ok", "Err"]):
                yield f"{name} isn't refused for memory alone: {', '.join(answers[name])}"


def crate_faults(table, crate, crates, tests):
    """What differs between a crate and its table."""
    answers = answers_by_call(crate, crates)
    said = collections.Counter((name, answer) for names, variants, _ in table.rows for name in names for answer in variants)
    listed = {name for names in table.alone.values() for name in names}
    for row in table.rows:
        yield from row_faults(row, crate, crates, answers, tests)
    yield from alone_faults(table, crate, crates, answers)
    for name, wanted in answers.items():
        for answer in wanted:
            if (name in listed) == ((name, answer) in said):
                yield f"{name} has {'no row' if name not in listed else 'both a row and a line'} for {answer}"
    for (name, answer), times in said.items():
        if times > 1:
            yield f"{name} has {times} rows for {answer}"


def tests_in(top):
    """The names of the tests, and the files and folders that a row may name in place of one."""
    names = {name for path in top.glob("crates/*/src/**/*.rt") for name in TEST.findall(path.read_text())}
    paths = {path.relative_to(top).as_posix() for folder in ("examples", "tools") for path in (top / folder).glob("*")}
    return names | paths


def differences(top):
    """A line for each difference between the page and the sources."""
    crates, tables, tests = crates_in(top), tables_in((top / PAGE).read_text()), tests_in(top)
    omitted = {name for names in OMITTED.values() for name in names}
    for name in sorted(set(crates) - set(tables) - omitted):
        yield f"{PAGE} has no table for {name}, and tools/list_answers.py has no reason for it"
    for name in sorted(set(tables) - set(crates)):
        yield f"{PAGE} has a table for {name}, which isn't there"
    for name in sorted(omitted & set(tables)):
        yield f"{PAGE} has a table for {name}, and tools/list_answers.py has a reason for none"
    for name in sorted(set(tables) & set(crates)):
        for fault in crate_faults(tables[name], crates[name], crates, tests):
            yield f"{PAGE}, {name}: {fault}"
    if not any(table.rows for table in tables.values()):
        yield f"{PAGE} has no rows"


def unproved(top):
    """A line for each row in which some of the cause is not proved, or is tested alone."""
    for name, table in tables_in((top / PAGE).read_text()).items():
        for calls, answers, cause in table.rows:
            if "Not proved" in cause or TESTS.search(cause):
                yield f"{name}: {', '.join(calls)}: {', '.join(answers)}: {cause}"


def main():
    wanted = [word for word in sys.argv[1:] if not word.startswith("--")]
    if "--check" in sys.argv[1:]:
        found = list(differences(TOP))
        for line in found:
            print(line, file=sys.stderr)
        sys.exit(1 if found else 0)
    if "--unproved" in sys.argv[1:]:
        print("\n".join(unproved(TOP)))
        return
    crates = crates_in(TOP)
    for name in wanted or sorted(crates):
        print(f"{name}:")
        for call, answers in answers_by_call(crates[name], crates).items():
            clauses = sorted(clauses_of(crates[name].calls[call], crates))
            print(f"    {call}: {', '.join(answers)} [{' '.join(clauses)}]")


if __name__ == "__main__":
    main()
