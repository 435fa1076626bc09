#!/usr/bin/env python3
"""The tools that users get, on cases with answers: flow-lint, flow-dot, flow-trace and the completion; and list_answers.

Prints nothing where each answers as it should; else the tests that fail, and ends with status 1.
"""
import html
import importlib.machinery
import importlib.util
import io
import json
import pathlib
import re
import subprocess
import sys
import tempfile
import unittest
import xml.etree.ElementTree

import format_tables
import list_answers
from flow_tools import dot, journals, timeline
from flow_tools.graph_format import OPERATIONS, field_names
from flow_tools.json_places import JsonError, decoded, lines_of, parse
from flow_tools.plans import UnreadableFile, load, plan_of
from flow_tools.refusals import refusals

TOP = pathlib.Path(__file__).resolve().parent.parent
TABLE = TOP / "crates/test_graphs/stdin"
# The field and the object that a refusal names.
FIELD_REFUSAL = re.compile(r"(?:bad field|no such name in|repeated name in) (.*?) (?:in|of) "
                           r"((?:file|semaphore|task|module)[ \d\w]*)$")


def tool(name):
    """A tool as a module."""
    loader = importlib.machinery.SourceFileLoader(name.replace("-", "_"), str(TOP / "tools" / name))
    module = importlib.util.module_from_spec(importlib.util.spec_from_loader(loader.name, loader))
    loader.exec_module(module)
    return module


def lint(text):
    """What flow-lint says of a file, without the file's name."""
    return lint_bytes(text.encode())


def lint_bytes(data):
    lines = lines_of(data)
    return [finding.line("", lines).removeprefix(":") for finding in LINT.findings(data)]


LINT = tool("flow-lint")


def graph(*tasks, **others):
    return json.dumps({"tasks": list(tasks), **others})


def task(name, op, *to, **fields):
    return {"name": name, "op": op, **fields, **({"to": list(to)} if to else {})}


def read(to):
    return task("r", "read", to, text="t")


READ = read("a")
# Signs that nobody sees, or that XML has not, and how the tools write them.
UNSEEN = "\x01\x1b[31m\x9b\uffff\n\u2028\u202e"
UNSEEN_SHOWN = r"\u0001\u001b[31m\u009b\uffff\u000a\u2028\u202e"

# A file, and a part of each line that flow-lint has for it.
ERRORS = [
    ('{\n "tasks": [\n  {"name": "a", "op": "sort"}\n  {"name": "b", "op": "sort"} ]}',
     ['4:3: error: "{" where "," or "]" in a list']),
    ('{"tasks": [1, ]}', ['1:13: error: a comma before "]"']),
    ('{"tasks": []} x', ['1:15: error: "x" behind the end']),
    ('{"tasks":\n [{"name": "a", "op": "suort"}]}',
     ['2:23: error: task "a": "suort" is no operation here; did you mean "sort"?']),
    (graph(READ, task("a", "sort", n=3)),
     ['task "a": the field "n" is unknown for "sort", which has no field of its own']),
    (graph(task("a", "head", N=3)),
     ['the field "n" is missing', 'the field "N" is unknown for "head", which has n; did you mean "n"?']),
    (graph(task("a", "head", n=-1)),
     ["is -1, and has to be a whole number from 0 to 1,000,000,000"]),
    (graph(task("a", "read", "cuont", text="t"), task("count", "count")),
     ['"to" names "cuont", and no task of this graph has this name; did you mean "count"?']),
    (graph(task("a", "input", acquire=["s"]), semaphores=[{"name": "s", "max": 1}]),
     ['"acquire" is unknown in version 1 of the format, which has holds']),
    (graph(task("a", "module", module="m"), modules=[{"name": "n", "tasks": []}]),
     ['"module" names "m", and no module of the file']),
    (graph(task("a", "input"), task("a", "input")), ['another task before it has the name "a"']),
    ('{"tasks": [\n1,\n{"name": "a", "op": "input"},\n2]}', ["2:1: error: ", "4:1: error: "]),
    ('{"tasks": [{"name": "a", "op": "input", "to":\n["",\n"a", "ä"]}]}',
     ["2:2: error: ", '3:6: error: task "a": the field "to" has an item that is "ä"']),
    (graph(task("a", "pass", "a")), ["none can start", "waits for itself: a -> a"]),
]
BAD_BYTES = [
    (b'{"tasks": [\n"\xc3\xa4\xff', "2:3: error: a byte that is no UTF-8"),
    (b'\xff\n{', "1:1: error: a byte that is no UTF-8"),
    (b'\xef\xbb\xbf{"tasks": []}', "1:1: error: a byte order mark, which JSON has not"),
]
# A file with a number, and what flow-lint says of it: the first numbers are JSON, the others too large for it.
NUMBER_FILE = '{{"tasks": [{{"name": "a", "op": "head", "n": {}}}]}}'
OTHER_NUMBERS = ["1" * 309, "-" + "1" * 309, "0." + "1" * 5_000, "1" * 5_000 + "e-5000", "1e-" + "1" * 5_000]
TOO_LARGE = ["9" * 309, "1" * 310, "-" + "1" * 310, "1" * 5_000, "-" + "1" * 5_000, "1e" + "1" * 5_000]
WARNINGS = [
    (graph(READ, task("a", "sort")), []),
    (graph(READ, task("a", "sort", "c"), task("b", "count", "c"), task("c", "pass")),
     ['task "b": no task leads to it, so "count" starts by itself']),
    (graph(read("i"), task("i", "ifmore", "a", "b", "c", n=1), *(task(name, "pass") for name in "abc")),
     ['task "i": "ifmore" never chooses "c": it chooses among the first 2 alone']),
    (graph(read("o"), task("o", "route", "a", "b", words=["x"]), task("a", "pass"), task("b", "pass")),
     ['"route" never chooses "b": it chooses the first alone']),
    (graph(READ, task("a", "sort", "b"), task("b", "uniq", "a", "c"), task("c", "pass")),
     ['task "a": waits in a circle without a condition: a -> b -> a',
      'task "a": it waits for "b", which may end several times']),
    (graph(read("i"), task("i", "ifhas", "y", "n", word="x"), task("y", "sort", "j"), task("n", "uniq", "j"),
           task("j", "pass")),
     ['task "j": it waits for both "y" and "n", of which "i" lets only one start']),
    (graph(read("i"), task("i", "ifhas", "y", "n", word="x"), task("y", "back", "j"), task("n", "back", "j"),
           task("j", "pass")), []),
    (graph(read("b"), task("b", "skip", "m", "j", n=1), task("m", "ifmore", "b", "d", n=1), task("d", "pass"),
           task("o", "read", "j", text="u"), task("j", "match")),
     ['task "j": it waits for "b", which may end several times, and for "o", which is in no loop']),
    (graph(READ, task("a", "match")), ["no second predecessor brings lines to match with"]),
    (graph(READ, task("a", "read", text="u")), ['"read" takes nothing of what "r" passes to it']),
    (graph(READ, task("a", "sort"), semaphores=[{"name": "s", "max": 1}]),
     ['semaphore "s": no task takes a unit of it']),
    (graph(READ, task("a", "sort"), modules=[{"name": "m", "tasks": []}]), ['module "m": no task runs it']),
    ('{"tasks": [{"name": "a", "op": "input", "op": "input"}]}', ['the field "op" occurs twice here']),
]


class Lint(unittest.TestCase):
    def test_cases(self):
        for text, wanted in ERRORS + WARNINGS:
            found = sorted(lint(text))
            self.assertEqual(len(found), len(wanted), f"{text}\n{found}")
            for part in wanted:
                self.assertTrue(any(part in line for line in found), f"{part}\n{text}\n{found}")

    def test_errors_and_warnings(self):
        self.assertTrue(all("error: " in line for text, _ in ERRORS[:-1] for line in lint(text)))
        self.assertTrue(all("warning: " in line for text, _ in WARNINGS for line in lint(text)))

    def test_bytes(self):
        for data, line in BAD_BYTES:
            self.assertEqual(lint_bytes(data), [line])
            with tempfile.NamedTemporaryFile() as file:
                file.write(data)
                file.flush()
                with self.assertRaises(UnreadableFile) as refused:
                    load(file.name)
                self.assertEqual(str(refused.exception), f"{file.name}:{line}".replace("error: ", ""))

    def test_long_numbers(self):
        for numbers, part in ((OTHER_NUMBERS, "and has to be a whole number"), (TOO_LARGE, ", which is too large")):
            for number in numbers:
                found = lint(NUMBER_FILE.format(number))
                self.assertEqual([part in line and len(line) < 160 for line in found], [True], found)

    def test_unseen(self):
        """No name of a file makes a line of its own, or reaches a terminal as it stands."""
        unseen = task(UNSEEN, "module", UNSEEN, module=UNSEEN, **{UNSEEN: 1})
        again = graph(unseen, unseen, modules=[{"name": UNSEEN, "tasks": [unseen, {**unseen, "op": UNSEEN}]}])
        twice = f'{{"tasks": [], {json.dumps(UNSEEN)}: 1, {json.dumps(UNSEEN)}: 2}}'
        for text in (again, twice, f'{{"x": 1 {UNSEEN}', f'{{"{UNSEEN[3]}" 1', f'{{"tasks": [{"x" * 5_000}]}}'):
            found = LINT.findings(text.encode())
            self.assertTrue(found, text)
            for line in (finding.line("\n", lines_of(text.encode())) for finding in found):
                self.assertTrue(line.startswith(r"\u000a:") and len(line) < 400, line)
                self.assertFalse(set(line) & set(UNSEEN.replace("[31m", "")), line)

    def test_examples(self):
        """Of each example it says what lint.txt says, or nothing."""
        for folder in sorted((TOP / "examples").iterdir()):
            wanted = folder / "lint.txt"
            found = "".join(f"{line}\n" for line in lint((folder / "graph.json").read_text()))
            self.assertEqual(found, wanted.read_text() if wanted.exists() else "", folder.name)

    def test_refused_files(self):
        """It has errors for the files that the program refuses alone, with what the program names among them."""
        for line in TABLE.read_text().split("\n")[:-1]:
            said, _, file = line.partition(" | ")
            self.assertTrue(self.agrees(said, file), line)

    def agrees(self, said, file):
        try:
            found = refusals(parse(decoded(file.encode())))
        except JsonError:
            return said == "not JSON"
        if said.startswith("{"):
            return not found
        named = FIELD_REFUSAL.match(said)
        if named:
            return any((finding.field, finding.spot) == named.groups() for finding in found)
        return bool(found) and said != "not JSON"

    def test_operations(self):
        known = {name: set(field_names(fields)) for name, fields in OPERATIONS.items()}
        self.assertEqual(known, format_tables.defined_operations())

    def test_unreadable(self):
        for name in ("nowhere.json", "."):
            done = subprocess.run([TOP / "tools/flow-lint", name], capture_output=True, text=True, cwd=TOP)
            self.assertEqual((done.returncode, done.stdout, done.stderr.count("\n")), (2, "", 1))


class Dot(unittest.TestCase):
    def test_log_join(self):
        text = dot.dot(load(TOP / "examples/log-join/graph.json"))
        for part in ("t9 [shape=diamond", "t9 -> t8 [style=dashed, label=<more than 1>]", "t8 -> t9\n",
                     "subgraph cluster_0", "m0_0 -> m0_1\n", "<i>holds io</i>", "io (2)", "module clean"):
            self.assertIn(part, text)
        self.assertEqual(text.count("style=dashed"), 2)

    def test_marks(self):
        """What means something to Graphviz is written so that it doesn't."""
        text = dot.dot(plan_of(parse(graph(task("a", "keep", word='<"&>\n'), task("b", "read", text=r"\N")))))
        self.assertIn(r"&lt;\\&quot;&amp;&gt;\\n", text)
        self.assertIn(r"read \\N", text)

    def test_unseen(self):
        """What XML has not is written as in JSON, and no such escape is cut."""
        tasks = [task("r", "read", "a", text="x" + UNSEEN), task("a", "keep", "i", word="é" * 22 + UNSEEN),
                 task("i", "ifhas", "b", word=UNSEEN), task("b", "pass")]
        text = dot.dot(plan_of(parse(graph(*tasks))))
        labels = [html.unescape(label).replace("\\\\", "\\") for label in re.findall(r"label=<(.*)>", text)]
        self.assertEqual(labels[0], "<b>r</b><br/>read x" + UNSEEN_SHOWN)
        self.assertEqual(labels[1], f'<b>a</b><br/>keep "{"é" * 22}..."')
        self.assertIn(f'"{UNSEEN_SHOWN[:22]}..."', labels)
        for label in labels:
            xml.etree.ElementTree.fromstring(f"<label>{html.escape(label)}</label>")

    def test_examples(self):
        for path in sorted((TOP / "examples").glob("*/graph.json")):
            try:
                text = dot.dot(load(path))
            except UnreadableFile as error:
                self.assertEqual(str(error).count("\n"), 0)
                continue
            self.assertEqual(text.count("{"), text.count("}"))


class Trace(unittest.TestCase):
    def journal(self, text, tasks):
        with tempfile.NamedTemporaryFile("w") as file:
            file.write(text)
            file.flush()
            return journals.read_journal(file.name, tasks)

    def test_lanes(self):
        entries = ["start 0 source -", "start 1 source -", "end 0 0 plain", "start 2 strong 2", "fault 1 long:9",
                   "drop 2 strong halted"]
        journal = self.journal("\n".join(["flow journal 2", *entries, ""]), 3)
        spans = [(span.task, span.start, span.end, span.lane) for span in journal.spans]
        self.assertEqual(spans, [(0, 0, 2, 0), (1, 1, 4, 1), (2, 3, None, 0)])
        self.assertEqual([(drop.task, drop.index, drop.why) for drop in journal.drops], [(2, 5, "halted")])

    def test_refused(self):
        for text in ("", "flow journal 2", "flow journal 3\n", "flow journal 2\nstart 5 source -\n",
                     "flow journal 2\nend 0 - plain\n", "flow journal 2\nstart 0 source\n",
                     "## round 1\nflow journal 2\n", f"flow journal 2\nstart {'1' * 5_000} source -\n"):
            with self.assertRaises(UnreadableFile, msg=text) as refused:
                self.journal(text, 2)
            self.assertEqual("several rounds" in str(refused.exception), text.startswith("## round"), text)

    def test_pictures(self):
        folder = TOP / "examples/errors-by-service"
        plan = load(folder / "graph.json")
        journal = journals.read_journal(folder / "journal.txt", len(plan.top.tasks))
        self.assertEqual(journal.lanes(), 3)
        root = xml.etree.ElementTree.parse(io.StringIO(timeline.svg(plan, journal, "<run>"))).getroot()
        self.assertEqual(len(root.findall("{*}g")), 11)
        self.assertIn("no seconds", "".join(root.itertext()))
        root = xml.etree.ElementTree.fromstring(timeline.svg(plan, journal, UNSEEN))
        self.assertIn(UNSEEN_SHOWN, "".join(root.itertext()))
        events = json.loads(timeline.chrome(plan, journal, "run"))["traceEvents"]
        self.assertEqual([event["name"] for event in events if event["ph"] == "X"][:2], ["web", "web-errors"])
        self.assertEqual(next(event["dur"] for event in events if event["name"] == "web-errors"), 8)


class Completion(unittest.TestCase):
    CALL = """source share/flow.bash
              compopt() { :; }
              COMP_WORDS=("$@") COMP_CWORD=$(($# - 1))
              _flow
              echo "${COMPREPLY[*]}" """

    def words(self, *words):
        call = ["bash", "-c", self.CALL, "bash", *words]
        return subprocess.run(call, capture_output=True, text=True, cwd=TOP, check=True).stdout.split()

    def test_words(self):
        self.assertEqual(self.words("flow", ""), [command.name for command in format_tables.commands()])
        self.assertEqual(self.words("flow", "pro"), ["profile"])
        self.assertEqual(self.words("flow", "run", "x", "--wo"), ["--workers"])
        self.assertEqual(self.words("flow", "check", "x", "--"), [])
        self.assertEqual(self.words("flow", "run", "x", "--workers", "1"), ["1", "16"])
        self.assertEqual(self.words("flow", "run", "x", "--until", ""), [])
        self.assertIn("Makefile", self.words("flow", "run", ""))


# A crate with a call of each kind, and a page that has a row for each of its answers.
SMALL_ROOT = "mod calls;\npub use calls::{Asked, Made, Reads, Small, asks, hands_on, is_open, makes};\n"
SMALL_CALLS = """
use outside_io::{Back, NoMemory};

pub enum Asked {
    /// There is one.
    Yes(u32),
    No { why: u8 },
}
pub struct Made<T> {
    pub item: T,
    pub asked: Asked,
    pub whole: bool,
}
pub trait Reads {
    fn read(&self) -> Option<u8>
        ensures found { IsFound result };
}
impl<T: Copy> Reads for Small<T> {
    fn read(&self) -> Option<u8> {
        None
    }
}
impl<T: Copy> Small<T> {
    pub fn add(&mut self, item: T) -> Result<(), Back<T>>
        requires { true }
        ensures ok { OnOk result ({ self.new } ≡ item) }
        ensures back { IfErr result (λ back. back.item ≡ item) }
    {
        inner(item)
    }
    fn hidden(&self) -> Option<u8> {
        None
    }
}
pub fn asks<F>(f: F) -> Result<Asked, NoMemory>
where
    F: Fn(u8) -> u8,
    ensures { IfOk result IsAsked }
{
    f(1)
}
pub fn makes() -> Made<u8>
    ensures whole { result.whole ≡ true }
{
    made(1)
}
pub fn is_open() -> bool {
    true
}
pub fn hands_on(asked: Asked) -> Asked
    ensures { result ≡ asked }
{
    asked
}
"""
SMALL_TEST = "#[test]\nfn it_is_open(rt: HostRuntime) -> Result<(), Fail> {\n"
SMALL_PAGE = """
## `small`

| Call | Answer | Cause |
|---|---|---|
| `asks` | `Yes`, `No` | `ensures`: one is there, or none |
| `asks` | `NoMemory` | Free |
| `makes` | `asked: Yes`, `asked: No` | Not proved |
| `makes` | `whole: true` | `whole`: always |
| `makes` | `whole: false` | Not returned (`whole`) |
| `Reads::read`, `Small::read` | `Some`, `None` | `found`: as it is held |
| `is_open` | `true`, `false` | Tested by `it_is_open` |

Refused only if an allocation fails: `Small::add`, which gives the item back (`back`).

Not refused: `hands_on`.
"""
# What is put in place of a part of that page, and what is said then.
CHANGED_PAGES = [
    ("", "", ""),
    ("| `asks` | `NoMemory` | Free |\n", "", "asks has no row for NoMemory"),
    ("| `asks` | `NoMemory` |", "| `asks` | `NoMemory`, `Yes` |", "asks has 2 rows for Yes"),
    ("| `asks` | `NoMemory` |", "| `asks` | `NoMemory`, `Maybe` |", "asks doesn't answer Maybe"),
    ("| `asks` | `NoMemory` |", "| `asks`, `hidden` | `NoMemory` |", "hidden isn't a public call"),
    ("`ensures`: one is", "`given`: one is", "asks has no clause given"),
    ("returned (`whole`)", "returned (`half`)", "makes has no clause half"),
    ("`found`: as", "As", "the cause of Some, None of Reads::read, Small::read names no clause"),
    ("by `it_is_open`", "by `it_is_shut`", "there is no test it_is_shut"),
    ("back (`back`)", "back (`front`)", "Small::add has no clause front"),
    (" `Small::add`, which", " `Small::add`, `asks`, which", "asks isn't refused for memory alone"),
    ("Not refused: `hands_on`", "Not refused: `hands_on`, `asks`", "asks has both a row and a line for NoMemory"),
    ("Not refused: `hands_on`", "Not refused: `hands_on`, `nobody`", "nobody has no answers to be listed"),
    ("Not refused: `hands_on`", "Not refused: none", "hands_on has no row for Yes"),
    ("## `small`", "## `large`", "docs/ANSWERS.md has no table for small"),
    ("## `small`", "## `large`", "docs/ANSWERS.md has a table for large, which isn't there"),
    (SMALL_PAGE, "", "docs/ANSWERS.md has no rows"),
]


class Answers(unittest.TestCase):
    def differences(self, page):
        with tempfile.TemporaryDirectory() as folder:
            top = pathlib.Path(folder)
            for name, text in [("docs/ANSWERS.md", page), ("crates/small/src/lib.rt", SMALL_ROOT),
                               ("crates/small/src/calls.rt", SMALL_CALLS), ("crates/test_small/src/all.rt", SMALL_TEST)]:
                (top / name).parent.mkdir(parents=True, exist_ok=True)
                (top / name).write_text(text)
            return list(list_answers.differences(top))

    def test_pages(self):
        for part, other, wanted in CHANGED_PAGES:
            self.assertIn(part, SMALL_PAGE)
            found = self.differences(SMALL_PAGE.replace(part, other) if part else SMALL_PAGE)
            self.assertEqual(any(wanted in line for line in found), wanted != "", f"{wanted}\n{found}")


def main():
    said = io.StringIO()
    tests = unittest.defaultTestLoader.loadTestsFromModule(sys.modules["__main__"])
    result = unittest.TextTestRunner(stream=said, verbosity=0).run(tests)
    if not result.wasSuccessful():
        print(said.getvalue(), file=sys.stderr)
        sys.exit(1)


if __name__ == "__main__":
    main()
