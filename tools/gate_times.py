#!/usr/bin/env python3
"""Measures what each step of the gate takes: each proof, each crate's tests, each must-fail edit and each program.

`gate_times.py [-o RECORD] COMMAND..` runs the command (`rt ci`, or `rt ci NAME..` for some crates), looks twice a second
at the checks that it has started, and adds a line for each that has ended to RECORD (gate-times.jsonl). What the command
takes from an earlier run isn't measured: a whole record wants a machine on which nothing is kept, or several runs.
`gate_times.py [-o RECORD] --table` prints the table of a record, of each step as it was measured last, below a line with
the day and the machine; with `--write FILE` it replaces the table in FILE, between the lines `<!-- gate times -->` and
`<!-- end of gate times -->`.
"""
import argparse
import dataclasses
import datetime
import json
import os
import pathlib
import subprocess
import sys
import threading
import time

CRATES = pathlib.Path(__file__).resolve().parent.parent / "crates"
TICKS = os.sysconf("SC_CLK_TCK")
OPENING, CLOSING = "<!-- gate times -->\n", "<!-- end of gate times -->\n"
# What a step's key is called in the table; `edit` is followed by the edit's name.
PROOF, TESTS, SEED, EDIT = "proof", "tests", "seed", "edit "
# A crate that takes fewer minutes of processor time has no row of its own.
SMALL = 2


@dataclasses.dataclass
class Check:
    """A check that was seen at work: its step, when it was seen first and last, and its processor time."""

    crate: str
    step: str
    first: float
    last: float
    processor: float


def processes():
    """Each process's number, its parent's, when it started, its words, and its seconds of processor time, ended children included."""
    for number in filter(str.isdigit, os.listdir("/proc")):
        try:
            with open(f"/proc/{number}/stat") as file:
                fields = file.read().rpartition(")")[2].split()
            with open(f"/proc/{number}/cmdline", "rb") as file:
                words = file.read().decode(errors="replace").split("\0")
        except OSError:
            continue
        yield int(number), int(fields[1]), fields[19], words, sum(map(int, fields[11:15])) / TICKS


def below(top, parents):
    """Whether a process was started by `top`, given each process's parent."""
    return lambda number: any(it == top for it in ancestors(number, parents))


def ancestors(number, parents):
    while number in parents:
        number = parents[number]
        yield number


def edits_of(crate):
    """Each must-fail edit of a crate: its name, with the new lines by the file that they belong into."""
    for path in sorted((CRATES / crate / "must-fail").glob("*.edit")):
        file, new = "", {}
        for line in path.read_text().splitlines():
            if line.startswith("file: "):
                file = line.removeprefix("file: ").strip()
            elif line.startswith("new:"):
                new.setdefault(file, []).append(line.removeprefix("new:").strip())
        yield path.stem, new


def edit_in(room, crate):
    """Which edit of the crate a copy of it has, if any."""
    for name, new in edits_of(crate):
        texts = {file: (room / file).read_text(errors="replace") for file in new if (room / file).is_file()}
        own = {file: (CRATES / crate / file).read_text(errors="replace") for file in texts}
        if texts and texts != own and all(line in texts.get(file, "") for file, lines in new.items() for line in lines):
            return name
    return None


def step_of(number, words, crate):
    """What a check is for. A crate's copy is checked for an edit, or, as it is, for what its edits begin with."""
    room = pathlib.Path(os.readlink(f"/proc/{number}/cwd"))
    if "/rt-edit-" in f"{room}/":
        edit = edit_in(room, crate)
        return EDIT + edit if edit else SEED
    return TESTS if "--test" in words else PROOF


def look(top, seen):
    """Notes each check below `top` that is at work, and what it has taken so far."""
    found = list(processes())
    parents = {number: parent for number, parent, *_ in found}
    checks = {number for number, _, _, words, _ in found if words[0].endswith("/rattle") and "--crate-name" in words}
    is_below, now = below(top, parents), time.time()
    for number, parent, start, words, processor in found:
        # A check that works as several processes counts for all of them.
        if number not in checks or parent in checks or not is_below(number):
            continue
        if (number, start) not in seen:
            crate = words[words.index("--crate-name") + 1]
            try:
                seen[number, start] = Check(crate, step_of(number, words, crate), now, now, processor)
            except OSError:
                continue
        check = seen[number, start]
        check.last, check.processor = now, processor


def measure(command, record):
    """Runs the command and writes a line for each check that it did, and one for the whole."""
    seen, begun = {}, time.time()
    started = subprocess.Popen(command)
    has_ended = threading.Event()

    def watch():
        while not has_ended.wait(0.5):
            look(started.pid, seen)

    watcher = threading.Thread(target=watch)
    watcher.start()
    _, status, used = os.wait4(started.pid, 0)
    has_ended.set()
    watcher.join()
    with open(record, "a") as file:
        for check in seen.values():
            print(json.dumps(dataclasses.asdict(check)), file=file)
        whole = {"command": " ".join(command), "first": begun, "last": time.time(), "processor": used.ru_utime + used.ru_stime}
        print(json.dumps(whole), file=file)
    return os.waitstatus_to_exitcode(status)


def latest(record):
    """Of each crate, its steps as a run measured them last: the minutes of processor time, and by the clock."""
    runs, crates = [[]], {}
    with open(record) as file:
        for line in map(json.loads, file):
            if "command" in line:
                runs.append([])
            else:
                runs[-1].append(line)
    for run in runs:
        sums = {}
        for line in run:
            of = sums.setdefault((line["crate"], line["step"]), [0.0, 0.0])
            of[0] += line["processor"] / 60
            of[1] += (line["last"] - line["first"]) / 60
        for (crate, step), minutes in sums.items():
            crates.setdefault(crate, {})[step] = minutes
    return {crate: steps for crate, steps in crates.items() if (CRATES / crate / "src").is_dir()}


def cell(steps, step):
    return "{:.1f}/{:.1f}".format(*steps[step]) if step in steps else ""


def machine():
    """The day, the processors and the commit that were measured, as far as the system tells."""
    models = {line.partition(":")[2].strip() for line in pathlib.Path("/proc/cpuinfo").read_text().splitlines() if line.startswith("model name")}
    commit = subprocess.run(["git", "rev-parse", "--short", "HEAD"], capture_output=True, text=True, cwd=CRATES).stdout.strip()
    processors = f"{os.cpu_count()} processors" + "".join(f", {model}" for model in sorted(models))
    return f"{datetime.date.today()}; {processors}; commit {commit or 'unknown'}"


def steps_left(crate, steps):
    """The steps of a crate without those of edits that it doesn't have any more."""
    edits = {EDIT + name for name, _ in edits_of(crate)}
    return {step: it for step, it in steps.items() if step in (PROOF, TESTS) or step in edits or (step == SEED and edits)}


def table(crates):
    """The table's lines, the crate that takes most first, and those that take least together."""
    lines = [f"Measured on {machine()}.", "", "| Crate | Its proof | Its tests | What its edits begin with | Its edits, each | Sum of processor time |", "|---|---|---|---|---|---|"]
    total = lambda steps: sum(processor for processor, _ in steps.values())
    sums = dict.fromkeys(("proof", "tests", "edits"), 0.0)
    small = []
    crates = {crate: steps_left(crate, steps) for crate, steps in crates.items()}
    for crate, steps in sorted(crates.items(), key=lambda it: -total(it[1])):
        names = {name for name, _ in edits_of(crate)}
        edits = ", ".join(f"{steps[EDIT + name][0]:.1f}" for name in sorted(names) if EDIT + name in steps)
        if total(steps) < SMALL:
            small.append(total(steps))
        else:
            lines.append(f"| `{crate}` | {cell(steps, PROOF)} | {cell(steps, TESTS)} | {cell(steps, SEED)} | {edits} | {total(steps):.1f} |")
        for step, (processor, _) in steps.items():
            sums[step if step in sums else "edits"] += processor
    lines.append(f"| {len(small)} others | | | | | {sum(small):.1f} |")
    lines.append(f"| all | {sums['proof']:.0f} | {sums['tests']:.0f} | | {sums['edits']:.0f} with what they begin with | {sum(sums.values()):.0f} |")
    return "".join(f"{line}\n" for line in lines)


def replaced(path, lines):
    """The text of a file with these lines as its table."""
    text = path.read_text()
    if OPENING not in text or CLOSING not in text:
        sys.exit(f"{path} has no lines {OPENING.strip()} and {CLOSING.strip()}")
    before, _, rest = text.partition(OPENING)
    return f"{before}{OPENING}{lines}{CLOSING}{rest.partition(CLOSING)[2]}"


def main():
    words = argparse.ArgumentParser(description=__doc__, formatter_class=argparse.RawDescriptionHelpFormatter)
    words.add_argument("-o", dest="record", default="gate-times.jsonl", help="the file of what was measured")
    words.add_argument("--table", action="store_true", help="print the table of what was measured")
    words.add_argument("--write", type=pathlib.Path, metavar="FILE", help="replace the table in this file")
    words.add_argument("command", nargs=argparse.REMAINDER)
    said = words.parse_args()
    if said.command:
        sys.exit(measure(said.command, said.record))
    lines = table(latest(said.record))
    if said.write:
        said.write.write_text(replaced(said.write, lines))
    else:
        print(lines, end="")


main()
