#!/usr/bin/env python3
"""Proves and builds the libraries that a crate stands on, as many side by side as there are processors.

    build_libraries.py CRATE [--processors N]

`rt` holds the folder of the crate that it builds and those of all crates below it, so that a second `rt` in the same
clone waits for the first. So each library is built by an `rt lib` of its own in a copy of its sources and of those
below it, whose built libraries are links; what it made then goes to crates/NAME/out, where `rt run` finds it. The
copies are in .git, where no `rt` looks for sources, until the call ends. A library begins when those below it are
built, first the one with the longest way above it. Each is proved by one process: several for one library are a little
faster and cost a third more processor time. Those that are built already take no time. Prints a line when a library
begins and one when it ends, with those that are at work and how many wait, and at last the processor time. Where one
fails, prints what `rt` said of it and ends with status 1.
"""
import argparse
import concurrent.futures
import dataclasses
import fcntl
import hashlib
import os
import pathlib
import re
import resource
import shutil
import signal
import subprocess
import sys
import threading
import time

TOP = pathlib.Path(__file__).resolve().parent.parent
COPIES = (TOP / ".git" if (TOP / ".git").is_dir() else TOP / "out") / "libraries"
PARTS = ("src", "specs", "proofs")


# ---- crates

@dataclasses.dataclass
class Crate:
    """A crate, its line of crates.txt, and the crates of the repository that the line names."""
    name: str
    line: str
    uses: list

    @property
    def folder(self):
        return TOP / "crates" / self.name

    @property
    def library(self):
        return self.folder / "out/rlib"

    def files(self):
        return sorted(file for part in PARTS for file in (self.folder / part).rglob("*") if file.is_file())

    def count_lines(self):
        return sum(file.read_bytes().count(b"\n") for file in self.files())


def read_crates():
    """The crates of crates.txt by their names."""
    rows = {}
    for row in (TOP / "crates.txt").read_text().splitlines():
        row = row.partition("#")[0].strip()
        if row:
            head, _, libraries = row.partition(":")
            rows[head.split()[0]] = row, libraries.split()
    return {name: Crate(name, row, [other for other in libraries if other in rows])
            for name, (row, libraries) in rows.items()}


def below(crates, name):
    """The crates below this one, each after those that it uses."""
    found = []
    for other in crates[name].uses:
        found += [lower for lower in [*below(crates, other), crates[other]] if lower not in found]
    return found


# ---- what is built already

class Sums:
    """For each library a sum of all that it is made from, of the libraries below it, and of what `rt` notes beside it."""

    def __init__(self):
        self.by_name = {}

    def look(self, crate):
        """Takes the sum anew; those of the crates below are there."""
        made = hashlib.sha256(crate.line.encode())
        for file in crate.files():
            made.update(f"\n{file.relative_to(crate.folder)}\n".encode() + file.read_bytes())
        noted = crate.library / "stamp"
        made.update(noted.read_bytes() if noted.is_file() else b"\nnone\n")
        made.update("".join(self.by_name[other] for other in crate.uses).encode())
        self.by_name[crate.name] = made.hexdigest()

    def keep(self, crate):
        """Notes that the library is built."""
        self.look(crate)
        (crate.folder / "out/library.sum").write_text(self.by_name[crate.name])

    def is_built(self, crate):
        self.look(crate)
        kept = crate.folder / "out/library.sum"
        return crate.library.is_dir() and kept.is_file() and kept.read_text() == self.by_name[crate.name]


# ---- copies

def link_or_copy(one, other):
    try:
        os.link(one, other)
    except OSError:
        shutil.copyfile(one, other)


def copied(crates, crate):
    """The folder of a copy of a crate, with what `rt` kept of it, beside the crates below it, which are built."""
    place = COPIES / crate.name
    lower = below(crates, crate.name)
    for other in [*lower, crate]:
        for part in PARTS:
            if (other.folder / part).is_dir():
                shutil.copytree(other.folder / part, place / "crates" / other.name / part)
    for other in lower:
        shutil.copytree(other.library, place / "crates" / other.name / "out/rlib", copy_function=link_or_copy)
    (place / "crates.txt").write_text("".join(f"{other.line}\n" for other in [*lower, crate]))
    shutil.copyfile(TOP / "HANDLES", place / "HANDLES")
    folder = place / "crates" / crate.name
    move_out(crate.folder, folder)
    return folder


def move_out(one, other):
    """Moves the folder out/ of a crate from one copy of it to another."""
    if (one / "out").is_dir() and other.is_dir():
        shutil.rmtree(other / "out", ignore_errors=True)
        (one / "out").rename(other / "out")


def give_back():
    """Moves what copies have to the crates' own folders, also after a call that was killed, and removes the copies."""
    for place in COPIES.glob("*"):
        move_out(place / "crates" / place.name, TOP / "crates" / place.name)
    shutil.rmtree(COPIES, ignore_errors=True)


def held(crates):
    """What keeps every other `rt` out of these crates' folders until it is closed."""
    files = [os.open(crate.folder, os.O_RDONLY) for crate in crates]
    for file, crate in zip(files, crates):
        try:
            fcntl.flock(file, fcntl.LOCK_EX | fcntl.LOCK_NB)
        except BlockingIOError:
            print(f"waiting for another rt to finish in {crate.folder}", flush=True)
            fcntl.flock(file, fcntl.LOCK_EX)
    return files


# ---- the calls

def free_memory():
    """Most of the bytes that are free."""
    kilobytes = int(re.search(r"MemAvailable:\s+(\d+)", pathlib.Path("/proc/meminfo").read_text())[1])
    return kilobytes * 900


class Failed(Exception):
    """A library that wasn't built, and what `rt` said of it."""


class Builds:
    """The libraries that wait, and those at work."""

    def __init__(self, crates, wanted, sums, processors):
        self.crates = crates
        self.sums = sums
        self.processors = processors
        self.memory = free_memory()
        self.lines = {crate.name: crate.count_lines() for crate in wanted}
        # How many lines there are to prove from the beginning of a library to the end of all, one after another.
        self.ways = {}
        for crate in reversed(wanted):
            above = [self.ways[other.name] for other in wanted if crate.name in other.uses]
            self.ways[crate.name] = self.lines[crate.name] + max(above, default=0)
        self.waiting = list(self.lines)
        self.at_work = []
        self.begun = time.monotonic()
        self.calls = []
        self.is_over = False
        self.lock = threading.Lock()

    def run(self):
        with concurrent.futures.ThreadPoolExecutor(self.processors) as pool:
            running = {}
            try:
                while self.waiting or running:
                    for name in self.next():
                        running[pool.submit(self.build, self.crates[name])] = name
                    for call in concurrent.futures.wait(running, return_when=concurrent.futures.FIRST_COMPLETED).done:
                        self.ended(running.pop(call), call)
            finally:
                self.end_calls()

    def next(self):
        """Those that begin now."""
        missing = {*self.waiting, *self.at_work}
        ready = [name for name in self.waiting if missing.isdisjoint(self.crates[name].uses)]
        for name in sorted(ready, key=lambda name: -self.ways[name]):
            if self.may_begin(name):
                self.waiting.remove(name)
                self.at_work.append(name)
                self.say("begins", name)
                yield name

    def may_begin(self, name):
        """Whether there is a processor for a library now, and memory, of which the only one at work may have all."""
        room = self.memory - sum(self.bytes_for(other) for other in self.at_work)
        return len(self.at_work) < self.processors and (not self.at_work or self.bytes_for(name) <= room)

    def bytes_for(self, name):
        """The memory that a library is likely to take."""
        return 1_000_000_000 + 500_000 * self.lines[name]

    def build(self, crate):
        folder = copied(self.crates, crate)
        with self.lock:
            if self.is_over:
                raise Failed("ended before it began")
            call = subprocess.Popen(["rt", "lib", "--jobs", "1"], cwd=folder, stdin=subprocess.DEVNULL,
                                    stdout=subprocess.PIPE, stderr=subprocess.STDOUT, text=True, errors="replace")
            self.calls.append(call)
        said, _ = call.communicate()
        move_out(folder, crate.folder)
        shutil.rmtree(COPIES / crate.name, ignore_errors=True)
        if call.returncode:
            raise Failed(f"{said}{crate.name} was not built: rt lib ended with status {call.returncode}")

    def ended(self, name, call):
        self.at_work.remove(name)
        call.result()
        self.sums.keep(self.crates[name])
        self.say("is built", name)

    def end_calls(self):
        """Ends the calls that are left. What an `rt` has started ends with it."""
        with self.lock:
            self.is_over = True
            for call in self.calls:
                call.terminate()

    def say(self, what, name):
        seconds = int(time.monotonic() - self.begun)
        at_work = ", ".join(self.at_work) or "none"
        print(f"{seconds // 60:3}:{seconds % 60:02} {name} {what}; at work: {at_work}; {len(self.waiting)} wait", flush=True)


def main():
    words = argparse.ArgumentParser(description=__doc__, formatter_class=argparse.RawDescriptionHelpFormatter)
    words.add_argument("crate")
    words.add_argument("--processors", type=int, default=len(os.sched_getaffinity(0)))
    asked = words.parse_args()
    if not shutil.which("rt"):
        sys.exit("the kit's command rt isn't on the path")
    signal.signal(signal.SIGTERM, lambda *_: sys.exit(143))
    crates = read_crates()
    lower = below(crates, asked.crate)
    files = held(lower)
    try:
        give_back()
        sums = Sums()
        wanted = [crate for crate in lower if not sums.is_built(crate)]
        if wanted:
            print(f"{len(wanted)} libraries to prove, on {asked.processors} processors", flush=True)
        Builds(crates, wanted, sums, asked.processors).run()
        if wanted:
            used = resource.getrusage(resource.RUSAGE_CHILDREN)
            print(f"{(used.ru_utime + used.ru_stime) / 60:.1f} minutes of processor time", flush=True)
    except Failed as failed:
        sys.exit(str(failed))
    except KeyboardInterrupt:
        sys.exit(130)
    finally:
        give_back()
        for file in files:
            os.close(file)


if __name__ == "__main__":
    main()
