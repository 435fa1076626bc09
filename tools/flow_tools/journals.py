"""Journals as text: what stands in them, and which starts are open at the same time."""
import heapq
import re
from dataclasses import dataclass

from .plans import UnreadableFile, text_of

HEADS = ("flow journal 1", "flow journal 2")
# No more digits than a number of 64 bits has.
NUMBER = r"(?:0|[1-9][0-9]{0,19})"
CAUSE = rf"source|strong|weak:{NUMBER}"
PART = rf"(?:{NUMBER}|first|nothing)"
ENTRIES = {
    "start": re.compile(rf"start ({NUMBER}) ({CAUSE}) (-|{PART}(?:,{PART})*)"),
    "end": re.compile(rf"end ({NUMBER}) (-|{NUMBER}(?:,{NUMBER})*) (plain|inner)"),
    "fault": re.compile(rf"fault ({NUMBER}) ((?:long|wide|unmet|over):{NUMBER}|inner)"),
    "drop": re.compile(rf"drop ({NUMBER}) ({CAUSE}) (halted|limit|stuck:{NUMBER})"),
}


@dataclass
class Span:
    """A start, from its index in the journal to that of its end or fault; `end` is None while it is open."""

    task: int
    start: int
    inputs: str
    end: int = None
    fault: str = ""
    is_inner: bool = False
    lane: int = 0


@dataclass(frozen=True)
class Drop:
    """A release that was used up without a start, at an index."""

    task: int
    index: int
    why: str


@dataclass(frozen=True)
class Journal:
    """The spans and drops of a journal, and how many entries it has."""

    spans: list
    drops: list
    length: int

    def lanes(self):
        return max((span.lane for span in self.spans), default=0) + 1


def read_journal(path, tasks):
    """The journal in a file, of a graph of so many tasks."""
    lines = text_of(path).split("\n")
    if lines[0].startswith("## round"):
        raise UnreadableFile(f"{path}: it has several rounds; keep one, without its `## round` line")
    if lines[0] not in HEADS or lines.pop() != "":
        raise UnreadableFile(f'{path}: it is no whole journal, as `flow run FILE --journal` prints one')
    spans, drops = {}, []
    for index, line in enumerate(lines[1:]):
        if not add_entry(index, line, spans, drops, tasks):
            raise UnreadableFile(f"{path}:{index + 2}: no entry that a journal of this graph may have here")
    journal = Journal(list(spans.values()), drops, len(lines) - 1)
    give_lanes(journal)
    return journal


def add_entry(index, line, spans, drops, tasks):
    """Takes an entry in; False if it is none, or doesn't fit those before it."""
    kind = line.split(" ", 1)[0]
    entry = ENTRIES[kind].fullmatch(line) if kind in ENTRIES else None
    if not entry:
        return False
    number = int(entry[1])
    if kind in ("start", "drop"):
        if kind == "start":
            spans[index] = Span(number, index, entry[3])
        else:
            drops.append(Drop(number, index, entry[3]))
        return number < tasks
    span = spans.get(number)
    if span is None or span.end is not None:
        return False
    span.end = index
    span.fault = entry[2] if kind == "fault" else ""
    span.is_inner = entry[2] == "inner" if kind == "fault" else entry[3] == "inner"
    return True


def give_lanes(journal):
    """Gives each start the first lane that no open start has."""
    open_lanes, free_lanes, lanes = [], [], 0
    for span in journal.spans:
        while open_lanes and open_lanes[0][0] < span.start:
            heapq.heappush(free_lanes, heapq.heappop(open_lanes)[1])
        if not free_lanes:
            heapq.heappush(free_lanes, lanes)
            lanes += 1
        span.lane = heapq.heappop(free_lanes)
        heapq.heappush(open_lanes, (journal.length if span.end is None else span.end, span.lane))
