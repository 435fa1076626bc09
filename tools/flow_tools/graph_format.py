"""What a graph file may hold: its operations with their fields, and what each field holds.

docs/FORMATS.md says the same in words. The tests of these tools hold the operations against the program's definitions.
"""
import re
from dataclasses import dataclass
from typing import Callable, Optional

from .quoting import quoted, shortened

LONGEST_FILE = 4_194_304
NAME = re.compile(r"[A-Za-z0-9_.-]{1,64}")
LONGEST_TEXT = 4_096
MOST_LINES = 1_000_000_000

MOST = {"tasks": 10_000, "edges": 100_000, "semaphores": 256, "modules": 64, "depth": 8, "texts": 1_024}
MOST_PIPE_LINES = 64
MOST_PIPES = 32

CONDITIONS = ("back", "ifmore", "ifhas", "route")


def shown(node):
    """The value of a node as a message has it, cut short if it is long."""
    if node.is_object or node.is_list:
        return "an object" if node.is_object else "a list"
    return shortened(node.source, 40) if node.source else quoted(node.value, 40)


# ---- what a field holds: a function from its node to what is wrong with it, or None

def whole(least, most):
    def fault(node):
        if not node.is_whole or not least <= node.value <= most:
            return f"is {shown(node)}, and has to be a whole number from {least:,} to {most:,}"
        return None
    return fault


def text(least):
    def fault(node):
        if not node.is_text:
            return f"is {shown(node)}, and has to be a string"
        if not least <= len(node.value.encode()) <= LONGEST_TEXT:
            return f"has {len(node.value.encode()):,} bytes, and has to have {least} to {LONGEST_TEXT:,}"
        return None
    return fault


def any_text(node):
    return None if node.is_text else f"is {shown(node)}, and has to be a string"


def true_or_false(node):
    return None if isinstance(node.value, bool) else f"is {shown(node)}, and has to be true or false"


def name(node):
    if node.is_text and NAME.fullmatch(node.value):
        return None
    return f"is {shown(node)}, and has to be 1 to 64 letters without accents, digits, _, - and ."


def a_list(least=0, most=None):
    """A list of so many items."""
    def fault(node):
        if not node.is_list:
            return f"is {shown(node)}, and has to be a list"
        count = len(node.value)
        if count < least or (most is not None and count > most):
            return f"has {count:,} items, and has to have {least} to {most:,}"
        return None
    return fault


def one_object(node):
    return None if node.is_object else f"is {shown(node)}, and has to be an object"


# ---- fields

@dataclass(frozen=True)
class Field:
    """A field of an object: its name, what it holds, whether it has to be there, and what each item of a list holds."""

    name: str
    fault: Callable
    is_needed: bool = True
    item: Optional[Callable] = None

    def faults(self, node):
        """What is wrong with the field's value or with items of it, and where."""
        what = self.fault(node)
        if what:
            yield what, node.offset
        elif self.item:
            faults = ((self.item(entry), entry.offset) for entry in node.items())
            yield from ((f"has an item that {what}", offset) for what, offset in faults if what)


def list_field(name, item, least=0, most=None, is_needed=True):
    """A field that holds a list of so many items, each as this function asks."""
    return Field(name, a_list(least, most), is_needed, item)


WORD = Field("word", text(0))
LINES = Field("n", whole(0, MOST_LINES))
PART = Field("n", whole(1, MOST_LINES))

# The operations on one text, which may stand in `each` and `pipes` too.
TEXT_OPERATIONS = {
    "pass": (), "keep": (WORD,), "without": (WORD,), "head": (LINES,), "tail": (LINES,), "skip": (LINES,),
    "sort": (), "uniq": (), "count": (), "tally": (),
}
PIPE_OPERATIONS = {"number": (), "stamp": (), **TEXT_OPERATIONS}
OPERATIONS = {
    "input": (),
    "read": (Field("text", text(1)),),
    "match": (),
    "back": (),
    "ifmore": (LINES,),
    "ifhas": (WORD,),
    "route": (list_field("words", text(0), most=256),),
    "spread": (PART, Field("each", one_object)),
    "module": (Field("module", any_text),),
    "pipe": (
        Field("lines", whole(0, 2**32 - 1)),
        Field("n", PART.fault, is_needed=False),
        list_field("pipes", one_object),
        list_field("defer", one_object, most=256, is_needed=False),
    ),
    **TEXT_OPERATIONS,
}

# What it holds is looked into by itself, since the other fields depend on it.
OPERATION = Field("op", lambda node: None)
TO = list_field("to", name, is_needed=False)
# The lists by which a task names semaphores, for each version of graph files.
UNIT_LISTS = {
    1: (list_field("holds", name, is_needed=False),),
    2: (list_field("acquire", name, is_needed=False), list_field("release", name, is_needed=False)),
}
SEMAPHORE = (Field("name", name), Field("max", whole(1, 1_000_000)))
DEFER_ROW = (Field("token", whole(0, 65_535)), list_field("to", whole(0, 1_000_000), 1, 8))
SERIAL = Field("serial", true_or_false)


def field_names(fields):
    return [field.name for field in fields]
