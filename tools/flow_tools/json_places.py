"""JSON whose values know where they stand in the file.

It takes what the program takes, which reads JSON as `serde_json` does: no comments, no NaN, at most 127 values one in
another, no halves of surrogate pairs, and of a field that occurs twice the last one.
"""
import bisect
import dataclasses
import json.decoder
import re
from dataclasses import dataclass

from .quoting import quoted, shortened

DEEPEST = 127
MOST_DIGITS = 309
BLANKS = re.compile(r"[ \t\n\r]*")
NUMBER = re.compile(r"-?(?:0|[1-9][0-9]*)(?:\.[0-9]+)?(?:[eE][-+]?[0-9]+)?")
WORD = re.compile(r"[A-Za-z_][A-Za-z_0-9]*")
WHOLE = re.compile(r"0|[1-9][0-9]*")
NAMED = {"true": True, "false": False, "null": None}


class JsonError(Exception):
    """Why a text is no JSON, and the offset at which that shows."""

    def __init__(self, offset, why):
        super().__init__(why)
        self.offset = offset
        self.why = why


@dataclass(frozen=True)
class Node:
    """A value, the offset of its first character, and its own text if it is a number or a word.

    The value of a list is a list of nodes; that of an object is a dictionary from its fields to nodes, and `keys` has
    the offset of each field's name. `repeated` has the names that occur more than once, with the offset of the last.
    """

    value: object
    offset: int
    source: str = ""
    keys: dict = dataclasses.field(default_factory=dict)
    repeated: dict = dataclasses.field(default_factory=dict)

    @property
    def is_object(self):
        return isinstance(self.value, dict)

    @property
    def is_list(self):
        return isinstance(self.value, list)

    @property
    def is_text(self):
        return isinstance(self.value, str)

    @property
    def is_whole(self):
        """Whether it is a number without sign, fraction and exponent that fits 64 bits."""
        return WHOLE.fullmatch(self.source) is not None and self.value < 2**64

    def items(self):
        """The nodes of a list; none of anything else."""
        return self.value if self.is_list else []

    def get(self, field):
        """The node of an object's field, or None."""
        return self.value.get(field) if self.is_object else None


class Lines:
    """The lines of a text, to say of an offset at which line and column it is, both from 1."""

    def __init__(self, text):
        self.starts = [0] + [match.end() for match in re.finditer("\n", text)]

    def place(self, offset):
        line = bisect.bisect_right(self.starts, offset)
        return line, offset - self.starts[line - 1] + 1


def lines_of(data):
    """The lines of a file's bytes, of such that are no UTF-8 too."""
    return Lines(data.decode("utf-8", "replace"))


def decoded(data):
    """The text of a file's bytes."""
    try:
        text = data.decode("utf-8")
    except UnicodeDecodeError as error:
        before = data[:error.start].decode("utf-8")
        raise JsonError(len(before), "a byte that is no UTF-8") from None
    if text.startswith("\ufeff"):
        raise JsonError(0, "a byte order mark, which JSON has not")
    return text


def parse(text):
    """The node of a whole text."""
    reader = Reader(text)
    node = reader.value(reader.skip(0), 1)
    if reader.end != len(text):
        raise JsonError(reader.end, f"{reader.seen(reader.end)} behind the end of the JSON value")
    return node


class Reader:
    """Reads values; `end` is the offset behind the last one and the blanks that follow it."""

    def __init__(self, text):
        self.text = text
        self.end = 0

    def skip(self, offset):
        self.end = BLANKS.match(self.text, offset).end()
        return self.end

    def seen(self, offset):
        """What stands there, for a message."""
        if offset >= len(self.text):
            return "the end of the file"
        word = WORD.match(self.text, offset)
        return quoted(word.group() if word else self.text[offset], 40)

    def sign(self):
        """The character behind what was read."""
        return self.text[self.end:self.end + 1]

    def value(self, offset, depth):
        first = self.text[offset:offset + 1]
        if first in ("{", "[") and depth > DEEPEST:
            raise JsonError(offset, f"more than {DEEPEST} values one in another")
        if first == "{":
            return self.object(offset, depth)
        if first == "[":
            return self.list(offset, depth)
        if first == '"':
            return self.string(offset)
        return self.number(offset) if first and first in "-0123456789" else self.word(offset)

    def object(self, start, depth):
        fields, keys, repeated = {}, {}, {}
        is_over = self.is_empty(start, "}")
        while not is_over:
            if self.sign() != '"':
                raise JsonError(self.end, f"{self.seen(self.end)} where a field's name in quotes has to stand")
            key = self.string(self.end)
            if key.value in fields:
                repeated[key.value] = key.offset
            keys[key.value] = key.offset
            fields[key.value] = self.value(self.expect(":", f"a colon behind {quoted(key.value, 40)}"), depth + 1)
            is_over = self.ends("}", "an object")
        return Node(fields, start, keys=keys, repeated=repeated)

    def list(self, start, depth):
        nodes = []
        is_over = self.is_empty(start, "]")
        while not is_over:
            nodes.append(self.value(self.end, depth + 1))
            is_over = self.ends("]", "a list")
        return Node(nodes, start)

    def is_empty(self, start, close):
        """Whether what opens here closes at once."""
        self.skip(start + 1)
        if self.sign() != close:
            return False
        self.skip(self.end + 1)
        return True

    def ends(self, close, what):
        """Whether an object or a list ends here; else a comma is passed over."""
        if self.sign() == close:
            self.skip(self.end + 1)
            return True
        comma = self.end
        self.expect(",", f'"," or "{close}" in {what}')
        if self.sign() == close:
            raise JsonError(comma, f'a comma before "{close}"')
        return False

    def expect(self, sign, what):
        if self.sign() != sign:
            raise JsonError(self.end, f"{self.seen(self.end)} where {what} has to stand")
        return self.skip(self.end + 1)

    def string(self, start):
        try:
            text, end = json.decoder.scanstring(self.text, start + 1, True)
        except json.JSONDecodeError as error:
            raise JsonError(error.pos, string_fault(error.msg)) from None
        if any("\ud800" <= sign <= "\udfff" for sign in text):
            raise JsonError(start, "half of a surrogate pair in this string")
        self.skip(end)
        return Node(text, start)

    def number(self, start):
        match = NUMBER.match(self.text, start)
        if not match:
            raise JsonError(start, f"{self.seen(start)} where a value has to stand")
        source = match.group()
        value = number_value(source)
        if abs(value) > 1.7976931348623157e308:
            raise JsonError(start, f"the number {shortened(source, 40)}, which is too large")
        self.skip(match.end())
        return Node(value, start, source=source)

    def word(self, start):
        match = WORD.match(self.text, start)
        if not match or match.group() not in NAMED:
            raise JsonError(start, f"{self.seen(start)} where a value has to stand")
        self.skip(match.end())
        return Node(NAMED[match.group()], start, source=match.group())


def number_value(source):
    """The value of a number as it is written; of one with more digits than any number has, infinity."""
    if set(source) & set(".eE"):
        return float(source)
    return int(source) if len(source.lstrip("-")) <= MOST_DIGITS else float("inf")


def string_fault(message):
    """What is wrong with a string, by what Python's reader says of it."""
    if message.startswith("Unterminated"):
        return "a string without its closing quote"
    if message.startswith("Invalid control"):
        return "a line feed, a tab or another control character in a string"
    return "an unknown escape behind a backslash in a string"
