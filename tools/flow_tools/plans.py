"""The graphs of a file, for tools that draw them or look for mistakes."""
import pathlib
from dataclasses import dataclass

from .graph_format import CONDITIONS, UNIT_LISTS, field_names
from .json_places import JsonError, Node, decoded, lines_of, parse
from .refusals import refusals


class UnreadableFile(Exception):
    """Why a file can't be read, in one line."""


@dataclass(frozen=True)
class Semaphore:
    name: str
    units: int
    node: Node


@dataclass(frozen=True)
class Task:
    """A task with its operation, the names in its `to`, and those of the semaphores that it takes and gives back."""

    name: str
    op: str
    to: list
    takes: list
    gives: list
    node: Node

    @property
    def is_condition(self):
        return self.op in CONDITIONS

    def field(self, name):
        """What a field of the operation holds."""
        node = self.node.get(name)
        return node.value if node else None


@dataclass(frozen=True)
class Graph:
    """A graph of the file; the top graph's name is empty."""

    name: str
    semaphores: list
    tasks: list
    version: int
    node: Node

    def edges(self):
        """The edges in the order of their numbers: source, target, and the place in the source's `to`."""
        numbers = {task.name: number for number, task in enumerate(self.tasks)}
        return [Edge(source, numbers[name], place)
                for source, task in enumerate(self.tasks) for place, name in enumerate(task.to)]


@dataclass(frozen=True)
class Edge:
    source: int
    target: int
    place: int


@dataclass(frozen=True)
class Plan:
    top: Graph
    modules: list

    def graphs(self):
        return [self.top, *self.modules]


def bytes_of(path):
    """The bytes of a file, or why it has none."""
    try:
        return pathlib.Path(path).read_bytes()
    except OSError as error:
        raise UnreadableFile(f"{path}: {error.strerror}") from None


def text_of(path):
    """The text of a file, or why it has none."""
    return read_as(decoded, path, bytes_of(path))


def read_as(reading, path, data):
    """What a function reads in a file's bytes, or where and why it can't."""
    try:
        return reading(data)
    except JsonError as error:
        line, column = lines_of(data).place(error.offset)
        raise UnreadableFile(f"{path}:{line}:{column}: {error.why}") from None


def load(path):
    """The plan of a graph file that the program takes."""
    data = bytes_of(path)
    root = read_as(lambda read: parse(decoded(read)), path, data)
    found = refusals(root)
    if found:
        raise UnreadableFile(min(found, key=lambda finding: finding.offset).line(path, lines_of(data)))
    return plan_of(root)


def plan_of(root):
    """The plan of a file in which nothing is refused."""
    version = root.get("version").value if root.get("version") else 1
    return Plan(graph_of(root, version), [graph_of(module, version) for module in list_in(root, "modules")])


def list_in(node, field):
    found = node.get(field)
    return found.items() if found else []


def names_in(node, field):
    return [item.value for item in list_in(node, field)]


def graph_of(node, version):
    semaphores = [semaphore_of(item) for item in list_in(node, "semaphores")]
    tasks = [task_of(item, version) for item in list_in(node, "tasks")]
    name = node.get("name")
    return Graph(name.value if name else "", semaphores, tasks, version, node)


def semaphore_of(node):
    return Semaphore(node.get("name").value, node.get("max").value, node)


def task_of(node, version):
    units = [names_in(node, field) for field in field_names(UNIT_LISTS[version])]
    return Task(node.get("name").value, node.get("op").value, names_in(node, "to"), units[0], units[-1], node)
