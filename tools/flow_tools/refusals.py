"""What makes the program refuse a graph file: all that is wrong, where the program names the first.

The classes are those of the program's message, in its order: fields, names that aren't there, names that occur twice,
modules that run themselves, limits, and pipelines.
"""
from collections import Counter
from dataclasses import dataclass

from .findings import Finding, listed, nearest
from .graph_format import (DEFER_ROW, LONGEST_FILE, MOST, MOST_PIPE_LINES, MOST_PIPES, OPERATION, OPERATIONS,
                           PIPE_OPERATIONS, SEMAPHORE, SERIAL, TEXT_OPERATIONS, TO, UNIT_LISTS, Field, field_names,
                           list_field, name, one_object, shown)
from .json_places import Node
from .quoting import quoted


@dataclass(frozen=True)
class Spot:
    """An object of the file: its node, how a reader knows it, and how the program's message names it."""

    node: Node
    where: str
    spot: str

    @property
    def is_file(self):
        return self.spot == "file"

    def finding(self, field, text, offset=None):
        """What is wrong with a field, at its value, or at the object if the field is missing."""
        node = self.node.get(field)
        place = offset if offset is not None else node.offset if node else self.node.offset
        return Finding(place, self.where, text, field, self.spot)


@dataclass(frozen=True)
class GraphSpot:
    """A graph of the file, with its semaphores and its tasks."""

    spot: Spot
    semaphores: list
    tasks: list


# ---- the objects of a file

def spots_of(owner, field):
    """The objects in a list of the file, or of a module."""
    items = owner.node.get(field)
    numbered = enumerate(items.items() if items else [])
    return [spot_of(item, field.removesuffix("s"), number, owner) for number, item in numbered if item.is_object]


def spot_of(node, kind, number, owner):
    named = node.get("name")
    called = quoted(named.value) if named and named.is_text else str(number)
    if owner.is_file:
        return Spot(node, f"{kind} {called}", f"{kind} {number}")
    return Spot(node, f"{kind} {called} of {owner.where}", f"{owner.spot} {kind} {number}")


def graph_of(spot):
    """A graph, and what is in it; `spot` is of the file or of a module."""
    return GraphSpot(spot, spots_of(spot, "semaphores"), spots_of(spot, "tasks"))


def graphs_of(root):
    """The top graph, then the modules."""
    file = file_spot(root)
    return [graph_of(file)] + [graph_of(spot) for spot in spots_of(file, "modules")]


def file_spot(root):
    return Spot(root, "", "file")


# ---- fields

def nothing_more(field):
    return ""


def field_findings(spot, fields, more_on_unknown=nothing_more):
    """What is missing, wrong or unknown among the fields of an object; a function has more to say of unknown ones."""
    for field in fields:
        node = spot.node.get(field.name)
        if node is None and field.is_needed:
            yield spot.finding(field.name, f'the field "{field.name}" is missing')
        for what, offset in field.faults(node) if node else []:
            yield spot.finding(field.name, f'the field "{field.name}" {what}', offset)
    names = field_names(fields)
    for field in spot.node.value:
        if field not in names:
            more = more_on_unknown(field) + nearest(field, set(names) - set(spot.node.value))
            yield spot.finding(field, f"the field {quoted(field)} is unknown{more}", spot.node.keys[field])


def file_findings(root):
    spot = file_spot(root)
    if not root.is_object:
        yield spot.finding("tasks", f"the file is {shown(root)}, and has to be an object")
        return
    yield from field_findings(spot, (
        Field("version", version_fault, is_needed=False), list_field("tasks", one_object),
        list_field("semaphores", one_object, is_needed=False), list_field("modules", one_object, is_needed=False)))


def version_fault(node):
    return None if node.is_whole and node.value in UNIT_LISTS else f"is {shown(node)}, and has to be 1 or 2"


def version_of(root):
    """The version of a file; 1 also if it is none of those that there are."""
    node = root.get("version")
    return node.value if node and not version_fault(node) else 1


def graph_findings(graph, version):
    if not graph.spot.is_file:
        yield from field_findings(graph.spot, (
            Field("name", name), list_field("tasks", one_object),
            list_field("semaphores", one_object, is_needed=False)))
    for semaphore in graph.semaphores:
        yield from field_findings(semaphore, SEMAPHORE)
    for task in graph.tasks:
        yield from task_findings(task, version)


def task_findings(task, version):
    name_field, last = Field("name", name), (TO, *UNIT_LISTS[version])
    operation = task.node.get("op")
    if not is_one_of(operation, OPERATIONS):
        known = field_names((name_field, *last))
        yield from (finding for finding in field_findings(task, (name_field, *last)) if finding.field in known)
        yield task.finding("op", operation_fault(operation, OPERATIONS))
        return
    own = OPERATIONS[operation.value]
    fields = (name_field, OPERATION, *own, *last)
    yield from field_findings(task, fields, lambda field: why_unknown(field, operation.value, own, version))
    yield from (task.finding(field, what, offset) for field, what, offset in inner_findings(task.node, own))


def is_one_of(operation, operations):
    """Whether the node of a field `op` names one of these operations."""
    return operation is not None and operation.is_text and operation.value in operations


def operation_fault(operation, operations):
    if operation is None:
        return 'the field "op" is missing'
    if not operation.is_text:
        return f'the field "op" is {shown(operation)}, and has to be the name of an operation'
    return f"{shown(operation)} is no operation here{nearest(operation.value, operations)}"


def why_unknown(field, operation, own, version):
    """What is said of a field that a task may not have."""
    if field in field_names(UNIT_LISTS[3 - version]):
        return f" in version {version} of the format, which has {listed(field_names(UNIT_LISTS[version]))} in its place"
    return which_fields(operation, own)


def which_fields(operation, own):
    return f' for "{operation}", which has {listed(field_names(own)) if own else "no field of its own"}'


# ---- what stands in `each`, `pipes` and `defer`: triples of the field, what is wrong, and where

def inner_findings(task, own):
    names = field_names(own)
    if "each" in names and task.get("each"):
        yield from (("each", *fault) for fault in operation_faults(task.get("each"), TEXT_OPERATIONS, (), "each"))
    if "pipes" in names and task.get("pipes"):
        for number, pipe in enumerate(task.get("pipes").items()):
            yield from (("pipes", *fault) for fault in pipe_faults(pipe, f"pipe {number}"))
    if "defer" in names and task.get("defer"):
        yield from (("defer", *fault) for fault in defer_faults(task.get("defer")))


def operation_faults(node, operations, others, called):
    """What is wrong with an object that is an operation, and has these other fields besides."""
    if not node.is_object:
        return
    operation = node.get("op")
    if not is_one_of(operation, operations):
        yield f"{called}: {operation_fault(operation, operations)}", (operation or node).offset
        return
    own = operations[operation.value]
    fields = (*others, OPERATION, *own)
    for finding in field_findings(Spot(node, "", ""), fields, lambda field: which_fields(operation.value, own)):
        yield f"{called}: {finding.text}", finding.offset


def pipe_faults(pipe, called):
    yield from operation_faults(pipe, PIPE_OPERATIONS, (SERIAL,), called)
    operation, serial = pipe.get("op"), pipe.get("serial")
    if operation and operation.value == "stamp" and serial and serial.value is False:
        yield f'{called}: "stamp" stands only in serial pipes', operation.offset


def defer_faults(defer):
    seen = set()
    for number, row in enumerate(defer.items()):
        if not row.is_object:
            continue
        for finding in field_findings(Spot(row, "", ""), DEFER_ROW):
            yield f"row {number} of defer: {finding.text}", finding.offset
        token = row.get("token")
        if token and token.is_whole and token.value in seen:
            yield f"row {number} of defer: token {token.value} has a row already", token.offset
        if token and token.is_whole:
            seen.add(token.value)


# ---- names

def names_in(spot, field):
    """The nodes of a list of names, if all of it is well-formed."""
    node = spot.node.get(field)
    return [item for item in node.items() if not name(item)] if node else []


def name_of(spot):
    node = spot.node.get("name")
    return node.value if node and node.is_text else None


def missing_findings(graph, version, modules):
    """Names that nothing in the graph, or no module, has."""
    tasks = {name_of(task) for task in graph.tasks} - {None}
    semaphores = {name_of(semaphore) for semaphore in graph.semaphores} - {None}
    for task in graph.tasks:
        yield from absent(task, "to", names_in(task, "to"), tasks, "task of this graph")
        for field in field_names(UNIT_LISTS[version]):
            yield from absent(task, field, names_in(task, field), semaphores, "semaphore of this graph")
        used = module_used(task)
        yield from absent(task, "module", [used] if used else [], modules, "module of the file")


def absent(spot, field, nodes, names, kind):
    for node in nodes:
        if node.value not in names:
            text = f'"{field}" names {quoted(node.value)}, and no {kind} has this name{nearest(node.value, names)}'
            yield spot.finding(field, text, node.offset)


def module_used(task):
    """The node that names a task's module, if it runs one."""
    operation, module = task.node.get("op"), task.node.get("module")
    return module if operation and operation.value == "module" and module and module.is_text else None


def repeated_findings(graph, version):
    yield from same_names(graph.semaphores)
    yield from same_names(graph.tasks)
    for task in graph.tasks:
        for field in field_names(UNIT_LISTS[version]):
            counts = Counter(node.value for node in names_in(task, field))
            for repeated in (called for called, count in counts.items() if count > 1):
                yield task.finding(field, f'"{field}" has the name {quoted(repeated)} twice')


def same_names(spots):
    seen = set()
    for spot in spots:
        if name_of(spot) in seen:
            kind = spot.spot.split()[-2]
            yield spot.finding("name", f"another {kind} before it has the name {quoted(name_of(spot))}")
        if name_of(spot) is not None:
            seen.add(name_of(spot))


# ---- the file as a whole

def uses_of(graphs):
    """For each module the modules that its tasks run, by their names."""
    return {name_of(graph.spot): [used.value for used in map(module_used, graph.tasks) if used] for graph in graphs}


def circle_findings(graphs):
    """Modules that run themselves."""
    uses = uses_of(graphs[1:])
    for graph in graphs[1:]:
        seen, waiting = set(), list(uses[name_of(graph.spot)])
        while waiting:
            module = waiting.pop()
            if module not in seen:
                seen.add(module)
                waiting.extend(uses.get(module, []))
        if name_of(graph.spot) in seen:
            yield graph.spot.finding("", "it runs itself, directly or through other modules")


def depth_of(graphs):
    """The number of modules in the longest chain of uses that begins in the top graph, which has no circle."""
    uses = uses_of(graphs)
    depths = {}

    def below(graph):
        if graph not in depths:
            depths[graph] = max((1 + below(module) for module in uses.get(graph, [])), default=0)
        return depths[graph]

    return below(None)


def size_findings(data):
    """A file that is longer than what the program reads."""
    size = len(data)
    if size > LONGEST_FILE:
        yield Finding(0, "", f"the file has {size:,} bytes, and may have {LONGEST_FILE:,}")


def limit_findings(root, graphs, has_circle):
    counts = {
        "tasks": sum(len(graph.tasks) for graph in graphs),
        "edges": sum(len(names_in(task, "to")) for graph in graphs for task in graph.tasks),
        "semaphores": sum(len(graph.semaphores) for graph in graphs),
        "modules": len(graphs) - 1,
        "depth": 0 if has_circle or len(graphs) > MOST["modules"] + 1 else depth_of(graphs),
        "texts": len({task.node.get("text").value for graph in graphs for task in graph.tasks if reads_text(task)}),
    }
    for kind, count in counts.items():
        if count > MOST[kind]:
            what = "modules one in another" if kind == "depth" else kind
            yield Finding(root.offset, "", f"the file has {count:,} {what}, and may have {MOST[kind]:,}", kind)


def reads_text(task):
    operation, text = task.node.get("op"), task.node.get("text")
    return operation and operation.value == "read" and text and text.is_text


def pipe_limit_findings(task):
    operation, lines, pipes = (task.node.get(field) for field in ("op", "lines", "pipes"))
    if not operation or operation.value != "pipe":
        return
    if lines and lines.is_whole and not 1 <= lines.value <= MOST_PIPE_LINES:
        yield task.finding("lines", f'"lines" is {lines.value}, and a pipeline has 1 to {MOST_PIPE_LINES} lines')
    if pipes and pipes.is_list and not 1 <= len(pipes.value) <= MOST_PIPES:
        yield task.finding("pipes", f"it has {len(pipes.value):,} pipes, and a pipeline has 1 to {MOST_PIPES}")
    first = pipes.items()[0] if pipes and pipes.items() else None
    if first and first.get("serial") and first.get("serial").value is False:
        yield task.finding("pipes", "its first pipe is parallel, and has to be serial", first.offset)


def no_source_findings(root):
    """Graphs in which no task can start; the program checks them, and doesn't run them."""
    for graph in graphs_of(root):
        led_to = {node.value for task in graph.tasks for node in names_in(task, "to")}
        if graph.tasks and all(name_of(task) in led_to for task in graph.tasks):
            text = "an edge leads into each task, so none can start; one has to be named in no \"to\""
            yield graph.spot.finding("", text, graph.spot.node.get("tasks").offset)


def refusals(root):
    """All that makes the program refuse a file with code 3."""
    found = list(file_findings(root))
    if not root.is_object:
        return found
    version, graphs = version_of(root), graphs_of(root)
    modules = {name_of(graph.spot) for graph in graphs[1:]} - {None}
    for graph in graphs:
        found += graph_findings(graph, version)
        found += missing_findings(graph, version, modules)
        found += repeated_findings(graph, version)
        found += [finding for task in graph.tasks for finding in pipe_limit_findings(task)]
    found += same_names([graph.spot for graph in graphs[1:]])
    circles = list(circle_findings(graphs))
    return found + circles + list(limit_findings(root, graphs, bool(circles)))
