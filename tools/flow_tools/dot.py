"""A graph file as a picture for Graphviz."""
from . import quoting
from .quoting import quoted

# The shape, the style and the colour of conditions, of tasks that run a module, and of all others.
CONDITION = ("diamond", "filled", "#fdf1cf")
MODULE = ("box3d", "filled", "#f3e9f7")
TASK = ("box", "rounded,filled", "#eef3fb")

HEAD = """digraph flow {
    rankdir=LR
    nodesep=0.3
    fontname="Helvetica,Arial,sans-serif"
    node [fontname="Helvetica,Arial,sans-serif", fontsize=11, color="#44546a"]
    edge [fontname="Helvetica,Arial,sans-serif", fontsize=10, color="#44546a", arrowsize=0.8]
"""


def label(text):
    """A text as a label, in which Graphviz takes no backslash for the beginning of an escape of its own."""
    return quoting.label(text).replace("\\", "\\\\")


def word(text):
    """A word in quotes, cut short if it is long."""
    return quoted(text, 30)


def operation(fields):
    """An operation of `each` or `pipes`, in a few words; `fields` is a function from a field to what it holds."""
    words = [fields("op")]
    if fields("word") is not None:
        words.append(word(fields("word")))
    if fields("n") is not None:
        words.append(str(fields("n")))
    return " ".join(words)


def fields_of(node):
    """What the fields of an object hold, by their names."""
    return lambda field: node.get(field).value if node.get(field) else None


def work(task):
    """What a task does, as lines of text."""
    if task.op == "read":
        return [f"read {task.field('text')}"]
    if task.op == "module":
        return [f"module {task.field('module')}"]
    if task.op == "spread":
        return [f"spread by {lines(task.field('n'))}", operation(fields_of(task.node.get("each")))]
    if task.op == "pipe":
        head = f"pipe by {lines(task.field('n') or 1)}, {task.field('lines')} at once"
        return [head, *(pipe(fields_of(node)) for node in task.field("pipes")), *waits(task)]
    return [operation(task.field)]


def lines(count):
    return "1 line" if count == 1 else f"{count} lines"


def pipe(fields):
    return f"{'serial' if fields('serial') else 'parallel'} {operation(fields)}"


def waits(task):
    """The tokens of a pipeline that wait for others."""
    return [f"token {row.get('token').value} waits for {', '.join(str(target.value) for target in row.get('to').value)}"
            for row in task.field("defer") or []]


def units(task):
    """What a task takes and gives back, as lines of text."""
    if task.takes == task.gives:
        return [f"holds {', '.join(task.takes)}"] if task.takes else []
    takes = [f"takes {', '.join(task.takes)}"] if task.takes else []
    return takes + ([f"gives back {', '.join(task.gives)}"] if task.gives else [])


def task_label(task):
    """The label of a task: its name, what it does, and its semaphores."""
    rows = [f"<b>{label(task.name)}</b>", *(label(row) for row in work(task)),
            *(f"<i>{label(row)}</i>" for row in units(task))]
    return "<br/>".join(rows)


def look(task):
    """The attributes of a task's node; those whose value is printed have a bold border."""
    shape, style, colour = CONDITION if task.is_condition else MODULE if task.op == "module" else TASK
    style += "" if task.to else ",bold"
    return f'shape={shape}, style="{style}", fillcolor="{colour}"'


def choice(task, place):
    """When a condition chooses this successor."""
    if task.op == "route":
        words = task.field("words")
        return word(words[place].value) if place < len(words) else "never"
    first = {"back": "back", "ifmore": f"more than {task.field('n')}", "ifhas": word(task.field("word") or "")}
    names = [first[task.op]] if task.op == "back" else [first[task.op], "else"]
    return names[place] if place < len(names) else "never"


def edge_line(graph, edge, prefix):
    task = graph.tasks[edge.source]
    ends = f"{prefix}{edge.source} -> {prefix}{edge.target}"
    if not task.is_condition:
        return f"    {ends}"
    return f"    {ends} [style=dashed, label=<{label(choice(task, edge.place))}>]"


def semaphore_line(graph):
    """The semaphores of a graph and their units, in a sentence; nothing if it has none."""
    named = [f"{semaphore.name} ({semaphore.units})" for semaphore in graph.semaphores]
    return f"semaphores and their units: {', '.join(named)}" if named else ""


def graph_lines(graph, prefix):
    nodes = [f"    {prefix}{number} [{look(task)}, label=<{task_label(task)}>]"
             for number, task in enumerate(graph.tasks)]
    return nodes + [edge_line(graph, edge, prefix) for edge in graph.edges()]


def module_lines(module, number):
    """A module as a cluster."""
    title = "<br/>".join(label(row) for row in (f"module {module.name}", semaphore_line(module)) if row)
    look = 'labelloc=t; fontsize=11; style="rounded,dashed"; color="#8064a2"'
    head = f"    subgraph cluster_{number} {{ label=<{title}>; {look}"
    return [head, *graph_lines(module, f"m{number}_"), "    }"]


def dot(plan):
    """The text of the picture."""
    rows = graph_lines(plan.top, "t")
    if plan.top.semaphores:
        rows.append(f"    label=<{label(semaphore_line(plan.top))}>; labelloc=b; fontsize=11")
    for number, module in enumerate(plan.modules):
        rows += module_lines(module, number)
    return HEAD + "\n".join(rows) + "\n}\n"
