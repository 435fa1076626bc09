"""What the program runs to its end without an error, and is probably a mistake all the same."""
from .findings import Finding, listed
from .quoting import quoted
from .shapes import circle_through, circles, dominators


class GraphView:
    """A graph with what shows its mistakes: its edges by their ends, and which tasks may end several times."""

    def __init__(self, graph):
        self.graph = graph
        self.tasks = graph.tasks
        self.edges = graph.edges()
        self.inside = f" of module {quoted(graph.name)}" if graph.name else ""
        self.incoming = [[] for _ in self.tasks]
        self.successors = [[] for _ in self.tasks]
        for edge in self.edges:
            self.incoming[edge.target].append(edge)
            self.successors[edge.source].append(edge.target)
        self.several = self.tasks_that_end_several_times()

    def is_weak(self, edge):
        return self.tasks[edge.source].is_condition

    def strong_predecessors(self, task):
        """The tasks that are no conditions and lead to this one, each once."""
        return sorted({edge.source for edge in self.incoming[task] if not self.is_weak(edge)})

    def tasks_that_end_several_times(self):
        """The tasks on circles, and those that wait for such tasks alone."""
        several = {task for circle in circles(self.successors) for task in circle}
        waiting = sorted(several)
        for done in waiting:
            for task in self.successors[done]:
                before = self.strong_predecessors(task)
                if task not in several and done in before and several.issuperset(before):
                    several.add(task)
                    waiting.append(task)
        return several

    def finding(self, task, text, field="name", item=None):
        node = self.tasks[task].node
        place = node.get(field).items()[item] if item is not None else node.get(field)
        return Finding(place.offset, f"task {quoted(self.tasks[task].name)}{self.inside}", text, is_error=False)

    def names(self, tasks):
        return listed(quoted(self.tasks[task].name) for task in tasks)


def mistakes(plan):
    """The warnings on all graphs of a file, and on what nobody uses."""
    for graph in plan.graphs():
        view = GraphView(graph)
        for kind in KINDS:
            yield from kind(view)
        yield from semaphore_mistakes(graph)
    yield from unused_modules(plan)


def forgotten_starts(view):
    for number, task in enumerate(view.tasks):
        if not view.incoming[number] and task.op not in ("read", "input"):
            yield view.finding(number, f'no task leads to it, so "{task.op}" starts by itself with an empty text')


def dropped_texts(view):
    for number, task in enumerate(view.tasks):
        before = view.strong_predecessors(number)
        if task.op in ("read", "input") and before:
            yield view.finding(number, f'"{task.op}" takes nothing of what {view.names(before)} passes to it')


def choices(task):
    """How many successors a condition can choose among."""
    return {"back": 1, "ifmore": 2, "ifhas": 2}.get(task.op) or len(task.field("words"))


def lone_matches(view):
    for number, task in enumerate(view.tasks):
        strong = [edge for edge in view.incoming[number] if not view.is_weak(edge)]
        if task.op == "match" and view.incoming[number] and len(strong) < 2:
            yield view.finding(number, "no second predecessor brings lines to match with, so its value is always empty")


def unchosen_edges(view):
    for edge in view.edges:
        task = view.tasks[edge.source]
        if task.is_condition and edge.place >= choices(task):
            count = choices(task)
            which = "none" if count == 0 else "the first alone" if count == 1 else f"among the first {count} alone"
            name = quoted(view.tasks[edge.target].name)
            text = f'"{task.op}" never chooses {name}: it chooses {which}'
            yield view.finding(edge.source, text, "to", edge.place)


def waiting_circles(view):
    strong = [[] for _ in view.tasks]
    for edge in view.edges:
        if not view.is_weak(edge):
            strong[edge.source].append(edge.target)
    for circle in circles(strong):
        way = circle_through(circle[0], strong, set(circle))
        names = " -> ".join(view.tasks[task].name for task in way)
        text = f"waits for itself: {names}" if len(circle) == 1 else f"waits in a circle without a condition: {names}"
        yield view.finding(circle[0], text)


# ---- joins

def branches_above(view):
    """For each task that can be reached, the branches that every way to it takes: from condition to edge.

    Each edge by which one of `ifmore` and `ifhas` chooses is a node between its ends, and a root leads to all tasks
    that start by themselves. What all ways to a task pass are its dominators.
    """
    count = len(view.tasks)
    branches = [edge for edge in view.edges if view.tasks[edge.source].op in ("ifmore", "ifhas")]
    number_of = {edge: count + number for number, edge in enumerate(branches)}
    root = count + len(branches)
    successors = [[] for _ in range(root + 1)]
    successors[root] = [task for task in range(count) if not view.incoming[task]]
    for edge in view.edges:
        successors[edge.source].append(number_of.get(edge, edge.target))
    for edge, number in number_of.items():
        successors[number].append(edge.target)
    above = dominators(successors, root)

    def branches_of(task):
        taken = {}
        while task in above and task != root:
            if count <= task < root:
                edge = branches[task - count]
                taken[edge.source] = edge
            task = above[task]
        return taken

    return branches_of


def both_branches(view):
    joins = [task for task in range(len(view.tasks)) if len(view.strong_predecessors(task)) > 1]
    branches_of = branches_above(view) if joins else None
    for join in joins:
        taken = {}
        for before in view.strong_predecessors(join):
            for condition, edge in branches_of(before).items():
                taken.setdefault(condition, {}).setdefault(edge.place, before)
        apart = [condition for condition, places in taken.items() if len(places) > 1 and condition not in view.several]
        if apart:
            yield view.finding(join, both_text(view, apart[0], taken[apart[0]].values()))


def both_text(view, condition, branches):
    chooser = quoted(view.tasks[condition].name)
    return (f"it waits for both {view.names(branches)}, of which {chooser} lets only one start; "
            'end each branch with a "back" to it')


def uneven_joins(view):
    for join in range(len(view.tasks)):
        before = view.strong_predecessors(join)
        often = [task for task in before if task in view.several]
        once = [task for task in before if task not in view.several]
        if often and once:
            which = "is" if len(once) == 1 else "are"
            text = f"it waits for {view.names(often)}, which may end several times, and for {view.names(once)}, " \
                   f"which {which} in no loop: later values of {view.names(often)} may find no partner"
            yield view.finding(join, text)


KINDS = (forgotten_starts, dropped_texts, lone_matches, unchosen_edges, waiting_circles, both_branches, uneven_joins)


# ---- semaphores and modules

def semaphore_mistakes(graph):
    taken = {name for task in graph.tasks for name in task.takes}
    given = {name for task in graph.tasks for name in task.gives}
    inside = f" of module {quoted(graph.name)}" if graph.name else ""
    for semaphore in graph.semaphores:
        where = f"semaphore {quoted(semaphore.name)}{inside}"
        if semaphore.name not in taken | given:
            yield Finding(semaphore.node.offset, where, "no task takes a unit of it", is_error=False)
        elif semaphore.name not in given:
            text = "tasks take units of it, and none gives one back"
            yield Finding(semaphore.node.offset, where, text, is_error=False)


def unused_modules(plan):
    used = {task.field("module") for graph in plan.graphs() for task in graph.tasks if task.op == "module"}
    for module in plan.modules:
        if module.name not in used:
            yield Finding(module.node.offset, f"module {quoted(module.name)}", "no task runs it", is_error=False)


def repeated_fields(node):
    """Fields that occur twice in an object, anywhere in a file."""
    waiting = [node]
    while waiting:
        current = waiting.pop()
        for field, offset in current.repeated.items():
            text = f"the field {quoted(field)} occurs twice here, and the last one counts"
            yield Finding(offset, "", text, is_error=False)
        waiting.extend(current.value.values() if current.is_object else current.items())
