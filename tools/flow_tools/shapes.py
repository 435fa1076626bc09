"""Circles and unavoidable branches in directed graphs whose nodes are numbers."""


def components(successors):
    """The strongly connected components, as lists of nodes (Tarjan, without recursion)."""
    index, low, open_nodes, is_open, found = {}, {}, [], set(), []
    for root in range(len(successors)):
        if root in index:
            continue
        walk = [(root, iter(successors[root]))]
        enter(root, index, low, open_nodes, is_open)
        while walk:
            node, rest = walk[-1]
            following = next(rest, None)
            if following is None:
                walk.pop()
                if walk:
                    low[walk[-1][0]] = min(low[walk[-1][0]], low[node])
                if low[node] == index[node]:
                    found.append(close(node, open_nodes, is_open))
            elif following not in index:
                enter(following, index, low, open_nodes, is_open)
                walk.append((following, iter(successors[following])))
            elif following in is_open:
                low[node] = min(low[node], index[following])
    return found


def enter(node, index, low, open_nodes, is_open):
    index[node] = low[node] = len(index)
    open_nodes.append(node)
    is_open.add(node)


def close(node, open_nodes, is_open):
    """The component whose first node this is: the last open ones, up to it."""
    component = []
    while not component or component[-1] != node:
        component.append(open_nodes.pop())
    is_open.difference_update(component)
    return sorted(component)


def circles(successors):
    """The components that have a circle: of more than one node, or of one that leads to itself."""
    return [nodes for nodes in components(successors) if len(nodes) > 1 or nodes[0] in successors[nodes[0]]]


def circle_through(node, successors, inside):
    """A shortest circle from a node back to it that stays inside these nodes."""
    before, waiting = {}, [node]
    for current in waiting:
        for following in successors[current]:
            if following == node:
                return path_to(current, before, node) + [node]
            if following in inside and following not in before:
                before[following] = current
                waiting.append(following)
    return []


def path_to(node, before, start):
    path = [node]
    while path[-1] != start:
        path.append(before[path[-1]])
    return path[::-1]


def dominators(successors, root):
    """For each node that paths from the root reach, the last other node that all of them pass.

    By the algorithm of Cooper, Harvey and Kennedy.
    """
    order = postorder(successors, root)
    rank = {node: place for place, node in enumerate(order)}
    predecessors = {node: [] for node in order}
    for node in order:
        for following in successors[node]:
            predecessors[following].append(node)
    above = {root: root}
    is_new = True
    while is_new:
        is_new = False
        for node in reversed(order[:-1]):
            known = [before for before in predecessors[node] if before in above]
            best = known[0]
            for other in known[1:]:
                best = meet(best, other, above, rank)
            is_new = is_new or above.get(node) != best
            above[node] = best
    return above


def meet(one, other, above, rank):
    while one != other:
        while rank[one] < rank[other]:
            one = above[one]
        while rank[other] < rank[one]:
            other = above[other]
    return one


def postorder(successors, root):
    order, seen, walk = [], {root}, [(root, iter(successors[root]))]
    while walk:
        node, rest = walk[-1]
        following = next(rest, None)
        if following is None:
            walk.pop()
            order.append(node)
        elif following not in seen:
            seen.add(following)
            walk.append((following, iter(successors[following])))
    return order
