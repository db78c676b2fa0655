"""Rows of boxes with lines between them, for crate_picture.py: few crossings, then straight lines.
"""
import collections
import itertools
import random

BESIDE = 18      # pixels from one box to the next


# ---- rows: crates, and the bends of arrows that pass

def levels(crates, arrows):
    """For each crate of a section how many rows it stands above the section's lowest."""
    found = {}

    def level(crate):
        if crate not in found:
            found[crate] = max([level(o) + 1 for o in arrows[crate] if o in crates], default=0)
        return found[crate]

    return {crate: level(crate) for crate in crates}


def in_rows(sections, arrows):
    """The rows from the lowest up, lists of nodes: a crate is its name, a bend a tuple that ends
    with the row's number. Then the section of each row, and the nodes that each arrow connects."""
    rows, section_of, at = [], [], {}
    for name, crates in sections.items():
        first = len(rows)
        for crate, level in levels(crates, arrows).items():
            at[crate] = first + level
            rows += [[] for _ in range(at[crate] + 1 - len(rows))]
            rows[at[crate]].append(crate)
        section_of += [name] * (len(rows) - first)
    routes = {}
    for crate, other in ((crate, other) for crate in arrows for other in arrows[crate]):
        if at[crate] > at[other]:
            bends = [(other, row) for row in range(at[crate] - 1, at[other], -1)]
        else:      # it leads up, to a later section, and joins no other
            bends = [(crate, other, row) for row in range(at[crate] + 1, at[other])]
        for bend in bends:
            if bend not in rows[bend[-1]]:
                rows[bend[-1]].append(bend)
        routes[crate, other] = [crate, *bends, other]
    return rows, section_of, routes


def linked(rows, routes):
    """For the gap above each row the pairs of an upper and a lower node that a line connects."""
    row_of = {node: k for k, row in enumerate(rows) for node in row}
    links = [{} for _ in rows[1:]]      # dicts, since they keep an order
    for a, b in (step for nodes in routes.values() for step in itertools.pairwise(nodes)):
        upper, lower = (a, b) if row_of[a] > row_of[b] else (b, a)
        links[row_of[lower]][upper, lower] = True
    return [list(gap) for gap in links]


# ---- the order within each row: few crossings

def crossings(rows, links):
    """How many links cross."""
    count = 0
    for k, gap in enumerate(links):
        low, high = ({node: place for place, node in enumerate(row)} for row in rows[k:k + 2])
        ends = sorted((high[a], low[b]) for a, b in gap)
        count += sum(one[1] > other[1] for one, other in itertools.combinations(ends, 2))
    return count


def swept(rows, links):
    """Each row sorted by where its nodes' neighbours stand in the row below, from the lowest up;
    then by the row above, from the highest down."""
    rows, gaps = [list(row) for row in rows], range(len(links))
    for k, by, gap in [(k + 1, k, k) for k in gaps] + [(k, k + 1, k) for k in reversed(gaps)]:
        at = {node: place for place, node in enumerate(rows[by])}
        seen = {node: [] for node in rows[k]}
        for upper, lower in links[gap]:
            node, other = (upper, lower) if by < k else (lower, upper)
            seen[node].append(at[other])
        middle = {node: sum(seen[node]) / len(seen[node]) if seen[node] else place
                  for place, node in enumerate(rows[k])}
        rows[k].sort(key=middle.get)
    return rows


def orders(rows, links):
    """Of some orders, each begun with shuffled rows, those with the fewest crossings; the same at
    every call."""
    draw, found = random.Random(1), []
    for _ in range(40):
        order = [sorted(row, key=lambda node: draw.random()) for row in rows]
        for _ in range(4):
            order = swept(order, links)
        if order not in found:
            found.append(order)
    fewest = min(crossings(order, links) for order in found)
    return [order for order in found if crossings(order, links) == fewest]


# ---- the places within each row: straight lines

def pull(distance): return 8000 * abs(distance) + distance * distance
def strain(x, pulls): return sum(weight * pull(x[a] - x[b]) for (a, b), weight in pulls.items())


def movers(x, pulls, apart, step):
    """The nodes that are to move by `step`, while the others stay, so that the strain falls most.
    They are found by a least cut: when no more can flow, those that the source still reaches."""
    source, sink = object(), object()
    cost, room = dict.fromkeys(x, 0), {node: collections.Counter() for node in [*x, source, sink]}
    for (a, b), weight in pulls.items():
        now = x[a] - x[b]
        a_alone, b_alone = (weight * (pull(now + by) - pull(now)) for by in (step, -step))
        cost[a] += a_alone
        cost[b] -= a_alone
        room[b][a] += a_alone + b_alone
    for (left, right), least in apart.items():
        if x[right] - x[left] - abs(step) < least:      # the one behind must not move alone
            behind, ahead = (left, right) if step > 0 else (right, left)
            room[behind][ahead] = 10**15
    for node in x:
        room[source][node], room[node][sink] = max(-cost[node], 0), max(cost[node], 0)
    while True:
        came, queue = {source: source}, collections.deque([source])
        while queue and sink not in came:
            node = queue.popleft()
            for other, more in room[node].items():
                if more > 0 and other not in came:
                    came[other] = node
                    queue.append(other)
        if sink not in came:
            return {node for node in x if node in came}
        path = [sink]
        while path[-1] is not source:
            path.append(came[path[-1]])
        flow = min(room[a][b] for b, a in itertools.pairwise(path))
        for b, a in itertools.pairwise(path):
            room[a][b] -= flow
            room[b][a] += flow


def placed(rows, pulls, widths):
    """A middle for each node, a whole number, with the least strain that there is."""
    x, apart = {}, {}
    for row in rows:
        x[row[0]] = 0
        for left, right in itertools.pairwise(row):
            apart[left, right] = (widths[left] + widths[right]) // 2 + BESIDE
            x[right] = x[left] + apart[left, right]
    for size in 64, 16, 4, 1:
        idle = 0
        for step in itertools.cycle((size, -size)):
            moving = movers(x, pulls, apart, step)
            moved = {node: at + step if node in moving else at for node, at in x.items()}
            x, idle = (moved, 0) if strain(moved, pulls) < strain(x, pulls) else (x, idle + 1)
            if idle == 2:
                break
    return x
