"""What keeps a cell: the shortest way to it from a root, and what lies on every way. For tools/why and
tools/check-heap-log, which have heaps of a few cells and of millions.

A way may need more than one root: the value of a weak entry is reached where both its map and its key are. So a way is
a list of steps, each after those that it needs, and its length is that of the longest path in it.
"""

from array import array
from bisect import bisect_right
from collections import Counter, deque
from itertools import accumulate

UNSEEN, WAITING, DONE = 0, 1, 2


class Step:
    """A step of a way: by a root, an edge or an entry, by its number, from some cells to one."""

    def __init__(self, kind, number, sources, cell):
        self.kind, self.number, self.sources, self.cell = kind, number, sources, cell

    def key(self):
        return self.kind, self.number


class Graph:
    """Cells by number. The edges of cell n are first_edge[n] and those behind, below first_edge[n + 1].

    targets: the cell that each edge leads to. entries: for each the two cells that it needs, and the cell that it then
    leads to. roots: the cell that each root holds.
    """

    def __init__(self, first_edge, targets, entries, roots):
        self.first_edge, self.targets, self.entries, self.roots = first_edge, targets, entries, roots
        self.count = len(first_edge) - 1
        self.entries_of = {}
        for number, (one, other, _) in enumerate(entries):
            for cell in {one, other}:
                self.entries_of.setdefault(cell, []).append(number)

    def ways(self, roots):
        """The shortest ways from these roots, by their numbers, to all cells that they reach."""
        ways = Ways(self, array("q", [-1]) * self.count)
        state, came, first_edge, targets = bytearray(self.count), ways.came, self.first_edge, self.targets
        edge_base, entry_base = ways.bases
        queue = deque()
        for root in roots:
            cell = self.roots[root]
            if not state[cell]:
                state[cell], came[cell] = WAITING, root
                queue.append(cell)
        while queue:
            cell = queue.popleft()
            state[cell] = DONE
            low, high = first_edge[cell], first_edge[cell + 1]
            for edge, target in enumerate(targets[low:high], low):
                if not state[target]:
                    state[target], came[target] = WAITING, edge_base + edge
                    queue.append(target)
            for number in self.entries_of.get(cell, ()):
                one, other, target = self.entries[number]
                if not state[target] and state[one] == state[other] == DONE:
                    state[target], came[target] = WAITING, entry_base + number
                    queue.append(target)
        return ways

    def needed(self, roots, way, goal):
        """The steps of a way to the goal without which none of these roots reaches it.

        Each step has a bit. A cell's bits say which steps are not needed to reach it: an edge hands on all bits but
        its own, and an entry those that both its cells have.
        """
        bits = {step.key(): 1 << at for at, step in enumerate(way)}
        steps_from = {source for step in way if step.kind == "edge" for source in step.sources}
        full = (1 << len(way)) - 1
        first_edge, targets = self.first_edge, self.targets
        found, waits, queue = [0] * self.count, bytearray(self.count), deque()

        def reach(target, more):
            if found[target] | more != found[target]:
                found[target] |= more
                if not waits[target]:
                    waits[target] = 1
                    queue.append(target)

        for root in roots:
            reach(self.roots[root], full & ~bits.get(("root", root), 0))
        while queue:
            cell = queue.popleft()
            waits[cell], own = 0, found[cell]
            low, high = first_edge[cell], first_edge[cell + 1]
            if cell in steps_from:
                for edge in range(low, high):
                    reach(targets[edge], own & ~bits.get(("edge", edge), 0))
            else:
                for target in targets[low:high]:
                    if found[target] | own != found[target]:
                        found[target] |= own
                        if not waits[target]:
                            waits[target] = 1
                            queue.append(target)
            for number in self.entries_of.get(cell, ()):
                one, other, target = self.entries[number]
                reach(target, found[one] & found[other] & ~bits.get(("entry", number), 0))
        return [step for step in way if not found[goal] & bits[step.key()]]

    def roots_of(self, roots, goal):
        """Those of these roots from which some way leads to the goal."""
        first, sources = self.reversed()
        back = {}
        live = self.ways(roots) if self.entries else None
        for one, other, target in self.entries:
            if live.reaches(one) and live.reaches(other):
                back.setdefault(target, []).extend((one, other))
        seen, work = bytearray(self.count), [goal]
        seen[goal] = 1
        while work:
            cell = work.pop()
            for source in (*sources[first[cell]:first[cell + 1]], *back.get(cell, ())):
                if not seen[source]:
                    seen[source] = 1
                    work.append(source)
        return [root for root in roots if seen[self.roots[root]]]

    def reversed(self):
        """The cells with an edge to each cell: those of cell n are from first[n] on and below first[n + 1]."""
        counts = array("Q", bytes(8 * (self.count + 1)))
        for target in self.targets:
            counts[target + 1] += 1
        first = array("Q", accumulate(counts))
        free, sources = first[:], array("I", bytes(4 * len(self.targets)))
        for cell in range(self.count):
            for target in self.targets[self.first_edge[cell]:self.first_edge[cell + 1]]:
                sources[free[target]] = cell
                free[target] += 1
        return first, sources


class Ways:
    """The shortest way to each cell, by the step that leads to it."""

    def __init__(self, graph, came):
        self.graph, self.came = graph, came
        edge_base = len(graph.roots)
        self.bases = edge_base, edge_base + len(graph.targets)

    def reaches(self, cell):
        return self.came[cell] >= 0

    def last_step(self, cell):
        """The step that leads to a cell."""
        came, (edge_base, entry_base) = self.came[cell], self.bases
        if came < edge_base:
            return Step("root", came, (), cell)
        if came < entry_base:
            return Step("edge", came - edge_base, (bisect_right(self.graph.first_edge, came - edge_base) - 1,), cell)
        one, other, _ = self.graph.entries[came - entry_base]
        return Step("entry", came - entry_base, (one, other), cell)

    def way(self, goal):
        """The steps to a cell that is reached, each once, behind those that it needs."""
        steps, work, taken = [], [(goal, False)], set()
        while work:
            cell, is_ready = work.pop()
            if is_ready:
                steps.append(self.last_step(cell))
            elif cell not in taken:
                taken.add(cell)
                work.append((cell, True))
                work += [(source, False) for source in reversed(self.last_step(cell).sources)]
        return steps


def columns(rows):
    """Rows of texts, in columns, with a margin."""
    widths = [max(map(len, column)) for column in zip(*rows)]
    return ["  " + "  ".join(text.ljust(width) for text, width in zip(row, widths)).rstrip() for row in rows]


def listed(texts, most=12):
    """Some texts in one, each once, and how many more there are."""
    counts = Counter(texts)
    parts = [text if count == 1 else f"{text} ({count} times)" for text, count in counts.items()]
    return ", ".join(parts[:most]) + (f" and {len(parts) - most} more" if len(parts) > most else "")


def tell_way(graph, roots, way, goal, text_of, name_of):
    """A way from some of these roots to a cell, and what keeps that, in words: `text_of` has them for a step."""
    needed = {step.key() for step in graph.needed(roots, way, goal)}
    rows = [["*" if step.key() in needed else "", text_of(step), name_of(step.cell)] for step in way]
    lead = [text_of(Step("root", root, (), graph.roots[root])) for root in graph.roots_of(roots, goal)]
    letting_go = "all of these roots, or one thing marked *," if needed else "all of these roots"
    return [
        *columns(rows), f"roots that lead to it: {listed(lead)}", f"a collection frees it once {letting_go} let go",
    ]
