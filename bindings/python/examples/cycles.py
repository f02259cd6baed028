#!/usr/bin/env python3
"""A cycle collector over gray names: it frees rings that lead through Python objects and cells of the heap.

A Node is an object of the host, as an element of a page. It owns a gray slot, which holds its cell; a cell's number
leads back to its node. So the collector of the heap finds such a ring gray, and never frees it: only the host knows
which of its nodes are owned from elsewhere. The heap's black cells, and the nodes with an owner, keep what they lead
to. All other nodes are let go, and the next collection frees their cells.
"""

import sys
from pathlib import Path

sys.dont_write_bytecode = True
sys.path.insert(0, str(Path(__file__).resolve().parent.parent))
import gczone  # noqa: E402 (the module lies beside the folder)

CELL, OTHER = 0, 1


class Node:
    """An object of the host with a cell in the heap."""

    def __init__(self, host, label):
        self.label, self.slot, self.owners = label, host.slots.pop(), 1
        self.cell = host.heap.object(CELL, host.compartment, fields=1)
        host.heap.hold(self.slot, CELL)
        host.heap.drop(CELL)
        host.nodes[self.cell] = self


class Host:
    """Nodes by the numbers of their cells, and the heap."""

    def __init__(self):
        self.heap, self.nodes, self.slots = gczone.Heap(), {}, list(range(64))
        self.zone = self.heap.zone()
        self.compartment = self.heap.compartment(self.zone)

    def link(self, node, other):
        """The cell of a node leads to that of another one."""
        self.heap.expose(CELL, node.slot)
        self.heap.expose(OTHER, other.slot)
        self.heap.set(CELL, 0, OTHER)
        self.heap.drop(CELL)
        self.heap.drop(OTHER)

    def collect(self):
        """How many cells a collection of the heap frees."""
        events = self.heap.collect([self.zone])
        return sum(len(event.freed) for event in events if isinstance(event, gczone.Swept))

    def collect_cycles(self):
        """Lets go of the nodes whose cells nothing keeps, and returns their labels."""
        self.collect()
        lines, grays = self.heap.dump(), set(self.heap.grays())
        leads_to = {}
        for edge in lines:
            if isinstance(edge, gczone.Edge):
                leads_to.setdefault(edge.object, []).append(edge.name)
        kept = {line.name for line in lines if isinstance(line, gczone.Cell) and line.black}
        pending = [*kept, *(cell for cell in grays if cell in self.nodes and self.nodes[cell].owners)]
        while pending:
            cell = pending.pop()
            kept.add(cell)
            pending += (name for name in leads_to.get(cell, []) if name not in kept)
        dead = [self.nodes.pop(cell) for cell in sorted(grays - kept) if cell in self.nodes]
        for node in dead:
            self.heap.release(node.slot)
            self.slots.append(node.slot)
        return [node.label for node in dead]


def main():
    host = Host()
    page, menu, item, ring, bell = (Node(host, label) for label in ("page", "menu", "item", "ring", "bell"))
    for node, other in ((page, menu), (menu, item), (item, page), (ring, bell), (bell, ring)):
        host.link(node, other)
    for node in (menu, item, ring, bell):
        node.owners = 0
    print("gray, and freed by the heap alone:", host.collect())
    print("let go:", *host.collect_cycles())
    print("freed then:", host.collect())
    page.owners = 0
    print("let go without the page's owner:", *host.collect_cycles())
    print("freed then:", host.collect(), "cells left:", host.heap.counts().cells)
    host.heap.close()
    return 0


if __name__ == "__main__":
    sys.exit(main())
