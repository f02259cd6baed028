#!/usr/bin/env python3
"""Answers a trace of docs/TRACE.md by calls of the library, and prints what `gczone run` prints.

With --pin the registers from r8 on are pinned roots: copy to one pins, copy from one loads, and drop unpins.
"""

import sys
from pathlib import Path

sys.dont_write_bytecode = True
sys.path.insert(0, str(Path(__file__).resolve().parent.parent))
import gczone  # noqa: E402 (the module lies beside the folder)

WORDS = {
    gczone.FULL: "full", gczone.NO_ZONE: "no-zone", gczone.NO_COMPARTMENT: "no-comp", gczone.EMPTY: "empty",
    gczone.KIND: "kind", gczone.NO_FIELD: "no-field", gczone.CROSS: "cross", gczone.RUNNING: "running",
    gczone.IDLE: "idle", gczone.MARKING: "marking",
}


def name_text(name):
    if name is None:
        return "null"
    return "{}:{}".format(*name) if isinstance(name, tuple) else str(name)


def list_text(names):
    return " ".join(map(name_text, names)) or "-"


def zones_text(zones):
    return " ".join(map(str, zones))


def event_text(event):
    if isinstance(event, gczone.Started):
        return "started"
    if isinstance(event, gczone.Stopped):
        return f"stopped {zones_text(event.zones)}"
    if isinstance(event, gczone.Groups):
        return "groups " + " | ".join(map(zones_text, event.groups))
    if isinstance(event, gczone.Ended):
        told = f"\ntold {list_text(event.lost)}" if event.lost else ""
        return f"ended {zones_text(event.zones)} gray {list_text(event.grays)}{told}"
    return f"swept {event.arena} {list_text(event.freed)}"


def line_text(line):
    if isinstance(line, gczone.Cell):
        return f"cell {name_text(line.name)} {'b' if line.black else 'g'}"
    if isinstance(line, gczone.Edge):
        return f"edge {line.object} {name_text(line.name)}"
    return f"weak {line.map} {name_text(line.key)} {name_text(line.value)}"


class Replay:
    """A heap, and the answers to lines. The roots are those of the registers that are pinned, if they hold a cell."""

    def __init__(self, heap, first_pinned):
        self.heap, self.first_pinned, self.roots = heap, first_pinned, {}

    def copy(self, register, source):
        if register >= self.first_pinned:
            self.pin(register, source)
        elif source < self.first_pinned:
            self.heap.copy(register, source)
        elif source in self.roots:
            self.heap.load(register, self.roots[source])
        else:
            self.heap.drop(register)

    def pin(self, register, source):
        self.drop(register)
        try:
            self.roots[register] = self.heap.pin(source)
        except gczone.Fault as fault:
            if fault.status != gczone.EMPTY:
                raise

    def drop(self, register):
        if register < self.first_pinned:
            self.heap.drop(register)
        elif register in self.roots:
            self.heap.unpin(self.roots.pop(register))

    def advance(self, limit):
        """Does units, prints what they report, and returns how many they are."""
        done = 0
        while done < limit and self.heap.running():
            units, event, finished = self.heap.advance(limit - done)
            done += units
            if event:
                print(event_text(event))
            if finished:
                print("done")
        return done

    def slice(self, limit):
        return f"slice {self.advance(limit)}" if self.heap.running() else "idle"

    def reset(self):
        if not self.heap.running():
            return "idle"
        events = self.heap.reset()
        print(*map(event_text, events), sep="\n")
        if isinstance(events[-1], gczone.Swept):
            print("done")
        return "reset ok"

    def collect(self, zones):
        self.heap.begin(zones)
        self.advance(2**64 - 1)
        return "collected"

    def grays(self):
        """The gray names, one after the other, which are those of the list."""
        names = []
        while (name := self.heap.next_gray(names[-1] if names else None)) is not None:
            names.append(name)
        if names != self.heap.grays():
            raise SystemExit("replay: the next gray names are not those of the list")
        return names

    def answer(self, word, *words):
        """The answer to a line, the last lines that are printed of it."""
        heap, numbers = self.heap, [int(it.lstrip("rgq")) for it in words if it != "-"]
        answered = {
            "get": heap.get, "wrap": heap.wrap, "unwrap": heap.unwrap, "expose": heap.expose, "find": heap.find,
            "deref": heap.deref,
        }
        ordered = {
            "set": heap.set, "copy": self.copy, "drop": self.drop, "hold": heap.hold, "release": heap.release,
            "put": heap.put, "weaken": heap.weaken, "watch": heap.watch,
        }
        numbered = {"zone": heap.zone, "comp": heap.compartment, "new": heap.object, "map": heap.map}
        if word in answered:
            return name_text(answered[word](*numbers))
        if word in numbered:
            made = numbered[word](*numbers)
            return f"{word if word in ('zone', 'comp') else 'cell'} {made}"
        if word in ordered:
            ordered[word](*numbers)
            return "ok"
        others = {
            "del": lambda: "ok" if heap.delete(*numbers) else "absent",
            "unwatch": lambda: "ok" if heap.unwatch(*numbers) else "absent",
            "compact": lambda: "compacted {} {}".format(*heap.compact(*numbers)),
            "gc": lambda: heap.begin(numbers) or "gc ok",
            "collect": lambda: self.collect(numbers),
            "slice": lambda: self.slice(*numbers),
            "finish": lambda: self.slice(2**64 - 1),
            "reset": self.reset,
            "colours": lambda: f"gray {list_text(self.grays())}",
            "dump": lambda: "\n".join([*map(line_text, heap.dump()), "end"]),
        }
        return others[word]()


def main():
    with gczone.Heap() as heap:
        replay = Replay(heap, 8 if sys.argv[1:] == ["--pin"] else 16)
        for number, line in enumerate(sys.stdin, 1):
            try:
                print(replay.answer(*line.split()))
            except gczone.Fault as fault:
                if fault.status < gczone.FULL:
                    print(f"replay: {fault}", file=sys.stderr)
                    return 6 if fault.status == gczone.NO_MEMORY else 1
                print(WORDS[fault.status])
            except (KeyError, TypeError, ValueError):
                print(f"replay: line {number}: bad line", file=sys.stderr)
                return 3
    return 0


if __name__ == "__main__":
    sys.exit(main())
