"""A trace as steps: what each output line of the program changes in the heap, with the colours that the definitions ask
for. Shared by tools/page and tools/prompt.

The colours follow crates/colour_defs/specs (World, Ends, Lawful), also while zones are marking. Then a cell is black
by the black closure, gray by the live closure without it, and white else: the black closure only grows, so black is
sure, gray may still turn black, and white is freed unless `wrap` finds the wrapper. A cell of a zone that is being
prepared has no colour. This is plain Python, and proved in nothing; where a line of the program says something else, a
note says what the definitions ask for.
"""

import importlib.machinery
import importlib.util
import textwrap

from command_line import Fault
from crate_list import TOP
from progress import Progress
from trace_model import REFUSALS, Model, answers, is_report, name_order

LONGEST = 200
# The states of a cell: those of a settled heap, one of a zone that is being prepared, those while zones are marking,
# and a dead one that is not swept yet.
BLACK, GRAY, PREPARED, SURE, OPEN, WHITE, DEAD, NONE = "b", "g", "p", "B", "G", "W", "d", ""
STATE_NAMES = {
    BLACK: "black", GRAY: "gray", PREPARED: "not marked yet", SURE: "sure to be black", OPEN: "gray so far",
    WHITE: "not reached",
}
WAKING = {"new", "map", "wrap", "expose", "deref"}


def load_script(name):
    """A script of tools/ as a module."""
    loader = importlib.machinery.SourceFileLoader(name, str(TOP / "tools" / name))
    module = importlib.util.module_from_spec(importlib.util.spec_from_loader(name, loader))
    loader.exec_module(module)
    return module


reasons = load_script("explain")


def cut(text):
    return textwrap.shorten(text, LONGEST, placeholder=" ..")


def listed(names):
    return " ".join(sorted(names, key=name_order)) or "-"


class Graph:
    """The edges and weak entries between the present cells of a model at some moment."""

    def __init__(self, model):
        self.ends = {}
        for name, cell in model.cells.items():
            held = [*cell.fields, cell.target] if cell.target else cell.fields
            self.ends[name] = [value.name for value in held if value]
        self.pairs = {}
        for owner, key, value in model.entries.values():
            self.add_pair(owner.name, key.name, value.name)
            if key.target:
                self.add_pair(owner.name, key.target.name, key.name)

    def add_pair(self, one, other, both):
        """Two cells that lead to a third one together: map and key to the value, and map and delegate to the key."""
        self.pairs.setdefault(one, []).append((other, both))
        self.pairs.setdefault(other, []).append((one, both))

    def from_cell(self, name, reached):
        """What a cell leads to: its edges, and what it leads to together with a cell that is reached."""
        both = (both for other, both in self.pairs.get(name, ()) if other in reached)
        return [*self.ends.get(name, ()), *both]


class Closure:
    """The least set of names with its starts, the ends of edges, and what two of its cells lead to together. `closed`
    is such a set, and names that are left out are never in it."""

    def __init__(self, graph, starts, closed=(), left_out=()):
        self.graph, self.names, self.left_out = graph, set(closed), left_out
        self.add(starts)

    def add(self, starts):
        """Adds starts, and returns the names that are reached now and were not."""
        fresh, work = [], list(starts)
        while work:
            name = work.pop()
            if name not in self.names and name not in self.left_out:
                self.names.add(name)
                fresh.append(name)
                work += self.graph.from_cell(name, self.names)
        return fresh


class Collection:
    """A collection from the beginning of its marking: the closures in its snapshot, and what was woken since."""

    def __init__(self, model, black):
        zones = model.collecting
        outside = {name for name, cell in model.cells.items() if model.zone_of(cell) not in zones}
        graph = Graph(model)
        black_starts = {cell.name for cell in model.registers.values() if cell} | (black & outside)
        gray_roots = {cell.name for cell in model.gray.values() if cell}
        self.black = Closure(graph, black_starts)
        self.live = Closure(graph, black_starts | gray_roots | outside)
        self.woken = set()

    def wake(self, name):
        self.woken.add(name)
        self.live.add([name])
        return self.black.add([name])


class World:
    """The heap after each output line of a trace."""

    def __init__(self):
        self.model = Model()
        self.black = set()
        self.collection = None
        self.dead = {}
        # The watched cells that died with the last group.
        self.lost = set()

    def status(self, name):
        """The state of a present cell."""
        if self.model.is_prepared(self.model.cells[name]):
            return PREPARED
        if not self.model.marking:
            return BLACK if name in self.black else GRAY
        if name in self.collection.black.names:
            return SURE
        return OPEN if name in self.collection.live.names else WHITE

    def begin(self, words):
        self.model.command(words, "")
        self.black -= self.prepared()

    def prepared(self):
        """The names of the cells whose colours count for nothing."""
        return {name for name, cell in self.model.cells.items() if self.model.is_prepared(cell)}

    def wake(self, names, is_made):
        """Wakes cells, and returns the names whose colour may have changed."""
        if self.collection:
            fresh = [found for name in names for found in self.collection.wake(name)]
            if self.model.marking:
                return fresh
        if self.black.issuperset(names):
            return []
        if is_made and not self.model.preparing:
            # It leads to nothing, or to the target in a register, which is black.
            self.black.update(names)
            return names
        closure = Closure(Graph(self.model), (), self.black, self.prepared())
        fresh = closure.add(names)
        self.black = closure.names
        return fresh

    def command(self, words, reply):
        """Does an accepted command on the graph, and returns the names whose colour may have changed."""
        count = len(self.model.cells)
        read = self.model.registers.get(words[2]) if words[0] in ("wrap", "unwrap") else None
        self.model.command(words, reply)
        cell = self.model.registers.get(words[1]) if words[0] in WAKING else None
        names = [cell.name] if cell and (words[0] != "wrap" or cell.target) else []
        if self.model.preparing and read:
            # The wrapper that is read may be of a zone whose colours count for nothing.
            names.append((read.target or read).name)
        return self.wake(names, len(self.model.cells) > count) if names else []

    def gray_names(self, zones):
        """The gray names of these zones, once none of them is marking."""
        cells = [cell for cell in self.model.cells.values() if self.model.zone_of(cell) in zones]
        return [cell.name for cell in cells if self.status(cell.name) in (GRAY, OPEN)]

    def end_group(self, line, zones):
        """Ends a group, and returns the line that the definitions ask for."""
        cells = [cell for cell in self.model.cells.values() if self.model.zone_of(cell) in zones]
        white = [cell for cell in cells if cell.name not in self.collection.live.names]
        self.lost = {cell.name for cell in white} & self.model.watched
        self.dead.update({cell.place: cell for cell in white})
        self.model.report(line, [cell.name for cell in white])
        if not self.model.marking:
            self.black = self.collection.black.names & self.model.cells.keys()
        return f"ended {' '.join(map(str, sorted(zones)))} gray {listed(self.gray_names(zones))}"

    def stop(self, line):
        """Gives the collection up, and returns the line that the definitions ask for."""
        zones = self.model.preparing or self.model.marking
        held = [name for name, cell in self.model.cells.items() if self.model.zone_of(cell) in zones]
        found = self.collection.black.names & self.model.cells.keys() if self.collection else self.black
        self.black = Closure(Graph(self.model), [*found, *held]).names
        self.collection = None
        self.model.report(line, ())
        return f"stopped {' '.join(map(str, sorted(zones)))}"

    def report(self, line):
        """Takes in a report, and returns the line that the definitions ask for."""
        word, *rest = line.split(" ")
        if word == "ended":
            return self.end_group(line, {int(zone) for zone in rest[: rest.index("gray")]})
        if word == "stopped":
            return self.stop(line)
        self.model.report(line, ())
        if word == "told":
            return f"told {listed(self.lost)}"
        if word == "started":
            self.collection = Collection(self.model, self.black)
        if word == "swept":
            places = [place for place in self.dead if place[0] == int(rest[0])]
            return f"swept {rest[0]} {listed(self.dead.pop(place).name for place in places)}"
        if word == "done":
            self.collection = None
        return line

    def wanted(self, words, reply):
        """The reply that the definitions ask for, as far as this world tells it."""
        if words[0] == "colours":
            is_settled = self.model.is_settled()
            return f"gray {listed(self.gray_names(range(self.model.zones)))}" if is_settled else "marking"
        return reply


class Step:
    """An output line of the program: the number of its command, the line, what made it, and what it changes."""

    def __init__(self, number, text, why, changes):
        self.number, self.text, self.why, self.changes = number, text, why, changes


class Recorder:
    """Follows a world, and records what changes in the picture of it.

    A picture is a map from keys to values: `s` and a cell's number to its state, `w` to whether it was woken, `f`, a
    cell and a field to what it holds, `r` and `g` to what registers and gray slots hold, `e`, a map and a key to the
    entry's value, `z` to the state of a zone (`i` idle, `p` being prepared, `m` marking, `e` ended), `k` to the zone of
    a compartment, `a` to that of an arena, `o` to whether an arena is out, `q` to what weak slots name, `p` and a
    cell's number to its arena and slot once compaction has moved it, `groups` and `zones` to those of the collection,
    `begun` to how many steps stood before it, and `since` to how many stood before its marking, or null.
    Cells are numbered in order of making, since a name may be made again.
    """

    def __init__(self):
        self.world = World()
        self.steps, self.cells, self.numbers = [], [], {}
        self.shown, self.changes = {}, []

    def put(self, key, value):
        if self.shown.get(key) != value:
            self.shown[key] = value
            self.changes.append([key, value])

    def number(self, cell):
        """A cell's number, or None for no cell."""
        return None if cell is None else self.numbers[cell]

    def add_cells(self):
        """Numbers the cells that were made."""
        for cell in reversed(self.world.model.cells.values()):
            if cell in self.numbers:
                return
            self.numbers[cell] = len(self.cells)
            target = self.number(cell.target)
            self.cells.append([cell.name, cell.kind[0], cell.comp, *cell.place, len(cell.fields), target])

    def put_states(self, names):
        """Records the states of present cells."""
        cells = self.world.model.cells
        for cell in (cells[name] for name in names if name in cells):
            self.put(f"s{self.numbers[cell]}", self.world.status(cell.name))

    def put_zones(self):
        model = self.world.model
        for zone in range(model.zones):
            of_collection = model.collecting and zone in model.collecting
            state = "p" if zone in model.preparing else "m" if zone in model.marking else "e" if of_collection else "i"
            self.put(f"z{zone}", state)
        for comp, zone in enumerate(model.comps):
            self.put(f"k{comp}", zone)
        for arena, zone in enumerate(model.arenas):
            self.put(f"a{arena}", zone)
            self.put(f"o{arena}", int(arena in model.out))

    def put_places(self):
        """Records where the cells lie that were moved."""
        for cell in self.world.model.slots.values():
            number = self.numbers[cell]
            if list(cell.place) != (self.shown.get(f"p{number}") or self.cells[number][3:5]):
                self.put(f"p{number}", list(cell.place))

    def put_graph(self, words):
        """Records what a command on the graph may have changed."""
        model = self.world.model
        self.add_cells()
        if words[0] in ("zone", "comp", "compact", *WAKING):
            self.put_zones()
        if words[0] == "compact":
            self.put_places()
        for name, cell in [*model.registers.items(), *model.gray.items(), *model.weak.items()]:
            self.put(name, self.number(cell))
        if words[0] == "set":
            owner = model.registers[words[1]]
            self.put(f"f{self.number(owner)}.{words[2]}", self.number(owner.fields[int(words[2])]))
        if words[0] in ("put", "del"):
            owner, key = (model.registers[word] for word in words[1:3])
            entry = model.entries.get((owner.name, key.name))
            self.put(f"e{self.number(owner)}.{self.number(key)}", self.number(entry[2]) if entry else None)

    def put_woken(self, names):
        """Records which of these present cells were woken."""
        woken = self.world.collection.woken if self.world.collection else ()
        for name in names:
            number = self.numbers[self.world.model.cells[name]]
            if name in woken or self.shown.get(f"w{number}"):
                self.put(f"w{number}", int(name in woken))

    def put_collection(self):
        """Records everything after a step of a collection."""
        self.put_zones()
        self.put_states(self.world.model.cells)
        self.put_woken(self.world.model.cells)
        self.put("zones", sorted(self.world.model.collecting) if self.world.model.collecting else None)

    def add_step(self, number, text, why, wanted):
        """Ends a step. `wanted` is the line that the definitions ask for."""
        differs = f" -- but the definitions ask for: {cut(wanted)}" if wanted != text else ""
        self.steps.append(Step(number, cut(text), cut(why) + differs, self.changes))
        self.changes = []

    def begin(self, words):
        self.world.begin(words)
        self.put("begun", len(self.steps))
        self.put("since", None)
        self.put("groups", None)
        self.put_collection()

    def report(self, number, line):
        model = self.world.model
        entries, dead, weak = dict(model.entries), dict(self.world.dead), dict(model.weak)
        wanted = self.world.report(line)
        for place, cell in dead.items():
            if place not in self.world.dead:
                self.put(f"s{self.numbers[cell]}", NONE)
        for cell in self.world.dead.values():
            self.put(f"s{self.numbers[cell]}", DEAD)
        for key, (owner, kept, _) in entries.items():
            if key not in model.entries:
                self.put(f"e{self.number(owner)}.{self.number(kept)}", None)
        for name in weak.keys() - model.weak.keys():
            self.put(name, None)
        if line == "started":
            self.put("since", len(self.steps))
        if line.startswith("groups "):
            self.put("groups", line.removeprefix("groups "))
        self.put_collection()
        self.add_step(number, line, reasons.why_report(line, model), wanted)

    def reply(self, number, words, lines):
        """Takes in a reply, which is of several lines only if it is a dump."""
        reply, model = lines[-1], self.world.model
        before = self.before_wrap(words)
        if reply not in REFUSALS and words[0] not in ("gc", "collect"):
            fresh = self.world.command(words, reply)
            self.put_graph(words)
            self.put_states(fresh)
            if words[0] in WAKING:
                self.put_woken(cell.name for cell in [model.registers.get(words[1])] if cell)
        text = f"a dump of {len(lines)} lines" if len(lines) > 1 else reply
        wanted = self.world.wanted(words, text)
        self.add_step(number, text, reasons.why_command(words, reply, model, before), wanted)

    def before_wrap(self, words):
        """The names that were present before a command which may make a wrapper."""
        return set(self.world.model.cells) if words[0] == "wrap" else set()

    def line(self, number, text, output):
        """Takes in a command and its output lines."""
        words = text.split(" ")
        if words[0] in ("gc", "collect") and output[-1] in ("gc ok", "collected"):
            self.begin(words)
        reports = [line for line in output if is_report(line)]
        for line in reports:
            self.report(number, line)
        self.reply(number, words, output[len(reports):])


def record(lines, output):
    """Follows a trace that the program answered by these output lines."""
    recorder = Recorder()
    with Progress("lines", len(lines)) as progress:
        for number, (text, own) in enumerate(progress.over(zip(lines, answers(lines, output))), 1):
            try:
                recorder.line(number, text, own)
            except (LookupError, ValueError, AttributeError, TypeError):
                raise Fault(f"line {number}, '{text}', cannot be answered by '{cut(' / '.join(own))}'", 1) from None
    return recorder
