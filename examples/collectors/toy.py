#!/usr/bin/env -S python3 -B
"""A small collector that marks in slices, for one zone: a trace on standard input, its answers on standard output.

It shows what a collector has to do so that tools/judge finds its output lawful: snapshot marking with a barrier before
each write, two colours, weak maps, and lists of freed cells. It knows the commands of a trace that makes one zone, and
refuses what the language refuses. The collectors beside it are wrong in one method each.
"""

import sys

WHITE, GRAY, BLACK = range(3)
SLOTS = 64


class Cell:
    """An object, a weak map or a wrapper. `name` is ordered as names are printed: numbers first, then wrappers."""

    def __init__(self, name, comp, fields=(), entries=None, target=None):
        self.name, self.comp, self.fields, self.entries, self.target = name, comp, list(fields), entries, target
        self.colour, self.place = BLACK, None

    def kind(self):
        return "wrapper" if self.target else "object" if self.entries is None else "map"

    def children(self):
        return [self.target] if self.target else [cell for cell in self.fields if cell]

    def __str__(self):
        return ":".join(str(number) for number in self.name[1:])


def listed(cells):
    return " ".join(str(cell) for cell in sorted(cells, key=lambda cell: cell.name)) or "-"


class Refused(Exception):
    """A command that changes nothing, and why."""


class Collector:
    def __init__(self):
        self.has_zone, self.comps, self.made = False, 0, 0
        self.registers, self.slots, self.wrappers = {}, {}, {}
        self.cells, self.arenas = set(), []
        self.is_running = self.is_preparing = self.is_marking = False
        self.black, self.gray, self.out = [], [], []

    # What the commands read and write

    def held(self, register):
        if register not in self.registers:
            raise Refused("empty")
        return self.registers[register]

    def take(self, register, cell):
        if cell is None:
            self.registers.pop(register, None)
            return "null"
        self.registers[register] = cell
        return str(cell)

    def make(self, cell):
        for arena, slots in enumerate(self.arenas):
            if arena not in self.out and None in slots:
                break
        else:
            arena, slots = len(self.arenas), [None] * SLOTS
            self.arenas.append(slots)
        slot = slots.index(None)
        slots[slot] = cell
        cell.place = (arena, slot)
        self.cells.add(cell)
        return cell

    def of_kind(self, register, kind):
        cell = self.held(register)
        if cell.kind() != kind:
            raise Refused("kind")
        return cell

    def field_of(self, register, field):
        cell = self.of_kind(register, "object")
        if field >= len(cell.fields):
            raise Refused("no-field")
        return cell

    def entry(self, *registers):
        cells = [self.held(register) for register in registers]
        if cells[0].kind() != "map":
            raise Refused("kind")
        if any(cell.comp != cells[0].comp for cell in cells):
            raise Refused("cross")
        return cells

    # The commands on the graph

    def zone(self):
        self.has_zone = True
        return "zone 0"

    def comp(self, zone):
        if not self.has_zone or zone != "0":
            raise Refused("no-zone")
        self.comps += 1
        return f"comp {self.comps - 1}"

    def add(self, register, comp, fields, entries):
        if int(comp) >= self.comps:
            raise Refused("no-comp")
        cell = self.make(Cell((0, self.made), int(comp), fields, entries))
        self.made += 1
        self.registers[register] = cell
        return f"cell {cell}"

    def new(self, register, comp, count):
        return self.add(register, comp, [None] * int(count), None)

    def map(self, register, comp):
        return self.add(register, comp, [], {})

    def get(self, register, source, field):
        return self.take(register, self.field_of(source, int(field)).fields[int(field)])

    def set(self, register, field, value):
        self.held(register)
        cell = None if value == "-" else self.held(value)
        holder = self.field_of(register, int(field))
        if cell and cell.comp != holder.comp:
            raise Refused("cross")
        self.before_write(holder.fields[int(field)])
        holder.fields[int(field)] = cell
        return "ok"

    def wrap(self, register, source, comp):
        cell, comp = self.held(source), int(comp)
        if comp >= self.comps:
            raise Refused("no-comp")
        cell = cell.target or cell
        if cell.comp != comp:
            name = (1, comp, cell.name[1])
            if name not in self.wrappers:
                self.wrappers[name] = self.make(Cell(name, comp, target=cell))
            cell = self.wrappers[name]
            self.expose_cell(cell)
        return self.take(register, cell)

    def unwrap(self, register, source):
        return self.take(register, self.of_kind(source, "wrapper").target)

    def copy(self, register, source):
        self.take(register, self.registers.get(source))
        return "ok"

    def drop(self, register):
        self.take(register, None)
        return "ok"

    def hold(self, slot, register):
        self.slots[slot] = self.registers.get(register)
        return "ok"

    def release(self, slot):
        self.slots[slot] = None
        return "ok"

    def expose(self, register, slot):
        cell = self.slots.get(slot)
        if cell:
            self.expose_cell(cell)
        return self.take(register, cell)

    def put(self, *registers):
        holder, key, value = self.entry(*registers)
        self.before_write(holder.entries.get(key))
        holder.entries[key] = value
        return "ok"

    def del_(self, *registers):
        holder, key = self.entry(*registers)
        if key not in holder.entries:
            return "absent"
        self.before_write(holder.entries.pop(key))
        return "ok"

    def find(self, register, *registers):
        holder, key = self.entry(*registers)
        return self.take(register, holder.entries.get(key))

    # Barriers and marking

    def before_write(self, old):
        """Marks what a field or an entry held, so that marking finds all that there was as it began."""
        if self.is_marking and old:
            self.mark_black(old)

    def expose_cell(self, cell):
        """A cell is handed to the script: it turns black, and what it leads to as well. All is cleared by `started`."""
        if self.is_preparing:
            return
        self.mark_black(cell)
        if not self.is_marking:
            while self.black_unit():
                pass

    def mark_black(self, cell):
        if cell.colour != BLACK:
            cell.colour = BLACK
            self.black.append(cell)

    def mark_gray(self, cell):
        if cell.colour == WHITE:
            cell.colour = GRAY
            self.gray.append(cell)

    def mark_child_gray(self, _holder, child):
        self.mark_gray(child)

    def colour_kept(self, holder, key):
        """The colour in which an entry keeps its value: the weaker one of its map and its key."""
        return min(holder.colour, key.colour)

    def weak_unit(self, colour, mark):
        """Marks what an entry keeps in this colour, its value or a key that is a wrapper; whether there was any."""
        for holder in self.cells:
            for key, value in (holder.entries or {}).items():
                if self.colour_kept(holder, key) >= colour > value.colour:
                    mark(value)
                    return True
                if key.target and min(holder.colour, key.target.colour) >= colour > key.colour:
                    mark(key)
                    return True
        return False

    def black_unit(self):
        if self.black:
            for child in self.black.pop().children():
                self.mark_black(child)
            return True
        return self.weak_unit(BLACK, self.mark_black)

    def gray_unit(self):
        if self.gray:
            holder = self.gray.pop()
            if holder.colour == GRAY:
                for child in holder.children():
                    self.mark_child_gray(holder, child)
            return True
        return self.weak_unit(GRAY, self.mark_gray)

    # The collection

    def begin(self):
        if self.is_running:
            raise Refused("running")
        if not self.has_zone:
            raise Refused("no-zone")
        self.is_running = self.is_preparing = True
        self.reports = iter(self.steps())

    def start(self):
        self.is_preparing, self.is_marking = False, True
        for cell in self.cells:
            cell.colour = WHITE
        for cell in self.registers.values():
            self.mark_black(cell)
        self.gray_roots = [cell for cell in self.slots.values() if cell]
        return ["started"]

    def steps(self):
        """The units of a collection, each with its reports."""
        yield self.start()
        while self.black_unit():
            yield []
        yield ["groups 0"]
        for cell in self.gray_roots:
            self.mark_gray(cell)
        while self.black_unit() or self.gray_unit():
            yield []
        yield self.end_marking()
        while self.out:
            yield self.sweep()

    def end_marking(self):
        self.is_marking = False
        self.dead = {cell for cell in self.cells if cell.colour == WHITE}
        self.cells -= self.dead
        self.wrappers = {name: cell for name, cell in self.wrappers.items() if cell not in self.dead}
        for holder in self.cells:
            if holder.entries:
                holder.entries = {key: value for key, value in holder.entries.items() if key not in self.dead}
        self.out = list(range(len(self.arenas)))
        gray = listed(cell for cell in self.cells if cell.colour == GRAY)
        return [f"ended 0 gray {gray}", *self.last_report()]

    def sweep(self):
        arena = self.out.pop(0)
        freed = [cell for cell in self.arenas[arena] if cell in self.dead]
        self.arenas[arena] = [None if cell in self.dead else cell for cell in self.arenas[arena]]
        return [f"swept {arena} {listed(freed)}", *self.last_report()]

    def last_report(self):
        if self.out:
            return []
        self.is_running = False
        return ["done"]

    def unit(self):
        """Does a unit, and prints its reports."""
        for report in next(self.reports):
            print(report)

    def gc(self, *_zones):
        self.begin()
        return "gc ok"

    def slice(self, most):
        if not self.is_running:
            raise Refused("idle")
        done = 0
        while self.is_running and done < int(most):
            self.unit()
            done += 1
        return f"slice {done}"

    def finish(self):
        return self.slice(1 << 62)

    def collect(self, *_zones):
        self.begin()
        while self.is_running:
            self.unit()
        return "collected"

    def reset(self):
        if not self.is_running:
            raise Refused("idle")
        while self.out:
            self.unit()
        if self.is_running:
            self.give_up()
            print("stopped 0")
        return "reset ok"

    def give_up(self):
        self.is_running = self.is_preparing = self.is_marking = False
        self.black, self.gray = [], []
        for cell in self.cells:
            cell.colour = BLACK

    def colours(self):
        if self.is_preparing or self.is_marking:
            raise Refused("marking")
        return f"gray {listed(cell for cell in self.cells if cell.colour == GRAY)}"

    def answer(self, line):
        word, *arguments = line.split(" ")
        try:
            print(getattr(self, "del_" if word == "del" else word)(*arguments))
        except Refused as refused:
            print(refused)


def run(collector):
    for line in sys.stdin:
        collector.answer(line.rstrip("\n"))


if __name__ == "__main__":
    run(Collector())
