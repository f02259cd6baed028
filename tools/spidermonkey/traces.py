"""Random traces: most operands are chosen by the graph so far, so that most commands are accepted."""

import random

from trace_model import Model

REGISTERS, SLOTS, FIELDS = 10, 6, 3
# How often a command comes. Weak references have no command yet: theirs belong here.
WEIGHTS = {
    "new": 5, "map": 1, "get": 2, "set": 5, "wrap": 4, "unwrap": 1, "copy": 1, "drop": 6, "hold": 4, "release": 1,
    "expose": 2, "put": 2, "find": 1, "del": 1, "colours": 1,
}
MANY_WEAK = {"map": 2, "put": 6}
IN_ONE_PIECE = {"collect": 2}
IN_SLICES = {"gc": 2, "slice": 8}
BUDGETS = (2, 5, 10, 20, 100)
# What each word reads, in the order of its refusals: the places of registers, and the kind of the first one.
READS = {
    "get": ((1,), "object"), "set": ((0, 2), "object"), "wrap": ((1,), None), "unwrap": ((1,), "wrapper"),
    "put": ((0, 1, 2), "map"), "del": ((0, 1), "map"), "find": ((1, 2), "map"),
}
ANY = ("object", "map", "wrapper")


def is_accepted(model, word, args):
    """Whether a command on the graph is not refused, for zones and compartments that are made."""
    if word not in READS:
        return True
    places, kind = READS[word]
    cells = [model.registers.get(args[place]) for place in places if args[place] != "-"]
    if None in cells or (kind and cells[0].kind != kind):
        return False
    if word in ("get", "set"):
        field = args[2] if word == "get" else args[1]
        if int(field) >= len(cells[0].fields):
            return False
    return word == "wrap" or all(cell.comp == cells[0].comp for cell in cells)


class Graph(Model):
    """The model without the places of cells, which nobody asks for."""

    def place_for(self, zone):
        return len(self.slots), 0


class Trace:
    def __init__(self, seed, in_slices):
        self.random = random.Random(f"{seed} {'slices' if in_slices else 'one piece'}")
        self.model = Graph()
        self.lines = []
        self.zones = self.random.randint(1, 4)
        self.comps = self.random.randint(self.zones, self.zones + 2)
        for _ in range(self.zones):
            self.add("zone")
        for comp in range(self.comps):
            self.add("comp", comp % self.zones)
        weights = {**WEIGHTS, **(MANY_WEAK if seed % 2 else {}), **(IN_SLICES if in_slices else IN_ONE_PIECE)}
        for word in self.random.choices(list(weights), list(weights.values()), k=self.random.randint(40, 250)):
            self.add(word, *self.operands(word))
            if word in ("collect", "expose"):
                self.add("colours")
        self.close()

    def close(self):
        """Ends the collection that runs. After one of all zones nothing is left free, but the order of groups."""
        self.add("finish")
        self.add("collect", *self.some_zones())
        self.add("colours")
        self.add("collect", *range(self.zones))
        self.add("colours")

    def add(self, word, *args):
        args = [str(arg) for arg in args]
        self.lines.append(" ".join([word, *args]))
        if word not in ("gc", "collect", "slice", "finish", "colours") and is_accepted(self.model, word, args):
            entry = tuple(self.model.registers[arg].name for arg in args) if word == "del" else None
            self.model.command([word, *args], "ok" if word != "del" or entry in self.model.entries else "absent")

    def operands(self, word):
        draw = self.random.randrange
        into, comp, slot = f"r{draw(REGISTERS)}", draw(self.comps), f"g{draw(SLOTS)}"
        if word == "new":
            return into, comp, 1 + draw(FIELDS)
        if word == "map":
            return into, comp
        if word == "get":
            return into, self.held("object"), draw(FIELDS)
        if word == "set":
            holder = self.held("object")
            return holder, draw(FIELDS), "-" if self.random.random() < 0.15 else self.held(*ANY, beside=holder)
        if word == "wrap":
            return into, self.held(*ANY), comp
        if word == "unwrap":
            return into, self.held("wrapper")
        if word in ("put", "find", "del"):
            found = self.held("map")
            key = self.held(*ANY, beside=found)
            value = self.held(*ANY, beside=found)
            return {"put": (found, key, value), "find": (into, found, key), "del": (found, key)}[word]
        return {
            "copy": (into, f"r{draw(REGISTERS)}"), "drop": (into,), "hold": (slot, self.held(*ANY)), "release": (slot,),
            "expose": (into, slot), "slice": (self.random.choice(BUDGETS),), "gc": self.some_zones(),
            "collect": self.some_zones(), "colours": (),
        }[word]

    def held(self, *kinds, beside=None):
        """A register, mostly one with a cell of one of these kinds, of the compartment of what another one holds."""
        other = self.model.registers.get(beside)
        fitting = [
            register for register, cell in sorted(self.model.registers.items())
            if cell and cell.kind in kinds and (other is None or cell.comp == other.comp)
        ]
        if fitting and self.random.random() < 0.95:
            return self.random.choice(fitting)
        return f"r{self.random.randrange(REGISTERS)}"

    def some_zones(self):
        return tuple(sorted(self.random.sample(range(self.zones), self.random.randint(1, self.zones))))
