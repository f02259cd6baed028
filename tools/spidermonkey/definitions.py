"""Judges the reports of a run, one by one, by the definitions of crates/colour_defs: what is lawful as a group ends
(specs/Ends), which sweep groups are lawful (specs/Groups), what a woken cell turns black (specs/World).

The graph is that of tools/trace_model.py. Closures are computed anew from the snapshot each time. Between `gc` and the
beginning of marking the zones are being prepared, and their colours count for nothing. Nothing here is proved.

In place of a rule of the definitions the engine's own may be taken (classes.py):

- EXPOSED_KEY: outside a collection, and in zones that are not marking, what turns black takes no weak entry along, and
  `find` exposes what it returns;
- LATE_WEAK_VALUE: the black pass over weak maps runs group by group, so a weak value in a zone that is still marking
  may be late;
- LARGER_GROUPS: a wrapper that leads to such a value may make an edge between zones;
- KEY_EDGE: the target of a wrapper that is a key may make an edge to the key's zone, though it is black;
- GRAY_DELEGATE: such a target in a zone that is not collected counts as black.
"""

from collections import defaultdict

from trace_model import REFUSALS

from classes import EXPOSED_KEY, GRAY_DELEGATE, KEY_EDGE, LARGER_GROUPS, LATE_WEAK_VALUE
from traces import Graph

WAKES = {"new", "map", "wrap", "expose"}
NOTHING = frozenset()


class Snapshot:
    """What leads to what at one moment, by names."""

    def __init__(self, model):
        self.edges = {name: self.edges_of(cell) for name, cell in model.cells.items()}
        # What a name leads to together with another one: map and key to the value, map and delegate to the key.
        self.pairs = defaultdict(list)
        self.keys = wrapper_keys(model)
        for (map_name, key), (map_cell, key_cell, value) in model.entries.items():
            zone = model.zone_of(map_cell)
            self.add_pair(map_name, key, value.name, zone)
            if key_cell.target:
                self.add_pair(map_name, key_cell.target.name, key, zone)

    def add_pair(self, one, other, both, zone):
        self.pairs[one].append((other, both, zone))
        self.pairs[other].append((one, both, zone))

    @staticmethod
    def edges_of(cell):
        if cell.target:
            return [cell.target.name]
        return [held.name for held in cell.fields if held]

    def close(self, starts, zones=None, delegates=NOTHING):
        """What these names reach. Entries count of maps of these zones, or of all. These delegates count as reached,
        and lead nowhere else."""
        found, work = set(starts), list(starts)
        while work:
            name = work.pop()
            reached = list(self.edges.get(name, ()))
            for other, both, zone in self.pairs.get(name, ()):
                is_delegate = other in delegates and both in self.keys and self.edges[both] == [other]
                if (other in found or is_delegate) and (zones is None or zone in zones):
                    reached.append(both)
            fresh = [other for other in reached if other not in found]
            found.update(fresh)
            work += fresh
        return found


def wrapper_keys(model):
    """The wrappers that are keys."""
    return {key for (_, key), (_, cell, _) in model.entries.items() if cell.target}


class World:
    """What the definitions say of a trace and of the reports so far."""

    def __init__(self, rules):
        self.rules = rules
        self.model = Graph()
        self.black = set()
        self.differences = []
        self.is_running = False
        self.forget()

    def forget(self):
        self.zones, self.marking, self.woken = set(), set(), set()
        self.model.preparing = set()
        self.settled_black, self.surely_black = set(), set()
        self.snapshot = self.black_starts = self.live_starts = None
        self.told, self.groups, self.components = [], [], set()

    def expect(self, what, found, wanted):
        if found != wanted:
            texts = (" ".join(sorted(each)) if isinstance(each, (set, frozenset)) else each for each in (found, wanted))
            self.differences.append("{}: {!r}, by the definitions {!r}".format(what, *texts))

    def present(self, is_in):
        """The present names of the zones for which this holds."""
        return {name for name, cell in self.model.cells.items() if is_in(self.model.zone_of(cell))}

    # Commands on the graph.

    def command(self, words, reply):
        if reply in REFUSALS:
            return
        read = self.model.registers.get(words[2]) if words[0] in ("wrap", "unwrap") else None
        self.model.command(words, reply)
        if read and self.model.preparing:
            # The wrapper that is read may be of a zone whose colours count for nothing.
            self.wake((read.target or read).name)
        woken = self.model.registers.get(words[1]) if len(words) > 1 else None
        if woken and (words[0] in WAKES or (words[0] == "find" and EXPOSED_KEY in self.rules)):
            self.wake(woken.name)

    def wake(self, name):
        if self.marking:
            self.woken.add(name)
        elif name not in self.black and not self.model.is_prepared(self.model.cells[name]):
            counted = self.model.without_prepared() if self.model.preparing else self.model
            reached = Snapshot(counted).close(self.black | {name}, self.maps_of(NOTHING))
            self.black = {other for other in reached if other in counted.cells}

    # Collections.

    def begin(self, zones):
        self.zones, self.is_running = zones, True
        self.model.preparing = set(zones)
        self.black -= self.present(lambda zone: zone in zones)

    def start(self):
        zones, model = self.zones, self.model
        self.marking, model.preparing = set(zones), set()
        held = {cell.name for cell in model.registers.values() if cell}
        outside = self.present(lambda zone: zone not in self.zones)
        self.snapshot = Snapshot(model)
        self.black_starts = held | (self.black & outside)
        self.live_starts = self.black_starts | {cell.name for cell in model.gray.values() if cell} | outside
        self.components = components(zones, self.first_edges(NOTHING))

    def maps_of(self, zones):
        """The zones of the maps whose entries count where the engine looks at those of these zones alone; or all."""
        return zones if EXPOSED_KEY in self.rules else None

    def black_closure(self):
        starts = self.black_starts | self.woken | self.settled_black
        return self.snapshot.close(starts, self.maps_of(self.marking), self.delegates(self.rules))

    def delegates(self, rules):
        """What counts as black as a delegate, though it is not."""
        return self.present(lambda zone: zone not in self.zones) if GRAY_DELEGATE in rules else NOTHING

    def live_closure(self):
        return self.snapshot.close(self.live_starts | self.woken)

    def edges(self, black, keys, rules=NOTHING):
        """The edges between zones of the collection: a wrapper leads from the first to a cell that is not black, and
        back, if it is one of these keys."""
        found = set()
        for cell in self.model.wrappers.values():
            ends = self.model.zone_of(cell), self.model.zone_of(cell.target)
            if ends[0] == ends[1] or not set(ends) <= self.zones:
                continue
            is_black = cell.target.name in black
            if not is_black:
                found.add(ends)
            if cell.name in keys and (not is_black or KEY_EDGE in rules):
                found.add(ends[::-1])
        return found

    def first_edges(self, rules):
        maps = NOTHING if LARGER_GROUPS in rules else self.maps_of(self.zones)
        black = self.snapshot.close(self.black_starts, maps, self.delegates(self.rules))
        # The engine looks at the entries as they stand when it forms the groups.
        keys = self.snapshot.keys | (wrapper_keys(self.model) if KEY_EDGE in rules else NOTHING)
        return self.edges(black, keys, rules)

    def end(self, end):
        """Judges a group's end, and takes in what dies."""
        black, live = self.black_closure(), self.live_closure()
        zones = " ".join(map(str, sorted(end.zones)))
        own = self.present(lambda zone: zone in end.zones)
        if self.told:
            self.expect("group", end.zones, self.told.pop(0))
        else:
            self.judge_group(end.zones, self.marking - end.zones, black)
        self.expect(f"gray of {zones}", end.gray, own & (live - black))
        self.expect(f"dead of {zones}", end.dead, own - live)
        if end.outside is not None:
            self.judge_other_zones(end, zones, black, live)
        self.model.report(f"ended {zones} gray -", end.dead & own)
        self.marking = self.marking - end.zones
        self.groups.append(end.zones)
        self.settled_black = black
        if not self.marking:
            self.black = {name for name in black if name in self.model.cells}

    def judge_other_zones(self, end, zones, black, live):
        """The gray names of zones that are not marking, and the black ones of those that are still marking."""
        marking = self.marking - end.zones
        others = self.present(lambda zone: zone not in self.marking)
        self.expect(f"outside at the end of {zones}", end.outside, others & (live - black))
        marked = self.present(lambda zone: zone in marking)
        # By then the engine has followed the entries of the maps of groups that have ended.
        starts = self.black_starts | self.woken | self.surely_black
        self.surely_black = self.snapshot.close(starts, end.zones, self.delegates(self.rules))
        if LATE_WEAK_VALUE not in self.rules or not marked & self.surely_black <= end.marking_black <= black:
            self.expect(f"marking at the end of {zones}", end.marking_black, marked & black)

    def form_groups(self, groups):
        """Judges groups as they are formed."""
        black, left = self.black_closure(), set(self.zones)
        for group in groups:
            left -= group
            self.judge_group(group, left, black)
        if left or sum(map(len, groups)) != len(self.zones):
            self.differences.append(f"groups: {sorted(map(sorted, groups))} do not part {sorted(self.zones)}")
        self.told = list(groups)

    def judge_group(self, group, later, black):
        """A group is strongly connected by first edges, and no edge leads into it from a zone that ends later."""
        if not is_strong(group, self.first_edges(self.rules)):
            self.differences.append(f"groups: {sorted(group)} is not strongly connected")
        for source, target in self.edges(black, wrapper_keys(self.model)):
            if target in group and source in later:
                self.differences.append(f"groups: zone {source} leads into {sorted(group)}, and ends later")

    def judge_components(self):
        """In one piece, the groups are the components. The engine's larger ones are unions of these."""
        found, wanted = set(self.groups), self.components
        may_be_larger = LARGER_GROUPS in self.rules or KEY_EDGE in self.rules
        are_unions = may_be_larger and all(any(each <= group for group in found) for each in wanted)
        if found != wanted and not are_unions:
            self.differences.append(f"groups: {sorted(map(sorted, found))} for {sorted(map(sorted, wanted))}")

    def finish(self):
        if self.marking:
            self.differences.append(f"done: zones {sorted(self.marking)} have not ended")
        self.is_running = False
        self.forget()

    def is_settled(self):
        return not self.marking and not self.model.preparing

    def gray(self):
        return set(self.model.cells) - self.black


def reached(start, zones, edges):
    found, work = {start}, [start]
    while work:
        zone = work.pop()
        fresh = {target for source, target in edges if source == zone and target in zones} - found
        found |= fresh
        work += fresh
    return found


def is_strong(zones, edges):
    start = min(zones)
    back = {(target, source) for source, target in edges}
    return reached(start, zones, edges) == zones == reached(start, zones, back)


def components(zones, edges):
    to = {zone: reached(zone, zones, edges) for zone in zones}
    return {frozenset(other for other in to[zone] if zone in to[other]) for zone in zones}


def judge(lines, answers, rules=NOTHING):
    """What differs from the definitions in a run, with these rules of the engine in place of theirs."""
    world = World(rules)
    for line, answer in zip(lines, answers):
        judge_line(world, line.split(" "), answer)
    return world.differences


def judge_line(world, words, answer):
    word = words[0]
    if word in ("gc", "collect"):
        wanted = reply_to_begin(world, words)
        if wanted:
            world.expect("reply", answer.reply, wanted)
            return
        world.begin({int(zone) for zone in words[1:]})
        in_one_piece = word == "collect"
        world.expect("reply", answer.reply, "collected" if in_one_piece else "gc ok")
        take_reports(world, answer, in_one_piece)
    elif word in ("slice", "finish", "until"):
        world.expect("reply", answer.reply, "slice" if world.is_running else "idle")
        take_reports(world, answer, False)
        if word == "finish" and world.is_running:
            world.differences.append("finish: the collection is not over")
    elif word == "colours" and world.is_settled():
        world.expect("colours", names_of(answer.reply), world.gray())
    elif word == "colours":
        world.expect("reply", answer.reply, "marking")
    else:
        world.command(words, answer.reply)


def reply_to_begin(world, words):
    if world.is_running:
        return "running"
    return "" if all(int(zone) < world.model.zones for zone in words[1:]) else "no-zone"


def take_reports(world, answer, in_one_piece):
    if answer.is_started:
        world.start()
    if answer.groups:
        world.form_groups(answer.groups)
    for end in answer.ends:
        world.end(end)
    if answer.is_done:
        if in_one_piece:
            world.judge_components()
        world.finish()


def names_of(reply):
    return set(reply.split(" ")[1:]) - {"-"}
