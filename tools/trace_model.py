"""A trace, its output, and a small model of the graph, which the tools share.

The model is plain Python and proved in nothing. It replays the commands of a trace beside the program's own output: the
output tells which cells were freed, and the model tells which cells there are and what holds what.
"""

import copy
import difflib
import heapq
import signal
import subprocess

from command_line import Fault, read_file
from crate_list import TOP
from program import find_program

SLOTS = 64
REPORTS = ("started", "groups", "ended", "told", "swept", "done", "stopped")

# The forms of the commands: r a register, t a register or `-`, g a gray slot, q a weak slot, z a zone, c a compartment,
# n the number of fields of an object, f a field, u a number of units, Z one or more zones that ascend.
FORMS = {
    "zone": "", "comp": "z", "new": "rcn", "map": "rc", "get": "rrf", "set": "rft", "wrap": "rrc", "unwrap": "rr",
    "copy": "rr", "drop": "r", "hold": "gr", "release": "g", "expose": "rg", "put": "rrr", "del": "rr", "find": "rrr",
    "weaken": "qr", "deref": "rq", "watch": "r", "unwatch": "r", "compact": "z",
    "gc": "Z", "slice": "u", "finish": "", "collect": "Z", "reset": "", "colours": "", "dump": "",
}
PARTS = {
    "r": ("a register, r0 to r15", "r", 15), "t": ("a register, r0 to r15, or -", "r", 15),
    "g": ("a gray slot, g0 to g63", "g", 63), "q": ("a weak slot, q0 to q63", "q", 63),
    "z": ("a zone, 0 to 63", "", 63),
    "c": ("a compartment, 0 to 255", "", 255),
    "n": ("a number of fields, 0 to 8", "", 8), "f": ("a field, 0 to 7", "", 7),
    "u": ("a number of units, 0 to 4294967295", "", 4294967295),
}


def run(text, program=None):
    """The output lines, the exit status and the error text of a program, or of `gczone`, on a trace."""
    done = subprocess.run([program or find_program(), "run"], input=text, capture_output=True, check=False)
    error = done.stderr.decode(errors="replace").strip()
    if done.returncode < 0:
        error = f"the program was ended by {signal.Signals(-done.returncode).name}"
    return done.stdout.decode(errors="replace").splitlines(), done.returncode, error


def ask(lines, program=None):
    """The output lines of a program on a trace, each line of which it answers."""
    output, status, error = run("".join(line + "\n" for line in lines).encode(), program)
    check_answers(lines, output, status, error)
    return output


def check_answers(lines, output, status, error):
    """Whether a program ended well, and answered each line."""
    if status:
        raise Fault(error or f"the program ends with status {status}", 1)
    answered = len(answers(lines, output))
    if answered != len(lines):
        raise Fault(f"the program answers {answered} of {len(lines)} lines", 1)


def read_trace(path):
    """The lines of a trace that has some, each a command."""
    raw = split_lines(read_file(path))
    if not raw:
        raise Fault(f"{path} is empty: a trace has a command on each line")
    bad = next((number for number, line in enumerate(raw, 1) if fault_of(line)), None)
    if bad:
        raise Fault(f"{path}: line {bad} is a bad line: see tools/explain")
    return [line.decode("ascii") for line in raw]


def check_line(number, lines):
    """Whether a trace has a line of this number."""
    if not 1 <= number <= len(lines):
        raise Fault(f"there is no line {number}: the trace has lines 1 to {len(lines)}")


def split_lines(data):
    """The lines of a trace, as bytes."""
    lines = data.split(b"\n")
    return lines[:-1] if lines[-1] == b"" else lines


def is_report(line):
    return line.split(" ")[0] in REPORTS


def is_last(command, line):
    """Whether an output line is the last one of a command's. A dump has many."""
    return line in ("end", "marking") if command == "dump" else not is_report(line)


def answers(commands, output):
    """The output lines of each command: reports, and last the reply. Commands without a reply are left out."""
    rest = iter(output)
    result = []
    for command in commands:
        own = []
        for line in rest:
            own.append(line)
            if is_last(command, line):
                break
        else:
            break
        result.append(own)
    return result


def number_fault(text, kind):
    """Why a word is no argument of this kind, or None."""
    meaning, letter, most = PARTS[kind]
    if kind == "t" and text == "-":
        return None
    if letter and not text.startswith(letter):
        return f"'{text}' is not {meaning}"
    digits = text[len(letter):]
    if not digits.isdigit():
        return f"'{text}' is not {meaning}"
    if digits != str(int(digits)):
        return f"'{text}' has a 0 in front: a number is 0, or begins with another digit"
    if int(digits) > most:
        return f"'{text}' is out of range: {meaning}"
    return None


def form_of(word):
    """A command's form in words."""
    names = {"t": "r or -", "u": "n", "Z": "z .."}
    return " ".join([word, *(names.get(kind, kind) for kind in FORMS[word])])


def fault_of(line):
    """Why a line (bytes, without its line feed) is bad, or None when it is a command."""
    long = len(line) > 255
    odd = next((at for at, byte in enumerate(line) if byte >= 128), None)
    if odd is not None and not (long and odd >= 255):
        return f"byte {odd + 1} is {line[odd]}: a trace is ASCII, all bytes are below 128"
    if long:
        return f"the line has {len(line)} bytes: 255 are the most"
    text = line.decode("ascii")
    if not text:
        return "the line is empty: there are no empty lines and no comments"
    if "\r" in text:
        return f"byte {text.index(chr(13)) + 1} is a carriage return: lines end with a line feed alone"
    if "\t" in text:
        return f"byte {text.index(chr(9)) + 1} is a tab: words have one space between them"
    other = next((at for at, letter in enumerate(text) if not 32 <= ord(letter) < 127), None)
    if other is not None:
        return f"byte {other + 1} is {ord(text[other])}, which is part of no word"
    if text.startswith(" "):
        return "the line begins with a space"
    if text.endswith(" "):
        return "the line ends with a space"
    if "  " in text:
        return f"there are two spaces at byte {text.index('  ') + 1}: words have exactly one between them"
    word, *rest = text.split(" ")
    if word not in FORMS:
        near = difflib.get_close_matches(word.lower(), FORMS, 1)
        hint = f"; did you mean '{near[0]}'?" if near else ""
        if word.startswith(("#", "//", ";", "--")):
            hint = "; there are no comments"
        return f"'{word}' is no command{hint}"
    kinds = FORMS[word]
    if kinds == "Z":
        if not rest:
            return f"zones are missing: {form_of(word)}"
        faults = [fault for fault in (number_fault(part, "z") for part in rest) if fault]
        if faults:
            return faults[0]
        for before, after in zip(rest, rest[1:]):
            if int(after) <= int(before):
                return f"zone {after} stands after zone {before}: zones ascend, each once"
        return None
    if len(rest) != len(kinds):
        return f"{len(rest)} arguments, where {word} takes {len(kinds)}: {form_of(word)}"
    return next((fault for fault in map(number_fault, rest, kinds) if fault), None)


def name_order(name):
    """Objects and maps before wrappers, each by their numbers."""
    comp, colon, target = name.partition(":")
    return (1, int(comp), int(target)) if colon else (0, int(name), 0)


class Cell:
    """A cell: its name, kind, compartment, arena and slot."""

    def __init__(self, name, kind, comp, place):
        self.name, self.kind, self.comp, self.place = name, kind, comp, place
        self.fields = []
        self.target = None


class Model:
    """The cells that are present, and what holds them."""

    def __init__(self):
        self.zones, self.comps = 0, []
        self.cells = {}
        self.wrappers = {}
        self.entries = {}
        self.registers, self.gray = {}, {}
        # What weak slots name, and the names of the watched cells. Neither keeps a cell.
        self.weak, self.watched = {}, set()
        # The zone of each arena, or None for one that compaction gave up.
        self.arenas = []
        self.slots = {}
        self.used = []
        self.room = {}
        self.out = set()
        self.collecting = None
        self.preparing, self.marking = set(), set()
        self.crossing = []
        self.objects = 0

    def place_for(self, zone):
        """The place of the next cell of a zone, which is taken by it."""
        room = self.room.setdefault(zone, [])
        while room and (room[0] in self.out or self.used[room[0]] == (1 << SLOTS) - 1):
            heapq.heappop(room)
        if not room:
            room.append(len(self.arenas))
            self.arenas.append(zone)
            self.used.append(0)
        arena = room[0]
        free = ~self.used[arena] & (self.used[arena] + 1)
        self.used[arena] |= free
        return arena, free.bit_length() - 1

    def take_in(self, arena, freed):
        """Takes in an arena that is out, without its cells of these names."""
        for place in ((arena, slot) for slot in range(SLOTS)):
            if place in self.slots and self.slots[place].name in freed:
                del self.slots[place]
                self.used[arena] &= ~(1 << place[1])
        if arena in self.out:
            self.out.remove(arena)
            heapq.heappush(self.room[self.arenas[arena]], arena)

    def compact(self, zone):
        """Moves the cells of a zone to as few of its arenas as they fill, the lowest ones, and gives up the others."""
        own = [arena for arena, owner in enumerate(self.arenas) if owner == zone]
        cells = [self.slots[place] for place in sorted(self.slots) if self.arenas[place[0]] == zone]
        kept = own[:-(-len(cells) // SLOTS)]
        self.room[zone] = list(kept)
        for cell in (cell for cell in cells if cell.place[0] not in kept):
            del self.slots[cell.place]
            cell.place = self.place_for(zone)
            self.slots[cell.place] = cell
        for arena in own[len(kept):]:
            self.arenas[arena] = None

    def make(self, name, kind, comp):
        cell = Cell(name, kind, comp, self.place_for(self.comps[comp]))
        self.slots[cell.place] = cell
        self.cells[name] = cell
        return cell

    def zone_of(self, cell):
        return self.comps[cell.comp]

    def is_settled(self):
        """Whether no zone is marking, and none is being prepared."""
        return not self.marking and not self.preparing

    def is_prepared(self, cell):
        """Whether a cell is of a zone that is being prepared, so that its colour counts for nothing."""
        return self.zone_of(cell) in self.preparing

    def without_prepared(self):
        """This model without the cells whose colours count for nothing."""
        rest = copy.copy(self)
        rest.cells = {name: cell for name, cell in self.cells.items() if not self.is_prepared(cell)}
        rest.entries = {
            names: entry for names, entry in self.entries.items() if all(cell.name in rest.cells for cell in entry)
        }
        return rest

    def wrappers_between(self, zones):
        """The names of the wrappers that lead from these zones to other ones of them."""
        ends = [(cell.name, self.zone_of(cell), self.zone_of(cell.target)) for cell in self.wrappers.values()]
        return [name for name, own, other in ends if own != other and {own, other} <= zones]

    def command(self, words, reply):
        """Does a command on the graph that was not refused."""
        word, *args = words
        regs = self.registers
        if word == "zone":
            self.zones += 1
        elif word == "comp":
            self.comps.append(int(args[0]))
        elif word in ("new", "map"):
            cell = self.make(str(self.objects), "object" if word == "new" else "map", int(args[1]))
            cell.fields = [None] * int(args[2]) if word == "new" else []
            self.objects += 1
            regs[args[0]] = cell
        elif word == "get":
            regs[args[0]] = regs[args[1]].fields[int(args[2])]
        elif word == "set":
            regs[args[0]].fields[int(args[1])] = None if args[2] == "-" else regs.get(args[2])
        elif word == "wrap":
            target = regs[args[1]].target or regs[args[1]]
            comp = int(args[2])
            if target.comp == comp:
                regs[args[0]] = target
            else:
                if (comp, target.name) not in self.wrappers:
                    cell = self.make(f"{comp}:{target.name}", "wrapper", comp)
                    cell.target = target
                    self.wrappers[comp, target.name] = cell
                regs[args[0]] = self.wrappers[comp, target.name]
        elif word == "unwrap":
            regs[args[0]] = regs[args[1]].target
        elif word == "copy":
            regs[args[0]] = regs.get(args[1])
        elif word == "drop":
            regs[args[0]] = None
        elif word == "hold":
            self.gray[args[0]] = regs.get(args[1])
        elif word == "release":
            self.gray[args[0]] = None
        elif word == "expose":
            regs[args[0]] = self.gray.get(args[1])
        elif word == "put":
            self.entries[regs[args[0]].name, regs[args[1]].name] = tuple(regs[part] for part in args)
        elif word == "del":
            if reply == "ok":
                del self.entries[regs[args[0]].name, regs[args[1]].name]
        elif word == "find":
            entry = self.entries.get((regs[args[1]].name, regs[args[2]].name))
            regs[args[0]] = entry[2] if entry else None
        elif word == "weaken":
            self.weak[args[0]] = regs.get(args[1])
        elif word == "deref":
            regs[args[0]] = self.weak.get(args[1])
        elif word == "watch":
            self.watched.add(regs[args[0]].name)
        elif word == "unwatch":
            self.watched.discard(regs[args[0]].name)
        elif word == "compact":
            self.compact(int(args[0]))
        elif word in ("gc", "collect"):
            self.collecting = {int(part) for part in args}
            self.preparing = set(self.collecting)

    def report(self, line, dead):
        """Takes in a report of a collection; `dead` has the names that `swept` lines tell after an `ended` line."""
        word, *rest = line.split(" ")
        if word == "started":
            self.preparing, self.marking = set(), self.preparing
        elif word == "groups":
            self.crossing = self.wrappers_between(self.collecting)
        elif word == "ended":
            zones = {int(part) for part in rest[: rest.index("gray")]}
            self.marking -= zones
            self.out = {arena for arena, zone in enumerate(self.arenas) if zone in zones}
            gone = {id(self.cells[name]) for name in dead}
            for name in dead:
                cell = self.cells.pop(name)
                if cell.target:
                    del self.wrappers[cell.comp, cell.target.name]
            self.watched -= set(dead)
            self.weak = {slot: cell for slot, cell in self.weak.items() if cell and id(cell) not in gone}
            self.entries = {
                key: entry for key, entry in self.entries.items() if not any(id(cell) in gone for cell in entry)
            }
        elif word == "swept":
            self.take_in(int(rest[0]), set(rest[1:]))
        elif word in ("done", "stopped"):
            self.collecting = None
            self.preparing, self.marking = set(), set()


def dead_after(reports, at):
    """The names in the `swept` lines between one `ended` line and the next."""
    names = []
    for line in reports[at + 1:]:
        word, *rest = line.split(" ")
        if word in ("ended", "done", "stopped"):
            break
        if word == "swept":
            names += [name for name in rest[1:] if name != "-"]
    return names


REFUSALS = {
    "full", "no-zone", "no-comp", "empty", "kind", "no-field", "cross", "running", "idle", "marking",
}


def replay(lines, output, later=()):
    """Yields, for each command that has an answer, its words, its output lines, and the model after it.

    `lines` are the texts of commands, `output` the program's output lines, and `later` the output lines that would come
    after it, so that the cells which a group left dead are known before they are swept.
    """
    model = Model()
    told = answers(lines, output)
    reports = [line for own in told for line in own if is_report(line)]
    reports += [line for line in later if is_report(line)]
    at = 0
    for number, (text, own) in enumerate(zip(lines, told), 1):
        words = text.split(" ")
        try:
            at = step(model, words, own, reports, at)
        except (LookupError, ValueError, AttributeError, TypeError):
            raise Fault(f"line {number}, '{text}', cannot be answered by '{' / '.join(own)}'", 1) from None
        yield words, own, model


def step(model, words, own, reports, at):
    """Does a command whose answer is these lines, and returns how many of all the reports are done then."""
    begins = words[0] in ("gc", "collect")
    if begins and own[-1] in ("gc ok", "collected"):
        model.command(words, own[-1])
    for line in filter(is_report, own):
        model.report(line, dead_after(reports, at) if line.startswith("ended ") else ())
        at += 1
    if not begins and own[-1] not in REFUSALS:
        model.command(words, own[-1])
    return at


def dump_lines(model, names, black):
    """The dump of a graph in which these names are present, and some of them black."""
    lines = [f"cell {name} {'b' if name in black else 'g'}" for name in names]
    cells = [model.cells[name] for name in names if name in model.cells]
    lines += [f"edge {cell.name} {value.name}" for cell in cells for value in cell.fields if value]
    entries = sorted(model.entries.items(), key=lambda entry: [name_order(name) for name in entry[0]])
    lines += [f"weak {owner} {key} {value.name}" for (owner, key), (_, _, value) in entries]
    return [*lines, "end"]
