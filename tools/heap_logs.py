"""A heap log of SpiderMonkey, and the dump of colours of it: shared by tools/heap-log and tools/check-heap-log.

A heap log is what js::DumpHeap writes, and what about:memory saves as gc-edges (docs/HEAPLOGS.md). Texts are kept as
bytes, and cells, edges and names by numbers, since a log may have millions of them.
"""

import gc
import os
import re
import sys
from array import array
from bisect import bisect_right
from collections import Counter, defaultdict
from contextlib import nullcontext

from command_line import Fault
from progress import Progress
from reach import Graph, tell_way

CELL = re.compile(rb"(0x[0-9a-fA-F]+) (\S)(?: (.*))?\n?")
EDGE_LINE = re.compile(rb"> 0x[0-9a-fA-F]+ \S ")
ADDRESS = re.compile(rb"0x[0-9a-fA-F]+")
ENTRY = re.compile(rb"WeakMapEntry map=(\S+) key=(\S+) keyDelegate=(\S+) value=(\S+)\n?")
EDGE, NOTE, LINE_END = b">#\n"
COLOURS = {ord("B"): "black", ord("G"): "gray"}
NO_HEAP = "it ends before its heap; a heap log has a line of ========== behind its roots and weak maps"
WHITE = "as those made since the last collection; their edges are not judged"
NAMED = "as permanent atoms; they have the colour that an edge or a root gives them"
# How many bytes are read at once.
BLOCK = 1 << 20


def text_of(words):
    """Bytes of a log as text that can be printed."""
    return repr(words.rstrip(b"\n"))[2:-1]


def is_null(address):
    return address in (b"(nil)", b"null", b"(null)") or set(address) <= set(b"0x")


def line_of_edge(edges_before, edge):
    """The line of an edge, by how many edges come before each line that is none."""
    return edge + 1 + bisect_right(edges_before, edge)


def size_of(file):
    """How many bytes a file has; None if that is not known, as of a pipe."""
    try:
        return os.fstat(file.fileno()).st_size or None
    except OSError:
        return None


def numbering():
    """A dictionary that gives each new key the next number."""
    numbers = defaultdict()
    numbers.default_factory = numbers.__len__
    return numbers


class Reader:
    """Reads a heap log. Cells have the numbers in which order the log names them first.

    Edges are most of a log, so those of many lines are taken in at once.
    """

    def __init__(self, progress):
        self.progress = progress
        self.cells, self.names = Addresses(), numbering()
        self.own = {}                       # cell: its kind, of the cells that have a line of their own
        self.own_letters, self.own_lines = bytearray(), array("I")
        self.first_edge = array("Q")        # for each of these: its first edge
        self.kinds = {}
        self.edges_before = array("Q")      # for each line that is no edge: how many edges come before it
        self.edges, self.roots = Mentions(), Mentions()
        self.entries = []
        self.in_heap = False

    def read(self, file):
        number, size, read = 0, size_of(file), 0
        while lines := file.readlines(BLOCK):
            self.read_others(lines, number)
            self.read_edges([line for line in lines if line[0] == EDGE], lines, number)
            number, read = number + len(lines), read + sum(map(len, lines))
            self.progress.tell(number, read / size if size else None)
        if not self.in_heap:
            raise Fault(NO_HEAP)
        return self

    def read_edges(self, edges, lines, before):
        """Takes in the edges among some lines of the log; `before` is how many lines come before these."""
        numbers, names = self.cells, self.names
        parts = [line.split(b" ", 3) for line in edges]
        try:
            more_names = [names[part[3]] for part in parts]
            letters = [part[2] for part in parts]
            if {part[0] for part in parts} - {b">"} or set(map(len, letters)) - {1}:
                raise ValueError
            cells = [numbers[part[1]] for part in parts]
        except (IndexError, ValueError):
            bad = next(at for at, line in enumerate(lines, before + 1) if line[0] == EDGE and not EDGE_LINE.match(line))
            raise Fault(f"line {bad} is no line of a heap log: {text_of(lines[bad - before - 1][:80])}") from None
        self.edges.cells.extend(cells)
        self.edges.names.extend(more_names)
        self.edges.letters += b"".join(letters)

    def read_others(self, lines, before):
        """Takes in the lines that are no edges among some lines of the log; `before` is as above."""
        edges = len(self.edges.cells)
        others = [at for at, line in enumerate(lines) if line[0] != EDGE]
        for count, at in enumerate(others):
            self.edges_before.append(edges + at - count)
            self.read_other(lines[at], before + at + 1, edges + at - count)
        first = self.first_edge[0] if self.first_edge else len(lines) - len(others)
        if first:
            raise Fault(f"line {line_of_edge(self.edges_before, 0)} has an edge of no cell")

    def read_other(self, line, number, edges):
        """Takes in a line that is no edge; `edges` is how many edges come before it."""
        match = CELL.fullmatch(line)
        if match:
            self.read_cell(*match.groups(), number, edges)
        elif line.startswith(b"=========="):
            self.in_heap = True
        elif line.startswith(b"WeakMapEntry"):
            match = ENTRY.fullmatch(line)
            if not match:
                raise Fault(f"line {number} is no weak entry of a heap log: {text_of(line[:80])}")
            self.entries.append(match.groups())
        elif line[0] not in (NOTE, LINE_END):
            raise Fault(f"line {number} is no line of a heap log: {text_of(line[:80])}")

    def read_cell(self, address, letter, words, number, edges):
        """Takes in a root, or the line of a cell, with the arguments of `read_other`."""
        cell, words = self.cells[address], words or b""
        if not self.in_heap:
            self.roots.add(cell, self.names[words], letter, number)
            return
        if cell in self.own:
            raise Fault(f"line {number} has the cell {text_of(address)} again")
        kind = words.partition(b" ")[0] or b"cell"
        self.own[cell] = self.kinds.setdefault(kind, kind)
        self.own_letters += letter
        self.own_lines.append(number)
        self.first_edge.append(edges)

    def first_mentions(self, rest):
        """For each of these cells, which have no line of their own, the letter and the line that name it first."""
        found, missing = {}, set(rest)
        if missing:
            for cell, letter, line in zip(self.roots.cells, self.roots.letters, self.roots.lines):
                if cell in missing:
                    found.setdefault(cell, (letter, line))
            missing -= found.keys()
        if missing:
            for edge, cell in enumerate(self.edges.cells):
                if cell in missing:
                    missing.remove(cell)
                    found[cell] = self.edges.letters[edge], line_of_edge(self.edges_before, edge)
        return [found[cell] for cell in rest]


class Addresses(dict):
    """The number of each address: a new one gets the next."""

    def __missing__(self, address):
        if not ADDRESS.fullmatch(address):
            raise ValueError
        self[address] = number = len(self)
        return number


class Mentions:
    """The cells that edges, or roots, lead to: by cell, name and letter, and roots by line."""

    def __init__(self):
        self.cells, self.names, self.letters, self.lines = array("I"), array("I"), bytearray(), array("I")

    def add(self, cell, name, letter, line):
        self.cells.append(cell)
        self.names.append(name)
        self.letters += letter
        self.lines.append(line)


class Log:
    """A heap log: its cells, edges, roots and weak entries.

    A cell's number is its place among those that have a line of their own; then come those that a root or an edge names
    alone. The edges of cell n are those from first_edge[n] on and below first_edge[n + 1].
    """

    def __init__(self, file, progress):
        reader = Reader(progress).read(file)
        rest = [cell for cell in range(len(reader.cells)) if cell not in reader.own]
        order = [*reader.own, *rest]
        addresses = list(reader.cells)
        self.addresses = [addresses[cell] for cell in order]
        self.own_count = len(reader.own)
        self.kinds = list(reader.own.values())
        self.edges_before = reader.edges_before
        named = reader.first_mentions(rest)
        self.letters = reader.own_letters + bytearray(letter for letter, _ in named)
        self.lines = reader.own_lines + array("I", [line for _, line in named])
        numbers = array("I", bytes(4 * len(order)))
        for number, cell in enumerate(order):
            numbers[cell] = number
        self.first_edge = reader.first_edge
        self.first_edge.extend([len(reader.edges.cells)] * (len(rest) + 1))
        self.edges, self.roots = reader.edges, reader.roots
        for mentions in (self.edges, self.roots):
            mentions.cells = array("I", map(numbers.__getitem__, mentions.cells))
        self.names = list(reader.names)
        self.entries = reader.entries
        self.numbers = {address: numbers[cell] for address, cell in reader.cells.items()}

    def is_judged(self, cell):
        return self.letters[cell] in COLOURS

    def colour(self, cell):
        return COLOURS.get(self.letters[cell], "uncoloured")

    def kind(self, cell):
        return text_of(self.kinds[cell]) if cell < self.own_count else "cell"

    def address(self, cell):
        return text_of(self.addresses[cell])

    def name(self, mentions, at):
        """The name of an edge or of a root."""
        return text_of(self.names[mentions.names[at]])

    def words(self, cell):
        """A cell in the log's words."""
        return f"{self.colour(cell)} {self.kind(cell)} {self.address(cell)}"

    def two_colours(self):
        """Where the log first gives a cell another colour than before, in words; None where it never does."""
        for mentions in (self.roots, self.edges):
            letters = bytes(map(self.letters.__getitem__, mentions.cells))
            if letters != mentions.letters:
                at = next(at for at, pair in enumerate(zip(letters, mentions.letters)) if pair[0] != pair[1])
                line = mentions.lines[at] if mentions.lines else line_of_edge(self.edges_before, at)
                cell, letter = mentions.cells[at], chr(mentions.letters[at])
                return (
                    f"two colours: {self.address(cell)} is {chr(self.letters[cell])} at line {self.lines[cell]}, "
                    f"and {letter} at line {line}"
                )
        return None


def way_graph(log):
    """The graph of a log, and for each of its entries what it does, in words."""
    entries, texts = [], []
    for map_, key, delegate, value in ([log.numbers.get(address) for address in entry] for entry in log.entries):
        if None in (map_, key):
            continue
        if delegate not in (None, key):
            entries.append((map_, delegate, key))
            texts.append(f"key with the delegate {log.address(delegate)} in map {log.address(map_)}")
        if value is not None:
            entries.append((map_, key, value))
            texts.append(f"value of key {log.address(key)} in map {log.address(map_)}")
    return Graph(log.first_edge, log.edges.cells, entries, log.roots.cells), texts


def why(log, cell):
    """Why a cell has its colour, and what keeps it, line by line."""
    graph, entry_texts = way_graph(log)
    colours = [log.colour(root) for root in graph.roots]

    def text_of(step):
        if step.kind == "root":
            return f"{colours[step.number]} root {log.name(log.roots, step.number)}"
        if step.kind == "entry":
            return entry_texts[step.number]
        return f"field {log.name(log.edges, step.number)} of {log.address(step.sources[0])}"

    by_colour = {colour: [root for root, own in enumerate(colours) if own == colour] for colour in ("black", "gray")}
    whose = {f"a {colour} root leads to it:": roots for colour, roots in by_colour.items()}
    whose["roots lead to it, but not those of one colour alone:"] = range(len(colours))
    texts = [log.words(cell)]
    for text, roots in whose.items():
        ways = graph.ways(roots)
        if ways.reaches(cell):
            way = ways.way(cell)
            texts.append(text)
            return texts + tell_way(graph, range(len(colours)), way, cell, text_of, log.words)
    return [*texts, "no root leads to it: the next collection frees it, if the log has all roots"]


class Dump:
    """The dump of a log, line by line, and each line in the log's words."""

    def __init__(self, log):
        self.log = log
        self.left_out = Counter()
        self.wrappers = {}              # (key, delegate): (compartment, the delegate)
        self.wrappers_of = Counter()    # delegate: how many keys it is the delegate of
        self.entries = sorted(
            (entry for entry in map(self.entry, log.entries) if entry), key=lambda entry: entry[0]
        )
        judged = sum(log.letters.count(letter) for letter in COLOURS)
        named = log.letters[log.own_count:]
        self.count(f"cells that are neither black nor gray, {WHITE}", len(log.letters) - judged)
        self.count(f"cells without a line of their own, {NAMED}", sum(named.count(letter) for letter in COLOURS))

    def count(self, what, more=1):
        self.left_out[what] += more

    def entry(self, addresses):
        """A weak entry by the numbers of its map, key, delegate and value; None where it has no place in the dump."""
        log = self.log
        map_, key, delegate, value = addresses
        if is_null(key) or is_null(value):
            return self.count("weak entries whose key or value is no cell")
        if is_null(delegate):
            delegate = key
        cells = [log.numbers.get(address) for address in (map_, key, delegate, value)]
        if None in cells:
            return self.count("weak entries with a cell that the log does not have")
        if not all(map(log.is_judged, cells)):
            return self.count("weak entries with a cell that is neither black nor gray")
        self.name_key(cells[1], cells[2])
        return cells

    def name_key(self, key, delegate):
        """Gives a key whose delegate is another cell the name of a wrapper of that cell."""
        if delegate == key or (key, delegate) in self.wrappers:
            return
        comp = self.wrappers_of[delegate]
        if comp > 255:
            raise Fault(f"{self.log.address(delegate)} is the delegate of more than 256 keys")
        self.wrappers_of[delegate] += 1
        self.wrappers[key, delegate] = comp, delegate

    def most_rows(self):
        """As many lines as the dump has, or some more if edges are left out."""
        return len(self.log.letters) + len(self.wrappers) + len(self.log.edges.cells) + len(self.entries) + 1

    def rows(self):
        """Each line of the dump, and what it is made of: `words` makes the log's words of that."""
        log, letters = self.log, ["g" if letter == ord("G") else "b" for letter in self.log.letters]
        for cell, letter in enumerate(letters):
            yield f"cell {cell} {letter}\n", ("cell", cell)
        for (comp, delegate), key in sorted((place, key) for (key, _), place in self.wrappers.items()):
            yield f"cell {comp}:{delegate} {letters[key]}\n", ("wrapper", key, delegate)
        judged, targets, first = bytes(map(log.is_judged, range(len(letters)))), log.edges.cells, log.first_edge
        for cell in range(log.own_count):
            if judged[cell]:
                for edge in range(first[cell], first[cell + 1]):
                    if judged[targets[edge]]:
                        yield f"edge {cell} {targets[edge]}\n", ("edge", cell, edge)
        for entry in self.entries:
            map_, key, delegate, value = entry
            place = self.wrappers.get((key, delegate))
            name = f"{place[0]}:{place[1]}" if place else str(key)
            yield f"weak {map_} {name} {value}\n", ("weak", *entry)
        yield "end\n", ("end",)

    def words(self, made_of):
        """A line of the dump in the log's words."""
        what, *cells = made_of
        words = self.log.words
        if what == "cell":
            return words(cells[0])
        if what == "wrapper":
            return f"{words(cells[0])} -> {words(cells[1])}, what it wraps"
        if what == "edge":
            name = self.log.name(self.log.edges, cells[1])
            return f"{words(cells[0])} -> {words(self.log.edges.cells[cells[1]])} by field {name}"
        if what == "weak":
            map_, key, delegate, value = cells
            behind = f" with the delegate {words(delegate)}" if delegate != key else ""
            return f"{words(map_)}, {words(key)} as key{behind} -> {words(value)} as value"
        return "the end"

    def notes(self):
        """What the dump leaves out or changes, a text each."""
        notes = [f"{count} {what}" for what, count in self.left_out.items() if count]
        if self.log.roots.cells:
            count = len(self.log.roots.cells)
            notes.append(f"{count} roots, which have no line in a dump: what they hold is judged as any other cell")
        return notes


def read_log(path):
    """The log of a file, or of standard input where the path is -."""
    # What is made of a line is gone with its block, and holds no cycles that Python would have to look for.
    gc.disable()
    try:
        file = nullcontext(sys.stdin.buffer) if path == "-" else open(path, "rb", 1 << 20)
        with file as log, Progress("lines read") as progress:
            return Log(log, progress)
    except OSError as error:
        raise Fault(f"{path}: {error.strerror}") from None
    except Fault as fault:
        raise Fault(f"{path}: {fault}") from None
    finally:
        gc.enable()
