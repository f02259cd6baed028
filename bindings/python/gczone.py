"""A heap of zones with its incremental collector, called by ctypes.

    import gczone
    with gczone.Heap() as heap:
        zone = heap.zone()
        compartment = heap.compartment(zone)
        heap.object(0, compartment, fields=1)        # register 0 holds it
        heap.drop(0)
        for event in heap.collect([zone]):
            print(event)

A register, 0 to 15, and a pinned root, whose number `pin` returns, are black roots; a gray slot, 0 to 63, is a gray
one. A name is the number of an object or a map, or a pair of a compartment and a number for a wrapper.
docs/EMBEDDING.md tells what each call does. The library is libgczone.so in the folder that GCZONE_LIB_DIR names, or in
bindings/c/out, or where the system's linker finds it.
"""

import ctypes
import os
from collections import namedtuple
from ctypes import POINTER, byref, c_bool, c_size_t, c_uint8, c_uint32, c_uint64, c_void_p
from pathlib import Path

INTERFACE = 1
DONE, CLOSED, OPEN, NO_MEMORY, HEAP_FULL, NONE = range(6)
BAD_REGISTER, BAD_ZONE, BAD_COMPARTMENT, BAD_SLOT = range(8, 12)
BAD_FIELD, BAD_FIELD_COUNT, BAD_KIND, BAD_WEAK_SLOT = range(12, 16)
FULL, NO_ZONE, NO_COMPARTMENT, EMPTY, KIND, NO_FIELD, CROSS = range(16, 23)
RUNNING, IDLE, MARKING, NOT_PINNED = range(24, 28)
NOTHING, CELL, WRAPPER, ZONE, COMPARTMENT = range(5)
NO_REPORT, GROUPS, ENDED, SWEPT, STARTED, STOPPED = range(6)
LINE_END, LINE_CELL, LINE_EDGE, LINE_ENTRY = range(4)

Groups = namedtuple("Groups", "groups")
Ended = namedtuple("Ended", "zones grays lost")
Swept = namedtuple("Swept", "arena freed")
Stopped = namedtuple("Stopped", "zones")
Cell = namedtuple("Cell", "name black")
Edge = namedtuple("Edge", "object name")
Entry = namedtuple("Entry", "map key value")
Counts = namedtuple("Counts", "cells objects entries bytes arenas")
Compacted = namedtuple("Compacted", "moved given_up")


class Started(namedtuple("Started", ())):
    """Marking begins. It has no parts, and counts as true, as each event does."""

    __slots__ = ()

    def __bool__(self):
        return True


class _Slot(ctypes.Structure):
    _fields_ = [("at", c_void_p)]


class _Gcz(ctypes.Structure):
    _fields_ = [("is_open", c_bool), ("slot", _Slot)]


class _Name(ctypes.Structure):
    _fields_ = [("number", c_uint64), ("kind", c_uint32), ("compartment", c_uint32)]

    def value(self):
        if self.kind == NOTHING:
            return None
        return (self.compartment, self.number) if self.kind == WRAPPER else self.number


class _Step(ctypes.Structure):
    _fields_ = [("units", c_uint64), ("report", c_uint32), ("finished", c_bool)]


class _Counts(ctypes.Structure):
    _fields_ = [
        ("cells", c_uint64), ("objects", c_uint64), ("entries", c_uint64), ("bytes", c_uint64), ("arenas", c_uint32),
    ]


class _Compacted(ctypes.Structure):
    _fields_ = [("moved", c_uint64), ("given_up", c_uint32)]


class _Report(ctypes.Structure):
    _fields_ = [("zones", c_uint64), ("count", c_size_t), ("kind", c_uint32), ("arena", c_uint32)]


class _Line(ctypes.Structure):
    _fields_ = [("owner", c_uint64), ("name", _Name), ("value", _Name), ("kind", c_uint32), ("black", c_bool)]


# The parameters of each call behind the handle, and what it answers.
_CALLS = {
    "zone": ([], _Name), "comp": ([c_uint32], _Name), "new": ([c_uint32] * 3, _Name), "map": ([c_uint32] * 2, _Name),
    "get": ([c_uint32] * 3, _Name), "set": ([c_uint32] * 3, None), "clear": ([c_uint32] * 2, None),
    "copy": ([c_uint32] * 2, None), "drop": ([c_uint32], None), "wrap": ([c_uint32] * 3, _Name),
    "unwrap": ([c_uint32] * 2, _Name), "hold": ([c_uint32] * 2, None), "release": ([c_uint32], None),
    "expose": ([c_uint32] * 2, _Name), "put": ([c_uint32] * 3, None), "del": ([c_uint32] * 2, None),
    "find": ([c_uint32] * 3, _Name), "weaken": ([c_uint32] * 2, None), "deref": ([c_uint32] * 2, _Name),
    "watch": ([c_uint32], None), "unwatch": ([c_uint32], None), "pin": ([c_uint32], c_uint64),
    "load": ([c_uint32, c_uint64], None), "unpin": ([c_uint64], None), "compact": ([c_uint32], _Compacted),
    "begin": ([c_uint64], None), "advance": ([c_uint64], _Step), "reset": ([], _Step), "running": ([], c_bool),
    "units_left": ([], c_uint64), "counts": ([], _Counts), "report": ([], _Report), "report_name": ([c_size_t], _Name),
    "report_lost": ([c_size_t], _Name), "report_group": ([c_size_t], c_uint64), "grays": ([], c_size_t),
    "gray": ([c_size_t], _Name), "next_gray": ([], _Name), "dump": ([], c_size_t), "dump_line": ([c_size_t], _Line),
    "open": ([], None),
}


class Fault(Exception):
    """A call did nothing; `status` is a number of this module, and the text says it in words."""

    def __init__(self, status, text):
        super().__init__(text)
        self.status = status


def load(path=None):
    """Loads the library, and declares its calls. Python's lock is held in each, so no two run at once in any heap."""
    folder = os.environ.get("GCZONE_LIB_DIR", Path(__file__).resolve().parent.parent / "c/out")
    built = Path(folder, "libgczone.so")
    try:
        library = ctypes.PyDLL(str(path or (built if built.exists() else f"libgczone.so.{INTERFACE}")))
    except OSError as error:
        raise OSError(f"{error}: `make -C bindings/c` builds it, and GCZONE_LIB_DIR names its folder") from None
    library.gcz_interface.restype = c_uint32
    if library.gcz_interface() != INTERFACE:
        raise OSError(f"the library has interface {library.gcz_interface()}, and {INTERFACE} is wanted")
    library.gcz_status_text.argtypes, library.gcz_status_text.restype = [c_uint32, POINTER(c_uint8), c_size_t], c_size_t
    library.gcz_close.argtypes, library.gcz_close.restype = [POINTER(_Gcz)], None
    for name, (numbers, answer) in _CALLS.items():
        call = getattr(library, f"gcz_{name}")
        call.argtypes = [POINTER(_Gcz), *numbers, *([POINTER(answer)] if answer else [])]
        call.restype = c_uint32
    return library


def zones_of(bits):
    """The zones whose bits are set."""
    return [zone for zone in range(64) if bits >> zone & 1]


class Heap:
    """A heap with its collector. It is in one call at a time, whichever thread calls: Python's lock sees to that."""

    def __init__(self, library=None):
        self._library, self._gcz = library or load(), _Gcz()
        self._call("open")

    def __enter__(self):
        return self

    def __exit__(self, *_):
        self.close()

    def __del__(self):
        if hasattr(self, "_gcz"):
            self.close()

    def close(self):
        """Frees all that the heap holds. Each later call but this one is a fault."""
        self._library.gcz_close(byref(self._gcz))

    def _call(self, name, *numbers, answer=None):
        answer = answer or _CALLS[name][1] and _CALLS[name][1]()
        clipped = [_clip(number, kind) for number, kind in zip(numbers, _CALLS[name][0])]
        places = [] if answer is None else [byref(answer)]
        status = getattr(self._library, f"gcz_{name}")(byref(self._gcz), *clipped, *places)
        if status != DONE:
            raise Fault(status, self.status_text(status))
        return answer

    def _found(self, name, *numbers):
        try:
            self._call(name, *numbers)
        except Fault as fault:
            if fault.status != NONE:
                raise
            return False
        return True

    def _name(self, name, *numbers, answer=None):
        """The name that a call answers, or None if there is none."""
        try:
            return self._call(name, *numbers, answer=answer).value()
        except Fault as fault:
            if fault.status != NONE:
                raise
            return None

    def status_text(self, status):
        """A status in words."""
        room = (c_uint8 * 80)()
        length = self._library.gcz_status_text(status, room, len(room))
        return bytes(room)[: min(length, len(room) - 1)].decode()

    def zone(self):
        """Makes a zone."""
        return self._call("zone").number

    def compartment(self, zone):
        """Makes a compartment of a zone."""
        return self._call("comp", zone).number

    def object(self, register, compartment, fields):
        """Makes an object with this many null fields, at most 8. The register holds it."""
        return self._call("new", register, compartment, fields).number

    def map(self, register, compartment):
        """Makes a weak map without entries. The register holds it."""
        return self._call("map", register, compartment).number

    def get(self, register, source, field):
        """The register holds what a field of the object in `source` holds, or becomes empty."""
        return self._call("get", register, source, field).value()

    def set(self, register, field, source=None):
        """A field of the register's object holds what another register holds, or null."""
        if source is None:
            self._call("clear", register, field)
        else:
            self._call("set", register, field, source)

    def copy(self, register, source):
        """The register holds what another one holds, or becomes empty."""
        self._call("copy", register, source)

    def drop(self, register):
        """The register becomes empty."""
        self._call("drop", register)

    def wrap(self, register, source, compartment):
        """The register holds the cell of another one as a compartment sees it: itself, or its wrapper."""
        return self._call("wrap", register, source, compartment).value()

    def unwrap(self, register, source):
        """The register holds the target of the wrapper in `source`."""
        return self._call("unwrap", register, source).value()

    def hold(self, slot, register):
        """The gray slot holds what the register holds, or becomes empty."""
        self._call("hold", slot, register)

    def release(self, slot):
        """The gray slot becomes empty."""
        self._call("release", slot)

    def expose(self, register, slot):
        """The register holds what the gray slot holds, and that turns black; or it becomes empty."""
        return self._call("expose", register, slot).value()

    def put(self, map_register, key, value):
        """In the map of a register, the key has a value."""
        self._call("put", map_register, key, value)

    def delete(self, map_register, key):
        """Removes the entry of a key. Returns whether there was one."""
        return self._found("del", map_register, key)

    def find(self, register, map_register, key):
        """The register holds the value of a key, or becomes empty."""
        return self._call("find", register, map_register, key).value()

    def weaken(self, slot, register):
        """The weak slot names what the register holds, or becomes empty. It keeps no cell."""
        self._call("weaken", slot, register)

    def deref(self, register, slot):
        """The register holds what the weak slot names, and that turns black; or it becomes empty."""
        return self._call("deref", register, slot).value()

    def watch(self, register):
        """What the register holds is watched: the Ended event of the group with which it dies names it, once."""
        self._call("watch", register)

    def unwatch(self, register):
        """What the register holds is watched no longer. Returns whether it was."""
        return self._found("unwatch", register)

    def pin(self, register):
        """A new pinned root holds what the register holds. Returns its number, which is its own until `unpin`."""
        return self._call("pin", register).value

    def load(self, register, root):
        """The register holds what the pinned root holds."""
        self._call("load", register, root)

    def unpin(self, root):
        """The pinned root holds nothing any more, and its number may be given again."""
        self._call("unpin", root)

    def compact(self, zone):
        """Moves the cells of a zone together, and gives up the arenas that this empties. No collection may run."""
        done = self._call("compact", zone)
        return Compacted(done.moved, done.given_up)

    def begin(self, zones):
        """Begins a collection of these zones."""
        if any(not 0 <= zone < 64 for zone in zones):
            raise Fault(BAD_ZONE, self.status_text(BAD_ZONE))
        self._call("begin", sum({1 << zone for zone in zones}))

    def running(self):
        """Whether a collection runs."""
        return self._call("running").value

    def units_left(self):
        """A bound on the units that the collection that runs may still take while no command comes; 0 if none runs."""
        return self._call("units_left").value

    def counts(self):
        """How many cells are there, objects and maps were made, weak entries, bytes of arenas and arenas there are."""
        counts = self._call("counts")
        return Counts(*(getattr(counts, name) for name in Counts._fields))

    def advance(self, limit):
        """Does a step of at most `limit` units. Returns how many it did, the event or None, and whether it is over."""
        step = self._call("advance", limit)
        return step.units, self._event(step.report), step.finished

    def reset(self):
        """Gives up the collection that runs, and returns its last events. What its zones that were still being prepared
        or marking hold is black then, and is not freed before the next collection. Does nothing if none runs."""
        events = []
        while self.running():
            events.append(self._event(self._call("reset").report))
        return events

    def events(self, limit=1000):
        """The events of the collection that runs, which goes on as they are asked for."""
        while self.running():
            _, event, _ = self.advance(max(limit, 1))
            if event:
                yield event

    def collect(self, zones, limit=1000):
        """Begins a collection, and returns its events."""
        self.begin(zones)
        return self.events(limit)

    def grays(self):
        """The gray names, ascending."""
        return [self._call("gray", index).value() for index in range(self._call("grays").value)]

    def next_gray(self, after=None):
        """The first gray name behind this one, or the first of all; None if there is none. It walks over the whole heap
        and takes no memory of it."""
        return self._name("next_gray", answer=_name_of(after))

    def dump(self):
        """The cells by name, the edges by object and field, and the weak entries by map and key."""
        lines = (self._call("dump_line", index) for index in range(self._call("dump").value))
        return [_line(line) for line in lines if line.kind != LINE_END]

    def _lost(self):
        """The watched cells that died with the group whose end is the last report, ascending."""
        names = []
        while (name := self._name("report_lost", len(names))) is not None:
            names.append(name)
        return names

    def _event(self, kind):
        if kind == NO_REPORT:
            return None
        report = self._call("report")
        if kind == STARTED:
            return Started()
        if kind == GROUPS:
            return Groups([zones_of(self._call("report_group", index).value) for index in range(report.count)])
        if kind == STOPPED:
            return Stopped(zones_of(report.zones))
        names = [self._call("report_name", index).value() for index in range(report.count)]
        return Ended(zones_of(report.zones), names, self._lost()) if kind == ENDED else Swept(report.arena, names)


def _clip(number, kind):
    """A number that C has no room for is out of range, too."""
    limit = 2 ** (8 * ctypes.sizeof(kind)) - 1
    return min(max(number, -1), limit) & limit


def _name_of(value):
    if value is None:
        return _Name()
    compartment, number = value if isinstance(value, tuple) else (0, value)
    kind = WRAPPER if isinstance(value, tuple) else CELL
    return _Name(_clip(number, c_uint64), kind, _clip(compartment, c_uint32))


def _line(line):
    if line.kind == LINE_CELL:
        return Cell(line.name.value(), line.black)
    if line.kind == LINE_EDGE:
        return Edge(line.owner, line.name.value())
    return Entry(line.owner, line.name.value(), line.value.value())
