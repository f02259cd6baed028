"""The traces of bench/speed.py: for each family a generator of its lines, by scale.

A family is a shape of heap or of work. At scale 1 it makes about 10^6 cells, or has about 10^6 lines. The numbers come
from a generator with a fixed seed, so a family and a scale give one trace.
"""

import random

FAMILIES = {}


def family(generate):
    FAMILIES[generate.__name__] = generate
    return generate


def places(zones):
    """Zones, with a compartment of the same number in each."""
    yield from (["zone"] * zones)
    yield from (f"comp {zone}" for zone in range(zones))


def zone_list(count):
    return " ".join(map(str, range(count)))


def collect(times, zones=1):
    yield from [f"collect {zone_list(zones)}"] * times


def drop_all():
    yield from (f"drop r{register}" for register in range(16))


def grow(register, kind="new", size=1, comp=0, spare=15):
    """A cell that leads to what a register holds; the register then holds the cell."""
    yield f"{kind} r{spare} {comp} {size}"
    yield f"set r{spare} 0 r{register}"
    yield f"copy r{register} r{spare}"


@family
def commands(scale):
    """Reads, writes and copies among 16 objects; no collection."""
    draw = random.Random("commands").randrange
    yield from places(1)
    yield from (f"new r{register} 0 8" for register in range(16))
    for _ in range(int(2_000_000 * scale)):
        kind, a, b, field = draw(3), draw(16), draw(16), draw(8)
        yield (f"get r{a} r{b} {field}", f"set r{a} {field} r{b}", f"copy r{a} r{b}")[kind]


@family
def churn(scale):
    """Most cells die young: one in fifty is kept, and a collection comes every 20,000 cells."""
    draw = random.Random("churn").random
    yield from places(1)
    yield "new r0 0 2"
    for index in range(int(1_000_000 * scale)):
        if draw() < 0.02:
            yield from grow(0, size=2)
        else:
            yield "new r1 0 2"
        if index % 20_000 == 19_999:
            yield from collect(1)
    yield from drop_all()
    yield from collect(1)


@family
def placement(scale):
    """Full arenas, half of them with one hole, which are filled anew after each of eight collections."""
    draw = random.Random("placement").randrange
    yield from places(1)
    yield "new r0 0 1"
    holes = 0
    for _ in range(int(10_000 * scale)):
        hole = draw(128)
        for slot in range(64):
            if slot == hole:
                yield "new r1 0 0"
                holes += 1
            else:
                yield from grow(0)
    yield "drop r1"
    for _ in range(8):
        yield from collect(1)
        yield from (["new r1 0 0"] * holes)
    yield from collect(1)


@family
def tree(scale):
    """A tree with four branches a cell, built depth first, and collected five times."""
    left = int(1_000_000 * scale)

    def below(depth):
        nonlocal left
        for field in range(4):
            if left > 0:
                left -= 1
                yield f"new r{depth + 1} 0 4"
                yield f"set r{depth} {field} r{depth + 1}"
                if depth < 9:
                    yield from below(depth + 1)

    yield from places(1)
    yield "new r0 0 4"
    yield from below(0)
    yield from (f"drop r{register}" for register in range(1, 16))
    yield from collect(5)


@family
def lists(scale):
    """14 lists that grow by turns, half of them held by gray slots alone; five collections."""
    draw = random.Random("lists").randrange
    yield from places(1)
    yield from (f"new r{number} 0 1" for number in range(14))
    for _ in range(int(1_000_000 * scale)):
        yield from grow(draw(14))
    for number in range(7):
        yield f"hold g{number} r{number}"
        yield f"drop r{number}"
    yield "drop r15"
    yield from collect(5)


@family
def exposed(scale):
    """14 gray lists, which turn black as each is exposed, outside collections; five times."""
    draw = random.Random("exposed").randrange
    yield from places(1)
    yield from (f"new r{number} 0 1" for number in range(14))
    for _ in range(int(500_000 * scale)):
        yield from grow(draw(14))
    yield from (f"hold g{number} r{number}" for number in range(14))
    for _ in range(5):
        yield from drop_all()
        yield from collect(1)
        yield from (f"expose r{number} g{number}" for number in range(14))


@family
def wide(scale):
    """Lists of cells with eight fields, seven of them leaves, the link last or first: long piles of marked cells."""
    yield from places(1)
    for register, link, leaves in ((0, 7, range(7)), (1, 0, range(1, 8))):
        for index in range(int(60_000 * scale)):
            yield "new r2 0 8"
            for field in leaves:
                yield "new r3 0 0"
                yield f"set r2 {field} r3"
            if index > 0:
                yield f"set r2 {link} r{register}"
            yield f"copy r{register} r2"
    yield "drop r2"
    yield "drop r3"
    yield from collect(5)


@family
def wrappers(scale):
    """Each of some cells is wrapped in 63 compartments, and found again; then the wrappers die."""
    yield from places(64)
    for _ in range(int(8_000 * scale)):
        yield "new r0 0 1"
        yield "hold g0 r0"
        for comp in range(1, 64):
            yield f"wrap r1 r0 {comp}"
        for comp in range(1, 64):
            yield f"wrap r1 r0 {comp}"
    yield from drop_all()
    yield from collect(1, 64)


@family
def zone_chain(scale):
    """Chains through 64 zones, each link a gray wrapper: 64 groups, five times; then all is let go."""
    yield from places(64)
    yield "new r0 0 2"
    yield "hold g0 r0"
    for _ in range(int(1_500 * scale)):
        yield "new r1 0 2"
        yield "set r0 0 r1"
        yield "copy r0 r1"
        for zone in range(1, 64):
            yield f"new r2 {zone} 2"
            yield f"wrap r3 r2 {zone - 1}"
            yield "set r1 1 r3"
            yield "copy r1 r2"
    yield from drop_all()
    yield from collect(5, 64)
    yield "release g0"
    yield from collect(1, 64)


@family
def groups(scale):
    """32 zones with a gray wrapper from each to each other one, one group; collected many times."""
    yield from places(32)
    for zone in range(32):
        yield f"new r0 {zone} 8"
        yield f"hold g{zone} r0"
    for zone in range(32):
        yield f"expose r0 g{zone}"
        for other in range(32):
            yield f"expose r1 g{other}"
            yield f"wrap r2 r1 {zone}"
            yield f"new r3 {zone} 2"
            yield "set r3 0 r2"
            yield f"get r4 r0 0"
            yield "set r3 1 r4"
            yield "set r0 0 r3"
    yield from drop_all()
    yield from collect(int(1_000 * scale), 32)


@family
def small_zone(scale):
    """A small zone is collected 2,000 times beside a large one with wrappers into two others."""
    yield from places(4)
    yield "new r0 0 2"
    for index in range(int(100_000 * scale)):
        yield f"new r1 {1 + index % 2} 0"
        yield "wrap r2 r1 0"
        yield from grow(0, size=2)
        yield "set r0 1 r2"
    for _ in range(int(2_000 * scale)):
        yield "new r3 3 1"
        yield "collect 3"


@family
def ephemerons(scale):
    """A chain of entries of one map, each value the key of the next; black, then gray, then dropped."""
    yield from places(1)
    yield "map r0 0"
    yield "new r1 0 0"
    for _ in range(int(200_000 * scale)):
        yield "new r2 0 0"
        yield "put r0 r2 r1"
        yield "copy r1 r2"
    yield "drop r2"
    yield from collect(3)
    yield "hold g0 r1"
    yield "drop r1"
    yield from collect(3)
    yield "release g0"
    yield from collect(1)


@family
def entries(scale):
    """Entries of 8 maps are put, found and deleted; no collection until the end."""
    draw = random.Random("entries").randrange
    yield from places(1)
    yield from (f"map r{register} 0" for register in range(8))
    for _ in range(int(250_000 * scale)):
        a, b = draw(8), draw(8)
        yield "new r8 0 0"
        yield f"put r{a} r8 r{b}"
        yield f"find r9 r{a} r8"
        yield f"put r{b} r8 r{a}"
        if draw(2):
            yield f"del r{a} r8"
    yield from drop_all()
    yield from collect(1)


@family
def weak_zones(scale):
    """64 zones with a map and a list of its keys each, and a gray wrapper into the next zone: 64 groups, four times;
    then all is let go."""
    yield from places(64)
    yield "new r0 0 3"
    yield "hold g0 r0"
    for zone in range(64):
        yield f"map r1 {zone}"
        yield "set r0 0 r1"
        yield f"new r2 {zone} 1"
        for _ in range(int(3_000 * scale)):
            yield from grow(2, comp=zone)
            yield f"new r3 {zone} 0"
            yield "put r1 r2 r3"
        yield "set r0 1 r2"
        if zone < 63:
            yield f"new r4 {zone + 1} 3"
            yield f"wrap r5 r4 {zone}"
            yield "set r0 2 r5"
            yield "copy r0 r4"
    yield from drop_all()
    yield from collect(4, 64)
    yield "release g0"
    yield from collect(1, 64)


@family
def slices(scale):
    """Slices of 100 units between writes and reads, over a heap of 200,000 cells in two zones."""
    draw = random.Random("slices").randrange
    yield from places(2)
    for slot in range(8):
        yield f"new r{slot} 0 4"
        yield f"hold g{slot} r{slot}"
    for _ in range(int(200_000 * scale)):
        list_number = draw(8)
        yield "new r15 0 4"
        yield f"set r15 {draw(2)} r{draw(8)}"
        yield f"set r15 2 r{list_number}"
        yield f"copy r{list_number} r15"
    for _ in range(int(60_000 * scale)):
        if draw(100) == 0:
            yield "gc 0 1"
        yield "slice 100"
        for _ in range(4):
            to, a, b, field = 8 + draw(8), draw(16), draw(16), draw(4)
            yield (
                f"new r{to} {draw(2)} 4",
                f"get r{to} r{a} {field}",
                f"set r{a} {field} r{b}",
                f"copy r{to} r{a}",
                f"wrap r{to} r{a} {draw(2)}",
                f"expose r{to} g{draw(8)}",
            )[draw(6)]
    yield "finish"
    yield from collect(1, 2)


@family
def mixed(scale):
    """Commands of all kinds by chance, in four zones and eight compartments, with collections in slices."""
    draw = random.Random("mixed").randrange
    yield from places(4)
    yield from (f"comp {zone}" for zone in range(4))
    for _ in range(int(1_000_000 * scale)):
        a, b, c, comp, field, slot = draw(16), draw(16), draw(16), draw(8), draw(4), draw(64)
        kind = draw(20)
        if kind < 5:
            yield f"new r{a} {comp} {draw(5)}"
        elif kind == 5:
            yield f"map r{a} {comp}"
        elif kind < 8:
            yield f"get r{a} r{b} {field}"
        elif kind < 11:
            yield f"set r{a} {field} r{b}"
        elif kind == 19:
            if draw(4):
                yield f"slice {draw(64)}"
            else:
                yield "gc " + " ".join(sorted({str(draw(4)) for _ in range(3)}))
        else:
            yield (
                f"wrap r{a} r{b} {comp}",
                f"unwrap r{a} r{b}",
                f"put r{a} r{b} r{c}",
                f"find r{a} r{b} r{c}",
                f"del r{a} r{b}",
                f"hold g{slot} r{a}",
                f"expose r{a} g{slot}",
                f"drop r{a}",
            )[kind - 11]
    yield "finish"
    yield from collect(1, 4)
    yield "colours"


# Between two slices the programs may have come to different points: the definitions leave the order of the steps free.
REPLIES_ALONE = {"slices", "mixed"}
