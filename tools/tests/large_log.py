"""Writes a heap log of any size, the same for the same numbers: large_log.py CELLS EDGES [DISTANCE] > LOG

The cells are those of two binary trees, one black and one gray, with a root each. Edges lead down the trees, and EDGES
more to any cells, or to cells whose numbers are at most DISTANCE away; but where a black cell would lead to a gray one,
to that of the same place in the black tree. There is a weak entry for each 1,000 cells.
"""

import random
import sys


def main(cells, edges, distance=None):
    chosen = random.Random(1)
    letters = ["B" if bin(n)[3:4] == "0" else "G" for n in range(cells)]
    words = [f"{0x7F0000000000 + 16 * n:#x} {letters[n]}" for n in range(cells)]
    names = ["shape", "group", "script", "proto", *(f"objectElements[{n}]" for n in range(1000))]
    everywhere, more, write = range(2, cells), edges // cells, sys.stdout.write
    write(f"# Roots.\n{words[2]} exact-Object\n{words[3]} holder\n# Weak maps.\n")
    for number in range(1000, cells, 1000):
        map_, key, value = (words[n].split(" ")[0] for n in (number, number - 1, number - 2))
        write(f"WeakMapEntry map={map_} key={key} keyDelegate=(nil) value={value}\n")
    write("==========\n")
    for number in range(2, cells):
        write(f"{words[number]} Object <no private>\n")
        for below, name in ((2 * number, "left"), (2 * number + 1, "right")):
            if below < cells:
                write(f"> {words[below]} {name}\n")
        near = range(max(number - distance, 2), min(number + distance, cells)) if distance else everywhere
        for target, name in zip(chosen.choices(near, k=more), chosen.choices(names, k=more)):
            if letters[number] == "B" and letters[target] == "G":
                target -= 1 << target.bit_length() - 2  # this place in the black tree
            write(f"> {words[target]} {name}\n")


if __name__ == "__main__":
    main(*map(int, sys.argv[1:]))
