#!/usr/bin/env -S python3 -B
"""The toy collector, which keeps the value of an entry as its map is kept, whatever its key is."""

from toy import Collector, run


class ValueByMap(Collector):
    def colour_kept(self, holder, key):
        return holder.colour


if __name__ == "__main__":
    run(ValueByMap())
