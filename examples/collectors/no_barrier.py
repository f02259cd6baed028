#!/usr/bin/env -S python3 -B
"""The toy collector without its barrier before a write.

A cell that was not scanned yet loses the only edge to another one, which a cell that was scanned takes over. Marking
comes too late for it.
"""

from toy import Collector, run


class NoBarrier(Collector):
    def before_write(self, old):
        pass


if __name__ == "__main__":
    run(NoBarrier())
