#!/usr/bin/env -S python3 -B
"""The toy collector, which takes what a gray wrapper leads to for black."""

from toy import Collector, run


class BlackOverWrapper(Collector):
    def mark_child_gray(self, holder, child):
        if holder.kind() == "wrapper":
            self.mark_black(child)
        else:
            self.mark_gray(child)


if __name__ == "__main__":
    run(BlackOverWrapper())
