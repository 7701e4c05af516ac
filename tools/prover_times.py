#!/usr/bin/env python3
"""Notes the processor seconds that the prover takes for each crate, while another process runs.

    tools/prover_times.py PID        until it is stopped, it watches the provers that PID and its children start

It ends at SIGTERM, or when PID has ended, and then prints a table: for each crate the seconds of its library, of its
tests, of its program or archive, of the proofs that its must-fail edits begin with, and of the rounds of edits. It
looks four times a second, so up to a quarter of a second of each prover is missing. Of a process that isn't new it reads
only what it needs.
"""
import contextlib
import os
import re
import signal
import sys
import time
from collections import defaultdict

TICKS = os.sysconf("SC_CLK_TCK")
KINDS = ["library", "tests", "program", "edits: proof", "edits: rounds"]


def kind_of(words, folder):
    """Returns what a prover with these arguments works on, by what `rt ci`, `rt check` and checks/edits start."""
    seed = words[words.index("--incremental") + 1] if "--incremental" in words else ""
    if re.search(r"/(rt-edit|edits)-", folder):
        return "edits: proof" if seed.endswith("/seed") else "edits: rounds"
    if "--test" in words:
        return "tests"
    if "src/main.rt" in words or "staticlib" in words:
        return "program"
    # What `rt check` proves in its place, and the libraries that it builds, are for edits.
    return "edits: proof" if seed else "library"


def times_of(pid):
    """Returns the parent of a process, when it began, and its processor seconds, with those of the children that it has
    waited for."""
    with open(f"/proc/{pid}/stat") as it:
        fields = it.read().rpartition(")")[2].split()
    return int(fields[1]), fields[19], sum(map(int, fields[11:15])) / TICKS


def command_of(pid):
    with open(f"/proc/{pid}/cmdline", errors="replace") as it:
        return it.read().split("\0")


class Watch:
    """The provers that were seen: for each its crate and kind, and its seconds."""

    def __init__(self, top):
        self.top, self.known, self.seconds = top, {}, {}
        # The parent of each process that is there, and when it began. The others are not below the top one.
        self.found, self.others = {}, set()

    def look(self):
        """Reads the seconds of each prover, and returns whether the top process is there."""
        there = {int(it) for it in os.listdir("/proc") if it.isdigit()}
        self.found = {pid: it for pid, it in self.found.items() if pid in there}
        self.others &= there
        for pid in there - self.found.keys():
            with contextlib.suppress(OSError, IndexError, ValueError):
                self.found[pid] = times_of(pid)[:2]
        for pid in self.found.keys() - self.others:
            with contextlib.suppress(OSError, IndexError, ValueError):
                begun = self.found[pid][1]
                if not self.is_below(pid):
                    self.others.add(pid)
                elif self.key(pid, begun):
                    self.seconds[pid, begun, self.key(pid, begun)] = times_of(pid)[2]
        return self.top in there

    def is_below(self, pid):
        """Returns whether the process is one of those to watch: below the top one, and itself not below a prover."""
        is_prover = False
        while pid in self.found and pid != self.top:
            pid = self.found[pid][0]
            is_prover = is_prover or pid in self.found and (pid, self.found[pid][1]) in self.known
        return pid == self.top and not is_prover

    def key(self, pid, begun):
        """Returns the crate and kind of a prover, or None of any other process."""
        if (pid, begun) not in self.known:
            try:
                words = command_of(pid)
                if os.path.basename(words[0]) != "rattle" or "--crate-name" not in words:
                    return None
                crate = words[words.index("--crate-name") + 1]
                self.known[pid, begun] = crate, kind_of(words, os.readlink(f"/proc/{pid}/cwd"))
            except (OSError, IndexError):
                return None
        return self.known[pid, begun]

    def table(self):
        """Returns the table's lines."""
        sums = defaultdict(lambda: defaultdict(float))
        for (*_, (crate, kind)), seconds in self.seconds.items():
            sums[crate][kind] += seconds
        rows = sorted(((crate, [by[it] for it in KINDS]) for crate, by in sums.items()), key=lambda it: -sum(it[1]))
        rows.append(("all", [sum(it[1][at] for it in rows) for at in range(len(KINDS))]))
        yield f"{'processor seconds':24}" + "".join(f"{it:>15}" for it in [*KINDS, "sum"])
        for crate, cells in rows:
            yield f"{crate:24}" + "".join(f"{it:15.0f}" if it else f"{'':15}" for it in [*cells, sum(cells)])


def main():
    if len(sys.argv) != 2 or not sys.argv[1].isdigit():
        sys.exit(__doc__)
    watch, is_over = Watch(int(sys.argv[1])), []
    signal.signal(signal.SIGTERM, lambda *_: is_over.append(True))
    while not is_over and watch.look():
        time.sleep(0.25)
    print("\n".join(watch.table()))


if __name__ == "__main__":
    main()
