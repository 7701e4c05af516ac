#!/usr/bin/env python3
"""Runs the prover over the libraries that `rt ci` built.

    tools/over_ci.py archive CRATE FILE      proves the static library of crates/CRATE, and builds it as FILE
    tools/over_ci.py sums                    prints a checksum of the files of each crate

`rt ci` leaves each library that it proved in crates/NAME/out/rlib. `rt check` and `rt lib` don't use it, and prove each
library once more. This script does, so it must run right after an `rt ci` that passed, on the same files. checks/edits
and checks/c use it with --after-ci. Where `rt check` has built libraries in this checkout, `rt ci` puts those back in
place of its own. Then this script does nothing, and says so. It does so too unless the files have the checksums of those
that `.ci/run` noted in out/ci-sources, when its `rt ci` passed.
"""
import hashlib
import re
import shutil
import subprocess
import sys
from pathlib import Path

TOP = Path(__file__).resolve().parent.parent
# The checksums of the files that the last `rt ci` of `.ci/run` proved.
PROVED = TOP / "out/ci-sources"


class NotBuilt(Exception):
    """The reason why a crate can't be proved over what `rt ci` built."""


def kit():
    """Returns the folder of the Rattle toolchain."""
    rt = shutil.which("rt")
    if not rt:
        raise NotBuilt("the command rt of the Rattle toolchain is not on the path")
    return Path(rt).resolve().parent.parent


class Crates:
    """The crates of crates.txt, and what each depends on."""

    def __init__(self):
        self.lines = {it[1]: it[0] for it in re.finditer(r"(?m)^(\w+)[^:#\n]*:.*", (TOP / "crates.txt").read_text())}
        self.uses = {name: line.partition(":")[2].split() for name, line in self.lines.items()}

    def below(self, crate):
        """Returns the crates of this repository that the crate uses."""
        own = [it for it in self.uses[crate] if it in self.uses]
        return set(own).union(*map(self.below, own))

    def is_static(self, crate):
        return "staticlib" in self.lines[crate].partition(":")[0].split()

    def library(self, crate):
        """Returns the folder of the crate's library."""
        return TOP / f"crates/{crate}/out/rlib/{crate}.rlib"

    def are_of_ci(self):
        """Returns whether the libraries are those that the last `rt ci` built of these files. `rt check` leaves a stamp
        next to a library that it built."""
        if any((self.library(it).parent / "stamp").exists() for it in self.uses):
            return False
        return PROVED.is_file() and PROVED.read_text(encoding="utf-8") == self.sums()

    def sum(self, crate):
        """Returns a checksum of the crate's line in crates.txt and of its files."""
        sum = hashlib.sha256(self.lines[crate].encode())
        for part in ("src", "specs", "proofs"):
            for path in sorted((TOP / "crates" / crate / part).rglob("*")):
                if path.is_file():
                    sum.update(f"{path.relative_to(TOP)}\0".encode() + path.read_bytes())
        return sum.hexdigest()

    def sums(self):
        """Returns a line with the checksum of each crate."""
        return "".join(f"{it} {self.sum(it)}\n" for it in sorted(self.uses))

    def words(self, crate):
        """Returns the words for `rattle check`, in a folder with the crate's src/, specs/ and proofs/."""
        lacks = [it for it in sorted(self.below(crate)) if not (self.library(it) / "format").is_file()]
        if lacks:
            raise NotBuilt(f"{crate}: its libraries are not built: {', '.join(lacks)}")
        is_program = (TOP / f"crates/{crate}/src/main.rt").is_file()
        words = ["--crate-name", crate, "src/main.rt" if is_program else "src/lib.rt"]
        for name in ["std", *(it for it in self.uses[crate] if it not in self.uses)]:
            words += ["--extern", f"{name}={kit()}/rlibs/{name}.rlib"]
        for name in self.uses[crate]:
            words += ["--extern", f"{name}={self.library(name)}"] if name in self.uses else []
        for name in sorted(self.below(crate)):
            words += ["-L", f"dependency={self.library(name).parent}"]
        words += ["-L", f"dependency={kit()}/rlibs", "--links", f"{crate}="]
        words += ["--crate-type", "staticlib"] if self.is_static(crate) else []
        words += ["--antt-project", f"{kit()}/rattle/logic/antt-project.json"]
        return [*words, "--logic-built", f"{kit()}/logic_built"]


def main():
    crates = Crates()
    if sys.argv[1:] == ["sums"]:
        print(crates.sums(), end="")
        return 0
    if len(sys.argv) != 4 or sys.argv[1] != "archive":
        sys.exit(__doc__)
    crate, archive = sys.argv[2], Path(sys.argv[3]).resolve()
    if not crates.are_of_ci():
        print("tools/over_ci.py: not built: the libraries here are not those of `rt ci`")
        return 0
    words = [f"{kit()}/bin/rattle", "build", *crates.words(crate), "--incremental", "out/incremental"]
    words += ["--toolchain", f"{kit()}/toolchain", "--backend", "llvm", "-o", archive]
    return subprocess.run(words, cwd=TOP / "crates" / crate).returncode


if __name__ == "__main__":
    try:
        sys.exit(main())
    except NotBuilt as why:
        sys.exit(f"tools/over_ci.py: {why}")
