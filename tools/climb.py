#!/usr/bin/env python3
"""Proves crates one on another and keeps what is proved, by text, in out/climb/: the way to work in a low crate.

    python3 tools/climb.py [--jobs N] [CRATE..]
    python3 tools/climb.py --only CRATE NAME..

The first form proves the named crates, or all, and those below them, each as soon as those are, N at a time. A crate whose
text and whose crates below are as when it was proved is not proved again. Its log is out/climb/CRATE.log. The second form
checks some functions of one crate, past open goals, over the kept libraries; a crate below that is not kept is passed as
source, and of it only what the proof cites is read. Neither is the gate: that is `rt ci`, which keeps nothing of this.
"""
import argparse
import hashlib
import os
import shutil
import subprocess
import sys
import time

TOP = os.path.abspath(os.path.join(os.path.dirname(os.path.abspath(__file__)), ".."))
KEPT = os.path.join(TOP, "out", "climb")


def crates_below():
    """For each crate of crates.txt those that its line names."""
    below = {}
    with open(os.path.join(TOP, "crates.txt")) as lines:
        for line in lines:
            name, colon, rest = line.split("#")[0].partition(":")
            if colon:
                below[name.split()[0]] = rest.split()
    return below


class House:
    """The crates, and what is kept of them."""

    def __init__(self):
        self.below = crates_below()
        self.kit = os.path.dirname(subprocess.run(["rt", "doc"], capture_output=True, text=True).stdout.strip())
        self.keys = {}
        os.makedirs(KEPT, exist_ok=True)

    def folder(self, crate):
        return os.path.join(TOP, "crates", crate)

    def source(self, crate):
        main = os.path.join(self.folder(crate), "src", "main.rt")
        return "src/main.rt" if os.path.exists(main) else "src/lib.rt"

    def key(self, crate):
        """What tells the text of a crate and of all below it from any other."""
        if crate not in self.keys:
            text = hashlib.sha256()
            for part in ("src", "specs", "proofs"):
                for folder, inner, files in os.walk(os.path.join(self.folder(crate), part)):
                    inner.sort()
                    for file in sorted(os.path.join(folder, name) for name in files):
                        text.update(os.path.relpath(file, TOP).encode() + b"\0" + open(file, "rb").read())
            for other in self.below[crate]:
                text.update(self.key(other).encode() if other in self.below else other.encode())
            self.keys[crate] = text.hexdigest()
        return self.keys[crate]

    def key_file(self, crate):
        return os.path.join(KEPT, crate + ".key")

    def library(self, crate):
        return os.path.join(KEPT, crate + ".rlib")

    def is_kept(self, crate):
        file = self.key_file(crate)
        return os.path.exists(file) and open(file).read() == self.key(crate)

    def words(self, command, crate):
        """The command that checks or builds a crate over what is kept of those below it."""
        kit, logic = self.kit, os.path.join(self.kit, "rattle", "logic", "antt-project.json")
        words = [os.path.join(kit, "bin", "rattle"), command, "--crate-name", crate, self.source(crate)]
        words += ["--extern", f"std={kit}/rlibs/std.rlib", "-L", f"dependency={kit}/rlibs", "-L", f"dependency={KEPT}"]
        sources = False
        for other in self.below[crate]:
            if other not in self.below:
                words += ["--extern", f"{other}={kit}/rlibs/{other}.rlib"]
            elif self.is_kept(other):
                words += ["--extern", f"{other}={self.library(other)}"]
            else:
                words += ["--lib", f"{other}=../{other}/src/lib.rt"]
                sources = True
        for other in ("indexmap", "itoa") if sources else ():
            if other not in self.below[crate]:
                words += ["--extern", f"{other}={kit}/rlibs/{other}.rlib"]
        return words + ["--antt-project", logic, "--logic-built", os.path.join(kit, "logic_built")]

    def start(self, crate):
        shutil.rmtree(self.library(crate), ignore_errors=True)
        words = self.words("check" if self.source(crate) == "src/main.rt" else "build", crate)
        words += ["--links", crate + "=", "--jobs", "2"]
        if "build" in words:
            words += ["--statements", "--empty-contracts", "-o", self.library(crate)]
        with open(os.path.join(KEPT, crate + ".log"), "w") as log:
            return subprocess.Popen(words, cwd=self.folder(crate), stdout=log, stderr=subprocess.STDOUT)


def told(*words):
    print(time.strftime("%H:%M:%S"), *words, flush=True)


def with_below(house, crates):
    wanted = set()
    left = list(crates)
    while left:
        crate = left.pop()
        if crate in house.below and crate not in wanted:
            wanted.add(crate)
            left += house.below[crate]
    return wanted


def climb(house, crates, jobs):
    wanted = with_below(house, crates or house.below)
    proved = {crate for crate in wanted if house.is_kept(crate)}
    left, running, failed = wanted - proved, {}, set()
    told("kept:", *sorted(proved))
    while left or running:
        stuck = {crate for crate in left if any(other in failed for other in house.below[crate])}
        left, failed = left - stuck, failed | stuck
        for crate in [c for c in house.below if c in left]:
            ready = all(other not in house.below or other in proved for other in house.below[crate])
            if ready and len(running) < jobs:
                left.remove(crate)
                running[crate] = (house.start(crate), time.time(), house.key(crate))
        for crate, (process, began, key) in list(running.items()):
            ended, status, used = os.wait4(process.pid, os.WNOHANG)
            if not ended:
                continue
            del running[crate]
            if status == 0:
                proved.add(crate)
                with open(house.key_file(crate), "w") as file:
                    file.write(key)
            else:
                failed.add(crate)
            busy = used.ru_utime + used.ru_stime
            told(crate, "proved" if crate in proved else "NOT PROVED", f"{time.time() - began:.0f} s, of a processor {busy:.0f} s")
        time.sleep(1)
    if failed:
        told("not proved:", *sorted(failed))
    return 1 if failed else 0


def only(house, crate, names):
    words = house.words("check", crate) + ["--jobs", "1", "--allow-holes"]
    words += ["--incremental", os.path.join(KEPT, crate + ".only")]
    for name in names:
        words += ["--only", name]
    return subprocess.run(words, cwd=house.folder(crate)).returncode


def main():
    parser = argparse.ArgumentParser(description=__doc__, formatter_class=argparse.RawDescriptionHelpFormatter)
    parser.add_argument("--jobs", type=int, default=3, help="how many crates at a time")
    parser.add_argument("--only", action="store_true", help="some functions of one crate")
    parser.add_argument("names", nargs="*", metavar="NAME")
    told_words = parser.parse_args()
    house = House()
    if told_words.only:
        return only(house, told_words.names[0], told_words.names[1:])
    return climb(house, told_words.names, told_words.jobs)


if __name__ == "__main__":
    sys.exit(main())
