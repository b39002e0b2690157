#!/usr/bin/env python3
"""How long `epc go` takes on sources of 64 KiB, 256 KiB and 1 MiB, and how much memory, as a table for docs/BENCHMARKS.md.

    python3 bench/reading.py [PROGRAM]

PROGRAM is crates/epc/out/epc where none is given (`rt run` in crates/epc builds it). Each source is read five times, and
the least time and the greatest memory of the five are told. What such a source is answered with stands in the table
too, so that a wrong answer is seen.
"""
import os
import subprocess
import sys
import tempfile
import time

import program

KIB = 1024
SIZES = (64 * KIB, 256 * KIB, 1024 * KIB)
RUNS = 5
# as long as the names that stand for a percent sign in a piece, each of which is another one
NAME = "a0000000"
# a shape of sources: its name, what stands before, the piece that is repeated, and what stands after
SHAPES = (
    ("`writeln(1);`", "program p(output); begin ", "writeln(1);", "end."),
    ("`writeln(1);` 100 levels deep", "program p(output);" + " begin" * 99 + " ", "writeln(1);", " end" * 99 + "."),
    ("`a(1);`", "program p; begin ", "a(1);", "end."),
    ("`;`", "program p; begin ", ";", "end."),
    ("`[1],`", "program p; begin a := [[1],", "[1],", "[1]] end."),
    ("`x := (a + 1) * 2 - b;`", "program p; var x, a, b: integer; begin ", "x := (a + 1) * 2 - b;", "end."),
    ("`x := 1;` and blanks", "program p; var x: integer; begin ", "x := 1;" + " " * 65, "end."),
    ("`var` declarations", "program p; var ", "%: integer;", "begin end."),
    ("`const` definitions", "program p; const ", "c = [1: 2];", "begin end."),
    ("an open comment", "program p; {", " a comment", ""),
)


def source(before, piece, after, size):
    """A source of exactly so many bytes, with blanks where the last piece does not fit."""
    times = (size - len(before) - len(after)) // len(piece.replace("%", NAME))
    text = before + "".join(piece.replace("%", f"a{number:07}") for number in range(times))
    return text + " " * (size - len(text) - len(after)) + after


def run(command, folder):
    """One call: seconds, MB and exit status."""
    began = time.perf_counter()
    child = subprocess.Popen([command, "go", "x.pas"], cwd=folder, stdout=subprocess.DEVNULL, stderr=subprocess.DEVNULL)
    _, status, used = os.wait4(child.pid, 0)
    return time.perf_counter() - began, used.ru_maxrss / KIB, os.waitstatus_to_exitcode(status)


def cell(command, folder, text):
    with open(os.path.join(folder, "x.pas"), "w") as file:
        file.write(text)
    runs = [run(command, folder) for _ in range(RUNS)]
    return f"{min(r[0] for r in runs):.2f} s, {max(r[1] for r in runs):.0f} MB", runs[0][2]


def main():
    found = program.path(*sys.argv[1:2])
    print("| Source | 64 KiB | 256 KiB | 1 MiB | Status |")
    print("|---|---|---|---|---|")
    with tempfile.TemporaryDirectory() as folder:
        for name, before, piece, after in SHAPES:
            cells = [cell(found, folder, source(before, piece, after, size)) for size in SIZES]
            print(f"| {name} | {' | '.join(c[0] for c in cells)} | {cells[-1][1]} |")


if __name__ == "__main__":
    main()
