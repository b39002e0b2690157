#!/usr/bin/env python3
"""Tries the mutants of tools/mutants: wrong bodies that the contracts of large crates must refuse.

    python3 tools/mutants.py [CRATE..]

It lays the edits into must-fail/ of their crates on a copy of the repository, and lets `rt must-fail` try them there.
It is run by hand, since one mutant costs a whole check of its crate; docs/TESTS.md says when it last was. The exit
status is that of `rt must-fail`: 0 where every mutant is refused.
"""
import os
import shutil
import subprocess
import sys
import tempfile

TOP = os.path.abspath(os.path.join(os.path.dirname(os.path.abspath(__file__)), ".."))
MUTANTS = os.path.join(TOP, "tools", "mutants")


def lay_edits(copy, crates):
    """Copies the edits of these crates to where the gate would look for them."""
    for crate in crates:
        shutil.copytree(os.path.join(MUTANTS, crate), os.path.join(copy, "crates", crate, "must-fail"))


def main():
    crates = sys.argv[1:] or sorted(os.listdir(MUTANTS))
    unknown = [crate for crate in crates if not os.path.isdir(os.path.join(MUTANTS, crate))]
    if unknown:
        sys.exit(f"no mutants of {', '.join(unknown)}")
    with tempfile.TemporaryDirectory() as folder:
        copy = os.path.join(folder, "copy")
        subprocess.run(["git", "clone", "-q", TOP, copy], check=True)
        lay_edits(copy, crates)
        return subprocess.run(["rt", "must-fail", *crates], cwd=copy).returncode


if __name__ == "__main__":
    sys.exit(main())
