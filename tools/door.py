#!/usr/bin/env python3
"""Counts imports of other crates' private proofs, which must be none.

What a crate's proofs offer to others stands in its folder proofs/public. A file that cites another module of
another crate's proofs is listed, and the exit status is then 1.
"""
import os
import re
import sys

ROOT = os.path.join(os.path.dirname(os.path.abspath(__file__)), "..", "crates")
CITED = re.compile(r"\bRattle\.(ep_\w+)\.proofs\.(\w+)|\b(ep_\w+)::proofs::(\w+)")


def sources():
    """The paths of all sources, specs and proofs."""
    for folder, folders, names in os.walk(ROOT):
        folders[:] = sorted(f for f in folders if f != "out")
        for name in sorted(names):
            if name.endswith((".rt", ".antt")):
                yield os.path.join(folder, name)


def private_imports(path):
    """The lines of a file that cite another crate's private proofs."""
    own = os.path.relpath(path, ROOT).split(os.sep)[0]
    with open(path, encoding="utf-8") as file:
        for number, line in enumerate(file, 1):
            for found in CITED.finditer(line):
                crate = found.group(1) or found.group(3)
                module = found.group(2) or found.group(4)
                if crate != own and module != "public":
                    yield f"{os.path.relpath(path, ROOT)}:{number}: {found.group(0)}"


def main():
    found = [line for path in sources() for line in private_imports(path)]
    for line in found:
        print(line)
    print(f"imports of other crates' private proofs: {len(found)}")
    return 1 if found else 0


if __name__ == "__main__":
    sys.exit(main())
