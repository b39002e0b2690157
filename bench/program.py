"""The program that is measured."""
import os
import sys


def path(named=None):
    """The one that is named, or else crates/epc/out/epc."""
    root = os.path.dirname(os.path.dirname(os.path.abspath(__file__)))
    program = os.path.abspath(named) if named else os.path.join(root, "crates/epc/out/epc")
    if not os.path.exists(program):
        sys.exit(f"{program} is not there: build it first")
    return program
