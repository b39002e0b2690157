#!/usr/bin/env python3
"""How much stack `epc go` takes, as a table for docs/PROMISES.md.

    python3 bench/stack.py [PROGRAM [SHAPE..]] [--stack 1024]

PROGRAM is crates/epc/out/epc where none is given (`rt run` in crates/epc builds it). The shapes are those of SHAPES below, or
those alone that have one of the given texts in their names: texts that nest, or are deep, just as far as a text may, and texts of
1 MiB that are long in something that does not nest. Each is run with a stack of so many KiB; told are its status, and the
least stack, to 4 KiB, with which it does not end by a signal. A text that ends by one with the stack that is given is told on
standard error too, and the script ends with status 1.
"""
import argparse
import os
import resource
import subprocess
import sys
import tempfile

import program

KIB = 1024
# as deep as a text may nest, and an expression be
LEVELS = 100
DEPTH = 1000
LENGTH = 1024 * KIB
MOST = 1024 * KIB
FOUND = 4


def unit(declarations, statements=""):
    return f"program p(output);\n{declarations}\nbegin\n{statements}\nend.\n"


def fill(before, piece, between, after):
    """As many copies of a piece as a text of 1 MiB has room for. A percent sign in it is the number of the copy, and an at sign that
    of the copy before."""
    room = LENGTH - len(before) - len(after)
    count = room // (len(piece.replace("%", "000000").replace("@", "000000")) + len(between))
    copies = (piece.replace("%", f"{k:06}").replace("@", f"{k - 1:06}") for k in range(1, count + 1))
    return before + between.join(copies) + after


def nested(opening, middle, closing, levels):
    return opening * levels + middle + closing * levels


def numbered(piece, count):
    return "".join(piece.replace("%", f"{k:03}") for k in range(count))


INT = "var i, j: integer;\n"
CALLS = INT + "function f(x: integer): integer; begin f := x end;"
CHAIN = "type t000000 = record x: integer end;\n"

# A shape: its name, and the text.
SHAPES = {
    # what nests, or is deep, as far as it may
    "calls in calls": lambda: unit(CALLS, "i := " + nested("f(", "1", ")", LEVELS - 2)),
    "parentheses": lambda: unit(INT, "i := 1; j := " + nested("(", "i", " + 1)", LEVELS - 2)),
    "not": lambda: unit("var b: Boolean;", "b := " + nested("not ", "true", "", LEVELS - 2)),
    "indexes in indexes": lambda: unit(
        "var a: array [1..1] of integer;", "a[1] := 1; a[1] := " + nested("a[", "1", "]", LEVELS - 2)
    ),
    "sets in sets": lambda: unit(INT, "i := " + nested("card([", "1", "])", (LEVELS - 2) // 2)),
    "structured values": lambda: unit(
        "type t000 = array [1..1] of integer;\n"
        + "".join(f"t{k:03} = array [1..1] of t{k - 1:03};\n" for k in range(1, LEVELS - 3))
        + f"var a: t{LEVELS - 4:03};",
        "a := " + nested("[1: ", "1", "]", LEVELS - 3),
    ),
    "structured constants": lambda: unit(
        "type t000 = array [1..1] of integer;\n"
        + "".join(f"t{k:03} = array [1..1] of t{k - 1:03};\n" for k in range(1, LEVELS - 3))
        + f"const c = t{LEVELS - 4:03}"
        + nested("[1: ", "1", "]", LEVELS - 3)
        + ";"
    ),
    "sums": lambda: unit(INT, "i := 1; j := i" + " + i" * (DEPTH - 2)),
    "signs": lambda: unit(INT, "i := 1; j := " + nested("-(", "i", ")", LEVELS - 2)),
    "begin": lambda: unit("", nested("begin ", "", " end", LEVELS - 1)),
    "if": lambda: unit(INT, "i := 1;" + nested("if i = 1 then ", "i := 2", "", LEVELS - 2)),
    "if and else": lambda: unit(INT, "i := 1;" + nested("if i = 2 then else ", "i := 2", "", LEVELS - 2)),
    "while": lambda: unit(INT, "i := 1;" + nested("while i = 1 do ", "i := 2", "", LEVELS - 2)),
    "repeat": lambda: unit(INT, nested("repeat ", "i := 2", " until true", LEVELS - 2)),
    "for": lambda: unit(
        "var " + numbered("i%, ", LEVELS) + "i: integer;", numbered("for i% := 1 to 1 do ", LEVELS - 2) + "i := 2"
    ),
    "for over members": lambda: unit(
        "var " + numbered("i%, ", LEVELS) + "i: integer;", numbered("for i% in [1] do ", LEVELS - 2) + "i := 2"
    ),
    "case": lambda: unit(INT, "i := 1;" + nested("case i of 1: ", "i := 2", " end", LEVELS - 2)),
    "case and otherwise": lambda: unit(
        INT, "i := 1;" + nested("case i of 2:; otherwise ", "i := 2", " end", LEVELS - 2)
    ),
    "with": lambda: unit("var r: record x: integer end;", nested("with r do ", "x := 2", "", LEVELS - 2)),
    "routines": lambda: unit(
        numbered("procedure q%; ", LEVELS - 2) + nested("begin end; ", "", "", LEVELS - 2), ""
    ),
    "functions with calls": lambda: unit(
        numbered("function f%(x: integer): integer; ", LEVELS - 4)
        + "".join(f"begin f{k:03} := {nested('f%03d(' % k, '1', ')', 3)} end; " for k in reversed(range(LEVELS - 4)))
    ),
    "arrays": lambda: unit("var a: " + nested("array [1..1] of ", "integer", "", LEVELS - 1) + ";", ""),
    "records": lambda: unit("var r: " + nested("record x: ", "integer", " end", LEVELS // 2 - 1) + ";", ""),
    "variants": lambda: unit(
        "var r: record " + numbered("case k%: Boolean of true: (", LEVELS - 2) + ")" * (LEVELS - 2) + " end;"
    ),
    # what is long and does not nest
    "a sum that is too deep": lambda: fill("program p(output); var i: integer; begin i := 1; i := i", " + i", "", " end."),
    "a disjunction that is too deep": lambda: fill(
        "program p(output); var b: Boolean; begin b := true; b := b", " or b", "", " end."
    ),
    "a short disjunction that is too deep": lambda: fill(
        "program p(output); var b: Boolean; begin b := true; b := b", " or_else b", "", " end."
    ),
    "a product of constants": lambda: fill("program p(output); const c = 1", "*1", "", "; begin end."),
    "selectors that are too many": lambda: fill(
        "program p(output); type t = record x: integer end; var v: t; begin v", ".x", "", " := 1 end."
    ),
    "indexes that are too many": lambda: fill(
        "program p(output); var v: array [1..1] of integer; begin v[1", ", 1", "", "] := 1 end."
    ),
    "dimensions": lambda: fill("program p(output); var v: array [1..1", ", 1..1", "", "] of integer; begin end."),
    "dimensions with an initial state": lambda: fill(
        "program p(output); var v: array [1..1", ", 1..1", "", "] of integer value 1; begin end."
    ),
    "dimensions of equal values": lambda: fill(
        "program p(output); type t = array [1..1", ", 1..1", "", "] of integer; var v, w: t; begin v := w end."
    ),
    "records of a with": lambda: fill(
        "program p(output); var v: record x: integer end; begin with v", ", v", "", " do x := 1 end."
    ),
    "types by names": lambda: fill("program p(output); type t000000 = integer;\n", "t% = t@;", "\n", " begin end."),
    "records in records by names": lambda: fill(
        "program p(output); type t000000 = integer;\n", "t% = record x: t@ end;", "\n", " begin end."
    ),
    "a variable of records in records": lambda: unit(
        CHAIN + "\n".join(f"t{k:06} = record x: t{k - 1:06} end;" for k in range(1, 30000)) + "var v: t029999;", ""
    ),
    "a variable of arrays in arrays": lambda: unit(
        CHAIN + "\n".join(f"t{k:06} = array [1..1] of t{k - 1:06};" for k in range(1, 25000)) + "var v: t024999;", ""
    ),
    "a constant of arrays in arrays": lambda: unit(
        "type t000000 = array [1..1] of integer; const c000000 = t000000[1: 1];\n"
        + "\n".join(
            f"type t{k:06} = array [1..1] of t{k - 1:06}; const c{k:06} = t{k:06}[1: c{k - 1:06}];" for k in range(1, 12000)
        ),
        "",
    ),
    "initial states in initial states": lambda: unit(
        "type t000000 = integer value 1;\n"
        + "\n".join(f"t{k:06} = record x: t{k - 1:06} end;" for k in range(1, 30000))
        + "var v: t029999;",
        "",
    ),
    "set constants": lambda: fill("program p(output); const c000000 = [1];\n", "c% = c@ + c@;", "\n", " begin end."),
    "forward calls": lambda: fill("program p(output);\n", "procedure q%; begin q% end;", "\n", " begin end."),
    "statements": lambda: fill("program p(output); begin ", ";", "", " end."),
    "an enumeration": lambda: fill("program p(output); type t = (a", ", a%", "", "); begin end."),
    "arguments": lambda: fill("program p(output); begin write(1", ", 1", "", ") end."),
    "comments": lambda: fill("program p(output); ", "{", "", "} begin end."),
    "open parentheses": lambda: fill("program p(output); begin write(", "(", "", " end."),
    "open sets": lambda: fill("program p(output); begin write(", "[", "", " end."),
    "open statements": lambda: fill("program p(output); ", "begin ", "", " end."),
}


def run(command, folder, kib):
    """The status of a run with a stack of so many KiB, below 0 where a signal ended it."""
    def limits():
        resource.setrlimit(resource.RLIMIT_STACK, (kib * KIB, kib * KIB))

    return subprocess.run(
        [command, "go", "x.pas"], cwd=folder, stdout=subprocess.DEVNULL, stderr=subprocess.DEVNULL, preexec_fn=limits
    ).returncode


def least(command, folder, kib):
    """The least stack in KiB with which the text does not end by a signal, where it does not with this one."""
    low, high = 0, kib
    while high - low > FOUND:
        middle = (low + high) // 2
        if run(command, folder, middle) < 0:
            low = middle
        else:
            high = middle
    return high


def main():
    parser = argparse.ArgumentParser(usage="stack.py [PROGRAM [SHAPE..]] [--stack 1024]")
    parser.add_argument("program", nargs="?")
    parser.add_argument("shapes", nargs="*")
    parser.add_argument("--stack", type=int, default=KIB)
    words = parser.parse_intermixed_args()
    command = program.path(words.program)
    wrong = []
    print("| Text | Status | Stack |\n|---|---|---|")
    with tempfile.TemporaryDirectory() as folder:
        for shape in [shape for shape in SHAPES if not words.shapes or any(word in shape for word in words.shapes)]:
            with open(os.path.join(folder, "x.pas"), "w") as file:
                file.write(SHAPES[shape]())
            status = run(command, folder, words.stack)
            if status < 0:
                wrong.append(f"{shape}: signal {-status}")
                whole = run(command, folder, 8 * KIB)
                need = f"{least(command, folder, 8 * KIB)} KiB" if whole >= 0 else "above 8 MiB"
                print(f"| {shape} | **signal {-status}** | **{need}** |", flush=True)
            else:
                print(f"| {shape} | {status} | {least(command, folder, words.stack)} KiB |", flush=True)
    for told in wrong:
        print(told, file=sys.stderr)
    sys.exit(1 if wrong else 0)


if __name__ == "__main__":
    main()
