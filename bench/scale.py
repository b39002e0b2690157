#!/usr/bin/env python3
"""How the time and the memory of `epc go` grow with a source, shape by shape, as a table for docs/BENCHMARKS.md.

    python3 bench/scale.py [PROGRAM [SHAPE..]] [--sizes 128,256,512,1024] [--runs 3] [--seconds 20]

PROGRAM is crates/epc/out/epc where none is given (`rt run` in crates/epc builds it). The shapes are those of SHAPES below, or
those alone that have one of the given texts in their names. A text of each shape is made of each size, in KiB, and told are:
the least processor time of some runs (of one run where that takes over a second), the greatest memory at the last size that
was tried, and the exponent of growth, which is that of the last two sizes that ended alike, or else of the last two that
ended: 1 where twice the text takes twice the time. Bold are times above 2 s at the last size, and exponents above 1.2. Memory
below some 30 MB is that of this script, in which the run began.

Each text is valid, so its answer is 0, or 'too large' where it has more than 65,536 typed nodes, which is known when it was
read, typed and counted. Any other answer is told in the table and on standard error, and the script ends with status 1; so is
an end by a signal. A run of more than 20 s of the processor, or of as many as are given, is cut. Behind either no larger text
of the shape is tried. `--sizes 2` tries the shapes themselves.
"""
import argparse
import math
import os
import resource
import signal
import subprocess
import sys
import tempfile
from dataclasses import dataclass

import program

KIB = 1024
SIZES = "128,256,512,1024"
RUNS = 3
SHORT = 1.0
SECONDS = 20
MOST_MEMORY = 4 * KIB**3
# what is told as bold: a time at the last of the sizes, and an exponent
SLOW = 2.0
STEEP = 1.2
# a text that runs for less has no exponent: what is measured then is the start of the process
LEAST = 0.02
LARGE = "too large"
RIGHT = ("0", LARGE)
# as deep as a group of statements or routines is nested here; a text nests at most 100 deep
DEEP = 35


def row(piece, count, between="\n", begin=0):
    """So many copies of a piece. A percent sign in it is the number of the copy, and an at sign that of the copy before."""
    return between.join(
        piece.replace("%", f"{k:06}").replace("@", f"{max(k - 1, 0):06}") for k in range(begin, begin + count)
    )


def downward(piece, count, between="\n"):
    return between.join(piece.replace("%", f"{k:06}") for k in reversed(range(count)))


def groups(count, piece, middle, end):
    """So many groups, each a nest of DEEP beginnings around a middle."""
    return "\n".join(row(piece, DEEP, " ", k * DEEP) + middle + end * DEEP for k in range(count))


def balanced(operand, operator, count):
    """An expression of so many operands that is as deep as their number has binary digits."""
    if count < 2:
        return operand
    half = count // 2
    return f"({balanced(operand, operator, half)}{operator}\n{balanced(operand, operator, count - half)})"


def array(count, component="integer"):
    return f"array [0..{count - 1:06}] of {component}"


def unit(declarations, statements=""):
    return f"program p(output);\n{declarations}\nbegin\n{statements}\nend.\n"


def results_in_the_innermost(count):
    """Functions one in the other, the innermost of which gives the results of all."""
    found = []
    for k in range(count):
        names = [f"f{j:06}" for j in range(k * DEEP, (k + 1) * DEEP)]
        heads = " ".join(f"function {name}: integer;" for name in names)
        found.append(f"{heads}\nbegin {'; '.join(f'{name} := 1' for name in names)} end; " + "begin end; " * (DEEP - 1))
    return "\n".join(found)


INT = "var i, j: integer; "
SET = "var s: set of 0..255; i: integer; "
CHAIN = "type t000000 = record x: integer end;\n" + row("t% = record x: t@ end;", DEEP, begin=1)
VARIANTS = "record case k: integer of\n{}\notherwise () end;\n"

# A shape: its name, and the text of so many pieces, of a length that is linear in their number.
SHAPES = {
    # types, constants and variables
    "types": lambda n: unit("type " + row("t% = 0..9;", n)),
    "types that name the one before": lambda n: unit("type t000000 = 0..9; " + row("t% = t@;", n, begin=1)),
    "types of variables": lambda n: unit("var " + row("v%: array [1..2] of 0..9;", n)),
    "an enumeration": lambda n: unit(f"type t = ({row('a%', n, ', ')});"),
    "records in records": lambda n: unit("type t000000 = integer; " + row("t% = record x: t@ end;", n, begin=1)),
    "arrays in arrays": lambda n: unit("type t000000 = integer; " + row("t% = array [1..1] of t@;", n, begin=1)),
    "dimensions of an array": lambda n: unit(f"type t = array [{row('1..1', n, ', ')}] of integer;"),
    "constants": lambda n: unit("const " + row("c% = 1;", n)),
    "constants in a chain": lambda n: unit("const c000000 = 1; " + row("c% = c@ + 1;", n, begin=1)),
    "set constants in a chain": lambda n: unit(
        "const s000000 = [0]; " + "\n".join(f"s{k:06} = s{k - 1:06} + [{k % 256:03}];" for k in range(1, n + 1))
    ),
    "uses of a set constant": lambda n: unit("const c = [0..255]; " + SET, row("s := c;", n)),
    "variables": lambda n: unit("var " + row("v%: integer;", n)),
    "variables of one declaration": lambda n: unit(f"var {row('v%', n, ', ')}: integer;"),
    "uses of variables": lambda n: unit("var " + row("v%: integer;", n), row("v% := 1;", n)),
    "long names": lambda n: unit("var " + row("a" * 200 + "%: integer;", n), row("a" * 200 + "% := 1;", n)),
    # routines
    "routines": lambda n: unit(row("procedure q%; begin end;", n)),
    "functions": lambda n: unit(row("function f%: integer; begin f% := 1 end;", n)),
    "calls of the routine before": lambda n: unit(row("procedure q%; begin q@ end;", n)),
    "nested routines": lambda n: unit(groups(n, "procedure q%;", "\n", "begin end; ")),
    "results in the innermost": lambda n: unit(results_in_the_innermost(n)),
    "variables of routines": lambda n: unit(row("procedure q%; var a, b: integer; begin a := 1; b := a end;", n)),
    "forward declarations": lambda n: unit(
        row("procedure q%; forward;", n) + "\n" + row("procedure q%; begin end;", n)
    ),
    "parameters of a forward declaration": lambda n: unit(
        f"procedure q({row('a%: integer', n, '; ')}); forward;\n"
        f"procedure q({row('a%: integer', n, '; ')}); begin end;"
    ),
    "parameters of one section": lambda n: unit(f"procedure q({row('a%', n, ', ')}: integer); begin end;"),
    "parameters of many": lambda n: unit(f"procedure q({row('a%: integer', n, '; ')}); begin end;"),
    "var parameters": lambda n: unit(f"procedure q({row('var a%: integer', n, '; ')}); begin end;"),
    "arguments of a call": lambda n: unit(
        f"procedure q({row('a%', n, ', ')}: integer); begin end;", f"q({row('1', n, ', ')})"
    ),
    "arguments for var parameters": lambda n: unit(
        f"{INT}procedure q(var {row('a%', n, ', ')}: integer); begin end;", f"q({row('i', n, ', ')})"
    ),
    "nested calls": lambda n: unit(
        INT + "function f(x: integer): integer; begin f := x end;", row(f"i := {'f(' * DEEP}1{')' * DEEP};", n)
    ),
    # records
    "fields of one section": lambda n: unit(f"type t = record {row('a%', n, ', ')}: integer end;"),
    "fields of many": lambda n: unit(f"type t = record {row('a%: integer', n, '; ')} end;"),
    "uses of the last field": lambda n: unit(
        f"var v: record {row('a%', n, ', ')}, z: integer end;", row("v.z := 1;", n)
    ),
    "uses of the last field in with": lambda n: unit(
        f"var v: record {row('a%', n, ', ')}, z: integer end;", f"with v do begin {row('z := 1;', n)} end"
    ),
    "field chains": lambda n: unit(f"{CHAIN} var v: t{DEEP:06};", row(f"v{'.x' * (DEEP + 1)} := 1;", n)),
    "with lists": lambda n: unit(INT + "v: record x: integer end;", f"with {row('v', n, ', ')} do x := 1"),
    "with lists and uses": lambda n: unit(
        INT + "v: record x: integer end;", f"with {row('v', n, ', ')} do begin {row('i := 1;', n)} end"
    ),
    "variants": lambda n: unit("type t = " + VARIANTS.format(row("%: (a%: integer);", n))),
    "labels of a variant": lambda n: unit("type t = " + VARIANTS.format(row("%", n, ", ") + ": (a: integer);")),
    "labels of a variant, greatest first": lambda n: unit(
        "type t = " + VARIANTS.format(downward("%", n, ", ") + ": (a: integer);")
    ),
    "uses of variants": lambda n: unit(
        "var v: " + VARIANTS.format(row("%: (a%: integer);", n)), "v.k := 0;\n" + row("v.a000000 := 1;", n)
    ),
    "assignments to a tag": lambda n: unit(
        "var v: " + VARIANTS.format(row("%", n, ", ") + ": (a: integer);"), row("v.k := 0;", n)
    ),
    # structured values and initial states
    "structured values by elements": lambda n: unit(
        f"var a: {array(n)};", f"a := [{row('%: 1', n, '; ')}]"
    ),
    "structured values by labels": lambda n: unit(
        f"var a: {array(n)};", f"a := [{row('%', n, ', ')}: 1]"
    ),
    "structured values by labels, greatest first": lambda n: unit(
        f"var a: {array(n)};", f"a := [{downward('%', n, ', ')}: 1]"
    ),
    "structured values by variables": lambda n: unit(
        f"{INT}a: {array(n)};", f"i := 0; a := [{row('i: 1', n, '; ')}]"
    ),
    "structured values by fields": lambda n: unit(
        f"var r: record {row('a%', n, ', ')}: integer end;", f"r := [{row('a%: 1', n, '; ')}]"
    ),
    "structured values by names": lambda n: unit(
        f"var r: record {row('a%', n, ', ')}: integer end;", f"r := [{row('a%', n, ', ')}: 1]"
    ),
    "structured values in one": lambda n: unit(
        f"var a: {array(n, 'record x: integer end')};", f"a := [{row('%: [x: 1]', n, '; ')}]"
    ),
    "structured values": lambda n: unit(
        "type t = array [1..3] of integer; var a: t;", row("a := t[1: 4; 2: 5; 3: 6];", n)
    ),
    "structured constants": lambda n: unit(
        "type t = array [1..3] of integer;\nconst " + row("c% = t[1: 4; 2: 5; 3: 6];", n)
    ),
    "structured constants in a chain": lambda n: unit(
        "type t = array [1..2] of integer;\nconst c000000 = t[1: 4; 2: 5];\n"
        + row("d% = c@[2]; c% = t[1: d%; 2: d%];", n, begin=1)
    ),
    "a structured constant by elements": lambda n: unit(
        f"type t = {array(n)}; const c = t[{row('%: 1', n, '; ')}];"
    ),
    "constants of its components": lambda n: unit(
        f"type t = {array(n)}; const c = t[{row('%: 1', n, '; ')}];\n" + row("d% = c[%];", n)
    ),
    "uses of its components": lambda n: unit(
        f"{INT}type t = {array(n)}; const c = t[{row('%: 1', n, '; ')}];", row("i := c[%];", n)
    ),
    "initial states of variables": lambda n: unit("var " + row("v%: integer value 1;", n)),
    "initial states of types": lambda n: unit("type " + row("t% = integer value 1;", n)),
    "initial states of fields": lambda n: unit(f"var v: record {row('a%: integer value 1', n, '; ')} end;"),
    "an initial state by elements": lambda n: unit(
        f"var a: {array(n)} value [{row('%: 1', n, '; ')}];"
    ),
    # statements
    "case labels": lambda n: unit(INT, f"i := 0; case i of {row('%', n, ', ')}: end"),
    "case labels, greatest first": lambda n: unit(INT, f"i := 0; case i of {downward('%', n, ', ')}: end"),
    "case arms": lambda n: unit(INT, f"i := 0; case i of {row('%: ;', n)} end"),
    "case ranges": lambda n: unit(INT, f"i := 0; case i of {row('%0..%5', n, ', ')}: end"),
    "assignments": lambda n: unit(INT, "i := 0;\n" + row("i := i + 1;", n)),
    "conditions": lambda n: unit(INT, "i := 0;\n" + row("if i = 0 then i := 1 else i := 0;", n)),
    "loops": lambda n: unit(INT, row("for i := 1 to 1 do;", n)),
    "loops with procedures": lambda n: unit(
        INT + row("procedure q%; begin j := 1 end;", n), row("for i := 1 to 1 do;", n)
    ),
    "loops with procedures and variables": lambda n: unit(
        f"var {row('i%', n, ', ')}, {row('j%', n, ', ')}: integer;\n" + row("procedure q%; begin j% := 1 end;", n),
        row("for i% := 1 to 1 do;", n),
    ),
    "nested loops": lambda n: unit(
        f"var {row('i%', DEEP, ', ')}: integer;", row(row("for i% := 1 to 1 do", DEEP, " ") + ";", n)
    ),
    "empty statements": lambda n: unit("", row(";", n, "")),
    # expressions
    "a long expression": lambda n: unit(INT, "i := 0; j := " + balanced("i", " + ", n)),
    "expressions of 400 operands": lambda n: unit(INT, "i := 0;\n" + row(f"j := i{' + i' * 399};", n)),
    "indexes in indexes": lambda n: unit(
        "var a: array [1..1] of integer;", "a[1] := 1;\n" + row(f"a[{'a[' * DEEP}1{']' * DEEP}] := 1;", n)
    ),
    "indexes of many dimensions": lambda n: unit(
        f"var a: array [{row('1..1', DEEP, ', ')}] of integer;", row(f"a[{row('1', DEEP, ', ')}] := 1;", n)
    ),
    "set members": lambda n: unit(SET, f"i := 1; s := [{row('2, i', n, ', ')}]"),
    # the text itself
    "distinct character strings": lambda n: unit("", row(f"write('{'x' * 34}%');", n)),
    "a long string": lambda n: unit("", f"write('{'x' * n}')"),
    "comments": lambda n: unit("", row("{ a comment }", n)),
    "a long comment": lambda n: unit("", f"{{ {'x' * n} }}"),
    "blank lines": lambda n: unit("", "\n" * n),
}


@dataclass
class Run:
    seconds: float
    megabytes: float
    answer: str


def text(shape, size):
    """The longest text of a shape that has at most so many bytes."""
    make = SHAPES[shape]
    one, two = len(make(1)), len(make(2))
    count = 1 + (size - one) // (two - one)
    if count < 1:
        sys.exit(f"{shape}: no text has only {size} bytes")
    return make(count)


def answered(status, told):
    """The status of a run, with what was told where that is no answer of a valid text."""
    if status < 0:
        return f"signal {-status}"
    if status == 3 and f" {LARGE} " in told:
        return LARGE
    return str(status) if status == 0 else f"{status}: {told.strip()[:80]}"


def once(words, command, folder):
    with open(os.path.join(folder, "told"), "w+") as told:
        child = subprocess.Popen([command, "go", "x.pas"], cwd=folder, stdout=subprocess.DEVNULL, stderr=told)
        resource.prlimit(child.pid, resource.RLIMIT_CPU, (words.seconds, words.seconds + 1))
        resource.prlimit(child.pid, resource.RLIMIT_AS, (MOST_MEMORY, MOST_MEMORY))
        _, status, used = os.wait4(child.pid, 0)
        child.returncode = os.waitstatus_to_exitcode(status)
        told.seek(0)
        answer = answered(child.returncode, told.read())
    seconds = used.ru_utime + used.ru_stime
    return Run(seconds, used.ru_maxrss / KIB, "cut" if child.returncode == -signal.SIGXCPU else answer)


def measured(words, command, folder, shape, size):
    """The run of the least time of some on one text."""
    with open(os.path.join(folder, "x.pas"), "w") as file:
        file.write(text(shape, size * KIB))
    runs = [once(words, command, folder)]
    while runs[0].seconds < SHORT and len(runs) < words.runs:
        runs.append(once(words, command, folder))
    return min(runs, key=lambda run: run.seconds)


def exponent(runs):
    """That of the last two sizes with one and the same answer, or else of the last two."""
    ended = [(size, run) for size, run in runs if run.answer != "cut" and run.seconds >= LEAST]
    pairs = list(zip(ended, ended[1:]))
    alike = [pair for pair in pairs if pair[0][1].answer == pair[1][1].answer]
    for (size, run), (larger, last) in (alike or pairs)[-1:]:
        return math.log(last.seconds / run.seconds) / math.log(larger / size)
    return None


def bold(text, so):
    return f"**{text}**" if so else text


def line(shape, runs, sizes):
    """The line of the table for a shape."""
    cells = []
    for size, run in runs:
        seconds = f"over {run.seconds:.0f} s" if run.answer == "cut" else f"{run.seconds:.2f} s"
        cells.append(bold(seconds, size == sizes[-1] and run.seconds > SLOW or run.answer == "cut"))
    cells += [""] * (len(sizes) - len(runs))
    grows = exponent(runs)
    last = runs[-1][1]
    cells.append(f"{last.megabytes:.0f} MB")
    cells.append("" if grows is None else bold(f"{grows:.2f}", grows > STEEP))
    cells.append(last.answer)
    return f"| {shape} | {' | '.join(cells)} |"


def tried(words, command, folder, shape, sizes):
    """The runs of a shape, up to the first one that is cut or ends by a signal."""
    runs = []
    for size in sizes:
        runs.append((size, measured(words, command, folder, shape, size)))
        if runs[-1][1].answer not in RIGHT:
            break
    return runs


def main():
    parser = argparse.ArgumentParser(usage="scale.py [PROGRAM [SHAPE..]] [--sizes 128,256,512,1024] [--runs 3] [--seconds 20]")
    parser.add_argument("program", nargs="?")
    parser.add_argument("shapes", nargs="*")
    parser.add_argument("--sizes", default=SIZES)
    parser.add_argument("--runs", type=int, default=RUNS)
    parser.add_argument("--seconds", type=int, default=SECONDS)
    words = parser.parse_intermixed_args()
    shapes = [shape for shape in SHAPES if not words.shapes or any(word in shape for word in words.shapes)]
    sizes = [int(size) for size in words.sizes.split(",")]
    command = program.path(words.program)
    wrong = []
    print(f"| Shape | {' | '.join(f'{size} KiB' for size in sizes)} | Memory | Exponent | Answer |")
    print("|---" * (len(sizes) + 4) + "|")
    with tempfile.TemporaryDirectory() as folder:
        for shape in shapes:
            runs = tried(words, command, folder, shape, sizes)
            print(line(shape, runs, sizes), flush=True)
            wrong += [f"{shape}, {size} KiB: {run.answer}" for size, run in runs if run.answer not in (*RIGHT, "cut")]
    for told in wrong:
        print(told, file=sys.stderr)
    sys.exit(1 if wrong else 0)


if __name__ == "__main__":
    main()
