#!/usr/bin/env python3
"""Random programs, run by `epc go` and as `fpc -Miso` makes them, which have to write the same.

    python3 tools/against_fpc.py FIRST COUNT [PROGRAM]

FIRST is the first seed and COUNT how many follow; a seed always gives the same program. PROGRAM is crates/epc/out/epc where
none is given (`rt run` in crates/epc builds it). Each program that differs is kept in the current folder, and the last line
says how many did. What a program says is defined: each variable has a value before it is used, routines call each other only
so deep, numbers stay small but for divisions by zero and values outside a subrange, which are errors on both sides, and no
expression calls a function that changes what another part of it reads.
"""
import dataclasses
import os
import random
import subprocess
import sys
import tempfile

ORDINAL = {"number": "integer", "truth": "Boolean", "colour": "colour", "letter": "char", "share": "share"}
SPELLED = {**ORDINAL, "row": "row", "pair": "pair", "grid": "grid"}
RESULTS = ("number", "truth", "colour", "letter", "row", "pair", "grid")
TYPES = "colour = (red, green, blue); share = 0..99; row = array [1..3] of integer; pair = record n: integer; c: colour; r: row end; grid = array [colour] of pair"
# what leads from a variable of a structured type to a component, with `#` for an index of a row and `@` for one of a grid
PATHS = {
    "row": {"number": ("[#]",)},
    "pair": {"number": (".n", ".r[#]"), "colour": (".c",), "row": (".r",)},
    "grid": {"number": ("[@].n", "[@].r[#]"), "colour": ("[@].c",), "row": ("[@].r",), "pair": ("[@]",)},
}
FIRST_VALUES = {"truth": "false", "colour": "red", "letter": "'m'"}
RELATIONS = ("=", "<>", "<", ">", "<=", ">=")


@dataclasses.dataclass(frozen=True)
class Heading:
    """A routine. Its first formal parameter, `fuel`, says how deep it may call others."""
    name: str
    formals: tuple  # a kind, whether it is a variable parameter, and its name
    result: str

    def text(self):
        formals = "".join(f"; {'var ' if by_reference else ''}{name}: {SPELLED[kind]}" for kind, by_reference, name in self.formals)
        result = f": {SPELLED[self.result]}" if self.result else ""
        return f"{self.short()}(fuel: integer{formals}){result}"

    def short(self):
        return f"{'function' if self.result else 'procedure'} {self.name}"


@dataclasses.dataclass(frozen=True)
class Scope:
    """What statements may name: variables with their kinds, those that may not be assigned to, and routines."""
    variables: tuple = ()
    threatened: frozenset = frozenset()
    routines: tuple = ()
    controls: tuple = ()  # control variables of the block, integers and one of the enumeration
    counter: str = ""
    inside: bool = False  # whether this is a routine, which has fuel

    def of_kind(self, kind, assigned=False):
        return [name for name, its in self.variables if its == kind and not (assigned and name in self.threatened)]

    def leading_to(self, kind, assigned=False, indexed=True):
        """The variables of the kind, and those with such components, each with what leads there."""
        found = [(name, "") for name in self.of_kind(kind, assigned)]
        for name, its in self.variables:
            found += [(name, path) for path in PATHS.get(its, {}).get(kind, ()) if indexed or not set("#@") & set(path)]
        return found

    def without(self, name, kind=None):
        more = ((name, kind),) if kind else ()
        return dataclasses.replace(self, variables=self.variables + more, threatened=self.threatened | {name})


class Programs:
    def __init__(self, seed):
        self.random = random.Random(seed)
        self.names = 0

    def name(self, start):
        self.names += 1
        return f"{start}{self.names}"

    def some(self, *choices):
        return self.random.choice(choices)()

    # ---- variables

    def index(self, scope, kind):
        """An index, which is a name or a constant alone."""
        known = scope.of_kind(kind)
        chosen = self.random.choice(known) if known and self.random.random() < 0.7 else self.constant(kind)
        return chosen if kind == "colour" else f"({chosen} mod 3 + 1)"

    def variable(self, scope, kind, assigned=False, indexed=True):
        """A variable of the kind, which may be a component, or nothing where there is none."""
        known = scope.leading_to(kind, assigned, indexed)
        if not known:
            return None
        name, path = self.random.choice(known)
        return name + "".join(self.index(scope, "number") if c == "#" else self.index(scope, "colour") if c == "@" else c for c in path)

    def constant(self, kind):
        return FIRST_VALUES[kind] if kind in FIRST_VALUES else str(self.random.randint(0, 50))

    def begun(self, name, kind):
        """Assignments that give a variable a value, component by component where it has some."""
        if kind == "row":
            return [f"{name}[{i}] := {self.constant('number')}" for i in (1, 2, 3)]
        if kind == "pair":
            return [f"{name}.n := {self.constant('number')}", f"{name}.c := {self.constant('colour')}"] + self.begun(name + ".r", "row")
        if kind == "grid":
            return self.begun(name + "[red]", "pair") + [f"{name}[{c}] := {name}[red]; {name}[{c}].n := {self.constant('number')}" for c in ("green", "blue")]
        return [f"{name} := {self.constant(kind)}"]

    def shown(self, name, kind):
        """Statements that write a variable, component by component."""
        if kind == "row":
            return [f"write(' ', {name}[{i}]: 1)" for i in (1, 2, 3)]
        if kind == "pair":
            return [f"write(' ', {name}.n: 1, ' ', ord({name}.c): 1)"] + self.shown(name + ".r", "row")
        if kind == "grid":
            return [text for c in ("red", "green", "blue") for text in self.shown(f"{name}[{c}]", "pair")]
        return [f"write(' ', {name if kind in ('number', 'share') else f'ord({name})'}: 1)"]

    # ---- expressions

    def expression(self, scope, kind, depth=0):
        """An expression of the kind; of a structured one a variable, or nothing where there is none."""
        if kind not in ORDINAL:
            return self.variable(scope, kind)
        if scope.leading_to(kind) and self.random.random() < 0.3 + 0.2 * depth:
            return self.variable(scope, kind)
        return getattr(self, kind)(scope, depth + 1)

    def number(self, scope, depth):
        if depth > 3:
            return str(self.random.randint(0, 60))

        def part():
            return self.expression(scope, "number", depth)

        def divisor():
            return f"({part()} mod 3)" if self.random.random() < 0.05 else str(self.random.randint(1, 9))

        return self.some(
            lambda: str(self.random.randint(0, 60)),
            lambda: f"ord({self.expression(scope, 'colour', depth)})",
            lambda: self.expression(scope, "share", depth),
            lambda: f"({part()} mod {self.random.randint(1, 17)})",
            lambda: f"({part()} div {divisor()})",
            lambda: f"(({part()} mod 101) * ({part()} mod 101))",
            lambda: f"abs({part()} mod 1000)",
            lambda: f"({part()} mod 1000 {self.random.choice('+-')} {part()} mod 1000)",
        )

    def share(self, scope, depth):
        if self.random.random() < 0.05:
            return self.expression(scope, "number", depth)
        return f"({self.expression(scope, 'number', depth)} mod 100)"

    def truth(self, scope, depth):
        if depth > 3:
            return self.random.choice(("true", "false"))

        def compared(kind):
            return f"({self.expression(scope, kind, depth)} {self.random.choice(RELATIONS)} {self.expression(scope, kind, depth)})"

        return self.some(
            lambda: f"not ({self.expression(scope, 'truth', depth)})",
            lambda: f"({self.expression(scope, 'truth', depth)} {self.random.choice(('and', 'or'))} {self.expression(scope, 'truth', depth)})",
            lambda: f"odd({self.expression(scope, 'number', depth)})",
            lambda: compared("colour"),
            lambda: compared("number"),
        )

    def colour(self, scope, depth):
        return self.random.choice(("red", "green", "blue"))

    def letter(self, scope, depth):
        if self.random.random() < 0.4:
            return f"chr(ord('a') + ({self.expression(scope, 'number', 2)}) mod 20)"
        return repr(self.random.choice("abcdefxyz"))

    # ---- statements

    def statements(self, scope, depth, most):
        return ";\n".join(self.statement(scope, depth) for _ in range(self.random.randint(1, most)))

    def body(self, scope, depth, most=2):
        return f"begin\n{self.statements(scope, depth + 1, most)}\nend"

    def statement(self, scope, depth):
        simple = [self.assignment, self.assignment, self.call, self.writing]
        structured = [self.conditional, self.selection, self.counting, self.loop] if depth < 3 else []
        return self.random.choice(simple + structured)(scope, depth) or self.writing(scope, depth)

    def assignment(self, scope, depth):
        kind = self.random.choice(tuple(SPELLED))
        target = self.variable(scope, kind, assigned=True)
        return f"{target} := {self.expression(scope, kind)}" if target else None

    def writing(self, scope, depth):
        kind = self.random.choice(tuple(ORDINAL))
        value = self.expression(scope, kind)
        shown = value if kind in ("number", "share") else f"ord({value})"
        return f"{self.random.choice(('write', 'writeln'))}({shown}: {self.random.randint(1, 9)}, ' ')"

    def conditional(self, scope, depth):
        return f"if {self.expression(scope, 'truth')} then {self.body(scope, depth)} else {self.body(scope, depth)}"

    def selection(self, scope, depth):
        arms = f"0, 1: {self.body(scope, depth)};\n2..4: {self.body(scope, depth)};\notherwise {self.body(scope, depth)}"
        return f"case ({self.expression(scope, 'number')}) mod 7 of\n{arms}\nend"

    def counting(self, scope, depth):
        free = [control for control in scope.controls if control[0] not in scope.threatened]
        if not free:
            return None
        name, kind = self.random.choice(free)
        bounds = [self.expression(scope, kind) for _ in range(2)]
        if kind == "number":
            bounds = [f"({bound}) mod {most}" for bound, most in zip(bounds, (4, 5))]
        return f"for {name} := {bounds[0]} {self.random.choice(('to', 'downto'))} {bounds[1]} do {self.body(scope.without(name, kind), depth)}"

    def loop(self, scope, depth):
        count = scope.counter
        if count in scope.threatened:
            return None
        turn = f"{count} := {count} + 1;\n{self.statements(scope.without(count), depth + 1, 2)}"
        most = self.random.randint(1, 3)
        if self.random.random() < 0.5:
            return f"{count} := 0;\nwhile {count} < {most} do begin\n{turn}\nend"
        return f"{count} := 0;\nrepeat\n{turn}\nuntil {count} >= {most}"

    def call(self, scope, depth):
        if not scope.routines:
            return None
        routine = self.random.choice(scope.routines)
        actuals = ["fuel - 1" if scope.inside else str(self.random.randint(1, 3))]
        for kind, by_reference, _ in routine.formals:
            actual = self.variable(scope, kind, assigned=True) if by_reference else self.expression(scope, kind, 1)
            if not actual:
                return None
            actuals.append(actual)
        target, selectors = "", ""
        if routine.result:
            kind, selectors = self.selected(routine.result)
            # without an index, since what is called may change it
            variable = self.variable(scope, kind, assigned=True, indexed=False)
            if not variable:
                return None
            target = f"{variable} := "
        return f"{'if fuel > 0 then ' if scope.inside else ''}{target}{routine.name}({', '.join(actuals)}){selectors}"

    def selected(self, kind):
        """The kind of what is taken of a result of a kind, and the selectors that take it, whose indexes are constants."""
        if kind not in PATHS or self.random.random() < 0.5:
            return kind, ""
        component = self.random.choice(tuple(PATHS[kind]))
        path = self.random.choice(PATHS[kind][component])
        return component, "".join(str(self.random.randint(1, 3)) if c == "#" else self.colour(None, 0) if c == "@" else c for c in path)

    # ---- blocks

    def heading(self):
        result = self.random.choice(RESULTS) if self.random.random() < 0.4 else None
        name = self.name("f" if result else "p")
        formals = tuple((self.random.choice(tuple(SPELLED)), self.random.random() < 0.5, self.name("a")) for _ in range(self.random.randint(0, 3)))
        return Heading(name, formals, result)

    def routine(self, heading, scope, level, short=False):
        formals = tuple((name, kind) for kind, _, name in heading.formals)
        inner = dataclasses.replace(scope, variables=scope.variables + formals, inside=True)
        return f"{heading.short() if short else heading.text()};\n{self.block(inner, level, heading)};\n"

    def routines(self, scope, level):
        """Routines of a block, some of them `forward`, and the scope that has them."""
        text, forward = "", []
        for _ in range(self.random.randint(0, 2) if level else self.random.randint(2, 4)):
            heading = self.heading()
            scope = dataclasses.replace(scope, routines=scope.routines + (heading,))
            if self.random.random() < 0.25:
                text += f"{heading.text()}; forward;\n"
                forward.append(heading)
            else:
                text += self.routine(heading, scope, level + 1)
        return text + "".join(self.routine(heading, scope, level + 1, short=True) for heading in forward), scope

    def block(self, scope, level, heading=None):
        own = tuple((self.name("v"), self.random.choice(tuple(SPELLED))) for _ in range(self.random.randint(1, 4)))
        if heading and heading.result not in (None, *ORDINAL):
            own += ((self.name("v"), heading.result),)
        controls = ((self.name("i"), "number"), (self.name("i"), "number"), (self.name("e"), "colour"))
        counter = self.name("n")
        scope = dataclasses.replace(scope, variables=scope.variables + own, threatened=frozenset(), controls=controls, counter=counter)
        declared = "".join(f"{name}: {SPELLED[kind]}; " for name, kind in own + controls)
        routines, scope = self.routines(scope, level) if level < 3 else ("", scope)
        begins = [text for name, kind in own for text in self.begun(name, kind)]
        if heading and heading.result:
            begins.append(f"{heading.name} := {self.expression(scope, heading.result)}")
        ends = [text for name, kind in own for text in self.shown(name, kind)]
        lines = ";\n".join(begins + [self.statements(scope, 0, 5)] + ends)
        return f"var {declared}{counter}: integer;\n{routines}begin\n{lines}\nend"

    def program(self):
        return f"program p(output);\ntype {TYPES};\n{self.block(Scope(), 0)}.\n"


def ours(program, folder, text):
    with open(os.path.join(folder, "x.pas"), "w") as file:
        file.write(text)
    done = subprocess.run([program, "go", "x.pas"], cwd=folder, stdout=subprocess.PIPE, stderr=subprocess.PIPE, timeout=60)
    return done.returncode, done.stdout, done.stderr.decode()


def theirs(folder, text):
    """What fpc's program does, or nothing where fpc refuses the text, as it does for errors that it sees in constants."""
    with open(os.path.join(folder, "f.pas"), "w") as file:
        file.write(text.replace("type colour", "type integer = int64; colour").replace("otherwise", "else"))
    if subprocess.run(["fpc", "-Miso", "-Cr", "-Co", "f.pas"], cwd=folder, stdout=subprocess.DEVNULL, stderr=subprocess.DEVNULL).returncode:
        return None
    done = subprocess.run([os.path.join(folder, "f")], cwd=folder, stdout=subprocess.PIPE, stderr=subprocess.DEVNULL, timeout=60)
    return done.returncode, done.stdout


def agree(found, expected):
    """Whether the same was written, and both ended well or both by an error (fpc has 200 to 215)."""
    ends_well = found[0] == 0 and expected[0] == 0
    ends_ill = found[0] == 2 and 200 <= expected[0] <= 215
    return found[1] == expected[1] and (ends_well or ends_ill)


def main():
    if len(sys.argv) not in (3, 4):
        sys.exit(__doc__)
    first, count = int(sys.argv[1]), int(sys.argv[2])
    root = os.path.dirname(os.path.dirname(os.path.abspath(__file__)))
    program = os.path.abspath(sys.argv[3]) if len(sys.argv) == 4 else os.path.join(root, "crates/epc/out/epc")
    tried = differ = 0
    for seed in range(first, first + count):
        text = Programs(seed).program()
        with tempfile.TemporaryDirectory() as folder:
            expected = theirs(folder, text)
            if expected is None:
                continue
            found = ours(program, folder, text)
        tried += 1
        if not agree(found, expected):
            differ += 1
            with open(f"differs-{seed}.pas", "w") as file:
                file.write(text)
            print(f"{seed}: epc {found[0]} {found[2].strip()}, fpc {expected[0]}")
    print(f"tried {tried}, differ {differ}")


if __name__ == "__main__":
    main()
