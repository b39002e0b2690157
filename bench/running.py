#!/usr/bin/env python3
"""How long programs run under `epc go`, beside the same programs in Python and under `fpc -O2`, as a table for docs/BENCHMARKS.md.

    python3 bench/running.py [PROGRAM]

PROGRAM is crates/epc/out/epc where none is given (`rt run` in crates/epc builds it). Each program runs three times, and the
least processor time counts; those of `epc` and of Python have the start of the process and the reading of the text in them. All
three have to write the same, or the script stops. Without `fpc` its column stays empty.
"""
import os
import shutil
import subprocess
import sys
import tempfile

import program

RUNS = 3
# a program: its name, its text in Pascal, and in Python; `fpc` gets 64-bit integers by a type of that name. An array is a list
# in Python, where a negative index counts from the end.
PROGRAMS = (
    (
        "a counting loop",
        """program p(output);
var i, s: integer;
begin
  i := 0; s := 0;
  while i < 5000000 do begin s := s + i mod 7; i := i + 1 end;
  writeln(s: 1)
end.""",
        """def main():
    i = 0
    s = 0
    while i < 5000000:
        s = s + i % 7
        i = i + 1
    print(s)
main()
""",
    ),
    (
        "nested loops",
        """program p(output);
var i, j, s: integer;
begin
  i := 0; s := 0;
  while i < 2000 do begin
    j := 0;
    repeat if i > j then s := s + 1; j := j + 1 until j = 1000;
    i := i + 1
  end;
  writeln(s: 1)
end.""",
        """def main():
    i = 0
    s = 0
    while i < 2000:
        j = 0
        while True:
            if i > j:
                s = s + 1
            j = j + 1
            if j == 1000:
                break
        i = i + 1
    print(s)
main()
""",
    ),
    (
        "primes by trial division",
        """program p(output);
var n, found: integer;
function prime(n: integer): Boolean;
var d: integer;
begin
  d := 2;
  while (d * d <= n) and_then (n mod d <> 0) do d := d + 1;
  prime := d * d > n
end;
begin
  n := 2; found := 0;
  while n < 60000 do begin
    if prime(n) then found := found + 1;
    n := n + 1
  end;
  writeln(found: 1)
end.""",
        """def prime(n):
    d = 2
    while d * d <= n and n % d != 0:
        d = d + 1
    return d * d > n
def main():
    n = 2
    found = 0
    while n < 60000:
        if prime(n):
            found = found + 1
        n = n + 1
    print(found)
main()
""",
    ),
    (
        "fib(30) by recursion",
        """program p(output);
function fib(n: integer): integer;
begin
  if n < 2 then fib := n else fib := fib(n - 1) + fib(n - 2)
end;
begin writeln(fib(30): 1) end.""",
        """def fib(n):
    if n < 2:
        return n
    return fib(n - 1) + fib(n - 2)
print(fib(30))
""",
    ),
    (
        "Ackermann(2, 150)",
        """program p(output);
function ackermann(m, n: integer): integer;
begin
  if m = 0 then ackermann := n + 1
  else if n = 0 then ackermann := ackermann(m - 1, 1)
  else ackermann := ackermann(m - 1, ackermann(m, n - 1))
end;
begin writeln(ackermann(2, 150): 1) end.""",
        """import sys
sys.setrecursionlimit(100000)
def ackermann(m, n):
    if m == 0:
        return n + 1
    if n == 0:
        return ackermann(m - 1, 1)
    return ackermann(m - 1, ackermann(m, n - 1))
print(ackermann(2, 150))
""",
    ),
    (
        "primes by a sieve",
        """program p(output);
const n = 200000;
var prime: array [2..n] of Boolean;
  i, j, turn, found: integer;
begin
  for turn := 1 to 10 do begin
    for i := 2 to n do prime[i] := true;
    found := 0;
    for i := 2 to n do
      if prime[i] then begin
        found := found + 1;
        j := i * i;
        while j <= n do begin prime[j] := false; j := j + i end
      end
  end;
  writeln(found: 1)
end.""",
        """def main():
    n = 200000
    prime = [False] * (n + 1)
    for turn in range(1, 11):
        for i in range(2, n + 1):
            prime[i] = True
        found = 0
        for i in range(2, n + 1):
            if prime[i]:
                found = found + 1
                j = i * i
                while j <= n:
                    prime[j] = False
                    j = j + i
    print(found)
main()
""",
    ),
    (
        "a product of matrices",
        """program p(output);
const n = 120;
type matrix = array [1..n, 1..n] of integer;
var a, b, c: matrix;
  i, j, total: integer;
procedure multiply(var x, y, z: matrix);
var i, j, k, total: integer;
begin
  for i := 1 to n do
    for j := 1 to n do begin
      total := 0;
      for k := 1 to n do total := total + x[i, k] * y[k, j];
      z[i, j] := total
    end
end;
begin
  for i := 1 to n do
    for j := 1 to n do begin
      a[i, j] := (i + 2 * j) mod 10;
      b[i, j] := (3 * i + j) mod 10
    end;
  multiply(a, b, c);
  total := 0;
  for i := 1 to n do
    for j := 1 to n do total := (31 * total + c[i, j]) mod 1000003;
  writeln(total: 1)
end.""",
        """n = 120
def multiply(x, y, z):
    for i in range(1, n + 1):
        for j in range(1, n + 1):
            total = 0
            for k in range(1, n + 1):
                total = total + x[i][k] * y[k][j]
            z[i][j] = total
def main():
    a = [[0] * (n + 1) for i in range(n + 1)]
    b = [[0] * (n + 1) for i in range(n + 1)]
    c = [[0] * (n + 1) for i in range(n + 1)]
    for i in range(1, n + 1):
        for j in range(1, n + 1):
            a[i][j] = (i + 2 * j) % 10
            b[i][j] = (3 * i + j) % 10
    multiply(a, b, c)
    total = 0
    for i in range(1, n + 1):
        for j in range(1, n + 1):
            total = (31 * total + c[i][j]) % 1000003
    print(total)
main()
""",
    ),
    (
        "a bubble sort",
        """program p(output);
const n = 1200;
type numbers = array [1..n] of integer;
var a: numbers;
  i, seed, total: integer;
procedure sort(var x: numbers);
var i, j, kept: integer;
begin
  for i := n - 1 downto 1 do
    for j := 1 to i do
      if x[j] > x[j + 1] then begin
        kept := x[j];
        x[j] := x[j + 1];
        x[j + 1] := kept
      end
end;
begin
  seed := 1;
  for i := 1 to n do begin
    seed := (1103515245 * seed + 12345) mod 2147483648;
    a[i] := seed
  end;
  sort(a);
  total := 0;
  for i := 1 to n do total := (31 * total + a[i]) mod 1000003;
  writeln(total: 1)
end.""",
        """n = 1200
def sort(x):
    for i in range(n - 1, 0, -1):
        for j in range(1, i + 1):
            if x[j] > x[j + 1]:
                kept = x[j]
                x[j] = x[j + 1]
                x[j + 1] = kept
def main():
    a = [0] * (n + 1)
    seed = 1
    for i in range(1, n + 1):
        seed = (1103515245 * seed + 12345) % 2147483648
        a[i] = seed
    sort(a)
    total = 0
    for i in range(1, n + 1):
        total = (31 * total + a[i]) % 1000003
    print(total)
main()
""",
    ),
    (
        "eight queens",
        """program p(output);
const n = 8;
var free: array [1..n] of Boolean;
  up: array [2..2 * n] of Boolean;
  down: array [1 - n..n - 1] of Boolean;
  i, turn, found: integer;
function ways(column: integer): integer;
var row, count: integer;
begin
  count := 0;
  for row := 1 to n do
    if free[row] and_then up[row + column] and_then down[row - column] then
      if column = n then count := count + 1
      else begin
        free[row] := false; up[row + column] := false; down[row - column] := false;
        count := count + ways(column + 1);
        free[row] := true; up[row + column] := true; down[row - column] := true
      end;
  ways := count
end;
begin
  for i := 1 to n do free[i] := true;
  for i := 2 to 2 * n do up[i] := true;
  for i := 1 - n to n - 1 do down[i] := true;
  found := 0;
  for turn := 1 to 40 do found := found + ways(1);
  writeln(found: 1)
end.""",
        """n = 8
free = [False] * (n + 1)
up = [False] * (2 * n + 1)
down = [False] * (2 * n - 1)
def ways(column):
    count = 0
    for row in range(1, n + 1):
        if free[row] and up[row + column] and down[row - column]:
            if column == n:
                count = count + 1
            else:
                free[row] = False
                up[row + column] = False
                down[row - column] = False
                count = count + ways(column + 1)
                free[row] = True
                up[row + column] = True
                down[row - column] = True
    return count
def main():
    for i in range(1, n + 1):
        free[i] = True
    for i in range(2, 2 * n + 1):
        up[i] = True
    for i in range(1 - n, n):
        down[i] = True
    found = 0
    for turn in range(1, 41):
        found = found + ways(1)
    print(found)
main()
""",
    ),
    (
        "eight queens with sets",
        """program p(output);
const n = 8;
type line = set of 0..2 * n;
var turn, found: integer;
procedure place(column: integer; rows, up, down: line);
var row: integer;
begin
  if column > n then found := found + 1
  else
    for row := 1 to n do
      if not (row in rows) and not (row + column in up) and not (row - column + n in down) then
        place(column + 1, rows + [row], up + [row + column], down + [row - column + n])
end;
begin
  found := 0;
  for turn := 1 to 40 do place(1, [], [], []);
  writeln(found: 1)
end.""",
        """n = 8
found = 0
def place(column, rows, up, down):
    global found
    if column > n:
        found = found + 1
    else:
        for row in range(1, n + 1):
            if row not in rows and row + column not in up and row - column + n not in down:
                place(column + 1, rows | {row}, up | {row + column}, down | {row - column + n})
def main():
    for turn in range(1, 41):
        place(1, frozenset(), frozenset(), frozenset())
    print(found)
main()
""",
    ),
    (
        "five bodies as records",
        """program p(output);
const n = 5;
type vector = record x, y, z: integer end;
  body = record place, speed: vector; mass: integer end;
var bodies: array [1..n] of body;
  i, turn: integer;
procedure turn_body(var b: body; other: body);
var dx, dy, dz, far: integer;
begin
  dx := other.place.x - b.place.x; dy := other.place.y - b.place.y; dz := other.place.z - b.place.z;
  far := abs(dx) + abs(dy) + abs(dz) + 1;
  b.speed.x := b.speed.x + dx * other.mass div far;
  b.speed.y := b.speed.y + dy * other.mass div far;
  b.speed.z := b.speed.z + dz * other.mass div far
end;
procedure step;
var i, j: integer;
begin
  for i := 1 to n do
    for j := 1 to n do
      if i <> j then turn_body(bodies[i], bodies[j]);
  for i := 1 to n do begin
    bodies[i].place.x := bodies[i].place.x + bodies[i].speed.x div 16;
    bodies[i].place.y := bodies[i].place.y + bodies[i].speed.y div 16;
    bodies[i].place.z := bodies[i].place.z + bodies[i].speed.z div 16
  end
end;
begin
  for i := 1 to n do begin
    bodies[i].place.x := i * 1000; bodies[i].place.y := sqr(i) * 300; bodies[i].place.z := 5000 - i * 700;
    bodies[i].speed.x := i - 3; bodies[i].speed.y := 3 - i; bodies[i].speed.z := 0;
    bodies[i].mass := 10 * i
  end;
  for turn := 1 to 5000 do step;
  for i := 1 to n do write(bodies[i].place.x: 1, ' ', bodies[i].place.y: 1, ' ', bodies[i].place.z: 1, ' ');
  writeln
end.""",
        """n = 5
class Vector:
    __slots__ = ("x", "y", "z")
class Body:
    __slots__ = ("place", "speed", "mass")
    def __init__(self):
        self.place = Vector()
        self.speed = Vector()
        self.mass = 0
bodies = [Body() for _ in range(n + 1)]
def quotient(a, b):
    return a // b if (a < 0) == (b < 0) else -(-a // b)
def turn_body(b, other):
    dx = other.place.x - b.place.x
    dy = other.place.y - b.place.y
    dz = other.place.z - b.place.z
    far = abs(dx) + abs(dy) + abs(dz) + 1
    b.speed.x = b.speed.x + quotient(dx * other.mass, far)
    b.speed.y = b.speed.y + quotient(dy * other.mass, far)
    b.speed.z = b.speed.z + quotient(dz * other.mass, far)
def step():
    for i in range(1, n + 1):
        for j in range(1, n + 1):
            if i != j:
                turn_body(bodies[i], bodies[j])
    for i in range(1, n + 1):
        bodies[i].place.x = bodies[i].place.x + quotient(bodies[i].speed.x, 16)
        bodies[i].place.y = bodies[i].place.y + quotient(bodies[i].speed.y, 16)
        bodies[i].place.z = bodies[i].place.z + quotient(bodies[i].speed.z, 16)
def main():
    for i in range(1, n + 1):
        bodies[i].place.x = i * 1000
        bodies[i].place.y = i * i * 300
        bodies[i].place.z = 5000 - i * 700
        bodies[i].speed.x = i - 3
        bodies[i].speed.y = 3 - i
        bodies[i].speed.z = 0
        bodies[i].mass = 10 * i
    for turn in range(1, 5001):
        step()
    print(" ".join(f"{b.place.x} {b.place.y} {b.place.z}" for b in bodies[1:]), "")
main()
""",
    ),
    (
        "a knapsack",
        """program p(output);
const most = 5000;
var best: array [0..most] of integer;
  i, room, seed, weight, worth: integer;
begin
  for room := 0 to most do best[room] := 0;
  seed := 1;
  for i := 1 to 200 do begin
    seed := (1103515245 * seed + 12345) mod 2147483648;
    weight := 1 + seed div 65536 mod 100;
    seed := (1103515245 * seed + 12345) mod 2147483648;
    worth := 1 + seed div 65536 mod 100;
    for room := most downto weight do
      if best[room - weight] + worth > best[room] then best[room] := best[room - weight] + worth
  end;
  writeln(best[most]: 1)
end.""",
        """def main():
    most = 5000
    best = [0] * (most + 1)
    for room in range(0, most + 1):
        best[room] = 0
    seed = 1
    for i in range(1, 201):
        seed = (1103515245 * seed + 12345) % 2147483648
        weight = 1 + seed // 65536 % 100
        seed = (1103515245 * seed + 12345) % 2147483648
        worth = 1 + seed // 65536 % 100
        for room in range(most, weight - 1, -1):
            if best[room - weight] + worth > best[room]:
                best[room] = best[room - weight] + worth
    print(best[most])
main()
""",
    ),
)


def timed(command, folder):
    """The least processor time of some runs, and what was written. What runs beside them counts in it only as far as it slows the processor."""
    best, text = None, None
    for _ in range(RUNS):
        process = subprocess.Popen(command, cwd=folder, stdout=subprocess.PIPE)
        text = process.stdout.read()
        _, status, used = os.wait4(process.pid, 0)
        process.returncode = os.waitstatus_to_exitcode(status)
        if process.returncode != 0:
            sys.exit(f"{command}: status {process.returncode}")
        took = used.ru_utime + used.ru_stime
        best = took if best is None else min(best, took)
    return best, text


def compiled(folder, text):
    """The program as fpc makes it, or nothing without fpc."""
    if shutil.which("fpc") is None:
        return None
    source = text.replace("program p(output);", "program p(output); type integer = int64;").replace("and_then", "and")
    with open(os.path.join(folder, "f.pas"), "w") as file:
        file.write(source)
    subprocess.run(["fpc", "-O2", "-Miso", "f.pas"], cwd=folder, stdout=subprocess.DEVNULL, stderr=subprocess.DEVNULL, check=True)
    return timed([os.path.join(folder, "f")], folder)


def row(command, folder, name, pascal, python):
    for file_name, text in (("x.pas", pascal), ("x.py", python)):
        with open(os.path.join(folder, file_name), "w") as file:
            file.write(text)
    ours, wrote = timed([command, "go", "x.pas"], folder)
    theirs, expected = timed([sys.executable, "x.py"], folder)
    native = compiled(folder, pascal)
    if wrote != expected or (native and native[1].strip() != expected.strip()):
        sys.exit(f"{name}: the answers differ")
    last = f"{native[0]:.3f} s | {ours / native[0]:.0f}" if native else " | "
    return f"| {name} | {ours:.2f} s | {theirs:.2f} s | {ours / theirs:.2f} | {last} |"


def main():
    found = program.path(*sys.argv[1:2])
    print("| Program | epc | Python | epc to Python | fpc -O2 | epc to fpc |")
    print("|---|---|---|---|---|---|")
    with tempfile.TemporaryDirectory() as folder:
        for name, pascal, python in PROGRAMS:
            print(row(found, folder, name, pascal, python))


if __name__ == "__main__":
    main()
