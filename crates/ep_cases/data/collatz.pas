{ How many steps a number takes to come to one, and how far it rises. }
program collatz(output);
var
  start, n, steps, greatest: integer;
begin
  start := 1;
  while start <= 10 do begin
    n := start;
    steps := 0;
    greatest := n;
    while n <> 1 do begin
      if odd(n) then n := 3 * n + 1 else n := n div 2;
      if n > greatest then greatest := n;
      steps := steps + 1
    end;
    writeln(start:2, steps:4, greatest:4);
    start := succ(start)
  end
end.
