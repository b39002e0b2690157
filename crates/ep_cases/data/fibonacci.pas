{ The numbers of Fibonacci, until one is no integer any more. }
program fibonacci(output);
var
  a, b, next, place: integer;
begin
  a := 0;
  b := 1;
  place := 1;
  while True do begin
    if place mod 15 = 0 then writeln(place:2, ' ', b:1);
    next := a + b;
    a := b;
    b := next;
    place := place + 1
  end
end.
