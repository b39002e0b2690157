{ The primes up to a limit, by trial division. }
program primes(output);
const
  limit = 60;
type
  candidate = 2..limit;
var
  n: candidate;
  divisor, count: integer;
  is_prime: Boolean;
begin
  n := 2;
  count := 0;
  while n < limit do begin
    is_prime := True;
    divisor := 2;
    while (sqr(divisor) <= n) and is_prime do begin
      is_prime := n mod divisor <> 0;
      divisor := divisor + 1
    end;
    if is_prime then begin
      write(n:4);
      count := count + 1;
      if count mod 6 = 0 then writeln
    end;
    n := n + 1
  end;
  writeln;
  writeln(count:1, ' primes below ', limit:1)
end.
