{ Numbers are written to the radix 10, however the text spells them. }
program numbers(output);
begin
  writeln('Numbers to the radix 2, 8, 16 and 36:');
  writeln(2#1010);
  writeln(8#377);
  writeln(16#FFFF);
  writeln(36#ZZ);
  writeln('');
  writeln('The greatest integer:');
  writeln(9223372036854775807)
end.
