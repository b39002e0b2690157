program refused(output);
begin
  writeln('one')
  writeln('two')
end.
