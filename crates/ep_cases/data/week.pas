{ Enumerations, a subrange of one, and constants. }
program week(output);
const
  hours = 8;
  mark = '*';
type
  day = (monday, tuesday, wednesday, thursday, friday, saturday, sunday);
  workday = monday..friday;
var
  today: day;
  last: workday;
  worked: integer;
begin
  today := monday;
  worked := 0;
  while today < sunday do begin
    if today <= friday then begin
      last := today;
      worked := worked + hours;
      write(mark)
    end else
      write('-');
    today := succ(today)
  end;
  writeln;
  writeln('worked ', worked:1, ' hours, the last day was number ', ord(last) + 1:1);
  last := saturday
end.
