(* A quote in a string is written twice, and no comment begins in one. }
PROGRAM Quotes(Output);
BEGIN
  WriteLn('It''s a "quote".');
  WriteLn('{ no comment } (* nor this *)');;
  WriteLn
    (
      '    ends with four blanks:    ' { the string, not this }
    );
  WriteLn('''''')
END.
