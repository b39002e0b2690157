program p(output); begin writeln('hello') end.
