{ Refused (5): nothing stands between `while` and `do`, where a test must. }
program grammar;
var n: integer;
begin
  read(n);
  while do n := n - 1;
  write(n)
end.
