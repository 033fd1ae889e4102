{ Refused (22): each name that is used is declared. }
program undeclared;
var hours: integer;
begin
  read(hours);
  hour := hours + 1;
  write(hours)
end.
