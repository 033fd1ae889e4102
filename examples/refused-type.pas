{ Refused (23): `=` compares integers, and rained is a boolean. }
program types;
var
  rained: boolean;
  hours: integer;
begin
  read(rained);
  read(hours);
  if rained = true then hours := hours + 3;
  write(hours)
end.
