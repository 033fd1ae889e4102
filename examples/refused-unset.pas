{ Refused (24): when it did not rain, more is written without ever being set. }
program unset;
var
  rained: boolean;
  more: integer;
begin
  read(rained);
  if rained then more := 3;
  write(more)
end.
