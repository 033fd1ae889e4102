{ Refused (21): each name is declared once. }
program twice;
var
  moisture, hours: integer;
  Moisture: boolean;
begin
  read(hours);
  write(hours)
end.
