{ Drying time: how many hours until a charge is dry enough.
  Moisture is read in tenths of a percent; the ceiling is 7.4 percent,
  and each hour takes away half a percent. }
program drying;
var m, t: integer;
begin
  read(m);
  t := 0;
  while m > 74 do
  begin
    t := t + 1;
    m := m - 5
  end;
  write(t)
end.
