{ Press control: reads four pressures in kilopascals, writes their mean,
  rounded to the nearest, and 1 if one of them was too high, else 0. }
program press;
var
  reading, sum, count: integer;
  alarm: boolean;
begin
  sum := 0;
  count := 0;
  alarm := false;
  while count < 4 do
  begin
    read(reading);
    alarm := alarm or (reading > 850);
    sum := sum + reading;
    count := count + 1
  end;
  write(round(sum / count));
  if alarm then write(1) else write(0)
end.
