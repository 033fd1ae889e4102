{ Refused (3): a name has at most 16 letters and digits; this one has 17. }
program moisture;
var moistureInPercent: integer;
begin
  read(moistureInPercent)
end.
