{ Rain: a charge that came in wet is dried longer. Reads whether it rained
  (1 or 0) and the hours planned; writes the hours to dry. A wet charge gets
  a quarter more, and three hours at least; more than 72 hours is an error,
  which is written as -1. }
program rain;
var
  wet: boolean;
  hours, more: integer;
begin
  read(wet);
  read(hours);
  if wet then
  begin
    more := hours div 4;
    if more < 3 then more := 3;
    hours := hours + more
  end;
  if (hours < 0) or (hours > 72) then write(-1) else write(hours)
end.
