{ Refused (2): no token begins with a number sign. }
program symbol;
var n: integer;
begin
  read(n);
	if n # 0 then write(n)
end.
