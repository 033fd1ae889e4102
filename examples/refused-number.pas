{ Refused (4): a number is at most 2,147,483,647. }
program number;
begin
  write(2147483647);
  write(2147483648)
end.
