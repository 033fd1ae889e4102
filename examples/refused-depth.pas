{ Refused (6): at most 32 openers may be nested. The body's `begin` is the
  first, so the last of these 32 brackets is one too many. }
program depth;
begin
  write(
    ((((((((((((((((((((((((((((((((
    1
    ))))))))))))))))))))))))))))))))
  )
end.
