{ Refused (25): a sum of 34 variables needs 33 temporaries, one more than there are. }
program temporaries;
var
  v01, v02, v03, v04, v05, v06, v07, v08, v09, v10, v11, v12, v13,
  v14, v15, v16, v17, v18, v19, v20, v21, v22, v23, v24, v25, v26,
  v27, v28, v29, v30, v31, v32, v33, v34: integer;
begin
  read(v01); read(v02); read(v03); read(v04); read(v05); read(v06);
  read(v07); read(v08); read(v09); read(v10); read(v11); read(v12);
  read(v13); read(v14); read(v15); read(v16); read(v17); read(v18);
  read(v19); read(v20); read(v21); read(v22); read(v23); read(v24);
  read(v25); read(v26); read(v27); read(v28); read(v29); read(v30);
  read(v31); read(v32); read(v33); read(v34);
  write(v01 + v02 + v03 + v04 + v05 + v06 + v07 + v08 + v09 + v10 +
    v11 + v12 + v13 + v14 + v15 + v16 + v17 + v18 + v19 + v20 + v21 +
    v22 + v23 + v24 + v25 + v26 + v27 + v28 + v29 + v30 + v31 + v32 +
    v33 + v34)
end.
