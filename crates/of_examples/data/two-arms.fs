fcode-version2
headerless

: t ( flag -- n )  if 1 else 2 then ;

0 t .

fcode-end
