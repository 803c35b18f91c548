fcode-version2

: add3 ( n -- n+3 )  3 + ;
2 add3 then .

fcode-end
