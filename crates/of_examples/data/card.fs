fcode-version2

\ A card with a name and a word that adds 3.
" card" device-name

: add3 ( n -- n+3 )  3 + ;

2 add3 .

fcode-end
