fcode-version2

\ A card with a serial line. Where its register is there, the keys that were typed go to it, and to the console.

" serial" device-name

h# 80000000 constant register

: there? ( -- flag )  register cpeek if drop true else false then ;
: send ( byte -- )  dup register rb! emit ;
: echo ( -- )  begin key? while key send repeat ;

there? if echo cr register rb@ . else ." no line" then

fcode-end
