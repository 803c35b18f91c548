fcode-version2
headerless

\ Loops, cases, and throws that are caught.

: kind ( n -- )
   case
      0 of  ." none "  endof
      1 of  ." one "   endof
      ." many "
   endcase
;

: kinds ( n -- )  0 do  i kind  loop ;

\ Prints the numbers below a limit until one is 3.
: few ( n -- )
   0 ?do
      i 3 = if  leave  then
      i .
   loop
;

\ Halves a number until it is 0, and tells how often.
: halvings ( n -- count )
   0 swap
   begin
      dup
   while
      2/  swap 1+ swap
   repeat
   drop
;

: fails ( -- )  -5 throw ;
: tried ( -- )  ['] fails catch . ;

4 kinds  9 few  d# 100 halvings .  tried

fcode-end
