fcode-version2
headerless

\ A loop that two `while`s leave; one goes on at `repeat`, the other at `then`.
: t ( n -- )
   begin
      dup while
      1-
      dup 2 <> while
   repeat then
;

5 t .

fcode-end
