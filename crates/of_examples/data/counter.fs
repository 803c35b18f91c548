fcode-version2
headers

\ A counter that begins anew at a limit.

variable count
d# 10 constant limit

: counted ( -- n )  count @ ;

: bump ( -- )
   counted 1+  dup limit = if  drop 0  then  count !
;

: bumps ( n -- )  0 ?do  bump  loop ;

d# 23 bumps  counted .

fcode-end
