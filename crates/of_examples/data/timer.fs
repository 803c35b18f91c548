fcode-version2

\ A card with a timer: its name, its properties and its methods.

" acme,timer" device-name
" timer" device-type

1 encode-int " revision" property
h# 40 encode-int  h# 80 encode-int encode+ " clock-range" property
" acme,timer-2" encode-string  " acme,timer" encode-string encode+ " compatible" property

external

variable ticks

: open ( -- flag )  0 ticks !  true ;
: close ( -- ) ;
: tick ( -- )  1 ticks +! ;
: read-ticks ( -- n )  ticks @ ;

fcode-end
