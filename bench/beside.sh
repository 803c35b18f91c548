#!/usr/bin/env bash
# Prints how many instructions three programs take on ofw and, where it is installed, on pforth, a Forth that is
# interpreted, too: nested loops a turn of the inner one, fib a call, and the sieve a pass over 8,192 flags. Each is the
# difference of two runs, as callgrind counts them, so that the start of a process and the compiling are subtracted.
# usage: bench/beside.sh
set -euo pipefail
source "$(dirname "${BASH_SOURCE[0]}")/images.sh"

# the same programs in Forth; NUMBER is how often each is run, or whose number of Fibonacci is asked for
nest_tokens='b50800 b7 a5 49 a5 17 0012 10 00000100 a5 17 0006 62 15 fffe 15 fff2 46 c2 10 NUMBER 0800'
nest_source=': nest  0 swap 0 do  256 0 do char+ loop  loop drop ;  NUMBER nest'
fib_tokens='b50800 b7 47 a7 3a 14 0008 46 a6 13 000f b2 47 a6 1f 0800 49 a7 1f 0800 1e b2 c2 10 NUMBER 0800 46'
fib_source=': fib  dup 2 < if drop 1 else dup 1 - recurse swap 2 - recurse + then ;  NUMBER fib drop'
sieve_tokens='10 00002000 b50801 bd
b50802 b7 0801 10 00002000 a6 79 a5 10 00002000 a5 17 0034 19 0801 1e 71 14 0029 19 47 1e 10 00000003 1e 47 19 1e
b1 47 10 00002000 3a 14 000e a5 48 0801 1e 75 48 1e 13 ffed b2 46 46 62 b2 15 ffd0 c2
b50803 b7 a5 17 0008 0802 46 15 fffc c2 10 NUMBER 0803'
sieve_source='create flags 8192 allot
: primes  flags 8192 1 fill  0 8192 0 do  i flags + c@ if  i dup + 3 +  dup i +
  begin dup 8192 < while  0 over flags + c!  over +  repeat  drop drop char+  then loop ;
: sieve  0 do primes drop loop ;  NUMBER sieve'

# NAME NUMBER: the instructions of a run of the program on ofw
on_ofw() {
    local tokens=$1_tokens
    image "$1" "${!tokens//NUMBER/$(printf %08x "$2")}"
    instructions run "$folder/$1" --limit 1000000000
}

# NAME NUMBER: the same on pforth
on_pforth() {
    local source=$1_source
    printf '%s\nbye\n' "${!source//NUMBER/$2}" >"$folder/$1.fth"
    program=$(command -v pforth) instructions -q "$folder/$1.fth"
}

# SYSTEM NAME FEW MANY TURNS: the instructions of a turn, of which so many lie between the two numbers
cost() { echo $((($("on_$1" "$2" "$4") - $("on_$1" "$2" "$3")) / $5)); }

# NAME FEW MANY TURNS: a line for a program
beside() {
    local line="$1: $(cost ofw "$@") instructions on ofw"
    if command -v pforth >/dev/null; then line="$line, $(cost pforth "$@") on pforth"; fi
    echo "$line"
}

beside nest 100 200 25600
# fib 18 makes 8,361 calls, and fib 20 makes 21,891
beside fib 18 20 13530
beside sieve 1 3 2
