#!/usr/bin/env bash
# Prints how many instructions a step takes, as callgrind counts them, and how many millions of steps are made a
# second: in programs that an image compiles, nested loops, fib, the sieve, cells read and written, `execute` and a
# throw that is caught, and in two that it interprets, a countdown and a mix of words.
# The image and the start of the process are subtracted: instructions are those between two limits of steps.
# usage: bench/programs.sh [STEPS]
set -euo pipefail
steps=${1:-200000000}
source "$(dirname "${BASH_SOURCE[0]}")/images.sh"
source "$top/bench/timing.sh"

# : nest  0 swap 0 do  100 0 do char+ loop  loop drop ;  7fffffff nest
image nest 'b50800 b7 a5 49 a5 17 0012 10 00000100 a5 17 0006 62 15 fffe 15 fff2 46 c2 10 7fffffff 0800'
# : fib  dup 2 < if drop 1 else dup 1 - fib swap 2 - fib + then ;  and then 30 fib drop for ever
image fib 'b50800 b7 47 a7 3a 14 0008 46 a6 13 000f b2 47 a6 1f 0800 49 a7 1f 0800 1e b2 c2 10 0000001e 0800 46 13 fff7'
# 2000 buffer: flags
# : primes  flags 2000 1 fill  0 2000 0 do  i flags + c@ if  i dup + 3 +  dup i +
#   begin dup 2000 < while  0 over flags + c!  over +  repeat  drop drop char+  then loop ;
# : sieve  0 do primes drop loop ;  7fffffff sieve
image sieve '10 00002000 b50801 bd
b50802 b7 0801 10 00002000 a6 79 a5 10 00002000 a5 17 0034 19 0801 1e 71 14 0029 19 47 1e 10 00000003 1e 47 19 1e
b1 47 10 00002000 3a 14 000e a5 48 0801 1e 75 48 1e 13 ffed b2 46 46 62 b2 15 ffd0 c2
b50803 b7 a5 17 0008 0802 46 15 fffc c2 10 7fffffff 0803'
# 100 buffer: flags  : memory  begin flags @ flags ! again ;  memory
image memory '10 00000100 b50801 bd b50802 b7 b1 0801 6d 0801 72 13 fff9 c2 0802'
# : empty ;  : executes  begin ['] empty execute again ;  executes
image execute 'b50800 b7 c2 b50801 b7 b1 11 0800 1d 13 fffa c2 0801'
# : throws  5 throw ;  : catches  begin ['] throws catch drop again ;  catches
image catch 'b50800 b7 10 00000005 0218 c2 b50801 b7 b1 11 0800 0217 46 13 fff8 c2 0801'
# 7fffffff, and then 1 - for ever
image countdown '10 7fffffff a6 1f 13 fffd'
# 5, and then for ever: dup 1 + tuck xor here ! here @ + lwsplit wljoin dup 0< drop here c@ drop
image mix '10 00000005 47a61e4c25ad72ad6d1e7c7d473646ad7146 13ffed'

# NAME: thousands of steps a second, the best of 3 runs
rate() {
    echo $((steps / ($(fastest 3 "$program" run "$folder/$1" --limit "$steps") / 1000000 + 1)))
}

for name in nest fib sieve memory execute catch countdown mix; do
    cost=$((($(limited "$name" 600000) - $(limited "$name" 200000)) / 40000))
    speed=$(rate "$name")
    echo "$name: $((cost / 10)).$((cost % 10)) instructions a step, $((speed / 1000)) million steps a second"
done
