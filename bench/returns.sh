#!/usr/bin/env bash
# Prints how many instructions the calls of the return stack take, counted by callgrind as the difference of
# two runs: a cell put and taken, a return entered and left, a step of a loop, such a step and the index of that
# loop or of the one that it stands in, and a throw that is caught. Each has the calls of functions that aren't
# in line and the loop that repeats them.
# usage: bench/returns.sh [COUNT]
set -euo pipefail
top=$(cd "$(dirname "${BASH_SOURCE[0]}")/.." && pwd)
count=${1:-100000}
program=$top/crates/of_bench/out/of_bench
[ -x "$program" ] || (cd "$top/crates/of_bench" && rt run) >/dev/null 2>&1

source "$top/bench/callgrind.sh"

for kind in cells returns loop +loop loop-i loop-j throw; do
    less=$(instructions returns "$kind" "$count")
    more=$(instructions returns "$kind" $((2 * count)))
    tenths=$(((more - less) * 10 / count))
    echo "$kind: $((tenths / 10)).$((tenths % 10)) instructions"
done
