#!/usr/bin/env bash
# Prints how many millions of steps a second the machine makes in an interpreted loop of 19 tokens
# over a mix of words: of the stack, sums, comparisons, splits, and reads and writes of the data
# region.
# usage: bench/words.sh [STEPS]
set -euo pipefail
top=$(cd "$(dirname "${BASH_SOURCE[0]}")/.." && pwd)
steps=${1:-200000000}
image=$(mktemp)
trap 'rm -f "$image"' EXIT
# 5, and then for ever: dup 1 + tuck xor here ! here @ + lwsplit wljoin dup 0< drop here c@ drop
printf 'f108000000000000 1000000005 47a61e4c25ad72ad6d1e7c7d473646ad7146 13ffed\n' >"$image"
"$top/ofw" run "$top/examples/empty-program.hex"

source "$top/bench/timing.sh"

best=$((steps / ($(fastest 3 "$top/crates/ofw/out/ofw" run "$image" --limit "$steps") / 1000000 + 1)))
echo "$((best / 1000)).$(printf %03d $((best % 1000))) million steps a second (the best of 3 runs of $steps steps)"
