#!/usr/bin/env bash
# Prints how many millions of steps a second the machine makes on an image that counts down from a
# large number by `1 -` and a backward branch, and how long a run of an empty image takes.
# usage: bench/steps.sh [STEPS]
set -euo pipefail
top=$(cd "$(dirname "${BASH_SOURCE[0]}")/.." && pwd)
steps=${1:-500000000}
image=$(mktemp)
trap 'rm -f "$image"' EXIT
# b(lit) 7fffffff, and then `1 - bbranch` back to the 1
printf 'f108066000000012 107fffffff a6 1f 13fffd\n' >"$image"
"$top/ofw" run "$top/examples/empty-program.hex"

source "$top/bench/timing.sh"

best=$((steps / ($(fastest 3 "$top/crates/ofw/out/ofw" run "$image" --limit "$steps") / 1000000 + 1)))
echo "$((best / 1000)).$(printf %03d $((best % 1000))) million steps a second (the best of 3 runs of $steps steps)"

from=$(now)
for _ in 1 2 3 4 5 6 7 8 9 10; do
    "$top/crates/ofw/out/ofw" run "$top/examples/empty-program.hex"
done
echo "$((($(now) - from) / 10000)) microseconds a run of an empty image (of 10 runs)"
