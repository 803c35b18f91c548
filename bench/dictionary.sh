#!/usr/bin/env bash
# Prints the instructions that it takes to find one name among 4,000, to look for one that isn't
# there, and to change what a value gives, as callgrind counts them. From the first two what spelling
# the name takes is subtracted.
# usage: bench/dictionary.sh [COUNT]
set -euo pipefail
top=$(cd "$(dirname "${BASH_SOURCE[0]}")/.." && pwd)
count=${1:-40000}
program=$top/crates/of_bench/out/of_bench
[ -x "$program" ] || (cd "$top/crates/of_bench" && rt run) >/dev/null 2>&1

source "$top/bench/callgrind.sh"

# KIND: the instructions of one call
cost() { echo $((($(instructions dictionary "$1" "$count") - $(instructions dictionary "$1" 0)) / count)); }

spell=$(cost spell)
echo "a name found: $(($(cost find) - spell)) instructions"
echo "a name that isn't there: $(($(cost miss) - spell)) instructions"
echo "a value changed: $(cost store) instructions"
