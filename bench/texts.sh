#!/usr/bin/env bash
# Prints the time and the instructions, as callgrind counts them, of what the console prints of a tree in which one
# node has 100 or 1,000 children with ten properties each: the children (`ls`), the paths of all nodes (`show-devs`),
# and all nodes with their properties; and of a dictionary of 1,000 or 8,000 names (`words`). What making the tree or
# the names takes is subtracted.
# usage: bench/texts.sh
set -euo pipefail
top=$(cd "$(dirname "${BASH_SOURCE[0]}")/.." && pwd)
program=$top/crates/of_bench/out/of_bench
[ -x "$program" ] || (cd "$top/crates/of_bench" && rt run) >/dev/null 2>&1

source "$top/bench/callgrind.sh"
source "$top/bench/timing.sh"

for nodes in 100 1000; do
    made=$(instructions texts none "$nodes")
    before=$(fastest 20 "$program" texts none "$nodes")
    for kind in ls devs tree; do
        took=$(($(fastest 20 "$program" texts "$kind" "$nodes") - before))
        counted=$(($(instructions texts "$kind" "$nodes") - made))
        echo "$kind, $nodes nodes: $((took / 1000)) microseconds, $counted instructions"
    done
done

for names in 1000 8000; do
    made=$(instructions texts names "$names")
    before=$(fastest 20 "$program" texts names "$names")
    took=$(($(fastest 20 "$program" texts words "$names") - before))
    counted=$(($(instructions texts words "$names") - made))
    echo "words, $names names: $((took / 1000)) microseconds, $counted instructions"
done
