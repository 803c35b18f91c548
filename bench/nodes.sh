#!/usr/bin/env bash
# Prints the instructions of a call that sets or finds a property, as callgrind counts them: 10,000 properties of
# one node, and the same on 1,000 nodes, ten of each. They are first made, then found, and then changed. What
# spelling the names takes is subtracted.
# usage: bench/nodes.sh
set -euo pipefail
top=$(cd "$(dirname "${BASH_SOURCE[0]}")/.." && pwd)
count=10000
program=$top/crates/of_bench/out/of_bench
[ -x "$program" ] || (cd "$top/crates/of_bench" && rt run) >/dev/null 2>&1

source "$top/bench/callgrind.sh"

# KIND NODES: the instructions of one call, over no calls
cost() { echo $((($(instructions "$2" "$1" "$count") - $(instructions "$2" "$1" 0)) / count)); }

for nodes in one-node many-nodes; do
    spell=$(cost spell "$nodes")
    for kind in set find change; do
        echo "$kind, $nodes: $(($(cost "$kind" "$nodes") - spell)) instructions"
    done
done
