#!/usr/bin/env bash
# Prints the nanoseconds of a read and a write of a cell and of a move of 256 overlapping bytes in
# the data space, and beside each those of the same access to a plain vector. Then those of a read of
# a byte of the heap's last block of 32,000, and beside them a read of a byte of the data region; from
# both the taking of the blocks is subtracted.
# usage: bench/memory.sh [COUNT]
set -euo pipefail
top=$(cd "$(dirname "${BASH_SOURCE[0]}")/.." && pwd)
count=${1:-400000000}
program=$top/crates/of_bench/out/of_bench
[ -x "$program" ] || (cd "$top/crates/of_bench" && rt run) >/dev/null 2>&1

source "$top/bench/timing.sh"

# PART KIND COUNT: picoseconds an access, the best of 3 runs
cost() {
    local best=$(($(fastest 3 "$program" "$1" "$2" "$3") * 1000 / $3))
    printf '%d.%03d' $((best / 1000)) $((best % 1000))
}

for kind in read write move; do
    n=$count
    [ "$kind" = move ] && n=$((count / 10))
    echo "$kind: $(cost space $kind "$n") ns, a plain vector: $(cost vector $kind "$n") ns"
done

# KIND COUNT: nanoseconds that COUNT accesses take beyond those of none, the best of 3 runs
beyond_none() {
    echo $((($(fastest 3 "$program" space "$1" "$2") - $(fastest 3 "$program" space "$1" 0)) * 1000 / $2))
}

n=$((count / 20))
heap=$(beyond_none heap-byte "$n")
data=$(beyond_none data-byte "$n")
printf 'a byte of the last of 32,000 blocks: %d.%03d ns, of the data region: %d.%03d ns\n' \
    $((heap / 1000)) $((heap % 1000)) $((data / 1000)) $((data % 1000))
