#!/usr/bin/env bash
# Prints how long the listing of an image of 40,000 tokens takes, and of images of half and of twice
# as many: the time grows in proportion. The start of the process is measured apart.
# usage: bench/listing.sh
set -euo pipefail
top=$(cd "$(dirname "${BASH_SOURCE[0]}")/.." && pwd)
folder=$(mktemp -d)
trap 'rm -rf "$folder"' EXIT
"$top/ofw" detok "$top/examples/empty-program.hex" >/dev/null

source "$top/bench/timing.sh"

# TOKENS: an image of so many tokens, a quarter each of `1`, `b(lit)`, `bbranch` and `b(")`
image() {
    printf 'f108000000000000\n'
    for ((i = 0; i < $1 / 4; i++)); do
        printf 'a6 1000000005 130003 1203616263\n'
    done
    printf '00\n'
}

# FILE: microseconds, the best of 5 runs
cost() { echo $(($(fastest 5 "$top/crates/ofw/out/ofw" detok "$1") / 1000)); }

echo "$(cost "$top/examples/empty-program.hex") microseconds for an empty image"
for tokens in 20000 40000 80000; do
    image "$tokens" >"$folder/$tokens.hex"
    echo "$(cost "$folder/$tokens.hex") microseconds for $tokens tokens"
done
