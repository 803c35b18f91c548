#!/usr/bin/env bash
# Prints how long `ofw tok` takes for sources of 500, 1,000 and 2,000 definitions, each of which calls the one
# before it, how many instructions each takes, and how many with `--listing`: all grow in proportion. A source
# without definitions is measured beside them, for the start of the process.
# usage: bench/tokenize.sh
set -euo pipefail
source "$(dirname "${BASH_SOURCE[0]}")/program.sh"
source "$top/bench/timing.sh"
source "$top/bench/callgrind.sh"

# COUNT: a source of so many definitions of eleven words
source_of() {
    printf 'fcode-version2\n: word-0 ( n -- n ) 1+ ;\n'
    for ((i = 1; i < $1; i++)); do
        printf ': word-%d ( n -- n ) dup if word-%d else 5 + then swap drop ;\n' "$i" "$((i - 1))"
    done
    printf 'fcode-end\n'
}

# FILE: microseconds, the best of 5 runs
cost() { echo $(($(fastest 5 "$program" tok "$1") / 1000)); }

for count in 1 500 1000 2000; do
    file=$folder/$count.fs
    source_of "$count" >"$file"
    echo "$(cost "$file") microseconds, $(instructions tok "$file") instructions for $count definitions," \
        "$(instructions tok "$file" --listing) for their listing"
done
