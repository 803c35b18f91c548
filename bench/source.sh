#!/usr/bin/env bash
# Prints how many instructions `ofw tok` takes, as callgrind counts them, for sources whose parts nest, 10,000 to 80,000
# deep: in a `do` so many `begin`, as many `leave` and as many `again`; and so many `begin`, as many `constant`s and as
# many `again`. Beside each stands the same source with one part behind the other. All grow in proportion. The last
# word of each is unknown, so that no image is made.
# usage: bench/source.sh
set -euo pipefail
source "$(dirname "${BASH_SOURCE[0]}")/program.sh"
source "$top/bench/callgrind.sh"

# COUNT TEXT: a text so many times
times() { for ((i = 0; i < $1; i++)); do echo "$2"; done; }

# SHAPE COUNT: a source
source_of() {
    echo 'fcode-version2'
    case $1 in
    leaves) echo 'do'; times "$2" 'begin'; times "$2" 'leave'; times "$2" 'again'; echo 'loop' ;;
    flat-leaves) echo 'do'; times "$2" 'begin leave again'; echo 'loop' ;;
    constants) times "$2" 'begin'; times "$2" '1 constant x'; times "$2" 'again' ;;
    flat-constants) times "$2" 'begin 1 constant x again' ;;
    esac
    echo 'nothing fcode-end'
}

# SHAPE COUNT: the instructions
cost() {
    source_of "$1" "$2" >"$folder/$1.fs"
    instructions tok "$folder/$1.fs"
}

for count in 10000 20000 40000 80000; do
    echo "$count parts with \`leave\`: $(cost leaves $count) nested, $(cost flat-leaves $count) in a row"
    echo "$count parts with \`constant\`: $(cost constants $count) nested, $(cost flat-constants $count) in a row"
done
