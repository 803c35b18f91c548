#!/usr/bin/env bash
# Prints what `see` takes of a long definition: instructions an item, as callgrind counts them. The definition is
# compiled over many console lines, of plain items with an `if` in every ten, or of `begin`s and branches; a run that
# only defines it is subtracted from one that prints it, too.
# usage: bench/see.sh
set -euo pipefail
source "$(dirname "${BASH_SOURCE[0]}")/program.sh"
source "$top/bench/callgrind.sh"

# KIND: words with ten items
words_of() {
    case $1 in
    plain) echo 'dup swap if over drop then 1 + negate dup drop' ;;
    branches) echo 'begin dup if drop else swap then begin 1 until dup until' ;;
    esac
}

# KIND COUNT LAST: the lines that define a word of so many items, and a last one
lines_of() {
    echo ': big'
    for ((i = 0; i < $2; i += 10)); do words_of "$1"; done
    echo ';'
    echo "$3"
}

# KIND COUNT LAST: a run of them
run_of() {
    lines_of "$1" "$2" "$3" >"$folder/$1.lines"
    echo run "$folder/empty.hex" --lines "$folder/$1.lines" --limit 1000000000
}

for kind in plain branches; do
    for count in 5000 10000 20000; do
        without=$(instructions $(run_of $kind $count ''))
        with=$(instructions $(run_of $kind $count 'see big'))
        echo "$kind, $count items: $(((with - without) / count)) instructions an item"
    done
done
