#!/usr/bin/env bash
# Prints what a word of an evaluated text takes: instructions, as callgrind counts them, and nanoseconds. The texts have
# 32 words each: known words of the console, own words behind 1,000 others, and numbers, which are dropped in pairs.
# Runs of 2,000 and of 4,000 texts are subtracted from one another, so what begins and ends a run doesn't count; that
# of a text itself does.
# usage: bench/evaluate.sh
set -euo pipefail
source "$(dirname "${BASH_SOURCE[0]}")/program.sh"
source "$top/bench/callgrind.sh"
source "$top/bench/timing.sh"

# COUNT TEXT: a text so many times, on one line
times() { for ((i = 0; i < $1; i++)); do echo -n "$2 "; done; }

# KIND: 32 words that leave the stack as it was
words_of() {
    case $1 in
    known) times 16 'dup drop' ;;
    own) times 16 'twice once' ;;
    numbers) times 8 '1 ff 2drop noop' ;;
    esac
}

# KIND COUNT: the lines that evaluate so many texts
lines_of() {
    if [ "$1" = own ]; then
        for ((k = 0; k < 1000; k++)); do echo ": w$k ;"; done
    fi
    echo ': twice dup ; : once drop ;'
    echo ": texts 0 do s\" $(words_of "$1")\" evaluate loop ;"
    echo "1 d# $2 texts"
}

# KIND COUNT: a run of so many texts
run_of() {
    lines_of "$1" "$2" >"$folder/$1.lines"
    echo run "$folder/empty.hex" --lines "$folder/$1.lines" --limit 1000000000
}

for kind in known own numbers; do
    few=$(instructions $(run_of $kind 2000))
    many=$(instructions $(run_of $kind 4000))
    echo "$kind: $(((many - few) / 64000)) instructions a word"
    few=$(fastest 3 "$program" $(run_of $kind 20000))
    many=$(fastest 3 "$program" $(run_of $kind 40000))
    echo "$kind: $(((many - few) / 640000)) ns a word"
done
