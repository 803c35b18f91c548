#!/usr/bin/env bash
# Prints how long the standard board takes to answer questions: the time, reads of its memory, and writes to it, 2.5, 5
# and 10 million each, in milliseconds and nanoseconds a question; and how many instructions a question takes with the
# steps around it, as callgrind counts them.
# usage: bench/questions.sh
set -euo pipefail
source "$(dirname "${BASH_SOURCE[0]}")/images.sh"
source "$top/bench/timing.sh"

# get-msecs drop for ever: one of 3 steps asks
image time '0125 46 13 fffc'
# 80000000 rl@ drop for ever, and 5 80000000 rl! for ever: one of 4
image read '10 80000000 0234 46 13 fff7'
image write '10 00000005 10 80000000 0235 13 fff3'

# NAME STEPS: figures of an image that asks once in so many steps
figures() {
    for questions in 2500000 5000000 10000000; do
        took=$(fastest 3 "$program" run "$folder/$1" --limit $((questions * $2)))
        echo "$1: $questions questions in $((took / 1000000)) ms, $((took / questions)) ns each"
    done
    cost=$(($(limited "$1" $((30000 * $2))) - $(limited "$1" $((10000 * $2)))))
    echo "$1: $((cost / 20000)) instructions a question, with $(($2 - 1)) steps around it"
}

figures time 3
figures read 4
figures write 4
