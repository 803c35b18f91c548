#!/usr/bin/env bash
# Prints how many instructions a step takes under a debugger, as callgrind counts them: of `go` with a mark that isn't
# met and of `go` without marks, beside a run's, in nested loops. Each is the difference of two numbers of steps.
# usage: bench/debug.sh
set -euo pipefail
source "$(dirname "${BASH_SOURCE[0]}")/images.sh"

# : nest  0 swap 0 do  100 0 do char+ loop  loop drop ;  7fffffff nest
image nest 'b50800 b7 a5 49 a5 17 0012 10 00000100 a5 17 0006 62 15 fffe 15 fff2 46 c2 10 7fffffff 0800'

# FIRST LINES: the instructions of a script that begins so and goes on for 200,000 and for 600,000 steps, a step
debugged() {
    for steps in 200000 600000; do
        printf '%bgo %s\n' "$1" "$steps" >"$folder/$steps.script"
    done
    echo $((($(instructions debug "$folder/nest" --script "$folder/600000.script") \
        - $(instructions debug "$folder/nest" --script "$folder/200000.script")) / 400000))
}

echo "run: $((($(limited nest 600000) - $(limited nest 200000)) / 400000)) instructions a step"
echo "go: $(debugged '') instructions a step"
echo "go, with a mark elsewhere: $(debugged 'go 99\nbreak #800 11\n') instructions a step"
