#!/usr/bin/env bash
# Prints what words per instance cost, in instructions as callgrind counts them: a turn of a loop that reads a value,
# stores into one, takes a variable's address, or runs a defer, each for a word that all instances share and for one of
# each instance, the reading also where many nodes have an instance and a slot each; a node with its instance, without
# and with a slot, where there are so many; and a slot of a package with one instance, where it has so many.
# usage: bench/slots.sh
set -euo pipefail
source "$(dirname "${BASH_SOURCE[0]}")/images.sh"

# COUNT TOKENS: these tokens so many times
repeated() { for _ in $(seq "$1"); do printf '%s ' "$2"; done; }

value='a7 b50800 b8'
defer='b50800 bc 11 7b c3 0800'
turn 'a value and drop' "$value" '0800 46' 0008 fffc
turn 'a value of each instance and drop' "c0 $value" '0800 46' 0008 fffc
turn 'the same of the last of 1,021 nodes' "$(repeated 1021 "011f c0 $value")" '0800 46' 0008 fffc
turn '2 and to of a value' "$value" 'a7 c3 0800' 0009 fffb
turn '2 and to of a value of each instance' "c0 $value" 'a7 c3 0800' 0009 fffb
turn 'a variable and drop' 'b50800 b9' '0800 46' 0008 fffc
turn 'a variable of each instance and drop' 'c0 b50800 b9' '0800 46' 0008 fffc
turn 'a defer to noop' "$defer" '0800' 0007 fffd
turn 'a defer to noop of each instance' "c0 $defer" '0800' 0007 fffd

image none ''
none=$(image_instructions none)

# COUNT NAME TOKENS: the instructions of these tokens, where they stand so many times
each() {
    image "$2-$1" "$(repeated "$1" "$3")"
    echo "$2, $1: $((($(image_instructions "$2-$1") - none) / $1)) instructions"
}
for count in 128 256 512 1021; do
    each "$count" 'a node with an instance' '011f'
    each "$count" 'a node with an instance and a slot' "011f c0 $value"
    each "$count" 'a slot of one package' "c0 $value"
done
