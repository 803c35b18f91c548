#!/usr/bin/env bash
# Prints the least stack, in KiB, on which each command ends as it does on one of 8 MiB: commands over the examples, and
# runs of images in which words run one another, as deep as the data stack allows: by `execute` and `catch` 255, and by
# `call-package` 127. Fails where one takes more than 128.
# usage: bench/stack.sh [PROGRAM]
set -euo pipefail
source "$(dirname "$(readlink -f "${BASH_SOURCE[0]}")")/examples.sh"
most=128
wrong=0

# WORD COUNT OPERANDS: an image in which the word runs itself so many times, each with its operands
nested() {
    {
        echo fcode-version1
        for _ in $(seq "$2"); do echo "$3"; done
        echo "$1"
        echo fcode-end
    } >"$folder/$1.fs"
    "$program" tok "$folder/$1.fs" >"$folder/$1.hex"
}

# KIB WORD..: a command with so much stack, with what it prints in a file
on_stack() {
    local size=$1
    shift
    { (ulimit -s "$size" && exec "$program" "$@") >"$folder/out" </dev/null; } 2>/dev/null
}

# WORD..: prints the least stack of a command
least() {
    local whole=0 status low=4 high=8192 middle
    on_stack 8192 "$@" || whole=$?
    cp "$folder/out" "$folder/whole"
    while [ $((high - low)) -gt 4 ]; do
        middle=$(((low + high) / 8 * 4))
        status=0
        on_stack "$middle" "$@" || status=$?
        if [ "$status" -eq "$whole" ] && cmp -s "$folder/out" "$folder/whole"; then
            high=$middle
        else
            low=$middle
        fi
    done
    printf '%5d  %s\n' "$high" "${*##*/}"
    [ "$high" -le "$most" ] || wrong=1
}

nested execute 255 "['] execute"
nested catch 255 "['] catch"
nested call-package 127 "['] call-package my-self"
cd "$examples"
least run five.hex
least run two-whiles.hex --tree --words --state --explain
least run serial.hex --board serial.board
least detok card.hex --names --indent
least detok card.hex --see
least tok card.fs
least check branch-out-of-image.hex
least pci card.pci
least run card.pci --pci
least client card.hex --calls slot.calls
least debug two-whiles.hex --script two-whiles.script
least console card.hex
least run "$folder/execute.hex"
least run "$folder/catch.hex"
least run "$folder/call-package.hex"
exit "$wrong"
