#!/usr/bin/env bash
# Runs the program over files and outputs that behave oddly, and prints what was tried: a file that comes one byte at a
# time, and one that comes to an end while it is read; a file that never ends, and a folder; and an output that takes
# one byte at a time. Fails where a command doesn't come to what it should: the same as over the whole file, the same as
# over a file that was cut there, status 1 with a line on standard error, and the whole output. Asks for strace.
# usage: bench/files.sh [PROGRAM]
set -euo pipefail
source "$(dirname "$(readlink -f "${BASH_SOURCE[0]}")")/examples.sh"
cd "$examples"
wrong=0

# the commands that read a file
commands=(
    "five.hex run"
    "two-whiles.hex run"
    "card.hex detok"
    "card.fs tok"
    "five.hex check"
    "card.pci pci"
    "card.hex console"
)

# FILE WORD..: what a command comes to over a file: its status, and both outputs, without the file's name
comes_to() {
    local file=$1 status=0
    shift
    timeout 60 "$program" "$@" "$file" >"$folder/out" 2>"$folder/errors" </dev/null || status=$?
    echo "$status"
    cat "$folder/out"
    sed "s|$file|FILE|g" "$folder/errors"
}

# NAME WANTED GIVEN: says where they differ
same() {
    if ! cmp -s "$2" "$3"; then
        echo "differs: $1" >&2
        wrong=1
    fi
}

# a byte at a time
bytes=0
for command in "${commands[@]}"; do
    read -ra words <<<"$command"
    comes_to "${words[0]}" "${words[1]}" >"$folder/wanted"
    length=$(stat -c %s "${words[0]}")
    mkfifo "$folder/slow"
    {
        for ((at = 0; at < length; at++)); do
            dd if="${words[0]}" bs=1 count=1 skip="$at" status=none
        done >"$folder/slow"
    } &
    comes_to "$folder/slow" "${words[1]}" >"$folder/given"
    wait
    rm "$folder/slow"
    same "a byte at a time: $command" "$folder/wanted" "$folder/given"
    bytes=$((bytes + length))
done
echo "a byte at a time: ${#commands[@]} files, $bytes bytes"

# a file that ends early: its second, third, .. read finds nothing more, as if it had been cut there
cuts=0
for command in "${commands[@]}"; do
    read -ra words <<<"$command"
    cp "${words[0]}" "$folder/long"
    head -c 40000 /dev/zero >>"$folder/long"
    for number in 1 2 3 4 5; do
        status=0
        strace -qq -o "$folder/trace" -e trace=read -P "$folder/long" -e "inject=read:retval=0:when=$number" \
            "$program" "${words[1]}" "$folder/long" >"$folder/out" 2>"$folder/errors" </dev/null || status=$?
        if ! grep -q INJECTED "$folder/trace"; then
            break
        fi
        {
            echo "$status"
            cat "$folder/out"
            sed "s|$folder/long|FILE|g" "$folder/errors"
        } >"$folder/given"
        length=$(head -n "$((number - 1))" "$folder/trace" | sed -n 's/.* = \([0-9]*\)$/\1/p' | paste -sd+ | bc)
        head -c "${length:-0}" "$folder/long" >"$folder/cut"
        comes_to "$folder/cut" "${words[1]}" >"$folder/wanted"
        same "ends at read $number: $command" "$folder/wanted" "$folder/given"
        cuts=$((cuts + 1))
    done
done
echo "ends while it is read: $cuts places"

# a file that never ends, and a folder
odd=0
for command in "${commands[@]}"; do
    read -ra words <<<"$command"
    for file in /dev/zero "$folder"; do
        comes_to "$file" "${words[1]}" >"$folder/given"
        if [ "$(head -n 1 "$folder/given")" != 1 ] || [ "$(wc -l <"$folder/errors")" -ne 1 ]; then
            echo "not refused in a line: $file ${words[1]}" >&2
            wrong=1
        fi
        odd=$((odd + 1))
    done
done
echo "no file: $odd commands refused in a line"

# an output that takes a byte at a time: what is offered to it, byte for byte, is the output
writes=0
for command in "${commands[@]}"; do
    read -ra words <<<"$command"
    "$program" "${words[1]}" "${words[0]}" >"$folder/out" 2>/dev/null </dev/null || true
    strace -qq -xx -s 1 -o "$folder/trace" -e trace=write -e inject=write:retval=1 \
        "$program" "${words[1]}" "${words[0]}" >/dev/null 2>/dev/null </dev/null || true
    sed -n 's/^write(1, "\\x\(..\)".* = 1 (INJECTED)$/\1/p' "$folder/trace" | xxd -r -p >"$folder/given"
    same "an output of single bytes: $command" "$folder/out" "$folder/given"
    writes=$((writes + $(stat -c %s "$folder/out")))
done
echo "an output that takes single bytes: $writes bytes"
exit "$wrong"
