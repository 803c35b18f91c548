#!/usr/bin/env bash
# Runs the program where the system refuses it something, and prints how many runs ended with which status: each read of
# a file and each write of its output in turn answers a fault of the device, and memory ends at each 4 KiB from the
# least with which the program says its version up to what it takes. Where memory ends, a signal ends a run whose stack
# can't grow: such runs have status 139. Fails where a signal ends another run, or where what went out isn't the
# beginning of what goes out undisturbed. Asks for strace.
# usage: bench/hostile.sh [PROGRAM]
set -euo pipefail
source "$(dirname "$(readlink -f "${BASH_SOURCE[0]}")")/examples.sh"
wrong=0

# what is run: the file that it reads, and its arguments
commands=(
    "five.hex run five.hex"
    "two-whiles.hex run two-whiles.hex --tree --words --state --explain"
    "serial.board run serial.hex --board serial.board"
    "serial.hex run serial.hex --board serial.board"
    "card.hex detok card.hex --names --indent"
    "card.fs tok card.fs"
    "card.fs tok card.fs --listing"
    "branch-out-of-image.hex check branch-out-of-image.hex"
    "card.pci pci card.pci"
    "card.pci run card.pci --pci"
    "slot.calls client card.hex --calls slot.calls"
    "two-whiles.script debug two-whiles.hex --script two-whiles.script"
    "card.hex console card.hex"
)

# STATUS COMMAND: counts a run, and says where a signal ended it that was to end by itself, or where what went out is no
# beginning of what should
count() {
    statuses[$1]=$((${statuses[$1]:-0} + 1))
    if [ "$1" -gt 127 ] && [ "$what" != memory ]; then
        echo "ended by signal $(($1 - 128)): $2" >&2
        wrong=1
    fi
    if ! cmp -s -n "$(stat -c %s "$folder/out")" "$folder/out" "$folder/whole"; then
        echo "no beginning of the whole output: $2" >&2
        wrong=1
    fi
}

# prints what was counted
tell() {
    local line="$1:" status
    for status in "${!statuses[@]}"; do
        line+=" status $status ${statuses[$status]},"
    done
    echo "${line%,}"
}

# CALL FILE WORD..: each call of the system on a file fails once, up to the first that isn't made any more
fail_each() {
    local call=$1 file=$2 number status
    shift 2
    for number in $(seq 1 10000); do
        status=0
        strace -qq -o "$folder/trace" -e "trace=$call" -P "$file" -e "inject=$call:error=EIO:when=$number" \
            "$program" "$@" >"$folder/out" 2>"$folder/errors" </dev/null || status=$?
        if ! grep -q INJECTED "$folder/trace"; then
            return
        fi
        count "$status" "$call $number of $file fails: $*"
    done
}

# WORD..: ends as it does where nothing is refused
ends_whole() {
    local status=0
    "$program" "$@" >/dev/null 2>&1 </dev/null || status=$?
    [ "$status" -eq "$whole" ]
}

# WORD..: memory ends at each 4 KiB
starve() {
    local least most=4096 status
    while ! { (ulimit -v "$most" && ends_whole "$@"); } 2>/dev/null; do
        most=$((most * 2))
    done
    for least in $(seq 1024 4 "$most"); do
        if { (ulimit -v "$least" && exec "$program" --version) >/dev/null; } 2>/dev/null; then
            break
        fi
    done
    for size in $(seq "$least" 4 "$most"); do
        status=0
        { (ulimit -v "$size" && exec "$program" "$@") >"$folder/out" </dev/null; } 2>"$folder/errors" || status=$?
        count "$status" "with $size KiB: $*"
    done
}

cd "$examples"
for what in reads writes memory; do
    statuses=()
    for command in "${commands[@]}"; do
        read -ra words <<<"$command"
        whole=0
        "$program" "${words[@]:1}" >"$folder/whole" 2>/dev/null </dev/null || whole=$?
        case $what in
            reads) fail_each read "$examples/${words[0]}" "${words[@]:1}" ;;
            writes) fail_each write "$folder/out" "${words[@]:1}" ;;
            memory) starve "${words[@]:1}" ;;
        esac
    done
    tell "$what"
done
exit "$wrong"
