#!/usr/bin/env bash
# Runs the program with each of its allocations refused in turn, and prints for each command how many it makes, how many
# of these runs ended with status 5, and how many did what is done undisturbed, where the allocation isn't needed. Fails
# where a run ended otherwise, said something else than that there is no memory, or where what went out isn't the
# beginning of what goes out undisturbed. Asks for cc.
# usage: bench/refused.sh [PROGRAM]
set -euo pipefail
source "$(dirname "$(readlink -f "${BASH_SOURCE[0]}")")/examples.sh"
source "$top/bench/refusing.sh"
wrong=0
all=0
all_refused=0
all_whole=0

# what is run; the console gets lines, which the others don't read
commands=(
    "run five.hex"
    "run two-whiles.hex --tree --words --state --explain"
    "run serial.hex --board serial.board"
    "detok card.hex --names --indent"
    "tok card.fs"
    "tok card.fs --symbols"
    "tok card.fs --listing"
    "check branch-out-of-image.hex"
    "pci card.pci"
    "run card.pci --pci"
    "client card.hex --calls slot.calls"
    "debug two-whiles.hex --script two-whiles.script"
    "console card.hex"
)
printf '%s\n' ': t begin dup while 1- repeat ;' 'see t' '3 t .' show-devs words nonsense >"$folder/lines"

# The calls that ask for memory are counted in the file COUNTED, and the one is refused whose number REFUSED says.
make_refusing "$folder" <<'END'
#include <fcntl.h>
#include <sys/mman.h>
#include <unistd.h>

static long *calls;
static long refused;

__attribute__((constructor)) static void begin(void)
{
    const char *number = getenv("REFUSED");
    const char *path = getenv("COUNTED");
    int file = path ? open(path, O_RDWR | O_CREAT | O_TRUNC, 0600) : -1;
    void *page = MAP_FAILED;

    if (file >= 0 && ftruncate(file, sizeof(long)) == 0)
        page = mmap(NULL, sizeof(long), PROT_READ | PROT_WRITE, MAP_SHARED, file, 0);
    if (page == MAP_FAILED)
        _exit(125);
    close(file);
    refused = number ? atol(number) : 0;
    calls = page;
}

static int is_refused(void)
{
    return calls != NULL && ++*calls == refused;
}
END

# NUMBER OUT ERRORS WORD..: runs a command with that allocation refused, or none where it is 0
refuse() {
    local number=$1 out=$2 errors=$3
    shift 3
    status=0
    { LD_PRELOAD=$folder/refuse.so REFUSED=$number COUNTED=$folder/counted \
        "$program" "$@" >"$folder/$out" 2>"$folder/$errors" <"$folder/lines"; } 2>/dev/null || status=$?
    counted=$(od -An -tu8 "$folder/counted")
}

# WHY NUMBER WORD..: says what is wrong with a run
blame() {
    local why=$1 number=$2
    shift 2
    echo "$why, allocation $number refused: $*" >&2
    wrong=1
}

# whether the run did what is done undisturbed
is_whole() {
    [ "$status" -eq "$whole" ] && cmp -s "$folder/out" "$folder/whole" && cmp -s "$folder/errors" "$folder/said"
}

# whether it said at its end that there is no memory
is_told() {
    [ "$status" -eq 5 ] && tail -n 1 "$folder/errors" | grep -q 'no memory$'
}

# NUMBER WORD..: counts a run
count() {
    if is_whole; then
        wholes=$((wholes + 1))
    elif is_told; then
        refusals=$((refusals + 1))
    else
        blame "status $status" "$@"
    fi
    if ! cmp -s -n "$(stat -c %s "$folder/out")" "$folder/out" "$folder/whole"; then
        blame "no beginning of the whole output" "$@"
    fi
}

# WORD..: each allocation of a command is refused once
refuse_each() {
    local number most
    refusals=0
    wholes=0
    refuse 0 whole said "$@"
    whole=$status
    most=$counted
    for number in $(seq "$most"); do
        refuse "$number" out errors "$@"
        count "$number" "$@"
    done
    printf '%5d allocations, %5d status 5, %3d whole  %s\n' "$most" "$refusals" "$wholes" "$*"
    all=$((all + most))
    all_refused=$((all_refused + refusals))
    all_whole=$((all_whole + wholes))
    if [ "$most" -eq 0 ]; then
        blame "no allocation is seen" 0 "$@"
    fi
}

cd "$examples"
for command in "${commands[@]}"; do
    read -ra words <<<"$command"
    refuse_each "${words[@]}"
done
printf '%5d allocations, %5d status 5, %3d whole  %d commands\n' "$all" "$all_refused" "$all_whole" "${#commands[@]}"
exit "$wrong"
