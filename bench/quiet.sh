#!/usr/bin/env bash
# Makes the calls that take no memory, of a machine and a debugger (`of_fuzz quiet`), with all memory refused while they
# are made, and prints how many times it was asked for meanwhile, and what the machine shows then. Fails where it was
# asked for, or the machine shows something else than undisturbed. Asks for cc.
# usage: bench/quiet.sh
set -euo pipefail
top=$(cd "$(dirname "$(readlink -f "${BASH_SOURCE[0]}")")/.." && pwd)
source "$top/bench/refusing.sh"
folder=$(mktemp -d)
trap 'rm -rf "$folder"' EXIT
(cd "$top/crates/of_fuzz" && rt run >&2)
program=$top/crates/of_fuzz/out/of_fuzz

# Refused is each call that asks for memory behind the line `quiet` that goes out, up to the line that begins with
# `done`, where the program ends with status 120 if there were any.
make_refusing "$folder" <<'END'
#include <string.h>
#include <sys/syscall.h>
#include <unistd.h>

static int begun;
static long refused;

static int is_refused(void)
{
    refused += begun;
    return begun;
}

ssize_t write(int file, const void *bytes, size_t count)
{
    if (file == 1 && count >= 5 && memcmp(bytes, "quiet", 5) == 0)
        begun = getenv("REFUSE") != NULL;
    if (file == 1 && count >= 4 && memcmp(bytes, "done", 4) == 0) {
        begun = 0;
        if (refused > 0)
            exit(120);
    }
    return syscall(SYS_write, file, bytes, count);
}
END
LD_PRELOAD=$folder/refuse.so "$program" quiet >"$folder/whole"
LD_PRELOAD=$folder/refuse.so REFUSE=1 "$program" quiet >"$folder/refused"
cmp "$folder/whole" "$folder/refused"
cat "$folder/refused"
