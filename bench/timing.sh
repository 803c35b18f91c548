# Times commands; to be sourced.

# the time, in nanoseconds
now() { date +%s%N; }

# COUNT COMMAND ..: the nanoseconds of the fastest of so many runs of a command, without what it prints; a run that
# its limit of steps ends, with status 3, counts as any other
fastest() {
    local count=$1 best= from took
    shift
    for ((run = 0; run < count; run++)); do
        from=$(now)
        "$@" >/dev/null || test $? -eq 3
        took=$(($(now) - from))
        if [ -z "$best" ] || [ "$took" -lt "$best" ]; then best=$took; fi
    done
    echo "$best"
}
