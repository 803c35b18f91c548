# Counts instructions of a program by callgrind; to be sourced, with `program` set.

# ARGUMENTS: the instructions of a run; one that its limit of steps ends, with status 3, counts as any other
instructions() {
    { valgrind --tool=callgrind --callgrind-out-file=/dev/null "$program" "$@" 2>&1 >/dev/null || test $? -eq 3; } |
        sed -n 's/.*Collected : \([0-9]*\).*/\1/p'
}
