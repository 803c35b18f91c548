# For a script that refuses memory; to be sourced. Asks for cc.

# FOLDER: makes FOLDER/refuse.so of C code on the standard input, which says by `static int is_refused(void)` whether a
# call that asks for memory is refused. Put before the C library's own functions, it refuses these calls.
make_refusing() {
    cat >"$1/asked.c"
    cat >"$1/refuse.c" <<'END'
#include <errno.h>
#include <stdlib.h>
#include "asked.c"

void *__libc_malloc(size_t size);
void *__libc_calloc(size_t count, size_t size);
void *__libc_realloc(void *block, size_t size);

static int refuses(void)
{
    if (!is_refused())
        return 0;
    errno = ENOMEM;
    return 1;
}

void *malloc(size_t size)
{
    return refuses() ? NULL : __libc_malloc(size);
}

void *calloc(size_t count, size_t size)
{
    return refuses() ? NULL : __libc_calloc(count, size);
}

void *realloc(void *block, size_t size)
{
    return refuses() ? NULL : __libc_realloc(block, size);
}
END
    cc -O1 -Wall -shared -fPIC -o "$1/refuse.so" "$1/refuse.c"
}
