#!/usr/bin/env python3
"""Prints how long the sums take that `rt ci` makes of each library of crates.txt, in seconds, and of all.

Before and behind the build of a library the files of all that it stands on are read and summed up, along each way down
through crates.txt: a crate that two others name is read twice for one that names both, and each layer that names those
below it doubles that. A program or a static library has no such sum.
"""

import functools
import hashlib
import os
import time

PARTS = ("src", "specs", "proofs")


def crates():
    """Gives each crate of crates.txt: its name, whether it is a library that others may name, and which it names."""
    lines = {}
    with open("crates.txt", encoding="utf-8") as text:
        for line in text:
            head, _, names = line.partition("#")[0].partition(":")
            if head.strip():
                name, *words = head.split()
                is_library = "staticlib" not in words and not os.path.isfile(f"crates/{name}/src/main.rt")
                lines[name] = is_library, names.split()
    return {name: (is_library, [it for it in names if it in lines]) for name, (is_library, names) in lines.items()}


def seconds_of(name):
    """Measures one sum over the crate's own files."""
    began, total = time.perf_counter(), hashlib.sha256()
    for part in PARTS:
        for folder, _, files in os.walk(f"crates/{name}/{part}"):
            for file in files:
                with open(f"{folder}/{file}", "rb") as it:
                    total.update(repr(it.read()).encode())
    return time.perf_counter() - began


def main():
    found = crates()
    for name in found:
        seconds_of(name)
    own = {name: seconds_of(name) for name in found}

    @functools.lru_cache(maxsize=None)
    def seconds(name):
        return own[name] + sum(seconds(it) for it in found[name][1])

    rows = sorted((2 * seconds(name), name) for name in found if found[name][0])
    for both, name in rows:
        print(f"{both:8.1f}  {name}")
    print(f"{sum(both for both, _ in rows):8.1f}  in all")


if __name__ == "__main__":
    main()
