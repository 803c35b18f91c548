#!/usr/bin/env python3
"""Prints the four lists of crates/of_fcodes/src/index.rt: where the names of the tables stand, by their hashes.

Run it at the top of the repository where a word or an FCode is added, and put what it prints in place of the lists.
That they have each name at its hash is proved.
"""
import re


def names(path, row):
    text = open(path, encoding="utf-8").read()
    return [re.sub(r"\\(.)", r"\1", name) for name in re.findall(row, text, re.MULTILINE)]


def name_hash(name):
    key = name.lower().encode()
    return (19 * (len(key) % 256) + 35 * key[0] + 6 * key[-1]) % 256


def show(about, name, numbers):
    lines = (numbers[i : i + 20] for i in range(0, len(numbers), 20))
    body = "\n".join("    " + " ".join(f"{number:3}," for number in line) for line in lines)
    print(f"/// {about}\n#[rattlefmt::skip]\npub static {name}: [u16; {len(numbers)}] = [\n{body}\n];\n")


def index(entries, about, order, starts):
    hashes = [name_hash(name) for name in entries]
    show(f"The places of {about}, by the hashes of their names.", order,
         sorted(range(len(entries)), key=lambda place: (hashes[place], place)))
    show(f"How many of {about} have names of a lower hash.", starts,
         [sum(h < hash for h in hashes) for hash in range(257)])


WORDS = names("crates/of_fcodes/src/list.rt", r'^    \("((?:[^"\\]|\\.)*)",')
ROWS = names("crates/of_fcodes/src/table.rt", r'^    \(0x[0-9a-f]+, "((?:[^"\\]|\\.)*)",')
index(WORDS, "the written words", "WORD_ORDER", "WORD_STARTS")
index(ROWS, "the rows of FCodes", "ROW_ORDER", "ROW_STARTS")
