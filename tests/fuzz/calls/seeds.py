#!/usr/bin/env python3
"""Writes seeds for the fuzz of the C calls into a folder: seeds.py FOLDER

They are made of rows of this repository's tests: patterns with haystacks of capi/tests/lists.txt, and the patterns of tests/grep. If the
crate regex 1.7 is installed (Debian's librust-regex-dev), the patterns and haystacks of its tests are read there too. Settings and calls
are drawn at random, the same ones each time. case.hpp has the form of a seed."""

import ast
import glob
import hashlib
import os
import random
import re
import sys

sys.dont_write_bytecode = True
TOP = os.path.dirname(os.path.dirname(os.path.dirname(os.path.dirname(os.path.realpath(__file__)))))
sys.path.insert(0, os.path.join(TOP, "tests"))

from grep_options.options import PATTERNS

TESTS = "/usr/share/cargo/registry/regex-1.7.*/tests/*.rs"
SEPARATOR = b"\xf8"
LONGEST = 400  # bytes of a haystack
ROW = re.compile(r'\w+!\(\s*\w+,\s*(?:r(#*)"(.*?)"\1|"((?:[^"\\]|\\.)*)"),\s*(?:r(#*)"(.*?)"\4|"((?:[^"\\]|\\.)*)")', re.S)
OTHERS = [
    ["a(b", "a", "[z-a]"],
    ["((((a))))", "b{2,3}{4}", "(?i)k"],
    ["(a*)*", "(?:a|b*)+", "x"],
    ["\\b\\w+\\b", "(?-u:\\xff)", "(?-u)\\B"],
    ["[[:alpha:]&&[^a-m]]", "\\p{Greek}+", "[\\d--5]"],
    ["(?x) a b # c", "(?R)$", "(?mU)^a+"],
    ["foo", "foobar", "bar", "baz", "quux"],
    ["a{1000}", ".*.*=.*", "(x+x+)+y"],
]


def rows_of_lists():
    with open(f"{TOP}/capi/tests/lists.txt", encoding="utf-8") as file:
        for line in file:
            _, pattern, haystack, _ = line.rstrip("\n").split("\t")
            yield pattern.encode(), bytes.fromhex(haystack)


def unescaped(text):
    """A literal of Rust with escapes, as far as Python has the same ones."""
    try:
        return ast.literal_eval(f'"{re.sub(r"u[{]([0-9a-fA-F]+)[}]", lambda it: f"U{it[1]:0>8}", text)}"'.replace("\n", "\\n"))
    except (SyntaxError, ValueError):
        return None


def rows_of_crate():
    for path in sorted(glob.glob(TESTS)):
        with open(path, encoding="utf-8") as file:
            for found in ROW.finditer(file.read()):
                pattern = found[2] if found[2] is not None else unescaped(found[3])
                haystack = found[5] if found[5] is not None else unescaped(found[6])
                if pattern is not None and haystack is not None:
                    yield pattern.encode("utf-8", "surrogatepass"), haystack.encode("utf-8", "surrogatepass")


def rows():
    yield from rows_of_lists()
    yield from rows_of_crate()
    for pattern in PATTERNS:
        yield pattern.text.encode(), b"ab a word\n_x Aab\r\n" + "äß ab€".encode()


def seed(pick, patterns, haystacks):
    flags = sum(1 << it for it in range(16) if pick.random() < 0.15)
    settings = [flags & 255, flags >> 8, pick.choice((0, 0, 0, 130)), pick.randrange(10), pick.randrange(8), len(patterns) - 1]
    calls = [pick.randrange(256) for _ in range(2 + 2 * pick.choice((4, 8, 16)))]
    first = bytes([*settings, *calls[:2], pick.choice((0, 13)), 0, *calls[2:]])
    return SEPARATOR.join(it.replace(SEPARATOR, b"") if it is not first else it.replace(SEPARATOR, b"\xf7") for it in (first, *patterns, *haystacks))


def seeds():
    pick = random.Random(20261128)
    # the rows of one pattern follow each other, so a few of each do
    kept, last = [], {}
    for pattern, haystack in rows():
        last[pattern] = last.get(pattern, 0) + 1
        if last[pattern] <= 6 and len(haystack) <= LONGEST and len(pattern) <= LONGEST:
            kept.append((pattern, haystack))
    for pattern, haystack in kept:
        yield seed(pick, [pattern], [haystack, pick.choice(kept)[1]])
    for _ in range(len(kept) // 3):
        some = pick.sample(kept, pick.randrange(2, 7))
        yield seed(pick, [it[0] for it in some], [it[1] for it in some[:2]])
    for patterns in OTHERS:
        for first in range(len(patterns)):
            yield seed(pick, [it.encode() for it in patterns[first:]], [b"a foobar k", b"\xff aab = y"])


def main():
    folder = sys.argv[1]
    os.makedirs(folder, exist_ok=True)
    for data in seeds():
        with open(os.path.join(folder, hashlib.sha1(data).hexdigest()), "wb") as file:
            file.write(data)


main()
