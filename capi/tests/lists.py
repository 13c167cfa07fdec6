#!/usr/bin/env python3
"""Lists of matches by Python's re, with which the tests in Rust and C++ compare those of the library.

    capi/tests/lists.py            write lists.txt
    capi/tests/lists.py --check    compare it with what re finds; prints what differs

A row is a kind, a pattern, a haystack in base sixteen, and the spans in bytes, with tabs between them. Of the kind "bytes" patterns know
ASCII alone, as Python's patterns over bytes do. Of the kind "utf8" haystacks are UTF-8 and patterns know Unicode. Left out is where
Python differs: a pattern that prefers an empty match to a longer one that starts there, of which Python lists both; `$` before a line
feed at the end; and `\\B` in an empty haystack, which matches only from Python 3.14 on."""

import pathlib
import re
import sys

FILE = pathlib.Path(__file__).resolve().parent / "lists.txt"
PATTERNS = [r"[0-9]+", r"a|ab", r"ab|a", r"(?:ab)+?", r"x*", r"", r"^", r"$", r"(?m)^", r"(?m)^b", r"(?m)a$", r"\b", r"\b\w+\b", r"\Bb", r"\B",
            r"(?i)AB", r"(?s)a.b", r"a.b", r"[^a]", r"a{2,3}", r"a{2,3}?", r"(?:a|b)*c", r"\d\d-\d\d", r"b*", r"a?", r"(?s).", r"b|$"]
BYTES = [r"\xff", r"[\x80-\xff]+", r"\xc3", r"(?s).{2}"]
HAYSTACKS = ["", "a", "ab", "abab", "xxabcxx", "12-34 5", "a\nb", "b\nab\na", "aaaaa", "AbaB", "caacbc", "word words, a word", "ab" * 70, "\0a\0"]
BROKEN = [b"\xff\xfe a", b"a\xffb\xc3", b"\xc3\xa9b"]
UTF8_PATTERNS = [r"é+", r"\w+", r"\bk", r"k\b", r"(?i)É", r"[^é]", r"日|k"]
UTF8_HAYSTACKS = ["aééb", "ék k", "k—k", "kék É", "日k本 k", "é" * 70]


def without_adjacent(spans):
    """Leaves out empty matches at the end of the last one, which Python lists."""
    kept = []
    for start, end in spans:
        if not (start == end and kept and kept[-1][1] == start):
            kept.append((start, end))
    return kept


def is_alike(pattern, haystack):
    return bool(haystack) or pattern != r"\B"


def row(kind, pattern, haystack, spans):
    words = " ".join(f"{start}-{end}" for start, end in without_adjacent(spans))
    return f"{kind}\t{pattern}\t{haystack.hex()}\t{words}\n"


def rows():
    for pattern in PATTERNS + BYTES:
        for haystack in [*(it.encode() for it in HAYSTACKS if is_alike(pattern, it)), *BROKEN]:
            yield row("bytes", pattern, haystack, [it.span() for it in re.finditer(pattern.encode(), haystack)])
    for pattern in PATTERNS + UTF8_PATTERNS:
        for haystack in [*(it for it in HAYSTACKS if is_alike(pattern, it)), *UTF8_HAYSTACKS]:
            at = [len(haystack[:it].encode()) for it in range(len(haystack) + 1)]
            spans = [(at[it.start()], at[it.end()]) for it in re.finditer(pattern, haystack)]
            yield row("utf8", pattern, haystack.encode(), spans)


def main():
    made = "".join(rows())
    if sys.argv[1:] == ["--check"]:
        differ = [f"lists.py: re finds: {it}" for it in sorted(set(made.splitlines()) ^ set(FILE.read_text().splitlines()))]
        print("\n".join(differ), end="\n" if differ else "")
        return 1 if differ else 0
    if sys.argv[1:]:
        print(__doc__)
        return 2
    FILE.write_text(made)
    return 0


sys.exit(main())
