#!/usr/bin/env python3
"""Fuzzes the notation of hirscan: notation.py MINUTES SEED PROGRAM COVER STATE FOUND

It begins with the rows of tests/rows and the queries of examples/. An input that reaches a new block of the program is kept, and changed
again. Each run has to end with status 0 or 1. Status 1 comes with a last line that begins with `refused` or `quit`, and 0 with the lines of
matches, whose offsets are in order. The settings that change no answer may not change it. ../README.md says more."""

import glob
import os
import random
import re
import sys
import time

sys.dont_write_bytecode = True

from covered import Covered, not_ended, processor_seconds, run

TOP = os.path.dirname(os.path.dirname(os.path.dirname(os.path.dirname(os.path.realpath(__file__)))))
SETTINGS = (b"capacity 0\n", b"classes off\n", b"shrink on\n")  # as in tests/check
PIECES = [it.encode() for it in """lit 61|lit 6162|lit |bytes 61-7a|bytes 00-FF|chars 61-7a|chars 0-10ffff|chars 80-7ff|cat 2|cat 0|alt 2|alt 0|empty|rep 0 1 greedy
rep 0 inf greedy|rep 1 inf lazy|rep 2 3 greedy|rep 100 100 greedy|look Start|look End|look StartLF|look EndLF|look StartCRLF|look EndCRLF|look WordAscii|look WordUnicode
look WordAsciiNegate|look WordUnicodeNegate|look WordStartAscii|look WordEndUnicode|pattern|find|utf8 off|utf8 on|anchored yes|anchored no|span 0 1|span 1 3|quit 07|quit C1
capacity 0|capacity 4294967295|classes off|shrink on|group 1|group 1 name|capture 1|4294967296|-1|inf""".replace("\n", "|").split("|")]
BYTES = (b"\n", b" ", b"a", b"ab", b"\xff", b"\xc3\xa9", b"\0", b"\r", b"0", b"9" * 12)
LONGEST = 2000
ESCAPE = re.compile(rb"\\0([0-7]{1,3})|\\([ntrabfv\\])")
ESCAPED = {b"n": b"\n", b"t": b"\t", b"r": b"\r", b"a": b"\a", b"b": b"\b", b"f": b"\f", b"v": b"\v", b"\\": b"\\"}
LINE = re.compile(rb"(\d+) (\d+) (\d+)")


def unescaped(row):
    """A row as printf's %b reads it."""
    return ESCAPE.sub(lambda it: bytes([int(it[1], 8)]) if it[1] else ESCAPED[it[2]], row)


def seeds():
    with open(f"{TOP}/tests/rows", "rb") as file:
        rows = [it.split(b"|")[0] for it in file if not it.startswith(b"#")]
    yield from (unescaped(it)[:LONGEST] for it in rows)
    for path in sorted(glob.glob(f"{TOP}/examples/*.lines")):
        with open(path.removesuffix(".lines"), "rb") as file:
            yield file.read()[:LONGEST]


def changed(pick, given, other):
    """One change to four: a line or some bytes more or less, or the rest of another input."""
    for _ in range(pick.choice((1, 1, 2, 3, 4))):
        lines = given.split(b"\n")
        at, kind = pick.randrange(len(lines)), pick.random()
        if kind < 0.35:
            lines.insert(at, pick.choice(PIECES))
        elif kind < 0.5:
            lines[at : at + 1] = []
        elif kind < 0.6:
            lines.insert(at, pick.choice(lines))
        elif kind < 0.7:
            lines[at:] = other.split(b"\n")[at:]
        else:
            offset = pick.randrange(len(given) + 1)
            given = given[:offset] + pick.choice(BYTES) + given[offset + pick.choice((0, 0, 1, 2)) :]
            continue
        given = b"\n".join(lines)
    return given[:LONGEST]


def wrong_with(result):
    """What a run did that it must not do, or nothing."""
    if not_ended(result):
        return not_ended(result)
    lines = result.printed.split(b"\n")
    if result.status == 2 or result.said or lines.pop() != b"":
        return "an ending that no input of this size may have"
    last = lines.pop() if result.status == 1 and lines else b""
    if (result.status == 1) != last.startswith((b"refused: ", b"quit: ")):
        return "a status that doesn't fit the last line"
    spans = [tuple(map(int, it.groups())) for it in map(LINE.fullmatch, lines) if it]
    if len(spans) != len(lines) or any(start > end for _, start, end in spans):
        return "a line that is no match"
    if any(after[1] < before[2] for before, after in zip(spans, spans[1:])):
        return "matches that aren't in order"
    return None


class Fuzz:
    def __init__(self, program, covered, seed, found):
        self.program, self.covered, self.found, self.seed = program, covered, found, seed
        self.pick, self.kept, self.count, self.wrong = random.Random(seed), [], 0, 0

    def report(self, what, given, result):
        self.wrong += 1
        print(f"{what}: {given!r}: {result.text()}", flush=True)
        os.makedirs(self.found, exist_ok=True)
        with open(f"{self.found}/notation-{self.seed}-{self.count}", "wb") as file:
            file.write(given)

    def compare(self, given, result):
        """The same answer with another setting, unless the input has that setting, or a limit counts."""
        setting = self.pick.choice(SETTINGS)
        if setting.split(b" ")[0] in given or b"refused" in result.printed:
            return
        other = run([self.program], "/", setting + given)
        if (other.status, other.printed) != (result.status, result.printed):
            self.report(f"with {setting!r}: {other.text()}", given, result)

    def one(self, given):
        self.count += 1
        result = run(self.covered.command, "/", given)
        is_fresh = self.covered.fresh() > 0
        what = wrong_with(result)
        if what:
            self.report(what, given, result)
        elif is_fresh or self.pick.random() < 0.2:
            self.compare(given, result)
        if is_fresh:
            self.kept.append(given)

    def until(self, end):
        for given in seeds():
            if time.monotonic() < end:
                self.one(given)
        while time.monotonic() < end and self.wrong < 50:
            given = self.pick.choice(self.kept[-100:] if self.pick.random() < 0.5 else self.kept)
            self.one(changed(self.pick, given, self.pick.choice(self.kept)))


def main():
    minutes, seed, program, cover, state, found = sys.argv[1:]
    begun = time.monotonic()
    covered = Covered(cover, state, program)
    fuzz = Fuzz(program, covered, seed, found)
    fuzz.until(begun + 60 * float(minutes))
    some, count = covered.reached()
    print(
        f"tests/fuzz/programs notation: seed {seed}: {fuzz.count} inputs in {time.monotonic() - begun:.0f} s ({processor_seconds():.0f} s of a processor), "
        f"{len(fuzz.kept)} kept, {some} of {count} blocks reached: {fuzz.wrong} wrong"
    )
    return 1 if fuzz.wrong else 0


if __name__ == "__main__":
    sys.exit(main())
