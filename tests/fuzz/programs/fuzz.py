#!/usr/bin/env python3
"""Fuzzes the command line and the files of hirgrep: fuzz.py MINUTES SEED PROGRAM COVER STATE FOUND

A line that reaches a new block of the program is kept, and changed again. Each run has to end by itself, without a signal, with status
0, 1 or 2. The error stream has only lines of printable bytes, and none if the status is 0 or 1. With -q more the status is the same. ../README.md
says what else is checked. The last line counts; the status is 1 if something was found, which is written to the folder FOUND."""

import json
import os
import random
import shutil
import sys
import tempfile
import time

sys.dont_write_bytecode = True

from covered import Covered, Result, not_ended, processor_seconds, run
from words import Line, changed, is_safe, seeds
from grep_options.random_cases import RandomRuns, random_case
from grep_options.random_runs import run_in

COMPARED = 10  # of so many rounds one compares a random line of tests/grep with GNU grep


class Runs:
    """Runs lines in a folder of their own."""

    def __init__(self, program, cover, state, folder):
        self.program, self.folder = program, folder
        self.covered = Covered(cover, state, program)
        os.makedirs(f"{folder}/folder/inner")
        self.write("folder/inner/third", b"ab in a folder\n")

    def write(self, name, data):
        with open(f"{self.folder}/{name}", "wb") as file:
            file.write(data)

    def run(self, command, line, words):
        for name in ("first", "second", "patterns", "given"):
            self.write(name, getattr(line, name))
        return run([*command, *map(os.fsencode, words)], self.folder, line.given)

    def plain(self, line, words):
        return self.run([self.program], line, words)

    def with_cover(self, line):
        """A run, and how many blocks it was the first to reach."""
        return self.run(self.covered.command, line, line.words), self.covered.fresh()


def has_flag(line, letter):
    """Whether an option of this letter may be there."""
    return any(it.startswith("-") and not it.startswith("--") and letter in it for it in line.words)


def has_long(line, *beginnings):
    """Whether a word begins as one of these long options."""
    return any(it.startswith(beginnings) for it in line.words)


def wrong_with(line, result):
    """What a run did that it must not do, or nothing."""
    if not_ended(result):
        return not_ended(result)
    is_silent = has_flag(line, "s") or has_long(line, "--n")
    if result.status == 2 and not result.said and not is_silent:
        return "status 2 without a message"
    # with -q a selected line comes before an error
    is_quiet = has_flag(line, "q") or has_long(line, "--q", "--si")
    if result.status < 2 and result.said and not has_long(line, "--st") and not (result.status == 0 and is_quiet):
        return "a message without status 2"
    return None


def wrong_when_quiet(runs, line, result):
    """With -q the status is the same, except that 0 comes before an error, that a pattern whose matches can't be printed may be searched for,
    and that -L no longer counts, as with GNU grep."""
    if result.status == 2 and b"matches can't be printed or marked" in result.said:
        return None
    quiet = runs.plain(line, ("-q", *line.words))
    if quiet.printed and not has_long(line, "--h", "--ve") and not has_flag(line, "V"):
        return f"-q prints: {quiet.text()}"
    is_of_others = has_flag(line, "L") or has_long(line, "--files-witho")
    if quiet.status != result.status and not (result.status == 2 and quiet.status == 0) and not is_of_others:
        return f"with -q: {quiet.text()}"
    return None


class Fuzz:
    def __init__(self, runs, seed, found):
        self.runs, self.pick, self.found = runs, random.Random(seed), found
        self.kept, self.count, self.wrong, self.compared, self.seed = [], 0, 0, 0, seed
        folder = f"{runs.folder}/compared"
        os.mkdir(folder)
        tools = [it for it in ("grep", "rg") if shutil.which(it)]
        self.others = RandomRuns(runs.program, folder, run_in(folder), tools)

    def report(self, what, line, result):
        self.wrong += 1
        if self.wrong > 50:
            return
        print(f"{what}: {list(line.words)}: {result.text()}", flush=True)
        os.makedirs(self.found, exist_ok=True)
        with open(f"{self.found}/line-{self.seed}-{self.count}.json", "w", encoding="utf-8") as file:
            data = {it: getattr(line, it).hex() for it in ("first", "second", "patterns", "given")}
            json.dump({"what": what, "words": line.words, **data}, file)

    def one(self, line):
        self.count += 1
        result, fresh = self.runs.with_cover(line)
        what = wrong_with(line, result)
        if not what and (fresh or self.pick.random() < 0.1) and result.status is not None:
            what = wrong_when_quiet(self.runs, line, result)
        if what:
            self.report(what, line, result)
        if fresh:
            self.kept.append(line)

    def compare(self):
        """A random line of tests/grep, compared with GNU grep, ripgrep and the definition."""
        case = random_case(f"fuzz {self.seed}", self.compared)
        self.compared += 1
        _, different = self.others.differences(case)
        if different:
            self.report(f"not as {different}, tests/grep --random --seed 'fuzz {self.seed}' --case {self.compared - 1}", Line(case.words), Result(0, b"", b""))

    def until(self, end):
        for line in seeds(self.pick):
            if is_safe(line) and time.monotonic() < end:
                self.one(line)
        while time.monotonic() < end and self.wrong < 1000:
            line = changed(self.pick, self.pick.choice(self.kept[-200:] if self.pick.random() < 0.5 else self.kept), self.pick.choice(self.kept))
            if is_safe(line):
                self.one(line)
            if self.count % COMPARED == 0:
                self.compare()


def main():
    minutes, seed, program, cover, state, found = sys.argv[1:]
    begun = time.monotonic()
    with tempfile.TemporaryDirectory() as folder:
        runs = Runs(program, cover, state, folder)
        fuzz = Fuzz(runs, seed, found)
        fuzz.until(begun + 60 * float(minutes))
        some, count = runs.covered.reached()
    print(
        f"tests/fuzz/programs: seed {seed}: {fuzz.count} lines and {fuzz.compared} compared in {time.monotonic() - begun:.0f} s ({processor_seconds():.0f} s of a processor), "
        f"{len(fuzz.kept)} kept, {some} of {count} blocks reached: {fuzz.wrong} wrong"
    )
    return 1 if fuzz.wrong else 0


if __name__ == "__main__":
    sys.exit(main())
