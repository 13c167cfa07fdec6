"""Runs rounds of random cases by the clock, for tests/compare/run --minutes. Each round takes a new seed and all kinds of patterns. After each
round it writes how far it came into a file. If it is ended, the next run goes on from there. It prints one line, and before that what
differs, with the command that makes it again."""

import json
import os
import re
import secrets
import signal
import subprocess
import time

ROUND = 60  # seconds of a round
MOST = 20  # rounds with a difference after which it ends
OPTIONS = {"--kinds": "random,published,several,large", "--haystacks": "64", "--largest": "150"}
CASES = re.compile(r"^ *(\d+)  cases$", re.M)
DIFFERENT = re.compile(r"^(\d+) cases differ", re.M)
EXAMPLES = re.compile(r"^DIFFERS.*:\n(?: {4}.*\n)+", re.M)


class Failed(Exception):
    pass


class Ended(Exception):
    pass


def end_at_signal(*_):
    raise Ended


class Progress:
    """How far a run came; it is kept in a file until the run has ended."""

    def __init__(self, path):
        self.path = path
        self.values = {"seconds": 0.0, "rounds": 0, "cases": 0, "different": 0, "rounds that differ": 0}
        if os.path.exists(path):
            with open(path, encoding="utf-8") as file:
                self.values = json.load(file)

    def add(self, **counts):
        """Adds to the counts and writes them. A run that is ended leaves a whole file, since it is renamed."""
        for name, count in counts.items():
            self.values[name.replace("_", " ")] += count
        os.makedirs(os.path.dirname(self.path), exist_ok=True)
        with open(f"{self.path}.new", "w", encoding="utf-8") as file:
            json.dump(self.values, file)
        os.replace(f"{self.path}.new", self.path)

    def line(self):
        it = self.values
        return f"tests/compare/run --minutes: {it['rounds']} rounds, {it['cases']} cases in {it['seconds']:.0f} s: {it['different']} differ"


def words_of(seed, seconds, arguments):
    """The arguments of the program for a round. Those that were given come last, so they count."""
    options = {**OPTIONS, "--seed": str(seed), "--cases": str(10**12), "--seconds": str(seconds)}
    return [*(it for pair in options.items() for it in pair), *arguments]


def count_of(found):
    return int(found[1]) if found else 0


def run_round(program, seconds, arguments):
    """The number of cases of a round with a new seed, and that of those that differ, which are printed."""
    seed = secrets.randbelow(1 << 32)
    words = [*program, *words_of(seed, seconds, arguments)]
    with subprocess.Popen(words, stdout=subprocess.PIPE, text=True, start_new_session=True) as child:
        try:
            printed, _ = child.communicate()
        except Ended:
            child.kill()
            raise
    different = count_of(DIFFERENT.search(printed))
    if not DIFFERENT.search(printed):
        raise Failed(f"the program ended with status {child.returncode} for --seed {seed}")
    if different:
        again = " ".join([f"--seed {seed}", *(f"{name} {value}" for name, value in OPTIONS.items()), *arguments])
        print(f"{''.join(EXAMPLES.findall(printed))}tests/compare/run {again} --group G --cases 1 makes the group G again", flush=True)
    return count_of(CASES.search(printed)), different


def run_by_clock(program, minutes, path, arguments):
    """program is its path with the arguments that it always has. Returns the status."""
    progress = Progress(path)
    signal.signal(signal.SIGTERM, end_at_signal)
    signal.signal(signal.SIGINT, end_at_signal)
    try:
        while progress.values["seconds"] < 60 * minutes and progress.values["rounds that differ"] < MOST:
            begun, left = time.monotonic(), 60 * minutes - progress.values["seconds"]
            cases, different = run_round(program, max(1, min(ROUND, round(left))), arguments)
            progress.add(seconds=time.monotonic() - begun, rounds=1, cases=cases, different=different, rounds_that_differ=int(different > 0))
    except Ended:
        print(f"{progress.line()}; the next run goes on")
        return 2
    print(progress.line())
    if os.path.exists(path):
        os.remove(path)
    return 1 if progress.values["different"] else 0
