#!/usr/bin/env python3
"""Measures searches against Python's re, and prints tables.

    bench.py [--megabytes N] [--rounds N] [--ratios]    (16 megabytes, 5 rounds)

It takes the package that is installed, or else the one next to this file, and says whether that is the extension. Both engines search in
turn, and of each one the least processor time counts, since other programs only ever add to it. Both must find the same. With --ratios
one table has the ratios alone, for bytes and for str, as in README.md, and the rows that miss the goals of the package follow.
"""

import argparse
import os
import pathlib
import re
import sys
import tempfile
import time

# An installed package comes before the one in this folder, which has no extension.
HERE = pathlib.Path(__file__).resolve().parent
sys.path.append(sys.path.pop(0))
sys.path.append(str(HERE.parents[1] / "bench"))
sys.dont_write_bytecode = True
import corpora  # noqa: E402
import hanneddois  # noqa: E402

LINE = "the 25 bytes of a line 42"
SHORT = ["[0-9]+", r"\w+", "[a-z]+ing", "(?i)LINE", "^the", "line", "zzz", "return -E[A-Z]+"]
LONG = [("log", r"[0-9]{4}-[0-9]{2}-[0-9]{2}"), ("log", "ERROR|WARN"), ("log", "[0-9]+"), ("log", r"user=[0-9]+ id=[0-9a-f]+"),
        ("source", "return -E[A-Z]+"), ("source", r"while|return|else"), ("prose", "[A-Z][a-z]+"), ("prose", r"\w+"), ("prose", "absent")]
# Each match is asked for its groups.
GROUPS = [("log", r"([0-9]{4})-([0-9]{2})-([0-9]{2})"), ("log", r"user=([0-9]+) id=([0-9a-f]+)"), ("log", r"(ERROR|WARN) +(\w+): (\w+)"),
          ("log", r"([a-z]+)=([^ \n]+)"), ("prose", r"(\w)(\w*)")]
# Other calls over a whole input, by name, input, pattern and what else they take.
CALLS = [("findall", "log", "[0-9]+", ()), ("findall", "log", r"user=([0-9]+) id=([0-9a-f]+)", ()), ("sub", "log", r"([0-9]{4})-([0-9]{2})", (r"\2/\1",)),
         ("sub", "prose", "[A-Z]", ("-",)), ("split", "prose", r"\W+", ())]
SHORT_CALLS, SHORT_ROUNDS = 2000, 150
# At most so many times as much time as re.
GOALS = {"search": 1.0, "finditer": 0.35, "groups": 0.5}
clock = time.process_time


def read_corpora(megabytes):
    """Returns the inputs by their names. A source also has a line with an error now and then."""
    contents = {}
    with tempfile.TemporaryDirectory() as folder:
        for name in ("log", "prose", "source"):
            path = pathlib.Path(folder) / name
            corpora.write_corpus(str(path), name, megabytes << 20, "1")
            contents[name] = path.read_bytes()
    lines = contents["source"].splitlines(keepends=True)
    for number in range(0, len(lines), 100):
        lines[number] = b"        return -EINVAL;\n"
    contents["source"] = b"".join(lines)[: megabytes << 20]
    return contents


def time_calls(search, haystack):
    calls = range(SHORT_CALLS)
    begun = clock()
    for _ in calls:
        search(haystack)
    return (clock() - begun) / SHORT_CALLS * 1e9, None


def time_matches(finditer, haystack):
    count = 0
    begun = clock()
    for _ in finditer(haystack):
        count += 1
    return (clock() - begun) * 1e3, count


def time_groups(finditer, haystack):
    count = 0
    begun = clock()
    for match in finditer(haystack):
        match.groups()
        count += 1
    return (clock() - begun) * 1e3, count


def time_call(call, haystack):
    begun = clock()
    result = call(haystack)
    return (clock() - begun) * 1e3, result


def compare(what, measure, theirs, ours, haystack, rounds):
    """Returns the least times of two searches that run in turn."""
    pairs = [(measure(theirs, haystack), measure(ours, haystack)) for _ in range(rounds)]
    for (_, wanted), (_, found) in pairs:
        if wanted != found:
            sys.exit(f"bench.py: re and hanneddois find something else by {what}")
    return min(it[0][0] for it in pairs), min(it[1][0] for it in pairs)


def as_kind(text, is_str):
    if is_str:
        return text if isinstance(text, str) else text.decode(errors="replace")
    return text.encode() if isinstance(text, str) else text


def compile_both(pattern, is_str):
    """Returns the regexes of both. Python's patterns over bytes know ASCII alone."""
    written = as_kind(pattern, is_str)
    return re.compile(written), hanneddois.compile(written, 0 if is_str else hanneddois.NO_UNICODE)


def bind(regex, name, others):
    """Returns a function of a haystack that calls a method. A replacement comes before the haystack."""
    method = getattr(regex, name)
    return (lambda haystack: method(*others, haystack)) if others else method


class Table:
    """Prints a row for each search in bytes and in str, or one with the ratios of both."""

    def __init__(self, only_ratios):
        self.only_ratios = only_ratios
        self.missed = []
        print("| Call | Input | Pattern | `bytes` | `str` |\n|---|---|---|---|---|" if only_ratios else
              "| Call | Input | Pattern | Haystack | re | hanneddois | / re |\n|---|---|---|---|---|---|---|")

    def add(self, call, name, pattern, measure, method, others, content, rounds):
        cells, ratios = [f"`{call}`", name, "`" + pattern.replace("|", "\\|") + "`"], []
        for is_str in (False, True):
            haystack, converted = as_kind(content, is_str), tuple(as_kind(it, is_str) for it in others)
            theirs, ours = (bind(it, method, converted) for it in compile_both(pattern, is_str))
            least = compare(f"{call} {pattern}", measure, theirs, ours, haystack, rounds)
            unit = "ns" if measure is time_calls else "ms"
            ratios.append(f"{least[1] / least[0]:.2f}")
            if least[1] / least[0] > GOALS.get(call, float("inf")):
                self.missed.append(f"{call} {pattern} over {type(haystack).__name__}: {ratios[-1]}")
            if not self.only_ratios:
                self.row(*cells, type(haystack).__name__, f"{least[0]:.0f} {unit}", f"{least[1]:.0f} {unit}", ratios[-1])
        if self.only_ratios:
            self.row(*cells, *ratios)

    @staticmethod
    def row(*cells):
        print(f"| {' | '.join(cells)} |", flush=True)


def main():
    parser = argparse.ArgumentParser(usage=__doc__)
    parser.add_argument("--megabytes", type=int, default=16)
    parser.add_argument("--rounds", type=int, default=5)
    parser.add_argument("--ratios", action="store_true")
    options = parser.parse_args()
    load = " ".join(f"{it:.0f}" for it in os.getloadavg())
    print(f"Python {sys.version.split()[0]}, hanneddois {hanneddois.version()} by {hanneddois.backend}, {os.cpu_count()} processors, load {load}\n")
    table, contents = Table(options.ratios), read_corpora(options.megabytes)
    for pattern in SHORT:
        table.add("search", "25 bytes", pattern, time_calls, "search", (), LINE, SHORT_ROUNDS)
    for name, pattern in LONG:
        table.add("finditer", name, pattern, time_matches, "finditer", (), contents[name], options.rounds)
    for name, pattern in GROUPS:
        table.add("groups", name, pattern, time_groups, "finditer", (), contents[name], options.rounds)
    for method, name, pattern, others in CALLS:
        table.add(method, name, pattern, time_call, method, others, contents[name], options.rounds)
    print(f"\nLoad at the end {os.getloadavg()[0]:.0f}")
    if options.ratios:
        print("Above the goals", GOALS, *(table.missed or ["none"]), sep="\n    ")


main()
