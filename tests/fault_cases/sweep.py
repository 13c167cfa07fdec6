"""Makes each system call of each search fail in turn. The result has to be the answer, or status 2 and one line on standard error."""

import itertools
import os
import random
from collections import Counter

from .cases import ALL_MEMORY, SHORT, Case, cases_of
from .known import ANY, KNOWN_FAULTS, KNOWN_WORDS
from .runs import Result, limit_memory, run
from .scenarios import FEW, LIMITED, SEARCHES
from .strace import LIMIT, Call, Tracer
from .verdicts import GOOD, has_right_words, is_answer, is_in_order, new_messages, verdict, verdict_of_two

STEP = 16 << 10  # bytes between two limits of memory
COARSE = 64 << 10  # as long as the C library's loader fails
PAIRS = 100  # of calls of a search that fail in one run


def is_known_alone(case):
    """Whether this fault alone is known to make a search go wrong."""
    return any(it.names(case, it.kind) and it.search != ANY for it in KNOWN_FAULTS)


def offsets_of(calls):
    """Where in the output each write begins."""
    offsets, offset = {}, 0
    for call in calls:
        offsets[call] = offset
        if call.name == "write" and call.descriptor == 1:
            offset += int(call.words.rsplit(",", 1)[1])
    return offsets


class Sweep:
    """Counts by the names of calls, and lists what is wrong."""

    def __init__(self, program, room, folder):
        self.program, self.room, self.tracer = program, room, Tracer(folder)
        self.rows, self.wrong, self.seen = {}, [], set()

    def traced(self, search, run):
        with open(os.path.join(self.room, search.stdin), "rb") as stdin:
            return run([self.program, *search.words], self.room, stdin=stdin)

    def first_run(self, search):
        """The calls of a search without a fault, whose output has to be right, and that output."""
        result, calls = self.traced(search, self.tracer.list)
        is_whole = len(result.printed) == len(search.answer) and is_in_order([it for _, it in search.pieces], result.printed)
        if not is_whole or not is_answer(Case(search, Call("none", 0, "", True), ""), result, result.printed):
            self.wrong.append(f"{search.name}: without a fault {result.text()}")
        return calls, result.printed

    def known(self, entries, *found):
        """Whether it is one of the known entries, which is noted."""
        entry = next((it for it in entries if it.names(*found)), None)
        self.seen.add(entry)
        return entry is not None

    def record_words(self, case, result, row):
        for message in new_messages(case.search, result.said):
            if has_right_words(case, message):
                continue
            row["words"] += 1
            if not self.known(KNOWN_WORDS, case, message):
                self.wrong.append(f"{case.name}: in other words than the system's: {message}")

    def record(self, case, kind, result):
        row = self.rows.setdefault(case.call.name, Counter())
        row["runs"] += 1
        if kind in GOOD:
            row[kind] += 1
        elif self.known(KNOWN_FAULTS, case, kind):
            row["known"] += 1
        else:
            row["wrong"] += 1
            self.wrong.append(f"{case.name}: {kind}: {result.text()}")
        if kind != "loader":
            self.record_words(case, result, row)

    def try_case(self, case, calls, answer, offset):
        result, has_failed = self.traced(case.search, lambda *words, **streams: self.tracer.run(case.injections(calls), *words, **streams))
        if not has_failed:
            self.wrong.append(f"{case.name}: the call wasn't made")
            return
        self.record(case, verdict(case, result, answer, offset, self.room), result)

    def try_search(self, search, with_loader, step):
        """Tries each step-th fault of its calls."""
        calls, answer = self.first_run(search)
        offsets = offsets_of(calls)
        for case in itertools.islice(cases_of(search, calls, with_loader), 0, None, step):
            self.try_case(case, calls, answer, offsets[case.call])

    def try_pairs(self, search, number):
        """Makes two calls of different names fail in one run, so many times."""
        calls, answer = self.first_run(search)
        cases = [it for it in cases_of(search, calls, False) if it.fault not in (*SHORT, ALL_MEMORY) and not is_known_alone(it)]
        pick = random.Random(search.name)
        for _ in range(number):
            pair = pick.sample(cases, 2)
            if pair[0].call.name == pair[1].call.name:
                continue
            faults = [fault for it in pair for fault in it.injections(calls)]
            result, _ = self.traced(search, lambda *words, it=faults, **streams: self.tracer.run(it, *words, **streams))
            self.record_pair(pair, verdict_of_two(pair, result, answer), result)

    def record_pair(self, pair, kind, result):
        row = self.rows.setdefault("two calls", Counter())
        row["runs"] += 1
        row[kind if kind in GOOD else "wrong"] += 1
        if kind not in GOOD:
            self.wrong.append(f"{pair[0].name} and {pair[1].name}: {kind}: {result.text()}")

    def try_limits(self, search, step):
        """Runs a search under limits of memory, from one too small for the loader up to one under which several runs in turn succeed."""
        limit, enough, is_loaded = 2 << 20, 0, False
        while enough < 20:
            limit += step if is_loaded else COARSE
            case = Case(search, Call(LIMIT, limit, "", is_loaded), ALL_MEMORY)
            result = run([self.program, *search.words], self.room, preexec_fn=limit_memory(limit))
            kind = verdict(case, result, search.answer, 0, self.room)
            is_loaded = is_loaded or kind != "loader"
            enough = enough + 1 if kind == "answer" else 0
            self.record(case, kind, result)

    def check_known(self, entries):
        for entry in entries:
            if entry not in self.seen and getattr(entry, "is_always", True):
                self.wrong.append(f"{entry}: it is right now, so its entry has to go")

    def try_all(self, is_few):
        """With few, some searches. The loader's calls are the same in all of them."""
        for search in SEARCHES:
            if not is_few or search.name in FEW:
                self.try_search(search, search is SEARCHES[0], 2 if is_few else 1)
                self.try_pairs(search, PAIRS // 10 if is_few else PAIRS)
        for search in LIMITED[:1] if is_few else LIMITED:
            self.try_limits(search, STEP * 4 if is_few else STEP)
        if not is_few:
            self.check_known([*KNOWN_FAULTS, *KNOWN_WORDS])


# results that can't be right, and what has to be found in them, so that no change of this module makes it blind
LINES = next(it for it in SEARCHES if it.name == "two files")
READ = Case(LINES, Call("read", 2, "3</room/b.log>", True), "EIO")
WRITE = Case(LINES, Call("write", 1, "1</room/out>", True), "ENOSPC")
SAID = b"hirgrep: b.log: Input/output error\n"
BLIND = [
    (READ, Result(0, LINES.pieces[0][1]), "wrong status"),
    (READ, Result(1), "wrong status"),
    (READ, Result(-11), "wrong status"),
    (READ, Result(None), "it didn't end"),
    (READ, Result(2, LINES.pieces[0][1]), "wrong messages"),
    (READ, Result(2, LINES.pieces[0][1], SAID + SAID), "wrong messages"),
    (READ, Result(2, LINES.pieces[0][1], SAID[:-1]), "wrong messages"),
    (READ, Result(2, LINES.pieces[1][1], SAID), "wrong output"),
    (READ, Result(2, LINES.answer[:-1], SAID), "wrong output"),
    (READ, Result(2, LINES.answer + b"b.log:ab\n", SAID), "wrong output"),
    (READ, Result(2, LINES.pieces[0][1], SAID), "reported"),
    (READ, Result(0, LINES.answer), "answer"),
    (WRITE, Result(2, LINES.answer[1:], SAID), "wrong output"),
    (WRITE, Result(2, LINES.answer[:5], SAID), "reported"),
]


def blind():
    """Which of these results aren't judged as they have to be."""
    for case, result, wanted in BLIND:
        found = verdict(case, result, LINES.answer, 0, "/room")
        if found != wanted:
            yield f"{case.name}: {result.text()} is taken for `{found}`, and not for `{wanted}`"
