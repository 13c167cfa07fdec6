"""Runs hirgrep with every option and every pair of options over the small files, and compares it with GNU grep. With --crlf, which GNU
grep doesn't have, it is compared with the definition (report.py). The definition itself is compared with GNU grep, and with ripgrep where
that has the same --crlf."""

import itertools
import os
import random
import re

from . import crlf_rows, syntax
from .files import FILES, LARGE, PATTERN_FILES
from .known import GREP, RIPGREP, Case
from .options import CRLF, CRLF_FILES, OPTIONS, PATTERNS, line_choices, pairs
from .report import report

SEED = 20261130
RIPGREP_WORDS = ("rg", "--no-config", "--text", "--threads=1", "--encoding=none")
SMALL = tuple(it for it in FILES if it not in LARGE)


def words_of(case, words_of_option=lambda it: it.words):
    """The pattern comes first: of several ones the order counts."""
    words = ["-e", case.pattern.text, *itertools.chain.from_iterable(map(words_of_option, case.options))]
    return [*words, "--", *case.files] if case.files else words


def grep_words(case):
    return ["grep", "-a", "-F" if case.has("-F") else case.pattern.syntax, *words_of(case)]


def is_usable(case):
    """GNU grep takes one pattern with -P, and no -F."""
    return case.pattern.syntax == "-E" or not (case.has("-F", "-f patterns_none") or len(case.asked().patterns) > 1)


def without(case, names):
    return Case(case.options, case.pattern, tuple(it for it in case.files if it not in names))


def without_known(table, case):
    """The case over the files of which it isn't known that they differ."""
    each = [Case(case.options, case.pattern, (it,)) for it in case.files]
    return without(case, {it.files[0] for it in each if any(differs(it) for differs in table)})


def cases(options, added, names, most):
    """Each pair of options with each pattern, or with so many of them."""
    pick = random.Random(SEED)
    for chosen in pairs(options):
        for pattern in PATTERNS if most is None else pick.sample(PATTERNS, most):
            yield Case((*chosen, *added), pattern, names)


def one_ending(result):
    """The result with each line ended by a line feed alone."""
    return result[0], result[1].replace(b"\r\n", b"\n")


# the options on lines in different words
LINE_WORDS = [
    (["-nM12"], ["-n", "--max-columns", "12"]),
    (["-M", "4", "-2"], ["--max-columns=4", "-C2"]),
    (["-1M4"], ["-C1", "-M4"]),
    (["-M4", "-M", "0"], []),
    (["--passthrough"], ["--passthru"]),
    (["--vimgrep", "-n", "--column"], ["--vimgrep"]),
    (["--vimgrep", "-c"], ["-H", "-c"]),
    (["-p"], ["--color=always", "--heading", "-n"]),
    (["-p", "--color=never"], ["--heading", "-n"]),
    (["-p", "--no-heading"], ["--color=always", "-n"]),
    (["--no-heading", "-p"], ["--color=always", "-n"]),
    (["--heading", "--no-heading"], []),
    (["--heading", "--vimgrep"], ["--vimgrep"]),
    (["--heading", "-c"], ["-c"]),
    (["--heading", "-l"], ["-l"]),
    (["-c", "--count-matches", "-v"], ["-c", "-v"]),
    (["--count-matches", "-c"], ["-c"]),
    (["-c", "--count-matches"], ["--count-matches"]),
    (["--count-matches", "-o"], ["--count-matches"]),
    (["--count-matches", "-l"], ["-l"]),
    (["--count-matches", "-q"], ["-q"]),
    (["-N", "-n"], ["-n"]),
    (["-n", "-N"], []),
    (["--line-number", "--no-line-number"], []),
    (["--vimgrep", "-N", "--no-column"], ["--vimgrep", "--no-column", "--no-line-number"]),
    (["--no-column", "--column"], ["--column"]),
    (["--column", "--no-column"], []),
    (["--passthru", "-C1"], ["-C1"]),
    (["-C1", "--passthru"], ["--passthru"]),
    (["--passthru", "-A1"], ["-A1"]),
    (["-B1", "--passthru", "-n"], ["--passthru", "-n"]),
    (["--passthru", "-1"], ["-1"]),
    (["--include-zero", "-c"], ["-c"]),
    (["--max-columns-preview"], []),
    (["--max-columns-preview", "-M", "9999"], []),
    (["--field-match-separator", ":", "-n"], ["-n"]),
    (["--field-match-separator", r"\x3a", "-n"], ["-n"]),
    (["--field-match-separator", "X", "-c"], ["-c"]),
    (["--field-context-separator", "-", "-C1", "-n"], ["-C1", "-n"]),
    (["--path-separator", "/", "-H"], ["-H"]),
    (["--color=none"], ["--color=never"]),
    (["--color=no"], ["--color=never"]),
    (["--color=yes"], ["--color=always"]),
    (["--color=force"], ["--color=always"]),
    (["--color=tty"], ["--color=auto"]),
    (["--color=if-tty"], ["--color=auto"]),
]


def line_cases(is_for_ripgrep, most):
    """Choices of options on lines, each with one pattern. If `most` isn't None, so many of them are picked."""
    pick = random.Random(SEED)
    choices = line_choices(is_for_ripgrep)
    for chosen in choices if most is None else pick.sample(choices, most):
        yield Case(chosen, pick.choice(PATTERNS), SMALL)


def marked_matches(result):
    """The result with `<` and `>` around matches that are marked, instead of what marks them and all else for a terminal."""
    printed = re.sub(rb"\x1b\[0m\x1b\[1m\x1b\[31m(.*?)\x1b\[0m", rb"<\1>", result[1])
    printed = re.sub(rb"\x1b\[01;31m\x1b\[K(.*?)\x1b\[m\x1b\[K", rb"<\1>", printed)
    return result[0], re.sub(rb"\x1b\[[0-9;]*[mK]", b"", printed).replace(b"><", b"")


class Comparison:
    """run returns the status and the output for some words and an input; complain prints what is wrong with words."""

    def __init__(self, program, run, complain):
        self.program, self.run, self.complain = program, run, complain

    def check(self, words, first, second):
        """Both are who says so, and a result."""
        if first[1] == second[1]:
            return
        rows = itertools.zip_longest(*(it[1][1].split(b"\n") for it in (first, second)))
        row = next((it for it in rows if it[0] != it[1]), "no line")
        self.complain(words, f"status {first[1][0]} by {first[0]}, {second[1][0]} by {second[0]}; the lines that differ: {row}")

    def check_grep(self, case, given=b""):
        words = words_of(case)
        self.check(words, ("hirgrep", self.run([self.program, *words], given)), ("GNU grep", self.run(grep_words(case), given)))

    def compare_with_grep(self, most):
        for case in filter(is_usable, cases(OPTIONS, (), tuple(FILES), most)):
            self.check_grep(without_known(GREP, case))

    def compare_inputs(self, most):
        """Each option over standard input, and with a file that isn't there."""
        pick = random.Random(SEED)
        alone = [it for it in cases(OPTIONS, (), (), most) if len(it.options) < 2 and is_usable(it)]
        for case in alone:
            self.check_grep(Case(case.options, case.pattern, ("words", "missing", "gaps")))
            name = pick.choice(SMALL)
            known = without_known(GREP, Case(case.options, case.pattern, (name,)))
            if known.files and not case.has("-r", "-R", "-d recurse"):
                self.check_grep(case, FILES[name])

    def compare_definition(self, most):
        for case in filter(is_usable, cases(OPTIONS, (), SMALL, most)):
            case = without_known(GREP, case)
            if not case.files:
                continue
            self.check(words_of(case), ("the definition", report(case.asked(), case.data())), ("GNU grep", self.run(grep_words(case), b"")))

    def compare_crlf(self, most):
        for case in cases(OPTIONS + CRLF_FILES, (CRLF,), SMALL, most):
            words = words_of(case)
            self.check(words, ("hirgrep", self.run([self.program, *words], b"")), ("the definition", report(case.asked(), case.data())))

    def compare_definition_with_ripgrep(self, most):
        options = [it for it in OPTIONS + CRLF_FILES if it.ripgrep]
        for case in cases(options, (CRLF,), SMALL, most):
            case = without_known(RIPGREP, case)
            if case.files:
                words = [*RIPGREP_WORDS, *words_of(case, lambda it: it.ripgrep)]
                ours = one_ending(report(case.asked(), case.data()))
                self.check(words, ("the definition", ours), ("ripgrep", one_ending(self.run(words, b""))))

    def compare_lines(self, most):
        for case in line_cases(False, most):
            words = words_of(case)
            self.check(words, ("hirgrep", self.run([self.program, *words], b"")), ("the definition", report(case.asked(), case.data())))

    def check_line_words(self):
        """The options on lines in other words, and values that aren't read."""
        for words, others in LINE_WORDS:
            first, second = (self.run([self.program, *it, "-e", "a", "words", "signs"], b"") for it in (words, others))
            self.check(words, (f"hirgrep {' '.join(words)}", first), (f"hirgrep {' '.join(others)}", second))
        for words in (["-M"], ["-Mx"], ["--max-columns=-1"], ["--max-columns=18446744073709551616"], ["--column=1"], ["--trim=x"]):
            self.check(words, ("hirgrep", self.run([self.program, "-e", "a", "words", *words], b"")), ("hand", (2, b"")))

    def compare_lines_with_ripgrep(self, most):
        for case in line_cases(True, most):
            case = without_known(RIPGREP, case)
            if case.files:
                words = [*RIPGREP_WORDS, *words_of(case, lambda it: it.ripgrep)]
                ours = marked_matches(one_ending(report(case.asked(), case.data())))
                self.check(words, ("the definition", ours), ("ripgrep", marked_matches(one_ending(self.run(words, b"")))))

    def check_rows(self):
        for words, status, printed, _ in crlf_rows.ROWS:
            words = ["--crlf", *words]
            self.check(words, ("hirgrep", self.run([self.program, *words], b"")), ("hand", (status, printed)))

    def compare_rows_with_ripgrep(self):
        for words, status, printed, note in crlf_rows.ROWS:
            words = [*RIPGREP_WORDS, "--crlf", "--include-zero", *words]
            wanted, got = one_ending((status, printed)), one_ending(self.run(words, b""))
            if (wanted == got) != (note == crlf_rows.ALIKE):
                self.complain(words, f"ripgrep has {got}, by hand {wanted}, and the row says: {note}")

    def check_syntax(self, has_grep):
        """Patterns that GNU grep reads otherwise: its result must differ from what is wanted here."""
        cases = [(mode, it, None) for mode, patterns in syntax.REJECTED.items() for it in patterns] + syntax.OTHER
        for mode, pattern, lines in cases:
            ours = self.run([self.program, "-e", pattern, "syntax"], b"")
            printed = "".join(f"{it}\n" for it in lines or ()).encode()
            wanted = (2, b"") if lines is None else (0 if lines else 1, printed)
            self.check([pattern], ("hirgrep", ours), ("hand", wanted))
            if has_grep and self.run(["grep", "-a", mode, "-e", pattern, "syntax"], b"") == wanted:
                self.complain([pattern], f"GNU grep does the same with {mode}")


def write_all(folder, files):
    os.mkdir(folder)
    for name, data in files.items():
        with open(os.path.join(folder, name), "wb") as file:
            file.write(data)


def compare_options(program, room, run, complain, tools, is_all):
    """tools are those of grep and rg that are installed; run also takes the folder to run in."""
    options, returns = os.path.join(room, "options"), os.path.join(room, "returns")
    write_all(options, {**FILES, **PATTERN_FILES})
    write_all(returns, {**crlf_rows.FILES, "syntax": "".join(f"{it}\n" for it in syntax.LINES).encode()})
    in_options = Comparison(program, lambda words, given: run(words, options, given)[:2], complain)
    in_returns = Comparison(program, lambda words, given: run(words, returns, given)[:2], complain)
    in_returns.check_rows()
    in_returns.check_syntax("grep" in tools)
    in_options.compare_crlf(None if is_all else 1)
    in_options.compare_lines(None if is_all else 600)
    in_options.check_line_words()
    if "grep" in tools:
        in_options.compare_with_grep(None if is_all else 2)
        in_options.compare_inputs(3)
        in_options.compare_definition(None if is_all else 1)
    if "rg" in tools:
        in_returns.compare_rows_with_ripgrep()
        in_options.compare_definition_with_ripgrep(None if is_all else 1)
        in_options.compare_lines_with_ripgrep(None if is_all else 600)
