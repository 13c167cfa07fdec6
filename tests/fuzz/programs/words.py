"""Command lines and small files for the fuzz of hirgrep: seeds from tests/grep, and changes of them."""

import os
import sys
from dataclasses import dataclass, replace

TOP = os.path.dirname(os.path.dirname(os.path.dirname(os.path.dirname(os.path.realpath(__file__)))))
sys.path.insert(0, os.path.join(TOP, "tests"))

from grep_options.options import OPTIONS, PATTERNS
from grep_options.random_cases import random_case

FLAGS = "acEFGhHiIlLnoPqrRsUvVwxybz"
LONG = """--regexp --file --directory --extended-regexp --perl-regexp --fixed-strings --basic-regexp --ignore-case --no-ignore-case
--word-regexp --line-regexp --invert-match --count --only-matching --no-messages --line-number --byte-offset --quiet --silent --recursive
--dereference-recursive --directories --devices --with-filename --no-filename --files-with-matches --files-without-match --max-count
--after-context --before-context --context --text --binary --line-buffered --color --colour --label --crlf --stats --help --version""".split()
VALUED = ("-e", "-f", "-d", "-D", "-m", "-A", "-B", "-C")
VALUES = ("0", "1", "2", "-1", "+3", "007", "", " 1", "1x", "18446744073709551615", "18446744073709551616", "9" * 40, "skip", "read", "recurse",
          "always", "never", "auto", "a name", "-", "first", "second", "missing", "folder", "patterns", "ab\nx", "\n")
PIECES = ("ab", "a", "(", ")", "[", "]", "[^", "a-z", "|", "*", "+", "?", "{2}", "{1,3}", "{1000}", "^", "$", ".", "\\b", "\\B", "\\w", "\\pL", "\\", "(?i)",
          "(?-u)", "(?x)", "(?m)", "(?:", "\n", "\r", "ä", "\udcff", "\udcc3", "\\xff", "(a*)*", "\\b{start}", "[[:alpha:]]", "&&", "~~", "--", "-", "=")
CONTENT = (b"ab", b"\n", b"\r\n", b"\0", b"\xff", b"\xc3", "äß€".encode(), b"a word of ab\n", b"\x1b[31m", b"x" * 70, b"-", b"ab" * 3000, b"\n" * 50)
OPERANDS = ("first", "second", "missing", "folder", ".", "-", "./first", "first", "second")
SAFE = {"./first", "folder/inner", "./-"}
MOST_WORDS = 24
LONGEST = 3000


@dataclass(frozen=True)
class Line:
    """A command line: its words, and the bytes of the files `first` and `second`, of a file of patterns, and of standard input."""

    words: tuple
    first: bytes = b"ab\nx ab\nword\n"
    second: bytes = b"no\nAB ab"
    patterns: bytes = b"ab\nx\n"
    given: bytes = b"ab\nno\n"


def is_safe(line):
    """Whether it searches nothing but the files that are made for it. No word names another folder or device."""
    words = [it for it in line.words if it not in SAFE]
    return not any("/" in it or ".." in it or "\0" in it or "~" in it for it in words) and len(line.words) <= MOST_WORDS


def seed_of_case(number):
    """A random command line of tests/grep, over its first file or standard input."""
    case = random_case("fuzz", number)
    contents = list(case.contents.values())
    names = dict(zip(case.contents, ("first", "second", "second")))
    words = tuple(names.get(it, it) for it in case.words)
    return Line(words, contents[0], contents[-1], given=contents[0])


def seeds(pick):
    for option in OPTIONS:
        yield Line((*option.words, "-e", pick.choice(PATTERNS).text, "first", "second"))
    for name in LONG:
        yield Line((name, "ab", "first"))
        yield Line((f"{name}=1", "ab", "first", "second"))
    for number in range(300):
        yield seed_of_case(number)
    yield Line(("--directory", "folder", "-r", "ab"))
    yield Line(("-R", "--color=always", "-nbH", "-C1", "ab", "folder", "first"))
    yield Line(("-f", "patterns", "-f", "-", "-c", "first", "second"))


def random_option(pick):
    kind = pick.random()
    if kind < 0.4:
        return ("-" + "".join(pick.choices(FLAGS, k=pick.choice((1, 1, 2, 3)))),)
    if kind < 0.55:
        return (pick.choice(LONG),)
    value = pick.choice(VALUES)
    if kind < 0.75:
        return (f"{pick.choice(LONG)}={value}",)
    name = pick.choice(VALUED)
    return (name, value) if kind < 0.9 else (name + value,)


def changed_text(pick, text, pieces):
    """A piece more or less, or one instead of some bytes."""
    at = pick.randrange(len(text) + 1)
    end = min(len(text), at + pick.choice((0, 0, 1, 2, 5)))
    piece = pick.choice(pieces) if pick.random() < 0.8 else text[:0]
    return text[:at] + piece + text[end:]


def changed_words(pick, words):
    words = list(words)
    at = pick.randrange(len(words) + 1)
    kind = pick.random()
    if kind < 0.3:
        words[at:at] = random_option(pick)
    elif kind < 0.4:
        words[at : at + 1] = []
    elif kind < 0.5:
        words.insert(at, pick.choice(OPERANDS))
    elif kind < 0.55:
        words.insert(at, "--")
    elif kind < 0.65 and words:
        words.insert(at, pick.choice(words))
    elif at < len(words):
        words[at] = changed_text(pick, words[at], PIECES)
    return tuple(words)


def changed(pick, line, other):
    """The line with one change to four. The other one is where words may come from."""
    for _ in range(pick.choice((1, 1, 2, 2, 3, 4))):
        kind = pick.random()
        if kind < 0.65:
            line = replace(line, words=changed_words(pick, line.words))
        elif kind < 0.7:
            at = pick.randrange(len(line.words) + 1)
            line = replace(line, words=line.words[:at] + other.words[at:])
        else:
            name = pick.choice(("first", "first", "second", "patterns", "given"))
            line = replace(line, **{name: changed_text(pick, getattr(line, name), CONTENT)[:LONGEST]})
    return line
