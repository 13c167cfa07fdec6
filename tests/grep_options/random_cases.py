"""Random command lines over random files: hirgrep and GNU grep, ripgrep and the definition (report.py) have to print the same. Each case is
made of a seed and its number alone. known.py says which cases differ for a reason; its names of files stand for kinds of content here."""

import os
import random
from dataclasses import dataclass, field

from .compare import RIPGREP_WORDS, is_usable, one_ending, words_of
from .files import PATTERN_FILES
from .known import BROKEN, GREP, RIPGREP, Case
from .options import CRLF, CRLF_FILES, OPTIONS, asked_of
from .random_patterns import random_pattern
from .random_words import random_words
from .report import report

PLAIN = ["a", "b", "ab", "x", "_", "1", "-", " ", ".", "A", "word", "ERROR", "B", "\t"]
TOKENS = {
    "words": PLAIN,
    "letters": [*PLAIN, "ä", "É", "щ", "€", "ß", "\U0001f600"],
    "broken": [*PLAIN, "ä", "\udcff", "\udcc3", "\udc80", "\udce2\udc9c"],
    "zeros": [*PLAIN, "\0"],
    "crlf_all": PLAIN,
    "cr_lone": [*PLAIN, "\r"],
}
BLOCK = 4096
LARGEST = 20_000  # bytes of a file that the definition is asked about
MISSING = "missing"
INPUT = "(standard input)"
TIMES = (0, 0, 1, 1, 1, 2, 2, 3, 4)  # how many options


@dataclass(frozen=True)
class RandomCase(Case):
    contents: dict = field(default_factory=dict, compare=False)
    words: tuple = ()
    is_input: bool = False  # the content is standard input

    def data(self):
        return {INPUT if self.is_input else name: data for name, data in self.contents.items()}

    def reads(self, names):
        return not names.isdisjoint(self.contents)

    def asked(self):
        """The patterns of -e come before those of -f, as in ripgrep. It shows only where several match at an offset."""
        return asked_of(self.pattern, sorted(self.options, key=lambda it: it.name.startswith("-f")))


def random_line(pick, tokens):
    length = pick.choice((0, 1, 1, 2, 3, 3, 4, 6, 8, 12)) if pick.random() < 0.98 else 2000
    return "".join(pick.choice(tokens) for _ in range(length))


def random_content(pick, kind):
    """Some lines, at times so many that they fill a block almost or just about."""
    lines = [random_line(pick, TOKENS[kind]) for _ in range(pick.choice((0, 1, 1, 2, 3, 4, 6, 10, 40)))]
    ending = "\r\n" if kind == "crlf_all" else "\n"
    text = ending.join(lines) + (ending if lines and pick.random() < 0.7 else "")
    if pick.random() < 0.05:
        fill = f"zz{ending}" * (BLOCK // (2 + len(ending)) - 1)
        text = fill + "z" * (BLOCK - len(fill) - len(ending) + pick.randrange(-4, 5)) + ending + text
    return text.encode("utf-8", "surrogateescape")


# with no file the folder would be searched, and the definition knows one name of standard input
NOT_OF_INPUT = ("-r", "-R", "-d recurse", "--label=a name")


def random_options(pick):
    options = pick.sample(OPTIONS, pick.choice(TIMES))
    if pick.random() < 0.15:
        options += [CRLF, *pick.sample(CRLF_FILES, pick.choice((0, 0, 0, 1)))]
        pick.shuffle(options)
    return tuple(options)


def random_files(pick, kinds):
    """The operands: the files, at times with one that is missing; or none or `-`, for standard input."""
    chance = pick.random()
    if len(kinds) == 1 and chance < 0.15:
        return pick.choice(((), ("-",)))
    return (*kinds, MISSING) if chance > 0.98 else tuple(kinds)


def random_case(seed, number):
    pick = random.Random(f"{seed} {number}")
    kinds = pick.sample(list(TOKENS), pick.choice((1, 1, 1, 2, 3)))
    contents = {it: random_content(pick, it) for it in kinds}
    files = random_files(pick, kinds)
    is_input = files in ((), ("-",))
    options, pattern = random_options(pick), random_pattern(pick)
    if is_input:
        options = tuple(it for it in options if it.name not in NOT_OF_INPUT)
    words = random_words(pick, pattern.text, [it.words for it in options], files)
    return RandomCase(options, pattern, files, contents, tuple(words), is_input)


def prints_spans(case):
    return case.has("-o", "--color=always")


def is_like_grep(case):
    """Whether GNU grep does the same: where it prints matches, also only if there is one way to match, since it takes the longest. With -w it
    finds an empty match within a character of several bytes: `A?` in `a€a`."""
    if case.has("--crlf") or not is_usable(case) or any(differs(case) for differs in GREP):
        return False
    if case.has("-w") and case.may_be_empty():
        return False
    if prints_spans(case) and case.pattern.syntax == "-E":
        return len(case.asked().patterns) == 1 and (case.pattern.ways < 2 or case.has("-F"))
    return True


def is_like_ripgrep(case):
    """Whether ripgrep does the same. Its engine misses matches with `\\B`, and with -o those of assertions that come after others."""
    if not all(it.ripgrep for it in case.options) or any(differs(case) for differs in RIPGREP) or "\\B" in case.pattern.text:
        return False
    if case.is_input and case.has("-H", "-l"):  # it has another name for standard input
        return False
    return not (case.has("-o") and case.pattern.has_look)


def is_defined(case):
    """Whether the definition can be asked: in Python `\\B` doesn't hold in an empty line, and a byte that isn't UTF-8 is no word."""
    text = case.pattern.text
    if "\\B" in text or "\\b" in text and case.reads(BROKEN):
        return False
    return MISSING not in case.files and all(len(it) <= LARGEST for it in case.contents.values())


def grep_words(case):
    return ["grep", "-a", "-F" if case.has("-F") else case.pattern.syntax, *case.words]


def ripgrep_words(case):
    return [*RIPGREP_WORDS, *words_of(case, lambda it: it.ripgrep)]


class RandomRuns:
    """Runs cases in a folder. run returns the status and the output of some words and a file for standard input; tools are those of grep and
    rg that are installed."""

    def __init__(self, program, folder, run, tools):
        self.program, self.folder, self.run, self.tools = program, folder, run, tools
        for name, data in PATTERN_FILES.items():
            self.write(name, data)

    def write(self, name, data):
        with open(os.path.join(self.folder, name), "wb") as file:
            file.write(data)

    def result(self, case, words):
        return self.run(words, os.path.join(self.folder, *case.contents) if case.is_input else os.devnull)

    def others(self, case):
        """What the others print, by their names. Under --crlf ripgrep ends its own lines by a carriage return and a line feed."""
        if "grep" in self.tools and is_like_grep(case):
            yield "GNU grep", self.result(case, grep_words(case))
        if "rg" in self.tools and is_like_ripgrep(case):
            yield "ripgrep", self.result(case, ripgrep_words(case))
        if is_defined(case):
            yield "the definition", report(case.asked(), case.data())

    def ours(self, case):
        return self.result(case, [self.program, *case.words])

    def differences(self, case):
        """Who else was asked, and the names of those who print something else."""
        for name, data in case.contents.items():
            self.write(name, data)
        ours = self.ours(case)
        theirs = dict(self.others(case))
        is_same = lambda name: one_ending(ours) == one_ending(theirs[name]) if name == "ripgrep" else ours == theirs[name]
        return list(theirs), [it for it in theirs if not is_same(it)]
