"""The options of hirgrep, what each asks for, and the patterns that tests/grep runs them with."""

import itertools
from dataclasses import dataclass, field, replace

from .report import Asked


@dataclass(frozen=True)
class Option:
    words: tuple
    effect: dict = field(default_factory=dict, hash=False, compare=False)
    ripgrep: tuple | None = None  # the same for ripgrep, where it has it

    @property
    def name(self):
        return " ".join(self.words)

    @property
    def is_context(self):
        return self.name[:2] in ("-A", "-B", "-C") or self.name == "--passthru"


def same(word, **effect):
    """An option that ripgrep has too."""
    return Option((word,), effect, (word,))


def own(*words, **effect):
    return Option(words, effect)


OPTIONS = [
    same("-i", ignore=True),
    same("-w", words=True),
    same("-x", whole=True),
    same("-F", fixed=True),
    same("-v", invert=True),
    same("-m1", most=1),
    same("-m2", most=2),
    own("-m0", most=0),
    own("-m-1", most=None),
    same("-n", numbers=True, no_numbers=False),
    same("-b", offsets=True),
    same("-H", names=True),
    Option(("-h",), {"names": False}, ("-I",)),
    Option(("-c",), {"count": True, "count_matches": False}, ("-c", "--include-zero")),
    same("-o", matches=True),
    same("-l", with_match=True, without=False),
    own("-L", without=True, with_match=False),
    same("-q", quiet=True),
    own("-A0", after=0, passthru=False),
    same("-A1", after=1, passthru=False),
    own("-A3", after=3, passthru=False),
    own("-B0", before=0, passthru=False),
    same("-B1", before=1, passthru=False),
    own("-B4", before=4, passthru=False),
    own("-C0", both=0, passthru=False),
    same("-C1", both=1, passthru=False),
    own("-C2", both=2, passthru=False),
    own("-1", both=1, passthru=False),
    own("--color=always", color=True),
    own("--color=never", color=False, plain=True),
    own("--color", color=False, plain=True),
    own("-s"),
    own("-r"),
    own("-R"),
    own("-d", "recurse"),
    own("-d", "skip"),
    own("-D", "skip"),
    own("-y", ignore=True),
    own("--no-ignore-case", ignore=False),
    own("-a"),
    own("-U"),
    own("--line-buffered"),
    own("--label=a name"),
    own("-Z", zero_names=True),
    own("-T", tab=True),
    own("--group-separator=a b", group=b"a b"),
    own("--group-separator=", group=b""),
    own("--no-group-separator", group=None),
    same("-ex", patterns=("x",)),
    own("-f", "patterns", patterns=("ab", "x")),
    own("-f", "patterns_open", patterns=("ab", "x")),
    own("-f", "patterns_empty", patterns=("",)),
    own("-f", "patterns_none"),
]
# how lines are printed, as ripgrep does it
LINE_OPTIONS = [
    same("--column", columns=True, no_columns=False),
    same("--no-column", columns=False, no_columns=True),
    same("-N", numbers=False, no_numbers=True),
    same("--vimgrep", each=True),
    same("--trim", trim=True),
    same("-M1", most_bytes=1),
    same("-M4", most_bytes=4),
    Option(("--max-columns", "12"), {"most_bytes": 12}, ("-M12",)),
    same("-M0", most_bytes=None),
    same("--max-columns-preview", preview=True),
    same(r"--field-match-separator=a\t\x7c", match_separator=b"a\t|"),
    same("--field-context-separator=", context_separator=b""),
    same("--passthru", passthru=True, before=None, after=None, both=None),
    Option(("--count-matches",), {"count_matches": True, "count": False}, ("--count-matches", "--include-zero")),
    same("--heading", heading=True, no_heading=False),
    same("--no-heading", heading=False, no_heading=True),
    same("-p", pretty=True),
]
COLOR = same("--color=always", color=True)
CRLF = same("--crlf", crlf=True)
CRLF_FILES = [
    own("-f", "patterns_crlf", patterns=("ab", "x")),
    own("-f", "patterns_cr", patterns=("ab\r", "x\r")),
]


@dataclass(frozen=True)
class Pattern:
    """In the syntax of hirgrep, which GNU grep reads alike with -E or with -P, and Python too unless it is said otherwise."""

    text: str
    syntax: str = "-E"
    begins_and_ends_words: bool = False  # each match begins and ends with a character of words
    may_be_empty: bool = False


WHOLE_WORDS = "ab a x ^a b$ a|x ab$|^x ^(ab|x)$ (ab)+ a{1,2}b (a|b)b [ab]+ x?ab ä É щ_1|μ \\w+ [0-9]+ \\bab\\b ab\\b"
OTHERS = "- a. .b . [^a] [^ab]+ b[^a] \\W \\. \\s \\Ba -|a €. a.* \\$|\\^"
WORDS = [Pattern(it, begins_and_ends_words=True) for it in WHOLE_WORDS.split()]
SIGNS = [Pattern(it) for it in [*OTHERS.split(), " ab?"]]
EMPTY = [Pattern(it, begins_and_ends_words=True, may_be_empty=True) for it in ("", "^", "$", "^$", "x*", "(ab)*", "a?", "ab|")]
ANY = [Pattern(it, may_be_empty=True) for it in (".*", "^.*$", "-?", "\\W*")]
PERL = [Pattern(it, "-P") for it in ("\\d+", "(?i:AB)", "a.+?b", "(?:ab|x)$", "a\\x62", "\\Aab", "\\S+\\s\\S", "a{2,}?|b")]
PATTERNS = WORDS + SIGNS + EMPTY + ANY + PERL


def asked_of(pattern, options):
    """What the options ask for, in their order."""
    asked = Asked(patterns=(pattern.text,))
    for option in options:
        effect = dict(option.effect)
        effect["patterns"] = asked.patterns + effect.get("patterns", ())
        asked = replace(asked, **effect)
    return asked


USUAL = "-v -o -n -H -h -c -l -b -m1 -A1 -B1 -C1 -Z -T --color=always".split()


def line_choices(is_for_ripgrep):
    """Each option on lines and each two of them, alone, with each other option and with two of the usual ones."""
    others = [*OPTIONS, CRLF]
    if is_for_ripgrep:
        others = [COLOR, *(it for it in others if it.ripgrep)]
    lines = [*((it,) for it in LINE_OPTIONS), *itertools.combinations(LINE_OPTIONS, 2)]
    usual = itertools.combinations([it for it in others if it.name in USUAL], 2)
    return [(*some, *more) for some, more in itertools.product(lines, [(), *((it,) for it in others), *usual])]


def pairs(options):
    """No option, each one, and each two of them; in both orders where the later one may count."""
    each_two = list(itertools.combinations(options, 2))
    turned = [(b, a) for a, b in each_two if a.effect.keys() & b.effect.keys()]
    return [(), *((it,) for it in options), *each_two, *turned]
