"""GREP_COLORS and GREP_COLOR: given and random texts for the variables, with random options and patterns. hirgrep is compared with the
definition (report.py), and both with GNU grep."""

import random
from dataclasses import replace

from .compare import SMALL, grep_words, is_usable, without_known, words_of
from .known import GREP, Case
from .options import COLOR, OPTIONS, PATTERNS
from .report import report

SEED = 20261128
GIVEN = (
    "", "sl=1:cx=2", "cx=2:rv", "sl=1:cx=2:rv", "ms=4:mc=5", "mt=7", "mt=", "ms=", "mc=", "mt=:sl=3", "fn=1:ln=2:bn=3:se=4", "fn=:ln=:bn=:se=", "ne", "rv", "mt",
    "ne:sl=1:cx=2:mt=7", "ms=1:mt", "mc=3:mt", "sl=1:zz=3:cx=4", "sl=1:=3:cx=4", "sl=1:cx=x:ms=3", "sl=1:cx:ms=3", "sl=01;32:cx=33;", "sl=1:ms=3=4:cx=2", "ne=x:sl=1",
    "ne=1:rv=", "xx", "sl==:cx=2", ":sl=2:", " sl=2:cx=3", "cx=1:sl= 2:fn=9", "mt=1:ms=2", "ms=2:mt=1:mc=3",
)
PARTS = ("sl", "cx", "mt", "ms", "mc", "fn", "ln", "bn", "se", "rv", "ne", "=", "=", "=", ":", ":", ":", "1", "2", "01;31", ";", "x", " ", "zz")
OLD = ("", "", "", "", "4", "01;32", "x", ";")
LEFT_OUT = ("-q", "-f patterns_none", "-m0", "-F", "-s", "-r", "-R", "-d recurse", "-d skip", "-D skip", "-a", "-U", "--line-buffered", "--color", "--color=never", "-y", "--no-ignore-case")


def random_text(pick):
    return "".join(pick.choice(PARTS) for _ in range(pick.randrange(1, 14)))


def random_case(pick, options):
    """A case in which GNU grep does the same, or None."""
    case = Case((*pick.sample(options, pick.randrange(4)), COLOR), pick.choice(PATTERNS), SMALL)
    case = without_known(GREP, case) if is_usable(case) else None
    if not case or not case.files:
        return None
    return without_known(GREP, Case(case.options, case.pattern, tuple(pick.sample(case.files, min(4, len(case.files))))))


def compare_colors(program, run, complain, tools, most):
    """run also takes variables. Each given text is tried `most` times, and so many random ones."""
    pick = random.Random(SEED)
    options = [it for it in OPTIONS if it.name not in LEFT_OUT]
    texts = [*(it for it in GIVEN for _ in range(most)), *(random_text(pick) for _ in range(40 * most))]
    for text in texts:
        case, old = random_case(pick, options), pick.choice(OLD)
        if not case:
            continue
        env = {"GREP_COLORS": text, "GREP_COLOR": old}
        asked = replace(case.asked(), colors=text.encode(), old_color=old.encode())
        words = words_of(case)
        ours, defined = run([program, *words], env)[:2], report(asked, case.data())
        if ours != defined:
            complain([f"GREP_COLORS={text} GREP_COLOR={old}", *words], "hirgrep and the definition differ")
        if "grep" in tools and run(grep_words(case), env)[:2] != defined:
            complain([f"GREP_COLORS={text} GREP_COLOR={old}", *words], "GNU grep and the definition differ")
