"""--replace: rows with what is printed, written by hand, and random patterns, templates, options and lines beside ripgrep 13."""

import os
import random

FILES = {
    "lines": b"ab=1\nno\nab=2 ab=3\n  ab=4\n",
    "broken": b"\xff ab\xfe\n",
    "returns": b"ab\r\nx\r\nab",
    "long": b"ab " * 400000 + b"\nab",
}
MARKED = b"\33[01;31m\33[K%s\33[m\33[K"
ROWS = [
    (("--replace=<$0>", "b=."), b"a<b=1>\na<b=2> a<b=3>\n  a<b=4>\n"),
    (("--replace=$2$1", "(b)=(.)"), b"a1b\na2b a3b\n  a4b\n"),
    (("--replace=$n-${n}-$m-$9", "(?P<n>b)=."), b"ab-b--\nab-b-- ab-b--\n  ab-b--\n"),
    (("--replace=$$1$$", "b=(.)"), b"a$1$\na$1$ a$1$\n  a$1$\n"),
    (("--replace=$1x", "b=(.)"), b"a\na a\n  a\n"),
    (("--replace=${1}x", "b=(.)"), b"a1x\na2x a3x\n  a4x\n"),
    (("--replace=", "b=."), b"a\na a\n  a\n"),
    (("--replace", "-", "=."), b"ab-\nab- ab-\n  ab-\n"),
    (("--replace=$", "="), b"ab$1\nab$2 ab$3\n  ab$4\n"),
    (("-o", "--replace=<$1>", "b=(.)"), b"<1>\n<2>\n<3>\n<4>\n"),
    # a replacement of an empty match, and an empty replacement
    (("--replace=-", "z*"), b"-a-b-=-1-\n-n-o-\n-a-b-=-2- -a-b-=-3-\n- - -a-b-=-4-\n"),
    (("-o", "--replace=$9", "=2"), b"\n"),
    # offsets and columns are those in the line that is printed
    (("-o", "-b", "--column", "-n", "--replace=<$0>", "=."), b"1:3:2:<=1>\n3:3:10:<=2>\n3:10:17:<=3>\n4:5:22:<=4>\n"),
    (("--column", "--replace=long", "a"), b"1:1:longb=1\n3:1:longb=2 longb=3\n4:3:  longb=4\n"),
    (("--vimgrep", "-h", "--replace=<$0>", "3|2"), b"3:4:ab=<2> ab=<3>\n3:11:ab=<2> ab=<3>\n"),
    (("-b", "--replace=x", "=."), b"0:abx\n8:abx abx\n18:  abx\n"),
    # a group is one of the pattern that matched
    (("-e", "(b)=1", "-e", "=(2)", "--replace=<$1>"), b"a<b>\nab<2> ab=3\n"),
    (("-e", "(?P<x>b)=1", "-e", "(a)(?P<x>b)=2", "--replace=<$x$2>"), b"a<b>\n<bb> ab=3\n"),
    (("-e", "(?P<x>b)=1", "-e", "(?P<y>a)b=2", "--replace=<$y>"), b"a<>\n<a> ab=3\n"),
    # which lines are printed, and how often, is as without it
    (("-c", "--replace=x", "ab"), b"3\n"),
    (("--count-matches", "--replace=x", "ab"), b"4\n"),
    (("-v", "--replace=x", "ab"), b"no\n"),
    (("-v", "-A1", "--replace=x", "ab"), b"no\nx=2 x=3\n"),
    (("-m1", "-A2", "--replace=x", "ab"), b"x=1\nno\nx=2 x=3\n"),
    (("-l", "--replace=x", "ab"), b"lines\n"),
    (("--trim", "--replace= x", "ab"), b"x=1\nx=2  x=3\nx=4\n"),
    (("-M6", "--replace=xxxx", "ab="), b"xxxx1\n[Omitted long line with 2 matches]\n[Omitted long line with 1 matches]\n"),
    (("-w", "--replace=x", "ab"), b"x=1\nx=2 x=3\n  x=4\n"),
    (("-x", "--replace=<$0>", "no"), b"<no>\n"),
    (("-F", "--replace=$1$0", "b="), b"ab=1\nab=2 ab=3\n  ab=4\n"),
    (("-i", "--replace=x", "NO"), b"x\n"),
    (("--passthru", "--replace=x", "no"), b"ab=1\nx\nab=2 ab=3\n  ab=4\n"),
    # the beginning of a line or match that is too long, and its matches that aren't in it
    (("-M6", "--max-columns-preview", "--replace=xxxx", "ab="), b"xxxx1\nxxxx2  [... 1 more match]\n  xxxx [... 0 more matches]\n"),
    (("-M4", "--max-columns-preview", "-o", "--replace=xxxxxx", "ab="), b"xxxx [... 0 more matches]\n" * 4),
    (("--vimgrep", "-h", "-M6", "--max-columns-preview", "--replace=yyyy", "2|3"), b"3:4:ab=yyy [... 1 more match]\n3:12:ab=yyy [... 1 more match]\n"),
    (("--field-match-separator=+", "-n", "--replace=y", "ab"), b"1+y=1\n3+y=2 y=3\n4+  y=4\n"),
    # loops whose body may match the empty string
    (("--replace=<$1>", "(a*)*b"), b"<a>=1\n<a>=2 <a>=3\n  <a>=4\n"),
    # colours: each replacement by itself, and no empty one
    (("--color=always", "--replace=x", "b="), b"a%b1\na%b2 a%b3\n  a%b4\n".replace(b"%b", MARKED % b"x")),
    (("--color=always", "--replace=", "b="), b"a1\na2 a3\n  a4\n"),
    (("--color=always", "--replace=<$0>", "no"), (MARKED % b"<no>") + b"\n"),
]
OTHERS = [
    (("--replace=<$0>", "ab", "broken"), b"\xff <ab>\xfe\n"),
    (("--replace=<$1>", "(?-u:(.))ab", "broken"), b"\xff< >\xfe\n"),
    (("--crlf", "--replace=<$0>", "b$", "returns"), b"a<b>\r\na<b>\n"),
    (("--crlf", "-o", "--replace=<$0>", "b$", "returns"), b"<b>\n<b>\n"),
    # a line of more than 1 MiB
    (("-o", "--replace=<$0>", "ab", "long"), b"<ab>\n" * 400001),
    (("--replace=<$0>", "ab", "long"), b"<ab> " * 400000 + b"\n<ab>\n"),
]
REFUSED = [(("--replace",), 2), (("ab", "lines", "--replace"), 2)]

PATTERNS = ["a", "(a)", "(?P<n>b)", "(a)(b)?", "x*", "b*", "(a|b)+", "^", "$", "a$", "(?P<m>[a-z])b", "", "(?P<n>x)(?P<m>a)?"]
TEMPLATES = ["", "-", "<$0>", "$1", "${1}x", "$1x", "$$1", "$n", "${n}$m", "$", "$$", "a$ b", "${", "$9", "[$2|$1]", "${n", "$-", "\\1", "+$+1", "long long"]
# options, and the same of ripgrep: where both have the same habits, whatever is replaced
CHOICES = [["-n"], ["-b"], ["--column"], ["--trim"], ["-i"], ["-x"], ["-v"], ["-m1"], ["-m2"], ["-A1"], ["-B2"], ["-o"], ["--vimgrep"], ["--passthru"], ["--crlf"]]


def random_case(rng):
    options = [word for it in CHOICES if rng.random() < 0.2 for word in it]
    is_cut = "-o" in options or "-m1" in options or "-m2" in options
    if is_cut or "--passthru" in options:
        options = [it for it in options if it not in ("-v", "-A1", "-B2", "--passthru" if is_cut else "")]
    end = b"\r\n" if "--crlf" in options else b"\n"
    data = b"".join(bytes(rng.choice(b"abxAB \t\xff") for _ in range(rng.randrange(7))) + end for _ in range(rng.randrange(1, 6)))
    return rng.choice(PATTERNS), rng.choice(TEMPLATES), options, data


def compare_replacing(program, room, run, tell, tools, count=1500, seed=1):
    place = os.path.join(room, "replacing")
    os.mkdir(place)
    for name, data in FILES.items():
        with open(os.path.join(place, name), "wb") as file:
            file.write(data)
    for words, printed in [((*words, "lines"), printed) for words, printed in ROWS] + OTHERS:
        ours = run([program, *words], place)[:2]
        if ours != (0, printed):
            tell(words, f"{ours}, and not {printed}")
    for words, status in REFUSED:
        done = run([program, *words], place)
        if done[0] != status or done[1] or b"--replace" not in done[2]:
            tell(words, f"{done}, and not status {status} with an error")
    rng = random.Random(seed)
    for _ in range(count if "rg" in tools else 0):
        pattern, template, options, data = random_case(rng)
        with open(os.path.join(place, "random"), "wb") as file:
            file.write(data)
        ours = run([program, "-h", "-N", "--no-column", f"--replace={template}", *options, "-e", pattern, "random"], place)[:2]
        words = ["rg", "--no-config", "--text", "--color=never", "-I", "-N", "--no-column", "--encoding=none"]
        theirs = run([*words, *options, "-r", template, "-e", pattern, "random"], place)[:2]
        if "--crlf" in options:
            ours, theirs = ((it[0], it[1].replace(b"\r\n", b"\n")) for it in (ours, theirs))
        if ours != theirs:
            tell([*options, f"--replace={template}", "-e", pattern], f"{ours}, and not {theirs}, of {data}")
