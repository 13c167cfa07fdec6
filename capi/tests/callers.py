"""Runs the callers of the library in C, C++, Rust and Python on the same inputs, and compares them with Python's re."""

import os
import pathlib
import re
import subprocess
import sys

out = pathlib.Path(sys.argv[1])
os.environ["HANNEDDOIS_LIBRARY"] = str(out / "libhanneddois.so")
sys.path.insert(0, str(pathlib.Path(__file__).resolve().parent.parent / "python"))
import hanneddois  # noqa: E402

# Patterns that both syntaxes read alike, over bytes.
PATTERNS = [r"[0-9]+", r"a|ab", r"ab|a", r"(?:ab)+?", r"x*", r"", r"^", r"$", r"(?m)^b", r"(?m)a$", r"\b\w+\b", r"\Bb", r"(?i)AB", r"(?s)a.b",
            r"a.b", r"[^a]", r"a{2,3}", r"a{2,3}?", r"(?:a|b)*c", r"\d\d-\d\d", r"\xff", r"[\x80-\xff]+"]
HAYSTACKS = [b"", b"a", b"ab", b"abab", b"xxabcxx", b"12-34 5", b"a\nb", b"b\nab\na", b"aaaaa", b"AbaB", b"caacbc", b"\xff\xfe a", b"word words, a word"]


def by_re(pattern, haystack):
    return [match.span() for match in re.compile(pattern.encode()).finditer(haystack)]


def by_library(pattern, haystack):
    # Python's patterns over bytes know ASCII alone.
    regex = hanneddois.compile(pattern, hanneddois.NO_UNICODE)
    return [match.span() for match in regex.find_iter(haystack)]


def step_by_step(spans):
    """Python gives an empty match where the last one ended, which others leave out."""
    kept = []
    for start, end in spans:
        if not (start == end and kept and kept[-1][1] == start):
            kept.append((start, end))
    return kept


# Patterns that repeat what may be empty, without looks.
EMPTY_LOOPS = [r"(?:a*)*", r"(?:a*)*b", r"(?:a|b*)*", r"(?:|a)+", r"(?:a|)*c", r"(?:a?){2,}", r"(?:(?:a*)+b?)*", r"x(?:a*b*)+"]


def may_follow(pattern, haystack, row, last):
    """Whether a list may go on with this row, or end where it is None, after a match that ended at `last`; by Python's spans alone."""
    size, whole = len(haystack), re.compile(pattern.encode())

    def starts_from(offset):
        return [i for i in range(offset, size + 1) if any(whole.fullmatch(haystack, i, j) for j in range(i, size + 1))]

    def is_first_from(offset):
        starts = starts_from(offset)
        if row is None:
            return not starts
        return bool(starts) and row[0] == starts[0] and bool(whole.fullmatch(haystack, *row))

    if last is None:
        return is_first_from(0)
    skips_empty = starts_from(last)[:1] == [last] and whole.fullmatch(haystack, last, last)
    return (is_first_from(last) and (row is None or row[1] != last)) or (bool(skips_empty) and is_first_from(last + 1))


def is_list(pattern, haystack, rows):
    """Whether each of the rows may follow the one before it, and none the last."""
    last = None
    for row in [*rows, None]:
        if not may_follow(pattern, haystack, row, last):
            return False
        last = row and row[1]
    return True


def by_program(program, pattern, haystack):
    ran = subprocess.run([out / program, pattern], input=haystack, capture_output=True, timeout=60)
    spans = [tuple(map(int, line.split())) for line in ran.stdout.decode().splitlines()]
    return ran.returncode, spans, ran.stderr.decode()


def main():
    failed, compared = 0, 0

    def check(what, found, wanted):
        nonlocal failed, compared
        compared += 1
        if found != wanted:
            failed += 1
            print(f"callers: {what}: {found} rather than {wanted}")

    programs = [name for name in ("find_c", "find_cpp", "find_rs") if (out / name).exists()]
    for pattern in PATTERNS:
        for haystack in HAYSTACKS:
            wanted = step_by_step(by_re(pattern, haystack))
            check(f"python, {pattern} in {haystack}", by_library(pattern, haystack), wanted)
    for pattern in (r"[0-9]+", r"(?-u:\b)a", r"(?-u)[\x80-\xff]+", r"x*"):
        for haystack in HAYSTACKS:
            wanted = step_by_step(by_re(pattern.replace("(?-u:\\b)", "\\b").replace("(?-u)", ""), haystack))
            for program in programs:
                status, spans, _ = by_program(program, pattern, haystack)
                check(f"{program}, {pattern} in {haystack}", (status, spans), (0 if wanted else 1, wanted))
    for program in programs:
        status, spans, said = by_program(program, "a(b", b"")
        check(f"{program}, a(b", (status, spans, said), (2, [], "find: unclosed group\n    a(b\n     ^\n"))

    for pattern in EMPTY_LOOPS:
        regex = hanneddois.compile(pattern, hanneddois.EMPTY_LOOPS)
        for haystack in [*HAYSTACKS, b"baab", b"aacbcca", b"xabbaxa"]:
            rows = [match.span() for match in regex.find_iter(haystack)]
            check(f"python, {pattern} in {haystack}: {rows}", is_list(pattern, haystack, rows), True)

    regex = hanneddois.compile("é+", hanneddois.UTF8)
    check("python, str", [tuple(match) for match in regex.find_iter("aééb")], [(0, 1, 3)])
    check("python, bytes", [tuple(match) for match in regex.find_iter("aééb".encode())], [(0, 1, 5)])
    check("python, several", [tuple(match) for match in hanneddois.Regex(["b+", "a"]).find_iter(b"abba")], [(1, 0, 1), (0, 1, 3), (1, 3, 4)])
    check("python, many", len(hanneddois.compile("a").find_all(b"ab" * 1000)), 1000)
    check("python, matching patterns", hanneddois.Regex(["b+", "x", "ab", "^b", "$"]).matching_patterns(b"abba"), [0, 2, 4])
    check("python, matching patterns of none", hanneddois.Regex(["b", "c"]).matching_patterns(b"aaa"), [])
    for haystack in HAYSTACKS:
        wanted = [number for number, pattern in enumerate(PATTERNS) if by_re(pattern, haystack)]
        check(f"python, matching patterns in {haystack}", hanneddois.Regex(PATTERNS, hanneddois.NO_UNICODE).matching_patterns(haystack), wanted)
    # Python's words over str are Unicode's too; offsets are those of characters in a str, and of bytes in its UTF-8.
    for pattern in (r"\b\w+\b", r"\bk", r"k\b", r"\Bk"):
        for haystack in ("ék k", "k—k", "kék", "日k本 k", "k"):
            wanted = [match.span() for match in re.compile(pattern).finditer(haystack)]
            in_bytes = [tuple(len(haystack[:offset].encode()) for offset in span) for span in wanted]
            for flags in (0, hanneddois.UTF8):
                for searched, spans in ((haystack, wanted), (haystack.encode(), in_bytes)):
                    found = [match.span() for match in hanneddois.compile(pattern, flags).find_iter(searched)]
                    check(f"python, {pattern} in {searched}", found, spans)
                    marked = hanneddois.Regex([pattern, "z"], flags).matching_patterns(searched)
                    check(f"python, matching patterns of {pattern} in {searched}", marked, [0] if spans else [])
    check("python, from a place", tuple(hanneddois.compile("^a|b").find(b"aab", 1)), (0, 2, 3))
    try:
        hanneddois.compile("[z-a]")
        check("python, a refusal", "none", "one")
    except hanneddois.Error as error:
        check("python, a refusal", (error.status, error.start, error.end), (hanneddois.SYNTAX_ERROR, 1, 4))
    print(f"callers: {compared} compared, {failed} failed, by {', '.join(['python', *programs])}")
    return 1 if failed else 0


sys.exit(main())
