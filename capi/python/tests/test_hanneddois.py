"""Tests of the package hanneddois, for the extension and for ctypes alike.

    PYTHONPATH=FOLDER python3 -m unittest test_hanneddois

Which of both is tested is what `import hanneddois` takes. ../test runs this file over both.
"""

import array
import copy
import doctest
import gc
import mmap
import os
import pathlib
import pickle
import random
import re
import socket
import sys
import tempfile
import threading
import unittest
import unittest.mock
import weakref

import hanneddois

# Patterns that re and the library read alike, over bytes and over str.
PATTERNS = [r"[0-9]+", r"a|ab", r"ab|a", r"(?:ab)+?", r"x*", r"", r"^", r"$", r"(?m)^b", r"(?m)a$", r"\b\w+\b", r"\Bb", r"(?i)AB", r"(?s)a.b",
            r"a.b", r"[^a]", r"a{2,3}", r"a{2,3}?", r"(?:a|b)*c", r"\d\d-\d\d", r"\w", r"\W+", r"\s"]
HAYSTACKS = ["", "a", "ab", "abab", "xxabcxx", "12-34 5", "a\nb", "b\nab\na", "aaaaa", "AbaB", "caacbc", "word words, a word"]
# Characters of one byte up to four.
WIDE = ["é", "aéb", "日本 12-34", "x€xx", "ünï ab\nbé", "𝒳a𝒳b", "ab😀12", "€a€"]


def spans_of_re(pattern, haystack):
    """Returns the spans of re without an empty match where the last one ended, which Python lists and others don't."""
    kept = []
    for match in re.compile(pattern).finditer(haystack):
        start, end = match.span()
        if not (start == end and kept and kept[-1][1] == start):
            kept.append((start, end))
    return kept


def spans(matches):
    return [match.span() for match in matches]


def random_sequence(pick):
    """Returns a pattern of literals and greedy rounds of classes, one after the other, some of them in groups."""
    parts = []
    for _ in range(pick.randint(1, 5)):
        part = pick.choice(["a", "ab", "_", " ", "é", "[ab]", "[a-c]", "[^b]", "[b-é]", r"\w", r"\s", r"\d", "."])
        if len(part) > 1 and part != "ab":
            part += pick.choice(["", "+", "+", "*", "?", "{2}", "{1,2}", "{2,}"])
        parts.append(f"({part})" if pick.random() < 0.3 else part)
    if pick.random() < 0.2:
        parts.append(pick.choice(["(?:ab|a)", "(b|_a|é)", "(?:a|ab|b )"]))
    pattern = "".join(parts)
    return f"({pattern})" if pick.random() < 0.1 else pattern


class Searches(unittest.TestCase):
    def test_random_sequences_as_re(self):
        pick = random.Random(7)
        for _ in range(1500 if hanneddois.backend == "extension" else 200):
            pattern = random_sequence(pick)
            theirs, regex = re.compile(pattern), hanneddois.compile(pattern)
            if theirs.match(""):
                continue  # re looks for another match where one is empty
            in_bytes = pattern.isascii() and hanneddois.compile(pattern, hanneddois.NO_UNICODE)
            for alphabet in ("ab", "ab_ ", "abc1 _é\n", "a1ü€ b"):
                haystack = "".join(pick.choices(alphabet, k=pick.randint(0, 30))) * pick.choice([1, 1, 1, 60])
                with self.subTest(pattern=pattern, haystack=haystack):
                    self.assertEqual(spans(regex.finditer(haystack)), spans(theirs.finditer(haystack)))
                    if in_bytes:
                        self.assertEqual(spans(in_bytes.finditer(haystack.encode())), spans(re.finditer(pattern.encode(), haystack.encode())))
                    found, wanted = regex.search(haystack, 3), theirs.search(haystack, 3)
                    self.assertEqual(found and found.regs, wanted and wanted.regs)

    def test_lists_as_re(self):
        # A pattern whose match is empty where it might not be is left out: re looks for another match there.
        for pattern in PATTERNS + [r"a*", r"\d*", r"(?:ab)*", r"x*$", r"^a*", r"(?:a|b)*", r"()a|b", r"(a)|(b)|"]:
            regex, in_bytes = hanneddois.compile(pattern), hanneddois.compile(pattern, hanneddois.NO_UNICODE)
            for haystack in HAYSTACKS + WIDE:
                for ours, theirs, searched in ((regex, re.compile(pattern), haystack), (in_bytes, re.compile(pattern.encode()), haystack.encode())):
                    if "$" in pattern and haystack.endswith("\n"):
                        continue
                    with self.subTest(pattern=pattern, searched=searched):
                        self.assertEqual(spans(ours.finditer(searched)), spans(theirs.finditer(searched)))
                        self.assertEqual(ours.findall(searched), theirs.findall(searched))
                        self.assertEqual(ours.split(searched), theirs.split(searched))
                        self.assertEqual(ours.split(searched, 2), theirs.split(searched, 2))
                        dash = "-" if isinstance(searched, str) else b"-"
                        self.assertEqual(ours.subn(dash, searched), theirs.subn(dash, searched))
                        self.assertEqual(ours.subn(lambda match: dash, searched, 2), theirs.subn(lambda match: dash, searched, 2))

    def test_utf8_lists_as_re(self):
        for pattern in ("x*", "", r"\b", "é|"):
            regex = hanneddois.compile(pattern, hanneddois.UTF8)
            for haystack in HAYSTACKS + WIDE:
                wanted = [tuple(len(haystack[:it].encode()) for it in span) for span in spans(re.finditer(pattern, haystack))]
                self.assertEqual(spans(regex.finditer(haystack.encode())), wanted)
                self.assertEqual(regex.sub(b"-", haystack.encode()), re.sub(pattern, "-", haystack).encode())
                self.assertEqual(regex.sub("-", haystack), re.sub(pattern, "-", haystack))
        for call in (regex.finditer, regex.findall, regex.split, lambda it: regex.sub(b"", it), regex.match, regex.fullmatch):
            with self.assertRaises(hanneddois.Error) as caught:
                list(call(b"ab\xff"))
            self.assertEqual(caught.exception.status, hanneddois.HAYSTACK_NOT_UTF8)

    def test_at_each_offset(self):
        for pattern in PATTERNS + [r"\bé?", r"(?m)^", r"(\w)(\w)?", r"\A"]:
            if "$" in pattern:
                continue
            regex, theirs = hanneddois.compile(pattern), re.compile(pattern)
            in_bytes, theirs_in_bytes = hanneddois.compile(pattern, hanneddois.NO_UNICODE), re.compile(pattern.encode())
            for haystack in HAYSTACKS + WIDE:
                encoded = haystack.encode()
                for first, second, searched in ((regex, theirs, haystack), (in_bytes, theirs_in_bytes, encoded)):
                    if (pattern == r"\bé?" and first is in_bytes) or (pattern == r"\Bb" and not searched):
                        continue
                    for start in range(len(searched) + 1):
                        for end in (sys.maxsize, start, start + 1, max(start, len(searched) - 1)):
                            with self.subTest(pattern=pattern, searched=searched, start=start, end=end):
                                for name in ("match", "fullmatch"):
                                    found, wanted = getattr(first, name)(searched, start, end), getattr(second, name)(searched, start, end)
                                    self.assertEqual(found and found.regs, wanted and wanted.regs)

    def test_at_offsets_far_inside(self):
        # Offsets of a long str are sought from the last one, in both directions.
        size = 20000 if hanneddois.backend == "extension" else 400
        haystack = "é1ab€" * size
        regex, theirs = hanneddois.compile("[a-z]+"), re.compile("[a-z]+")
        for start in [*range(0, 5 * size, size // 20), *range(5 * size - 3, 0, -size // 10), 5, 3 * size, 3 * size - 1]:
            found, wanted = regex.search(haystack, start), theirs.search(haystack, start)
            self.assertEqual(found and found.span(), wanted and wanted.span())
            self.assertEqual(bool(regex.match(haystack, start)), bool(theirs.match(haystack, start)))
        at, count = 0, 0
        token = hanneddois.compile(r"\w+?|€")
        while at < len(haystack):
            at, count = token.match(haystack, at).end(), count + 1
        self.assertEqual(count, 5 * size)

    def test_empty_loops(self):
        for pattern in ("(a*)*", "(a*)+", "(?:a?)*b", "(a|b*)*", "(?:a*?)*b"):
            for haystack in ("", "a", "aab", "ba", "xaay"):
                found, wanted = hanneddois.search(pattern, haystack), re.search(pattern, haystack)
                self.assertEqual(found and found.span(), wanted and wanted.span(), (pattern, haystack))
                self.assertEqual(bool(hanneddois.fullmatch(pattern, haystack)), bool(re.fullmatch(pattern, haystack)), (pattern, haystack))
        self.assertEqual(hanneddois.findall("(?:a*)*b", "aabb"), ["aab", "b"])

    def test_bytes_as_re(self):
        for pattern in PATTERNS:
            regex = hanneddois.compile(pattern, hanneddois.NO_UNICODE)
            for haystack in map(str.encode, HAYSTACKS + WIDE):
                with self.subTest(pattern=pattern, haystack=haystack):
                    wanted = spans_of_re(pattern.encode(), haystack)
                    self.assertEqual(spans(regex.find_iter(haystack)), wanted)
                    self.assertEqual(spans(regex.find_all(haystack)), wanted)
                    self.assertEqual(regex.is_match(haystack), bool(wanted))
                    found = regex.find(haystack)
                    self.assertEqual(found and found.span(), wanted[0] if wanted else None)

    def test_str_as_re(self):
        for pattern in PATTERNS:
            regex = hanneddois.compile(pattern)
            for haystack in HAYSTACKS + WIDE:
                with self.subTest(pattern=pattern, haystack=haystack):
                    wanted = spans_of_re(pattern, haystack)
                    matches = regex.find_all(haystack)
                    self.assertEqual(spans(matches), wanted)
                    self.assertEqual([match.group() for match in matches], [haystack[start:end] for start, end in wanted])
                    self.assertEqual(regex.is_match(haystack), bool(wanted))
                    self.assertEqual(regex.matching_patterns(haystack), [0] if wanted else [])
                    found = regex.find(haystack)
                    self.assertEqual(found and found.span(), wanted[0] if wanted else None)

    def test_offsets_of_characters(self):
        # Characters are counted in several bytes at once: of gaps and groups of each length, of characters of one byte up to four.
        pattern, letters = r"<(\w*)(?:(-)|(=))(\w*)>", "aé日𝒳"
        pieces = [one * before + "<" + two * inside + "-="[inside % 2] + one + two * 2 + ">"
                  for one in letters for two in letters for before in range(11) for inside in range(11)]
        regex, theirs = hanneddois.compile(pattern), re.compile(pattern)
        for haystack in ["".join(pieces), *pieces[::31]]:
            wanted = [match.regs for match in theirs.finditer(haystack)]
            self.assertEqual([match.regs for match in regex.finditer(haystack)], wanted)
            self.assertEqual(regex.search(haystack).regs, wanted[0])
            self.assertEqual(regex.match(haystack, wanted[-1][0][0]).regs, wanted[-1])

    def test_distances_of_characters(self):
        # What is before a match and in it may be ASCII or not, and short or long.
        pattern = r"([a-zé]+)(-)?([0-9]*)"
        ours, theirs = hanneddois.compile(pattern), re.compile(pattern)

        def read(match):
            return match.regs, match.group(), match.groups()

        for gap in (*range(36), 127, 255, 2032, 2048, 4100):
            for space in (" ", "€", "  😀"):
                for word in ("a", "é-1", "abcdefgh-123", "abcdefgéh-1234567890", "a" * 17):
                    for first in ("ü", ".........", ""):
                        # Once groups were asked for, an iterator finds them ahead.
                        haystack = first + (space * gap + word) * 4 + "."
                        with self.subTest(gap=gap, space=space, word=word, first=first):
                            self.assertEqual([read(it) for it in ours.finditer(haystack)], [read(it) for it in theirs.finditer(haystack)])
                            self.assertEqual([it.span() for it in ours.finditer(haystack)], [it.span() for it in theirs.finditer(haystack)])
                            self.assertEqual(ours.findall(haystack), theirs.findall(haystack))
                            self.assertEqual(ours.split(haystack), theirs.split(haystack))

    def test_groups_among_characters_of_all_widths(self):
        pick = random.Random(7)
        for pattern in (r"(\w)(\w*)", r"(\w+)( )?(\w*)", r"([é日]+)|(a)|(𝒳)", r"(\w)(\w)?(\w)?(\w)?(\w)?", r"(?:(\w) )*"):
            ours, theirs = hanneddois.compile(pattern), re.compile(pattern)
            for letters in ("aé ", "abcdefgh é", "a日 ", "aé日𝒳  ", "ab𝒳"):
                haystack = "".join(pick.choice(letters) for _ in range(pick.randrange(1, 700)))
                found, wanted = ([(match.groups(), match.span(), [match.span(group) for group in range(1, match.re.groups + 1)])
                                  for match in regex.finditer(haystack)] for regex in (ours, theirs))
                self.assertEqual(found, wanted, (pattern, haystack))

    def test_parts_that_come_again(self):
        # Short parts are kept from match to match. They may be next to the start, and may have zero bytes, which a shorter part ends with as well.
        words = [("ab" * 5)[:length] for length in range(1, 11)] + ["a\0", "a\0\0", "\0", "\0" * 7, "\0" * 8, "\x7f", "\x7f" * 8]
        pattern = r"([^é])([^é]*)é"
        ours, theirs = hanneddois.compile(pattern), re.compile(pattern)
        pick = random.Random(8)
        for first in words:
            for others in range(40):
                haystack = "".join(word + "é" for word in [first, *pick.choices(words, k=others)])
                found, wanted = ([(match.groups(), match[1], match[2]) for match in regex.finditer(haystack)] for regex in (ours, theirs))
                self.assertEqual(found, wanted, haystack)
        # More of them than are kept.
        haystack = "".join(f"{number:x}é" for number in [*range(9000), *range(9000)])
        self.assertEqual([match.groups() for match in ours.finditer(haystack)], [match.groups() for match in theirs.finditer(haystack)])

    def test_str_from_each_offset(self):
        for pattern in (r"\w", r"", r"\b", r"[0-9]+", r"$", r"^"):
            regex, theirs = hanneddois.compile(pattern), re.compile(pattern)
            for haystack in HAYSTACKS + WIDE:
                for start in range(len(haystack) + 1):
                    # re takes the offset for the start of the haystack where it looks for ^.
                    wanted = None if pattern == "^" and start else theirs.search(haystack, start)
                    found = regex.find(haystack, start)
                    self.assertEqual(found and found.span(), wanted and wanted.span(), (pattern, haystack, start))

    def test_str_as_utf8_mode(self):
        # In a str the package itself skips empty matches inside characters. The library's own mode for UTF-8 is what it must agree with.
        patterns = ["", "x*", r"\B", r"(?-u:\B)", r"(?-u:\b)", "é?", "(?:|é)", "(?:é|)", r"[^a]??", r"$|\b", "a|"]
        for pattern in patterns:
            by_bytes, by_str = hanneddois.compile(pattern, hanneddois.UTF8), hanneddois.compile(pattern)
            for haystack in HAYSTACKS + WIDE:
                encoded = haystack.encode()
                wanted = [tuple(len(encoded[:it].decode()) for it in match.span()) for match in by_bytes.find_iter(encoded)]
                with self.subTest(pattern=pattern, haystack=haystack):
                    self.assertEqual(spans(by_str.find_iter(haystack)), wanted)
                    self.assertEqual(spans(by_bytes.find_iter(haystack)), wanted)
                    self.assertEqual(by_str.is_match(haystack), bool(wanted))
                    self.assertEqual(by_str.matching_patterns(haystack), by_bytes.matching_patterns(encoded))

    def test_long_haystacks(self):
        for haystack in ("ab1é" * 5000, "ab1e" * 5000, "x" * 20000 + "7"):
            wanted = spans_of_re("[0-9]+", haystack)
            self.assertEqual(spans(hanneddois.compile("[0-9]+").find_iter(haystack)), wanted)
            self.assertEqual(spans(hanneddois.compile("[0-9]+", hanneddois.UTF8).find_iter(haystack)), wanted)
            self.assertEqual(spans(hanneddois.compile("[0-9]+").find_iter(haystack.encode())), spans_of_re(b"[0-9]+", haystack.encode()))

    def test_find_start(self):
        regex = hanneddois.compile("a|^b")
        self.assertEqual(regex.find(b"aba", 1), (0, 2, 3))
        self.assertEqual(regex.find(b"aba", start=1), (0, 2, 3))
        self.assertEqual(regex.find(haystack="aba", start=True), (0, 2, 3))
        self.assertIsNone(regex.find(b"aba", 3))
        for haystack in (b"aba", "aba", "äba", bytearray(b"aba")):
            for start in (-1, 4, 10**30, -(10**30)):
                with self.assertRaises(hanneddois.Error) as caught:
                    regex.find(haystack, start)
                self.assertEqual(caught.exception.status, hanneddois.BAD_ARGUMENT)

    def test_names_of_re(self):
        regex = hanneddois.compile("b")
        self.assertEqual(regex.search("abab"), (0, 1, 2))
        self.assertEqual(regex.search("abab", 2), (0, 3, 4))
        self.assertEqual(list(regex.finditer("abab")), [(0, 1, 2), (0, 3, 4)])

    def test_several_patterns(self):
        regex = hanneddois.Regex(["b+", b"a", "é"])
        self.assertEqual(regex.pattern_count, 3)
        self.assertEqual([tuple(match) for match in regex.find_iter("abbé")], [(1, 0, 1), (0, 1, 3), (2, 3, 4)])
        self.assertEqual(regex.matching_patterns("xé"), [2])
        self.assertEqual(regex.which(b"ab"), [0, 1])
        self.assertEqual(hanneddois.Regex(["b+", "x", "ab", "^b", "$"]).matching_patterns(b"abba"), [0, 2, 4])
        self.assertEqual(hanneddois.Regex(["b", "c"]).matching_patterns(b"aaa"), [])

    def test_iterators(self):
        iterator = hanneddois.compile("a").find_iter(b"aba")
        self.assertIs(iter(iterator), iterator)
        self.assertEqual(next(iterator), (0, 0, 1))
        self.assertEqual(next(iterator), (0, 2, 3))
        for _ in range(3):
            self.assertRaises(StopIteration, next, iterator)

    def test_flags(self):
        self.assertTrue(hanneddois.compile("A", hanneddois.CASE_INSENSITIVE).is_match("a"))
        self.assertEqual(hanneddois.compile("^b", hanneddois.MULTI_LINE).find("a\nb"), (0, 2, 3))
        self.assertTrue(hanneddois.compile("a.b", hanneddois.DOT_MATCHES_NEW_LINE).is_match("a\nb"))
        self.assertEqual(hanneddois.compile("a+", hanneddois.SWAP_GREED).find("aa"), (0, 0, 1))
        self.assertTrue(hanneddois.compile("a b # c", hanneddois.IGNORE_WHITESPACE).is_match("ab"))
        self.assertEqual(hanneddois.compile("(?m)a$", hanneddois.CRLF).find("a\r\n"), (0, 0, 1))
        self.assertTrue(hanneddois.compile(r"\141", hanneddois.OCTAL).is_match("a"))
        self.assertTrue(hanneddois.compile("(?:a*)*b", hanneddois.EMPTY_LOOPS).is_match("aab"))
        flags = hanneddois.MATCHING_PATTERNS | hanneddois.RAISE_CAPACITY | hanneddois.NO_BYTE_CLASSES | hanneddois.SHRINK
        self.assertEqual(hanneddois.compile("[a-z]+", flags, capacity=1).find("Ab"), (0, 1, 2))
        self.assertTrue(hanneddois.compile("(a)", hanneddois.GROUPS).search("a").groups())
        self.assertEqual((hanneddois.NO_PATTERN, hanneddois.WHICH), (hanneddois.SYNTAX_ERROR, hanneddois.MATCHING_PATTERNS))

    def test_figures(self):
        regex = hanneddois.Regex(["[a-z]+x"])
        regex.find_all("abx " * 100)
        self.assertGreater(regex.memory_usage, 0)
        self.assertEqual(regex.clear_count, 0)
        self.assertGreaterEqual(hanneddois.version(), 300)
        self.assertIn(hanneddois.backend, ("extension", "ctypes"))


class Matches(unittest.TestCase):
    def setUp(self):
        self.match = hanneddois.compile("[0-9]+").find("ab 12é")

    def test_fields(self):
        match = self.match
        self.assertEqual((match.pattern, match.start(), match.end(), match.haystack, match.string), (0, 3, 5, "ab 12é", "ab 12é"))
        self.assertEqual((match.group(), match.group(0), match[0], match.span(), match.span(0)), ("12", "12", "12", (3, 5), (3, 5)))
        self.assertEqual((match.pos, match.endpos, match.re), (0, 6, hanneddois.compile("[0-9]+")))
        self.assertEqual(repr(match), "<hanneddois.Match object; span=(3, 5), match='12'>")
        self.assertEqual(repr(hanneddois.Regex(["a", "b"]).find("b")), "<hanneddois.Match object; pattern=1, span=(0, 1), match='b'>")
        self.assertTrue(match)
        for name in ("pattern", "haystack", "string", "pos", "endpos", "re", "regs", "lastindex", "lastgroup"):
            with self.assertRaises(AttributeError):
                setattr(match, name, 1)
        self.assertRaises(TypeError, hanneddois.Match)

    def test_without_groups(self):
        self.assertEqual((self.match.groups(), self.match.groupdict(), self.match.regs), ((), {}, ((3, 5),)))
        self.assertEqual((self.match.lastindex, self.match.lastgroup), (None, None))
        for group in (1, -1, 2**70, "name", 1.0, None):
            self.assertRaises(IndexError, self.match.group, group)
            self.assertRaises(IndexError, self.match.span, group)
        self.assertRaises(TypeError, self.match.span, 0, 0)

    def test_tuples_of_groups(self):
        # A tuple that somebody has never changes, and its hash doesn't either.
        for pattern in (r"(.)", r"(.)(.)", r"(.)(.)(.)", r"(.)(.)(.)(.)", r"(.)(.)(.)(.)(.)", r"(.)|(-)"):
            regex, theirs = hanneddois.compile(pattern), re.compile(pattern)
            for haystack in ("abcdefghijkl" * 3, "abcdé" * 6, b"0123456789" * 3):
                kept, seen = [], {}
                if isinstance(haystack, bytes):
                    theirs = re.compile(pattern.encode())
                wanted = [match.groups() for match in theirs.finditer(haystack)]
                for number, match in enumerate(regex.finditer(haystack)):
                    if number % 3 == 0:
                        kept.append((match.groups(), wanted[number]))
                    self.assertEqual(match.groups(), wanted[number])
                    self.assertEqual(seen.setdefault(match.groups(), wanted[number]), wanted[number])
                self.assertTrue(kept and all(one == other for one, other in kept))
                self.assertEqual(list(seen), list(dict.fromkeys(wanted)))

    def test_tuples_keep_nothing_large(self):
        class Default:
            pass

        match = hanneddois.compile("(a*)(b)?").search("a" * 5000)
        for _ in range(3):
            default = Default()
            reference = weakref.ref(default)
            self.assertIs(match.groups(default)[1], default)
            del default
            self.assertIsNone(reference())
        for haystack in ("b" + "a" * 5000, "é" + "a" * 5000):
            part = hanneddois.compile("(a*)(b)?").search(haystack, 1).groups()[0]
            alone = "".join([part, "a"])
            self.assertEqual(sys.getrefcount(part), sys.getrefcount(alone))

    def test_as_tuple(self):
        pattern, start, end = self.match
        self.assertEqual((pattern, start, end), (0, 3, 5))
        self.assertEqual(self.match, (0, 3, 5))
        self.assertEqual((0, 3, 5), self.match)
        self.assertNotEqual(self.match, (0, 3, 6))
        self.assertNotEqual(self.match, [0, 3, 5])
        self.assertEqual(hash(self.match), hash((0, 3, 5)))

    def test_copies(self):
        for protocol in range(pickle.HIGHEST_PROTOCOL + 1):
            other = pickle.loads(pickle.dumps(self.match, protocol))
            self.assertEqual((other, other.group()), (self.match, "12"))
            for name in ("search", "match", "fullmatch"):
                match = getattr(hanneddois.compile("(a)|(ab)"), name)("xab", 1)
                other = pickle.loads(pickle.dumps(match, protocol))
                self.assertEqual((other.regs, other.re), (match.regs, match.re))
        self.assertEqual(copy.copy(self.match).group(), "12")
        self.assertEqual(copy.deepcopy(self.match).group(), "12")

    def test_type_hints(self):
        self.assertEqual(hanneddois.Match[str].__origin__, hanneddois.Match)

    def test_collected(self):
        class Kept(bytearray):
            pass

        before = len([it for it in gc.get_objects() if type(it) is Kept])
        for _ in range(10):
            haystack = Kept(b"a1")
            haystack.match = hanneddois.compile("[0-9]").find(haystack)
            haystack.matches = hanneddois.compile("[0-9]").find_iter(haystack)
            del haystack
        gc.collect()
        self.assertEqual(len([it for it in gc.get_objects() if type(it) is Kept]), before)


class LikeRe(unittest.TestCase):
    """Compares with re, where both mean the same. Bytes are compared without Unicode, as re has them."""

    CASES = [(r"(\w+)=(?P<value>\d+)", "é a=12 bé=3"), (r"(a)|(b)", "xb"), (r"(a(b)?)+", "abaab"), (r"(a)(b?)", "a"), (r"((a)b)", "ab"),
             (r"(?P<year>\d{4})-(?P<month>\d\d)", "on 2024-12 and 2025-01"), (r"(é)(?:(x)|(y))", "éy éx"), (r"[]a]([)])(b)", "a)b]"),
             (r"a|ab", "ab"), (r"\(([^)]*)\)", "f(x, y) g()"), ("none(x)?", "abc"), (r"(\s)", "a b c"), (r"(?:(a)|(b))*", "ba"), (r"(\w)(-)?(\d)", "a-1 é2 b3"),
             (r"(a)(b)?(c)?(d)?", "abd é acd éa"), (r"(a)(b)?(c)?(d)?(e)?", "abde é ace éa"), (r"(a)(é)?(c)?(d)?(e)?(f)?", "aécdef é af éa")]

    @staticmethod
    def row(match):
        return match and (match.span(), match.group(), match.groups(), match.groups(0), match.groupdict(), match.lastindex, match.lastgroup,
                          match.pos, match.endpos, match.regs, match.start(), match.end(), match[0])

    def each_case(self):
        for pattern, haystack in self.CASES:
            yield hanneddois.compile(pattern), re.compile(pattern), haystack, str
            encoded = pattern.encode()
            yield hanneddois.compile(encoded, hanneddois.NO_UNICODE), re.compile(encoded), haystack.encode(), lambda text: text.encode()

    def test_searches(self):
        for ours, theirs, haystack, _ in self.each_case():
            for name in ("search", "match", "fullmatch"):
                for offsets in ((), (0,), (1,), (3,), (0, 3), (2, 5), (-3, 99), (5, 2), (99,)):
                    with self.subTest(pattern=theirs.pattern, name=name, offsets=offsets):
                        try:
                            wanted = self.row(getattr(theirs, name)(haystack, *offsets))
                            self.assertEqual(self.row(getattr(ours, name)(haystack, *offsets)), wanted)
                        except hanneddois.Error as error:
                            self.assertEqual((error.status, type(haystack)), (hanneddois.SYNTAX_ERROR, str))

    def test_lists(self):
        for ours, theirs, haystack, _ in self.each_case():
            if theirs.search(haystack[:0]):
                continue
            with self.subTest(pattern=theirs.pattern, haystack=haystack):
                for offsets in ((), (1,), (1, 4), (4, 1)):
                    self.assertEqual(list(map(self.row, ours.finditer(haystack, *offsets))), list(map(self.row, theirs.finditer(haystack, *offsets))))
                    self.assertEqual(ours.findall(haystack, *offsets), theirs.findall(haystack, *offsets))
                for most in (0, 1, -1):
                    self.assertEqual(ours.split(haystack, most), theirs.split(haystack, most))

    def test_replacements(self):
        for ours, theirs, haystack, convert in self.each_case():
            if theirs.search(haystack[:0]):
                continue
            templates = ["-", r"<\g<0>>", r"\\\n\t", r"\0\101\x"[:-2], "$1", ""] + [r"\1", r"\g<1>\1"] * (theirs.groups > 0)
            for template in map(convert, templates):
                for count in (0, 1, -1):
                    with self.subTest(pattern=theirs.pattern, template=template):
                        self.assertEqual(ours.subn(template, haystack, count), theirs.subn(template, haystack, count))
                        self.assertEqual(ours.sub(template, haystack, count), theirs.sub(template, haystack, count))
            double = lambda match: match.group() * 2  # noqa: E731
            self.assertEqual(ours.sub(double, haystack), theirs.sub(double, haystack))
            self.assertEqual(ours.subn(double, haystack, 1), theirs.subn(double, haystack, 1))
            found = theirs.search(haystack)
            if found:
                self.assertEqual(ours.search(haystack).expand(convert(r"[\g<0>]")), found.expand(convert(r"[\g<0>]")))

    def test_wrong_templates(self):
        ours, theirs, haystack = hanneddois.compile("(?P<n>a)(b)?"), re.compile("(?P<n>a)(b)?"), "xab"
        for template in (r"\2", r"\3", r"\g", r"\g<", r"\g<>", r"\g<n", r"\g<m>", r"\g<3>", r"\g<1a>", r"\400", "\\", r"\q", r"\g<n>", r"\g<2>"):
            try:
                wanted = theirs.sub(template, haystack)
            except (re.error, IndexError):
                self.assertRaises((hanneddois.Error, IndexError), ours.sub, template, haystack)
            else:
                self.assertEqual(ours.sub(template, haystack), wanted)

    def test_functions(self):
        self.assertEqual(hanneddois.search("(b)", "abc").groups(), ("b",))
        self.assertEqual((hanneddois.match("b", "abc"), hanneddois.match("a", "abc").span()), (None, (0, 1)))
        self.assertEqual((hanneddois.fullmatch("ab", "abc"), hanneddois.fullmatch("a|abc", "abc").span()), (None, (0, 3)))
        self.assertEqual((hanneddois.findall("[a-c]", "axb"), hanneddois.split("x", "axb")), (["a", "b"], ["a", "b"]))
        self.assertEqual([it.group() for it in hanneddois.finditer("B", "abb", hanneddois.I)], ["b", "b"])
        self.assertEqual((hanneddois.sub("a", "b", "aa", 1), hanneddois.subn("a", "b", "aa")), ("ba", ("bb", 2)))
        for text in ("a.b*[c]$ (d)#-&~|\\é", "", "x y", "\t\n\u2028\x85", "".join(map(chr, range(256)))):
            for flags in (0, hanneddois.X):
                self.assertEqual(hanneddois.fullmatch(hanneddois.escape(text), text, flags).group(), text)
                self.assertEqual(hanneddois.fullmatch(hanneddois.escape(text.encode()), text.encode(), flags).group(), text.encode())
        every = bytes(range(256))
        self.assertEqual(hanneddois.fullmatch(hanneddois.escape(every), every).group(), every)
        for each in map(chr, range(256)):
            self.assertTrue(hanneddois.fullmatch("[" + hanneddois.escape(each) + "]", each), each)
        self.assertEqual(hanneddois.escape("a_1é"), "a_1é")

    def test_flags_of_re(self):
        self.assertEqual(hanneddois.compile("a", re.I | re.M | re.S | re.X | re.U).flags, hanneddois.I | hanneddois.M | hanneddois.S | hanneddois.X)
        self.assertEqual(hanneddois.search("^B", "a\nb", re.I | re.M).span(), (2, 3))
        self.assertRaises(ValueError, hanneddois.compile, "a", re.A)

    def test_kinds_of_replacements(self):
        regex = hanneddois.compile("(a)(b)?")
        self.assertEqual(regex.sub(lambda match: None, "xab"), "x")
        self.assertEqual(regex.sub(lambda match: bytearray(b"-"), b"xab"), b"x-")
        self.assertEqual(regex.sub(lambda match: memoryview(b"-"), bytearray(b"xab")), b"x-")
        self.assertEqual(regex.sub(r"[\2]", "xa é ab"), "x[] é [b]")
        for by, searched in ((b"-", "a"), ("-", b"a"), (lambda match: b"", "a"), (lambda match: "", b"a"), (lambda match: 0, "a"), (lambda match: [], b"a")):
            self.assertRaises(TypeError, regex.sub, by, searched)
        self.assertRaises(TypeError, regex.search("a").expand, b"-")
        self.assertRaises(ZeroDivisionError, regex.sub, lambda match: 1 // 0, "a")
        self.assertRaises(KeyError, regex.sub, lambda match: {}["a"], "é" * 5000 + "a" * 5000)
        self.assertEqual(regex.sub(lambda match: regex.sub("é", match.group()), "xab ya"), "xé yé")

    def test_errors_of_templates(self):
        for template, text, offset in ((r"-\g<", "missing group name", 4), (r"-\9", "invalid group reference 9", 2), (r"-\q", r"bad escape \q", 1),
                                       ("\n\\", "bad escape (end of pattern)", 1)):
            with self.assertRaises(hanneddois.Error) as caught:
                hanneddois.sub("a", template, "a")
            self.assertEqual((str(caught.exception), caught.exception.msg, caught.exception.pos), (text, text, offset))
        self.assertEqual((caught.exception.lineno, caught.exception.colno), (2, 1))

    def test_names(self):
        regex = hanneddois.Regex(["(?P<a>x)(y)", "(z)(?P<b>w)?"])
        self.assertEqual(regex.group_names, ((None, "a", None), (None, None, "b")))
        self.assertEqual((regex.groups, dict(regex.groupindex), regex.pattern), (2, {"a": 1}, "(?P<a>x)(y)"))
        first, second = regex.finditer("xy z")
        self.assertEqual((first.groupdict(), first["a"], first.group("a", 2)), ({"a": "x"}, "x", ("x", "y")))
        self.assertEqual((second.groupdict("-"), second["b"], second.span("b")), ({"b": "-"}, None, (-1, -1)))
        self.assertRaises(IndexError, second.group, "a")

    def test_comments(self):
        for pattern, flags in (("a b # c", hanneddois.VERBOSE), ("(?x) a b # c", 0)):
            regex = hanneddois.compile(pattern, flags)
            self.assertEqual((regex.fullmatch("ab").span(), regex.match("abc").span(), regex.fullmatch("abc")), ((0, 2), (0, 2), None))

    def test_matches_of_other_searches(self):
        regex = hanneddois.compile("a|(a)b")
        self.assertIs(regex.fullmatch("ab").re, regex)
        self.assertEqual((regex.fullmatch("ab").groups(), regex.search("ab").groups()), (("a",), (None,)))

    def test_changed_haystack(self):
        haystack = bytearray(b"xab")
        match = hanneddois.compile(b"(a)(b)").search(haystack)
        haystack[1:] = b"-"
        self.assertRaises(ValueError, match.groups)


class Buffers(unittest.TestCase):
    regex = hanneddois.compile("[0-9]+")

    def test_kinds(self):
        content = b"ab 12 " + b"x" * 5000 + b" 345"
        wanted = [(3, 5), (5007, 5010)]
        with tempfile.TemporaryFile() as file:
            file.write(content)
            file.flush()
            with mmap.mmap(file.fileno(), 0) as written, mmap.mmap(file.fileno(), 0, access=mmap.ACCESS_READ) as read:
                haystacks = [bytearray(content), memoryview(content), memoryview(bytearray(content)), array.array("B", content), written, read]
                for haystack in haystacks:
                    self.assertEqual(spans(self.regex.find_iter(haystack)), wanted)
                    self.assertEqual([match.group() for match in self.regex.find_all(haystack)], [b"12", b"345"])
                    self.assertEqual(self.regex.find(haystack, 4).span(), (4, 5))
                    self.assertTrue(self.regex.is_match(haystack))
                    self.assertEqual(self.regex.matching_patterns(haystack), [0])
                    self.assertIs(self.regex.find(haystack).haystack, haystack)
                del haystacks, haystack

    def test_bytes_of_larger_items(self):
        numbers = array.array("I", [0x31313131, 0, 0x32323232])
        self.assertEqual([match.group() for match in self.regex.find_iter(numbers)], [b"1111", b"2222"])

    def test_empty(self):
        for haystack in (b"", "", bytearray(), memoryview(b""), array.array("I")):
            self.assertIsNone(self.regex.find(haystack))
            self.assertEqual(hanneddois.compile("").find(haystack), (0, 0, 0))
            self.assertEqual(hanneddois.compile("").find(haystack).group(), "" if isinstance(haystack, str) else b"")

    def test_not_in_one_row(self):
        self.assertRaises(BufferError, self.regex.find, memoryview(b"abcdef")[::2])
        self.assertRaises(BufferError, self.regex.find_iter, memoryview(b"abcdef")[::-1])

    def test_released(self):
        view = memoryview(b"a1")
        view.release()
        self.assertRaises(ValueError, self.regex.find, view)

    def test_held_while_searched(self):
        haystack = bytearray(b"1 2 3")
        iterator = self.regex.find_iter(haystack)
        next(iterator)
        self.assertRaises(BufferError, haystack.extend, b"more")
        self.assertEqual(len(list(iterator)), 2)
        haystack.extend(b" 4")
        self.assertEqual(len(self.regex.find_all(haystack)), 4)
        iterator = self.regex.find_iter(haystack)
        next(iterator)
        del iterator
        haystack.clear()

    def test_not_copied(self):
        haystack = bytearray(b"x" * 5000 + b"1")
        iterator = self.regex.find_iter(haystack)
        haystack[7] = ord("5")
        self.assertEqual(spans(iterator), [(7, 8), (5000, 5001)])

    def test_shorter_than_its_match(self):
        haystack = bytearray(b"ab 1234")
        match = self.regex.find(haystack)
        del haystack[5:]
        self.assertEqual(match.group(), b"12")
        haystack.clear()
        self.assertEqual(match.group(), b"")


class Errors(unittest.TestCase):
    def error_of(self, call, *args, **options):
        with self.assertRaises(hanneddois.Error) as caught:
            call(*args, **options)
        return caught.exception

    def test_fields(self):
        error = self.error_of(hanneddois.Regex, ["a", "b[z-a]"])
        self.assertEqual((error.status, error.pattern, error.start, error.end, error.limit), (hanneddois.SYNTAX_ERROR, 1, 2, 5, 0))
        self.assertIn("range", str(error))
        other = pickle.loads(pickle.dumps(error))
        self.assertEqual((str(other), vars(other)), (str(error), vars(error)))

    def test_offsets_in_patterns(self):
        error = self.error_of(hanneddois.compile, "日é(b")
        self.assertEqual((error.status, error.start, error.end), (hanneddois.SYNTAX_ERROR, 2, 3))
        self.assertEqual((error.msg, error.pos, error.lineno, error.colno), ("unclosed group", 2, 1, 3))
        error = self.error_of(hanneddois.compile, "日é(b".encode())
        self.assertEqual((error.status, error.start, error.end, error.pos), (hanneddois.SYNTAX_ERROR, 5, 6, 5))
        error = self.error_of(hanneddois.compile, "a\n(?x)\n  (b")
        self.assertEqual((error.pos, error.lineno, error.colno), (9, 3, 3))
        self.assertIsNone(self.error_of(hanneddois.Regex, []).pos)

    def test_statuses(self):
        self.assertEqual(self.error_of(hanneddois.Regex, []).status, hanneddois.BAD_ARGUMENT)
        self.assertEqual(self.error_of(hanneddois.compile, "a", 1 << 30).status, hanneddois.BAD_ARGUMENT)
        error = self.error_of(hanneddois.compile, b"a\xff")
        self.assertEqual((error.status, error.start), (hanneddois.NOT_UTF8, 1))
        self.assertEqual(self.error_of(hanneddois.compile, "(((a)))", nest_limit=2).status, hanneddois.NESTS_TOO_DEEP)
        error = self.error_of(hanneddois.compile, r"\w{1000}", size_limit=1000)
        self.assertEqual((error.status, error.limit), (hanneddois.TOO_LARGE, 1000))
        error = self.error_of(hanneddois.compile, "a", capacity=1)
        self.assertEqual(error.status, hanneddois.CAPACITY_TOO_SMALL)
        self.assertTrue(hanneddois.compile("a", capacity=error.limit).is_match("a"))

    def test_haystack_that_is_not_utf8(self):
        regex = hanneddois.compile("a", hanneddois.UTF8)
        for call in (regex.find, regex.is_match, regex.find_all, regex.matching_patterns):
            error = self.error_of(call, b"ab\xffa")
            self.assertEqual((error.status, error.start), (hanneddois.HAYSTACK_NOT_UTF8, 2))
        self.assertEqual(self.error_of(next, regex.find_iter(b"\xff")).status, hanneddois.HAYSTACK_NOT_UTF8)

    def test_pattern_that_splits_characters(self):
        for pattern, flags in ((r"(?-u)\xff", 0), (".", hanneddois.NO_UNICODE), (r"(?s-u:.)", 0)):
            regex = hanneddois.Regex([pattern], flags)
            self.assertTrue(regex.is_match(b"\xff"))
            for call in (regex.find, regex.find_iter, regex.find_all, regex.is_match, regex.matching_patterns):
                for haystack in ("ascii", "é"):
                    self.assertEqual(self.error_of(call, haystack).status, hanneddois.SYNTAX_ERROR)
        self.assertTrue(hanneddois.compile("[^,]+", hanneddois.NO_UNICODE).is_match(b"a"))
        self.assertEqual(spans(hanneddois.compile("[a-c]+", hanneddois.NO_UNICODE).find_iter("éabé")), [(1, 3)])

    def test_surrogates(self):
        self.assertRaises(UnicodeEncodeError, hanneddois.compile, "\ud800")
        self.assertRaises(UnicodeEncodeError, hanneddois.compile("a").find, "a\ud800")

    def test_wrong_types(self):
        regex = hanneddois.compile("a")
        for haystack in (None, 5, ["a"], object()):
            for call in (regex.find, regex.find_iter, regex.find_all, regex.is_match, regex.matching_patterns):
                self.assertRaises(TypeError, call, haystack)
        for start in ("0", 1.0, None, []):
            self.assertRaises(TypeError, regex.find, b"a", start)
        for patterns in ("abc", b"abc", bytearray(b"abc"), 5, None, [5], [None]):
            self.assertRaises(TypeError, hanneddois.Regex, patterns)
        for pattern in (5, None, ["a"]):
            self.assertRaises(TypeError, hanneddois.compile, pattern)
        for name in ("flags", "capacity", "size_limit", "nest_limit"):
            self.assertRaises(TypeError, hanneddois.Regex, ["a"], **{name: "1"})
            self.assertRaises(ValueError, hanneddois.Regex, ["a"], **{name: -1})
            self.assertRaises(ValueError, hanneddois.Regex, ["a"], **{name: 1 << 64})

    def test_wrong_arguments(self):
        regex = hanneddois.compile("a")
        for call in (regex.find, regex.find_iter, regex.find_all, regex.is_match, regex.matching_patterns):
            self.assertRaises(TypeError, call)
            self.assertRaises(TypeError, call, b"a", 0, 0, 0)
            self.assertRaises(TypeError, call, b"a", text=b"a")
            self.assertRaises(TypeError, call, b"a", haystack=b"a")
            self.assertRaises(TypeError, call, start=1)
        self.assertTrue(regex.is_match(haystack=b"a"))


class Regexes(unittest.TestCase):
    def test_identity(self):
        regex = hanneddois.Regex(["a", b"b"], hanneddois.CASE_INSENSITIVE, capacity=1 << 20, size_limit=1 << 21, nest_limit=9)
        equal = hanneddois.Regex(("a", b"b"), 1, 1 << 20, 1 << 21, 9)
        self.assertEqual((regex, hash(regex)), (equal, hash(equal)))
        self.assertEqual((regex.patterns, regex.flags, regex.capacity, regex.size_limit, regex.nest_limit), (("a", b"b"), 1, 1 << 20, 1 << 21, 9))
        self.assertEqual(repr(regex), "hanneddois.Regex(['a', b'b'], flags=1, capacity=1048576, size_limit=2097152, nest_limit=9)")
        for other in (hanneddois.Regex(["a", b"b"]), hanneddois.Regex(["a", "b"], 1, 1 << 20, 1 << 21, 9), "a", None):
            self.assertNotEqual(regex, other)
        self.assertEqual(hanneddois.Regex([bytearray(b"a"), memoryview(b"b")]), hanneddois.Regex([b"a", b"b"]))
        for name in ("patterns", "flags", "pattern_count", "new_name"):
            with self.assertRaises(AttributeError):
                setattr(regex, name, 1)

    def test_pickled(self):
        regex = hanneddois.Regex(["a+", b"b"], hanneddois.CASE_INSENSITIVE, nest_limit=9)
        for protocol in range(pickle.HIGHEST_PROTOCOL + 1):
            other = pickle.loads(pickle.dumps(regex, protocol))
            self.assertEqual(other, regex)
            self.assertEqual(other.find("xAa"), (0, 1, 3))
        self.assertIs(copy.copy(regex), regex)
        self.assertIs(copy.deepcopy(regex), regex)

    def test_kept(self):
        hanneddois.purge()
        regex = hanneddois.compile("a", hanneddois.CASE_INSENSITIVE)
        self.assertIs(hanneddois.compile("a", flags=hanneddois.CASE_INSENSITIVE), regex)
        self.assertIs(hanneddois.compile(regex), regex)
        self.assertRaises(ValueError, hanneddois.compile, regex, hanneddois.CASE_INSENSITIVE)
        self.assertIsNot(hanneddois.compile("a"), regex)
        self.assertIsNot(hanneddois.compile(b"a", hanneddois.CASE_INSENSITIVE), regex)
        self.assertEqual(hanneddois.compile(bytearray(b"a")), hanneddois.compile(b"a"))
        hanneddois.purge()
        self.assertIsNot(hanneddois.compile("a", hanneddois.CASE_INSENSITIVE), regex)
        self.assertEqual(hanneddois.compile("a", hanneddois.CASE_INSENSITIVE), regex)

    def test_subclass(self):
        class Named(hanneddois.Regex):
            name = "words"

        regex = Named(["[a-z]+"])
        regex.more = 1
        self.assertIs(weakref.ref(regex)(), regex)
        self.assertEqual((regex.find("A b"), regex.name), ((0, 2, 3), "words"))
        self.assertIs(type(pickle.loads(pickle.dumps(hanneddois.Regex(["a"])))), hanneddois.Regex)

    def test_names(self):
        for name in hanneddois.__all__:
            self.assertTrue(hasattr(hanneddois, name), name)
        public = {"capacity", "clear_count", "find", "find_all", "find_iter", "findall", "finditer", "flags", "fullmatch", "group_names",
                  "groupindex", "groups", "is_match", "match", "matching_patterns", "memory_usage", "nest_limit", "pattern", "pattern_count",
                  "patterns", "search", "size_limit", "split", "stream", "sub", "subn", "which"}
        self.assertEqual({name for name in dir(hanneddois.Regex) if not name.startswith("_")}, public)
        public = {"end", "endpos", "expand", "group", "groupdict", "groups", "haystack", "lastgroup", "lastindex", "pattern", "pos", "re",
                  "regs", "span", "start", "string"}
        self.assertEqual({name for name in dir(hanneddois.Match) if not name.startswith("_")}, public)
        for each in (hanneddois.Regex, hanneddois.Match, hanneddois.Error):
            for name in (it for it in vars(each) if not it.startswith("_")):
                self.assertTrue(getattr(each, name).__doc__, name)


def run_in_threads(count, job):
    """Runs a job in threads that begin together, and raises what the first of them raised."""
    barrier, failed = threading.Barrier(count), []

    def run(number):
        try:
            barrier.wait()
            job(number)
        except BaseException as error:
            failed.append(error)

    threads = [threading.Thread(target=run, args=(number,)) for number in range(count)]
    for thread in threads:
        thread.start()
    for thread in threads:
        thread.join()
    if failed:
        raise failed[0]


class Threads(unittest.TestCase):
    def test_one_regex(self):
        regex = hanneddois.compile(r"[a-z]+[0-9]+|é", hanneddois.NO_BYTE_CLASSES)
        haystacks = ["ab12 " * 1000 + str(number) + " é c3" for number in range(4)] + ["a1 é", b"x9 " * 1500, bytearray(b"y8 " * 1500)]
        wanted = [[tuple(match) for match in hanneddois.Regex(regex.patterns).find_iter(haystack)] for haystack in haystacks]

        def job(number):
            for turn in range(10):
                at = (number + turn) % len(haystacks)
                self.assertEqual([tuple(match) for match in regex.find_iter(haystacks[at])], wanted[at])
                self.assertEqual(regex.find(haystacks[at]), wanted[at][0])
                self.assertTrue(regex.is_match(haystacks[at]))
                self.assertEqual(regex.matching_patterns(haystacks[at]), [0])

        run_in_threads(8, job)

    @unittest.skipUnless(hasattr(hanneddois.Matcher, "_make_handle"), "the extension compiles where a test can't see it")
    def test_nothing_is_compiled_again(self):
        regex, haystack = hanneddois.compile("[a-z]+[0-9]"), b"abc1 " * 1000
        with unittest.mock.patch.object(hanneddois.Matcher, "_make_handle", side_effect=AssertionError):
            run_in_threads(8, lambda number: self.assertEqual(len(regex.find_all(haystack)), 1000))

    def test_compile(self):
        hanneddois.purge()

        def job(number):
            for turn in range(20):
                self.assertEqual(hanneddois.compile(f"a{turn}+").find(f"xa{turn}"), (0, 1, len(f"xa{turn}")))

        run_in_threads(8, job)

    def returns_before_search_ends(self, haystack):
        """Whether this thread goes on while another searches. No thread has to give up the lock by itself within the interval."""
        regex, begun, ended = hanneddois.compile(r"(?:[a-z]+ )+1"), threading.Event(), []
        regex.find(b"a 1")

        def search():
            begun.set()
            regex.find(haystack)
            ended.append(True)

        interval = sys.getswitchinterval()
        sys.setswitchinterval(100)
        try:
            thread = threading.Thread(target=search)
            thread.start()
            begun.wait()
            result = not ended
        finally:
            sys.setswitchinterval(interval)
        thread.join()
        return result

    def test_lock_is_given_up(self):
        # On a busy machine a search may end before this thread gets a processor, so there are several attempts.
        content = b"ab " * 10_000_000
        for haystack in (content, memoryview(content), content.decode()):
            self.assertTrue(any(self.returns_before_search_ends(haystack) for _ in range(50)))

    def test_lock_is_kept_for_what_can_be_written(self):
        self.assertFalse(self.returns_before_search_ends(bytearray(b"ab " * 3_000_000)))

    def test_one_iterator(self):
        # Whoever comes while the other one searches gets an error. On a busy machine both may miss each other, so they try several times.
        regex, content, failed = hanneddois.compile(r"(?:[a-z]+ )+1"), b"ab " * 10_000_000, []
        for _ in range(50):
            iterator = regex.find_iter(content)

            def job(number):
                try:
                    self.assertEqual(list(iterator), [])
                except ValueError as error:
                    failed.append(error)

            run_in_threads(2, job)
            if failed:
                break
        self.assertEqual(len(failed), 1)


class Streams(unittest.TestCase):
    INPUT = b"xabb b"
    PAIRS = [(0, 3), (0, 4), (1, 6), (2, 6)]

    def regex(self, **options):
        return hanneddois.Regex(["ab+", r"(?-u:\b)b", "$"], **options)

    def test_cuts(self):
        regex = self.regex()
        for i in range(len(self.INPUT) + 1):
            for j in range(i, len(self.INPUT) + 1):
                stream = regex.stream()
                pairs = stream.feed(self.INPUT[:i]) + stream.feed(bytearray(self.INPUT[i:j])) + stream.feed(memoryview(self.INPUT)[j:])
                self.assertEqual(stream.position, len(self.INPUT))
                self.assertEqual(pairs + stream.close(), self.PAIRS)

    def test_lines(self):
        """Each line is searched by itself, wherever the input is cut."""
        regex, text = self.regex(), b"ab b\n\nxabb\nb"
        wanted, offset = [], 0
        for line in text.splitlines(keepends=True):
            stream = regex.stream()
            found = stream.feed(line.rstrip(b"\n")) + stream.close()
            wanted += [(pattern, offset + end) for pattern, end in found]
            offset += len(line)
        self.assertEqual(wanted, [(0, 2), (1, 4), (2, 4), (2, 5), (0, 9), (0, 10), (2, 10), (1, 12), (2, 12)])
        for i in range(len(text) + 1):
            for j in range(i, len(text) + 1):
                stream = regex.stream(lines=True)
                found = stream.feed(text[:i])
                other = stream.copy()
                stream.feed(b"ab\n")
                found += other.feed(text[i:j]) + other.feed(text[j:]) + other.close()
                self.assertEqual((found, other.position), (wanted, len(text)))
        self.assertEqual(list(regex.stream(lines=True).scan([text[:6], text[6:]])), wanted)
        self.assertEqual(list(regex.stream(lines=True).scan([])), [])
        stream = regex.stream(lines=True)
        self.assertRaises(hanneddois.Error, lambda: (stream.close(), stream.feed(b"\n")))
        stream.reset()
        self.assertEqual(stream.feed(b"a\n" * 100_000), [(2, end) for end in range(1, 200_000, 2)])

    def test_copies(self):
        stream = self.regex().stream()
        first = stream.feed(self.INPUT[:3])
        other = copy.copy(stream)
        self.assertEqual(stream.feed(b" ab"), [(0, 3)])
        self.assertEqual((stream.position, other.position), (6, 3))
        self.assertEqual(first + other.feed(self.INPUT[3:]) + other.close(), self.PAIRS)
        with self.assertRaises(hanneddois.Error) as caught:
            other.feed(b"a")
        self.assertEqual(caught.exception.status, hanneddois.CLOSED)
        other.reset()
        self.assertEqual((other.position, other.feed(b"ab"), other.close()), (0, [], [(0, 2), (2, 2)]))

    def test_many(self):
        regex = self.regex()
        streams = [regex.stream() for _ in range(300)]
        found = [[] for _ in streams]
        for byte in self.INPUT:
            for stream, pairs in zip(streams, found):
                pairs += stream.feed(bytes([byte]))
        for stream, pairs in zip(streams, found):
            self.assertEqual(pairs + stream.close(), self.PAIRS)

    def test_long_pieces(self):
        stream = hanneddois.compile("a").stream()
        self.assertEqual(stream.feed(b"a" * 100_000), [(0, end) for end in range(1, 100_000)])
        self.assertEqual((stream.feed(b""), stream.close()), ([], [(0, 100_000)]))

    def test_sources(self):
        regex = self.regex()
        self.assertEqual(list(regex.stream().scan([self.INPUT[:2], b"", self.INPUT[2:]])), self.PAIRS)
        with tempfile.TemporaryFile() as file:
            file.write(self.INPUT)
            file.seek(0)
            self.assertEqual(list(regex.stream().scan(file)), self.PAIRS)
        ends = socket.socketpair()
        with ends[0], ends[1]:
            ends[0].sendall(self.INPUT[:4] + b" ")
            pairs = regex.stream().scan(ends[1])
            self.assertEqual([next(pairs), next(pairs)], self.PAIRS[:2])
            ends[0].sendall(b"b")
            ends[0].shutdown(socket.SHUT_WR)
            self.assertEqual(list(pairs), self.PAIRS[2:])
        self.assertRaises(TypeError, regex.stream().feed, "text")
        self.assertRaises(TypeError, next, regex.stream().scan(7))

    def test_word_boundaries(self):
        with self.assertRaises(hanneddois.Error) as caught:
            hanneddois.Regex(["a", r"\bb"]).stream()
        self.assertEqual((caught.exception.status, caught.exception.pattern), (hanneddois.WORD_BOUNDARY, 1))
        self.assertEqual(hanneddois.compile(r"\bb", hanneddois.NO_UNICODE).stream().feed(b"b "), [(0, 1)])

    def test_threads(self):
        regex = hanneddois.compile("[a-d]{3}e")

        def job(number):
            stream = regex.stream()
            for _ in range(200):
                self.assertEqual(len(stream.feed(b"abcde ")), 1)

        run_in_threads(4, job)

    def test_hints(self):
        for name in (it for it in vars(type(self.regex().stream())) if not it.startswith("_")):
            self.assertTrue(getattr(type(self.regex().stream()), name).__doc__, name)


class Leaks(unittest.TestCase):
    def blocks_after(self, job, turns):
        for _ in range(turns):
            job()
        gc.collect()
        return sys.getallocatedblocks()

    def memory(self):
        with open("/proc/self/statm") as file:
            return int(file.read().split()[1]) * os.sysconf("SC_PAGESIZE")

    def check(self, job, turns):
        """Checks that a job leaves neither Python's objects nor memory of the library. Python keeps some blocks for itself at first, so
        there are several attempts: what leaks does so in each of them."""
        self.blocks_after(job, turns)
        for attempt in range(5):
            first = self.blocks_after(job, turns)
            held = self.memory() if os.path.exists("/proc/self/statm") else None
            grown = self.blocks_after(job, 2 * turns) - first
            if grown < 50:
                break
        self.assertLess(grown, 50)
        if held is not None:
            self.assertLess(self.memory() - held, 4_000_000)

    def test_searches(self):
        regex, buffer = hanneddois.compile("[0-9]+"), bytearray(b"a12 3")

        def job():
            for haystack in ("a12 3", "é12 3", b"a12 3", buffer, memoryview(buffer), "none"):
                match = regex.find(haystack)
                if match:
                    match.group(), match.span(), match == (0, 1, 3), hash(match), repr(match), list(match), match[0], pickle.dumps(regex)
                list(regex.find_iter(haystack))
                next(regex.find_iter(haystack), None)
                regex.find_all(haystack), regex.is_match(haystack), regex.matching_patterns(haystack)

        self.check(job, 300)

    def test_groups(self):
        regex = hanneddois.compile(r"(?P<a>\w)(\d)?|é()")

        def job():
            for haystack in ("é1 é a2", b"a1 bc", bytearray(b"a12 3")):
                for match in regex.finditer(haystack):
                    match.groups(), match.groupdict(), match.expand(rb"\1" if isinstance(haystack, (bytes, bytearray)) else r"\1")
                    match.group("a"), match.start(1), match.regs, match.lastindex, match.lastgroup, match["a"], match.group(1, 2), repr(match)
                    self.assertRaises(IndexError, match.group, "none")
                regex.fullmatch(haystack), regex.match(haystack), regex.split(haystack), regex.findall(haystack)
                regex.subn(lambda match: match.group(), haystack)

        self.check(job, 100)

    def test_failures(self):
        regex, strict = hanneddois.compile("[0-9]+"), hanneddois.Regex(["(?-u).", "a"])

        def job():
            for call, error in ((lambda: regex.find(5), TypeError), (lambda: regex.find("a", 9), hanneddois.Error),
                                (lambda: regex.find_iter(memoryview(b"abc")[::2]), BufferError), (lambda: strict.find("a"), hanneddois.Error),
                                (lambda: hanneddois.compile("a("), hanneddois.Error), (lambda: regex.find(text=1), TypeError),
                                (lambda: regex.find("\ud800"), UnicodeEncodeError)):
                self.assertRaises(error, call)

        self.check(job, 100)

    def test_regexes(self):
        def job():
            regex = hanneddois.Regex([r"[a-z]+\d"])
            regex.find_all("abc1 def2 é3")
            regex.matching_patterns("é1")

        self.check(job, 40)

    def test_long_lists(self):
        regex, content = hanneddois.compile("[0-9]+"), b"12 " * 10000
        self.check(lambda: (regex.find_all(content), regex.find_all(content.decode()), next(regex.find_iter(content))), 10)


class Page(unittest.TestCase):
    def test_examples(self):
        page = pathlib.Path(__file__).resolve().parent.parent / "README.md"
        failed, tried = doctest.testfile(str(page), module_relative=False)
        self.assertEqual(failed, 0)
        self.assertGreaterEqual(tried, 5)


if __name__ == "__main__":
    unittest.main()
