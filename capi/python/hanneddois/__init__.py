"""Regular expressions of the library hanneddois.

    import hanneddois
    regex = hanneddois.compile(r"[0-9]+")
    for match in regex.find_iter("7 and 42"):
        print(match.start(), match.end(), match.group())

A haystack is a str, or bytes, a bytearray, a memoryview, a mmap or any other object with contiguous bytes. Offsets count the characters of
a str, and the bytes of any other haystack.

An extension searches, or ctypes if that isn't built, which takes longer for each call; `backend` is "extension" or "ctypes". If the
environment variable HANNEDDOIS_LIBRARY names a shared library, that one is used, by ctypes.
"""

import functools
import operator
import os
import sys
import types

from ._common import (BAD_ARGUMENT, CAPACITY_TOO_SMALL, CASE_INSENSITIVE, CLOSED, CRLF, DOT_MATCHES_NEW_LINE, EMPTY_LOOP, EMPTY_LOOPS,
                      GROUPS, HAYSTACK_NOT_UTF8, IGNORE_WHITESPACE, MATCHING_PATTERNS, MULTI_LINE, NESTS_TOO_DEEP, NO_BYTE_CLASSES, NO_MEMORY,
                      NO_PATTERN, NO_UNICODE, NONE, NOT_UTF8, OCTAL, OK, RAISE_CAPACITY, SHRINK, SWAP_GREED, SYNTAX_ERROR, TOO_LARGE,
                      UTF8, WHICH, WORD_BOUNDARY, Error)
from ._groups import add_methods, parse_templates
from ._streams import Stream
from ._streams import streams_of as _streams_of

try:
    if os.environ.get("HANNEDDOIS_LIBRARY"):
        raise ImportError("HANNEDDOIS_LIBRARY names another library than that of the extension")
    from ._extension import Match, Matcher, version
    add_methods(Match)
    backend = "extension"
except ImportError:
    from ._ctypes import Match, Matcher, version
    backend = "ctypes"

__all__ = ["BAD_ARGUMENT", "CAPACITY_TOO_SMALL", "CASE_INSENSITIVE", "CLOSED", "CRLF", "DOTALL", "DOT_MATCHES_NEW_LINE", "EMPTY_LOOP", "EMPTY_LOOPS",
           "Error", "GROUPS", "HAYSTACK_NOT_UTF8", "I", "IGNORECASE", "IGNORE_WHITESPACE", "M", "MATCHING_PATTERNS", "MULTILINE", "MULTI_LINE",
           "Match", "NESTS_TOO_DEEP", "NOFLAG", "NONE", "NOT_UTF8", "NO_BYTE_CLASSES", "NO_MEMORY", "NO_PATTERN", "NO_UNICODE", "OCTAL",
           "OK", "Pattern", "PatternError", "RAISE_CAPACITY", "Regex", "S", "SHRINK", "SWAP_GREED", "Stream", "SYNTAX_ERROR", "TOO_LARGE", "U", "UNICODE", "UTF8",
           "VERBOSE", "WHICH", "WORD_BOUNDARY", "X", "backend", "compile", "error", "escape", "findall", "finditer", "fullmatch", "match", "purge", "search",
           "split", "sub", "subn", "version"]

# The names of flags in re. Patterns are Unicode's without one.
I = IGNORECASE = CASE_INSENSITIVE
M = MULTILINE = MULTI_LINE
S = DOTALL = DOT_MATCHES_NEW_LINE
X = VERBOSE = IGNORE_WHITESPACE
U = UNICODE = NOFLAG = 0
error = PatternError = Error

# How many regexes `compile` keeps. Each may take some MB after long searches.
_MOST_KEPT = 128


def _as_pattern(pattern):
    if isinstance(pattern, (str, bytes)):
        return pattern
    try:
        return bytes(memoryview(pattern))
    except TypeError:
        raise TypeError(f"a pattern is a str or a bytes-like object, not {type(pattern)!r}") from None


def _as_flags(flags):
    """Returns the flags of this module. Those of re have other numbers, and are translated."""
    re = sys.modules.get("re")
    if re is None or not isinstance(flags, re.RegexFlag):
        return _as_number("flags", flags, 32)
    known = {re.I: I, re.M: M, re.S: S, re.X: X, re.U: U}
    if flags & ~(re.I | re.M | re.S | re.X | re.U):
        raise ValueError(f"there are no flags {flags & ~(re.I | re.M | re.S | re.X | re.U)!r}")
    return sum(flag for theirs, flag in known.items() if flags & theirs)


def _as_number(name, value, bits):
    value = operator.index(value)
    if not 0 <= value < 1 << bits:
        raise ValueError(f"{name} is a number from 0 to {(1 << bits) - 1}, and not {value}")
    return value


class Regex(Matcher):
    """A compiled regex of one pattern or several. It doesn't change, and several threads may search with it at the same time.

    patterns     a list of patterns; each is a str, or bytes that are UTF-8. If several match at the same offset, the first one of them counts.
    flags        flags of this module, joined by |
    capacity     how many bytes each of both caches may take, which is never exceeded; 0 for 2 MiB, which are enlarged, up to 256 MiB, if searches
                 or streams clear a cache too soon
    size_limit   how many bytes each of both automata may take; 0 for 64 MiB
    nest_limit   how deep groups, classes and repetitions may nest; 0 for 250

    Raises Error if a pattern is rejected. In a str no match splits a character: if a match of a pattern could, the first search of a str
    raises Error.
    """

    __slots__ = ("__weakref__",)

    def __new__(cls, patterns, flags=0, capacity=0, size_limit=0, nest_limit=0):
        if isinstance(patterns, (str, bytes, bytearray, memoryview)):
            raise TypeError("Regex takes a list of patterns; compile takes a single one")
        patterns = tuple(map(_as_pattern, patterns))
        encoded = tuple(it.encode() if isinstance(it, str) else bytes(it) for it in patterns)
        flags, nest_limit = _as_flags(flags), _as_number("nest_limit", nest_limit, 32)
        capacity, size_limit = _as_number("capacity", capacity, 63), _as_number("size_limit", size_limit, 63)
        return super().__new__(cls, patterns, encoded, flags, capacity, size_limit, nest_limit)

    def stream(self, lines=False):
        """Returns a new Stream: a search of input that comes in pieces. All of a regex share an automaton and its cache. With lines=True each
        line of the input is searched by itself, and those that are share another one.

        Raises Error if a pattern has a Unicode word boundary, as \\b or \\B: write (?-u:\\b), or use NO_UNICODE."""
        return Stream(_streams_of(self, lines))

    which = Matcher.matching_patterns  # the name in version 0.2

    @property
    def pattern(self):
        """The pattern; of several, the first one."""
        return self.patterns[0]

    @property
    def groups(self):
        """How many groups the pattern has; of several, the first one."""
        return len(self.group_names[0]) - 1

    @property
    def groupindex(self):
        """The numbers of the groups that have a name, by their names; of several patterns, those of the first one."""
        return types.MappingProxyType({name: number for number, name in enumerate(self.group_names[0]) if name})

    def _anchored(self, anchor, is_full):
        """Returns the regex of the patterns that matches at one offset alone: at the start, or after a character or a byte there."""
        return _wrap(self, _ANCHORS[anchor], r")\z" if is_full else ")")

    def sub(self, repl, string, count=0):
        """The string with its first matches replaced, or with all if the count is 0.

        Each match is replaced by a template, in which \\1 and \\g<name> stand for groups, or by what a function returns for the match."""
        return self.subn(repl, string, count)[0]

    def subn(self, repl, string, count=0):
        """The pair of what sub returns, and of how many matches were replaced."""
        if callable(repl):
            return self._replace(string, repl, count, False)
        if isinstance(repl, str) != isinstance(string, str):
            raise TypeError("a template is of the same kind as what is searched: both are a str, or both are bytes-like objects")
        templates, needs_groups = parse_templates(repl, self.group_names)
        return self._replace(string, templates, count, needs_groups)

    def split(self, string, maxsplit=0):
        """The list of what is between the matches, with their groups. Without a maxsplit of 0 at most so many matches split it."""
        return self._split(string, maxsplit)

    def __reduce__(self):
        return type(self), (self.patterns, self.flags, self.capacity, self.size_limit, self.nest_limit)

    def _key(self):
        # A comparison ends at the types, so that it never compares a str with bytes.
        return tuple(map(type, self.patterns)), *self.__reduce__()[1]

    def __eq__(self, other):
        return self._key() == other._key() if isinstance(other, Regex) else NotImplemented

    def __hash__(self):
        return hash(self._key())

    def __copy__(self):
        return self

    def __deepcopy__(self, memo):
        return self

    def __repr__(self):
        names = ("flags", "capacity", "size_limit", "nest_limit")
        options = "".join(f", {name}={getattr(self, name)}" for name in names if getattr(self, name))
        return f"hanneddois.{type(self).__name__}({list(self.patterns)!r}{options})"


Pattern = Regex

# What a regex begins with that matches at one offset alone: nothing, or the character or byte before that offset.
_ANCHORS = (r"\A(?:", r"\A(?su:.)(?:", r"\A(?s-u:.)(?:")
# A pattern that nests as deep as it may gets a group and a sequence around it.
_DEEPER = 4


def _wrap(regex, before, after):
    """Compiles the patterns between two others. If a comment ends a pattern, a line feed ends that."""
    flags = regex.flags & ~UTF8 & ~MATCHING_PATTERNS | RAISE_CAPACITY
    options = (flags, regex.capacity, 2 * regex.size_limit, (regex.nest_limit or 250) + _DEEPER)
    for line_feed in ("\n", "") if regex.flags & IGNORE_WHITESPACE else ("", "\n"):
        try:
            return Regex([_around(it, before, line_feed + after) for it in regex.patterns], *options)
        except Error as error:
            failed = error
    raise failed


def _around(pattern, before, after):
    return before + pattern + after if isinstance(pattern, str) else before.encode() + pattern + after.encode()


# Types are compared too: flags of re have other numbers, so they aren't what is kept under their number.
@functools.lru_cache(maxsize=_MOST_KEPT, typed=True)
def _compile(pattern, *options):
    return Regex([pattern], *options)


def compile(pattern, flags=0, capacity=0, size_limit=0, nest_limit=0):
    """Returns the regex of one pattern. It is kept, so that the next call with the same arguments returns the same regex."""
    if isinstance(pattern, Regex):
        if (flags, capacity, size_limit, nest_limit) != (0, 0, 0, 0):
            raise ValueError("a compiled regex takes no further options")
        return pattern
    return _compile(_as_pattern(pattern), flags, capacity, size_limit, nest_limit)


_SPECIAL = {ord(each): "\\" + each for each in r"\.+*?()|[]{}^$#&-~"}
# White space, which means nothing in a pattern with the flag X.
_SPECIAL |= {each: f"\\x{{{each:x}}}" for each in range(0x3001) if chr(each).isspace() or each in (0x200E, 0x200F)}
# What a byte is decoded to that is no UTF-8.
_SPECIAL |= {0xDC00 + each: f"(?-u:\\x{each:02x})" for each in range(128, 256)}


def escape(pattern):
    """Returns the pattern that matches a text itself. It is a str if the text is one, and otherwise bytes."""
    if isinstance(pattern, str):
        return pattern.translate(_SPECIAL)
    return bytes(memoryview(pattern)).decode(errors="surrogateescape").translate(_SPECIAL).encode()


def _searching(name):
    """Returns the function of re that compiles a pattern and calls a method of it."""
    method = getattr(Regex, name)

    def call(pattern, string, flags=0):
        regex = _compile(pattern, flags, 0, 0, 0) if type(pattern) is str else compile(pattern, flags)
        return method(regex, string)

    call.__name__ = call.__qualname__ = name
    call.__doc__ = f"Compiles a pattern, and returns what the method {name} of the regex returns."
    return call


search, match, fullmatch, findall, finditer = map(_searching, ("search", "match", "fullmatch", "findall", "finditer"))


def sub(pattern, repl, string, count=0, flags=0):
    """Compiles a pattern, and returns what the method sub of the regex returns."""
    return compile(pattern, flags).sub(repl, string, count)


def subn(pattern, repl, string, count=0, flags=0):
    """Compiles a pattern, and returns what the method subn of the regex returns."""
    return compile(pattern, flags).subn(repl, string, count)


def split(pattern, string, maxsplit=0, flags=0):
    """Compiles a pattern, and returns what the method split of the regex returns."""
    return compile(pattern, flags).split(string, maxsplit)


def purge():
    """Lets go of the regexes that compile keeps."""
    _compile.cache_clear()
