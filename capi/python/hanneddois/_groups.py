"""Groups of matches and templates of replacements, as re has them: what the extension and the module for ctypes share."""

import functools
import operator
import re

from ._common import IGNORE_WHITESPACE, Error

_ESCAPES = {"a": "\a", "b": "\b", "f": "\f", "n": "\n", "r": "\r", "t": "\t", "v": "\v", "\\": "\\"}
_TURNS_VERBOSE = re.compile(r"\(\?[A-Za-z]*x")
_OCTAL, _DIGITS = frozenset("01234567"), frozenset("0123456789")


def _closing_order(pattern, is_verbose):
    """Returns the numbers of the groups of a pattern in the order of their closing parentheses."""
    order, open_groups, count, depth, at = [], [], 0, 0, 0
    while at < len(pattern):
        each = pattern[at]
        if each == "\\":
            at += 1
        elif depth or each == "[":
            depth += (each == "[") - (each == "]")
            # A bracket that comes first in a class is one of its characters.
            at += (each == "[") * (1 + (pattern[at + 1 : at + 2] == "^")) * (pattern[at + 1 : at + 3].lstrip("^")[:1] == "]")
        elif each == "#" and is_verbose:
            at = pattern.find("\n", at) if "\n" in pattern[at:] else len(pattern)
        elif each == "(":
            is_group = pattern[at + 1 : at + 2] != "?" or pattern[at + 2 : at + 4] == "P<" or pattern[at + 2 : at + 3] == "<"
            count += is_group
            open_groups.append(count if is_group else 0)
        elif each == ")" and open_groups:
            order.append(open_groups.pop())
        at += 1
    return [number for number in order if number]


@functools.lru_cache(maxsize=256)
def _closing_ranks(pattern, is_verbose):
    is_verbose = is_verbose or _TURNS_VERBOSE.search(pattern) is not None
    return {number: rank for rank, number in enumerate(_closing_order(pattern, is_verbose))}


def _parse_name(template, at, names):
    """Parses the group between angle brackets, and returns its number and the offset after it."""
    if template[at : at + 1] != "<":
        raise Error("missing <").locate(template, at)
    end = template.find(">", at)
    name = template[at + 1 : end if end >= 0 else len(template)]
    if not name:
        raise Error("missing group name").locate(template, at + 1)
    if end < 0:
        raise Error("missing >, unterminated name").locate(template, at + 1)
    if name.isascii() and name.isdigit():
        return _check_number(int(name), template, at + 1, names), end + 1
    if not name.isidentifier():
        raise Error(f"bad character in group name {name!r}").locate(template, at + 1)
    if name not in names:
        raise IndexError(f"unknown group name {name!r}")
    return names.index(name), end + 1


def _check_number(number, template, at, names):
    if number >= len(names):
        raise Error(f"invalid group reference {number}").locate(template, at)
    return number


def _parse_number(template, at, names):
    """Parses what follows a backslash and begins with a digit: returns a character or the number of a group, and the offset after it."""
    digits = template[at : at + 3]
    if digits[0] == "0":
        length = 1 + (digits[1:2] in _OCTAL) + (digits[1:2] in _OCTAL and digits[2:3] in _OCTAL)
        return chr(int(digits[:length], 8)), at + length
    if len(digits) == 3 and all(it in _OCTAL for it in digits):
        if int(digits, 8) > 0o377:
            raise Error(f"octal escape value \\{digits} outside of range 0-0o377").locate(template, at - 1)
        return chr(int(digits, 8)), at + 3
    length = 1 + (digits[1:2] in _DIGITS)
    return _check_number(int(digits[:length]), template, at, names), at + length


def _parse_escape(template, at, names):
    """Parses what follows a backslash: returns a str or the number of a group, and the offset after it."""
    if at == len(template):
        raise Error("bad escape (end of pattern)").locate(template, at - 1)
    each = template[at]
    if each == "g":
        return _parse_name(template, at + 1, names)
    if each in _DIGITS:
        return _parse_number(template, at, names)
    if each in _ESCAPES:
        return _ESCAPES[each], at + 1
    if each.isascii() and each.isalpha():
        raise Error(f"bad escape \\{each}").locate(template, at - 1)
    return "\\" + each, at + 1


@functools.lru_cache(maxsize=512)
def _parse_template(is_str, template, names):
    """Returns the parts of a template as re has them: bytes, and the numbers of groups."""
    text, parts, at = template if is_str else template.decode("latin-1"), [], 0
    while at < len(text):
        next_escape = text.find("\\", at)
        if next_escape < 0:
            next_escape = len(text)
        if next_escape > at:
            parts.append(text[at:next_escape])
        at = next_escape
        if at < len(text):
            part, at = _parse_escape(text, at + 1, names)
            parts.append(part)
    return tuple(part if isinstance(part, int) else part.encode("utf-8" if is_str else "latin-1") for part in parts)


@functools.lru_cache(maxsize=512)
def _parse_templates(is_str, template, all_names):
    templates = tuple(_parse_template(is_str, template, names) for names in all_names)
    return templates, any(isinstance(part, int) and part > 0 for parts in templates for part in parts)


def _as_template(template):
    """Returns whether a template is a str, and the template as what can be kept."""
    if isinstance(template, str):
        return True, str(template)
    return False, template if isinstance(template, bytes) else bytes(memoryview(template))


def parse_template(template, names):
    """Returns the parts of a template for a pattern whose groups have these names: bytes, and the numbers of groups."""
    return _parse_template(*_as_template(template), names)


def parse_templates(template, all_names):
    """Returns the parts of a template for each of several patterns, and whether a group is among them."""
    return _parse_templates(*_as_template(template), all_names)


class MatchMethods:
    """What a match has in re, over its other methods."""

    __slots__ = ()

    def expand(self, template):
        """The template with its references to groups replaced, as \\1 and \\g<name>. A group that took no part is empty."""
        is_str = isinstance(self.string, str)
        if isinstance(template, str) != is_str:
            raise TypeError("a template is of the same kind as what is searched: both are a str, or both are bytes-like objects")
        parts = parse_template(template, self.re.group_names[self.pattern])
        if is_str:
            return "".join(self.group(part) or "" if isinstance(part, int) else part.decode() for part in parts)
        return b"".join(self.group(part) or b"" if isinstance(part, int) else part for part in parts)

    @property
    def lastindex(self):
        """The number of the group that was closed last, or None if none took part."""
        spans = self.regs
        pattern = self.re.patterns[self.pattern]
        pattern = pattern if isinstance(pattern, str) else pattern.decode()
        ranks = _closing_ranks(pattern, bool(self.re.flags & IGNORE_WHITESPACE))
        taking_part = [number for number in range(1, len(spans)) if spans[number][0] >= 0]
        return max(taking_part, key=lambda number: (spans[number][1], ranks.get(number, number)), default=None)

    @property
    def lastgroup(self):
        """The name of the group that was closed last, or None if it has none."""
        index = self.lastindex
        return None if index is None else self.re.group_names[self.pattern][index]

    def __iter__(self):
        return iter((self.pattern, *self.span()))

    def __eq__(self, other):
        return tuple(self) == tuple(other) if isinstance(other, (MatchMethods, tuple, type(self))) else NotImplemented

    def __hash__(self):
        return hash(tuple(self))

    def __reduce__(self):
        # A search from the start of a match finds it again, unless that was sought at one offset alone.
        if not self._is_anchored:
            return operator.methodcaller("find", self.string, self.start(), self.endpos), (self.re,)
        again = self.re.match(self.string, self.pos, self.endpos)
        name = "match" if again and (again.span(), again.pattern) == (self.span(), self.pattern) else "fullmatch"
        return operator.methodcaller(name, self.string, self.pos, self.endpos), (self.re,)

    def __copy__(self):
        return self

    def __deepcopy__(self, memo):
        return self

    def __repr__(self):
        pattern = f"pattern={self.pattern}, " if self.re.pattern_count > 1 else ""
        return f"<hanneddois.Match object; {pattern}span={self.span()}, match={self.group()!r}>"


def add_methods(kind):
    """Adds the methods to a class that is written in C and inherits from nothing."""
    for name, function in vars(MatchMethods).items():
        if name not in ("__slots__", "__module__", "__doc__", "__dict__", "__weakref__"):
            setattr(kind, name, function)
