"""Searches by ctypes, for systems without a compiler: Match and Matcher, with the interface that they have in _extension.c."""

import ctypes
import itertools
import operator
import os
import pathlib
import platform
import struct
import sys
import threading
import types

from ._common import BAD_ARGUMENT, EMPTY_LOOP, EMPTY_LOOPS, NO_UNICODE, NONE, OK, RAISE_CAPACITY, UTF8, Error, count_characters
from ._groups import MatchMethods

# The path of the shared library, which ./install writes into its copy of this file.
_INSTALLED = None

# The major and minor version of the library for which this module is written.
_VERSION = (0, 3)

# Searches of more bytes than this give up the interpreter's lock. Shorter ones take less time than that would.
_FEW_BYTES = 4096

# The offset of a group that took no part.
_NO_OFFSET = ctypes.c_size_t(-1).value
# An iterator searches ahead by so many matches, and by twice as many each time.
_LEAST_ROWS, _MOST_ROWS = 8, 512


class _Handle(ctypes.Structure):
    _fields_ = [("inside", ctypes.c_void_p)]


class _Row(ctypes.Structure):
    _fields_ = [(name, ctypes.c_size_t) for name in ("pattern", "start", "end")]


class _Failure(ctypes.Structure):
    _fields_ = [("status", ctypes.c_uint32), ("cause", ctypes.c_uint32), ("pattern", ctypes.c_size_t), ("start", ctypes.c_size_t),
                ("end", ctypes.c_size_t), ("limit", ctypes.c_size_t)]


class _Options(ctypes.Structure):
    _fields_ = [("flags", ctypes.c_uint32), ("nest_limit", ctypes.c_uint32), ("capacity", ctypes.c_size_t), ("size_limit", ctypes.c_size_t)]


def _find_library():
    """Returns the path of the library that HANNEDDOIS_LIBRARY names, or that was installed with this module, or of a checkout."""
    named = os.environ.get("HANNEDDOIS_LIBRARY") or _INSTALLED
    if named:
        return named
    here = pathlib.Path(__file__).resolve().parent
    capi, top = here.parents[1], here.parents[2]
    candidates = [*sorted((here / "lib").glob("libhanneddois.so.*")), here / "libhanneddois.so", capi / "out" / "libhanneddois.so"]
    candidates.append(top / "dist" / f"{platform.machine()}-linux" / "libhanneddois.so")
    return str(next((it for it in candidates if it.exists()), candidates[-1]))


def _declare(library):
    """Sets the types of the library's calls. A haystack is bytes, or the address of some."""
    size, word, address = ctypes.c_size_t, ctypes.c_uint32, ctypes.c_void_p
    handle, failure = ctypes.POINTER(_Handle), ctypes.POINTER(_Failure)
    for name, result, *parameters in [
        ("new", word, handle, address, size, ctypes.POINTER(size), size, ctypes.POINTER(_Options), failure),
        ("clone", word, handle, handle),
        ("free", None, handle),
        ("is_match", word, handle, address, size, failure),
        ("find_at", word, handle, address, size, size, ctypes.POINTER(_Row), failure),
        ("find_all", word, handle, address, size, ctypes.POINTER(_Row), size, ctypes.POINTER(size), failure),
        ("matching_patterns", word, handle, address, size, ctypes.POINTER(ctypes.c_uint8), size, ctypes.POINTER(size), failure),
        ("group_count", size, handle, size),
        ("group_name", size, handle, size, size, ctypes.POINTER(ctypes.c_char), size),
        ("captures", word, handle, address, size, size, ctypes.POINTER(_Row), ctypes.POINTER(size), size, failure),
        ("captures_next", word, handle, address, size, ctypes.POINTER(size), ctypes.POINTER(_Row), size, ctypes.POINTER(size), size, size,
         ctypes.POINTER(size), failure),
        ("error_text", size, failure, ctypes.POINTER(ctypes.c_char), size),
        ("memory_usage", size, handle),
        ("clear_count", size, handle),
    ]:
        call = getattr(library, "hanneddois_" + name)
        call.restype, call.argtypes = result, parameters
    return library


def _load(path):
    """Returns the library twice: its calls give up the interpreter's lock, or keep it."""
    unlocking = ctypes.CDLL(path)
    number = unlocking.hanneddois_version()
    if (number // 10000, number // 100 % 100) != _VERSION:
        raise ImportError(f"{path} has version {number}, and this module is for {_VERSION[0]}.{_VERSION[1]}", path=path)
    return _declare(unlocking), _declare(ctypes.PyDLL(path))


_unlocking, _locked = _load(_find_library())


def version():
    """The version of the library: 10000 times the major number, 100 times the minor one, and the patch."""
    return _locked.hanneddois_version()


def _error_of(failure):
    text = ctypes.create_string_buffer(512)
    length = _locked.hanneddois_error_text(failure, text, len(text))
    return Error(text.raw[:length].decode(), *(getattr(failure, name) for name, _ in _Failure._fields_))


class Match(MatchMethods):
    """A match, with the methods that it has in re, and the number of its pattern.

    Offsets count the characters of a str, and the bytes of any other haystack."""

    __slots__ = ("_fields", "_place", "_regex", "_finder", "_row", "_regs")
    __module__ = "hanneddois"
    __class_getitem__ = classmethod(types.GenericAlias)

    def __new__(cls, *args, **kwargs):
        raise TypeError(f"only a search makes a {cls!r}")

    pattern = property(lambda self: self._fields[0], doc="The number of the pattern that matches, from 0.")
    haystack = property(lambda self: self._place.object, doc="What was searched.")
    string = property(lambda self: self._place.object, doc="What was searched, by the name that it has in re.")
    pos = property(lambda self: self._place.pos, doc="The offset from which on the search was made.")
    endpos = property(lambda self: self._place.endpos, doc="The offset up to which the search was made.")
    re = property(lambda self: self._regex, doc="The regex that found the match.")
    _is_anchored = property(lambda self: self._finder is not None)

    @property
    def regs(self):
        """The pairs of start and end of all groups; -1 and -1 for one that took no part."""
        if self._regs is None:
            self._regs = self._regex._find_groups(self)
        return self._regs

    def span(self, group=0, /):
        """The pair of start and end of a group; -1 and -1 if it took no part."""
        names = self._regex.group_names[self.pattern]
        if isinstance(group, str):
            group = names.index(group) if group in names else len(names)
        elif not hasattr(group, "__index__"):
            group = len(names)
        group = operator.index(group)
        if not 0 <= group < len(names):
            raise IndexError("no such group")
        return self.regs[group] if group else self._fields[1:]

    def start(self, group=0, /):
        """The offset at which a group starts; -1 if it took no part."""
        return self.span(group)[0]

    def end(self, group=0, /):
        """The offset after a group; -1 if it took no part."""
        return self.span(group)[1]

    def _part(self, group):
        start, end = self.span(group)
        if start < 0:
            return None
        for kind in (str, bytes):
            if isinstance(self.string, kind):
                return kind.__getitem__(self.string, slice(start, end))
        return bytes(memoryview(self.string).cast("B")[start:end])

    def group(self, /, *groups):
        """The part of the haystack that a group matches, by its number or name: a str of a str, and otherwise bytes.

        Without an argument it is that of the whole match, and with several a tuple. A group that took no part is None."""
        return tuple(map(self._part, groups)) if len(groups) > 1 else self._part(*groups or (0,))

    def groups(self, default=None):
        """The tuple of the groups from 1 on. A group that took no part is the default."""
        parts = map(self._part, range(1, len(self._regex.group_names[self.pattern])))
        return tuple(default if part is None else part for part in parts)

    def groupdict(self, default=None):
        """The groups that have a name, by their names. A group that took no part is the default."""
        names = self._regex.group_names[self.pattern]
        return {name: part for name, part in zip(names[1:], self.groups(default)) if name}

    def __getitem__(self, key):
        return self._part(key)


class _Place:
    """What was searched, and between which offsets."""

    __slots__ = ("object", "pos", "endpos")

    def __init__(self, *fields):
        self.object, self.pos, self.endpos = fields


class _Haystack:
    """What a search reads, and how its offsets count. The address is valid as long as this object is held."""

    def __init__(self, haystack):
        self.object, self.view, self.has_characters, self.is_str = haystack, None, False, False
        if isinstance(haystack, bytes):
            # A subclass may return something else for a part of it.
            self.address, self.length = haystack if type(haystack) is bytes else bytes(haystack), len(haystack)
        elif isinstance(haystack, str):
            self.address, self.is_str = haystack.encode(), True
            self.length, self.has_characters = len(self.address), not haystack.isascii()
        else:
            self._find_buffer()
        # Whether an empty match inside a character doesn't count.
        self.is_utf8 = self.has_characters
        self.calls = _unlocking if self.length > _FEW_BYTES and (self.view is None or self.view.readonly) else _locked
        self.start = self._byte = self._character = 0
        self.place = None
        self.is_empty = False

    def cut(self, start, end, is_strict=False):
        """Limits the search to what is between two offsets, as a caller counts. Others stand for the nearest offset of the haystack, except
        that a start has to be one of them if the search is strict."""
        length = len(self.object) if self.has_characters else self.length
        start, end = operator.index(start), operator.index(end)
        if is_strict and not 0 <= start <= length:
            raise _error_of(_Failure(BAD_ARGUMENT))
        start, end = (min(max(it, 0), length) for it in (start, end))
        self.start = self._byte = self.byte_of(start)
        self._character = start
        if end < length:
            self.length = self.byte_of(end)
        self.place, self.is_empty = _Place(self.object, start, end), end < start
        return self

    def _find_buffer(self):
        try:
            self.view = memoryview(self.object)
        except TypeError:
            raise TypeError(f"expected a str or a bytes-like object, got {type(self.object).__name__!r}") from None
        address, length = ctypes.c_void_p(), ctypes.c_ssize_t()
        ctypes.pythonapi.PyObject_AsReadBuffer(ctypes.py_object(self.view), ctypes.byref(address), ctypes.byref(length))
        self.address, self.length = address.value or b"", length.value

    def bytes_between(self, start, end):
        """Returns a part of what is searched, as bytes."""
        return self.address[start:end] if isinstance(self.address, bytes) else ctypes.string_at(self.address + start, end - start)

    def part(self, start, end):
        """Returns a part of what is searched, of its own kind."""
        found = self.bytes_between(start, end)
        return found.decode() if self.is_str else found

    def is_inside_character(self, offset):
        return self.is_utf8 and offset < self.length and self.bytes_between(offset, offset + 1)[0] & 0xC0 == 0x80

    def move_to(self, byte):
        """Returns the offset of a byte as a caller counts it. Each is at or after the one before it."""
        if not self.has_characters:
            return byte
        self._character += len(self.address[self._byte : byte].decode())
        self._byte = byte
        return self._character

    def pair_of(self, start, end):
        """Returns the offsets of a group as a caller counts. It is at or after the offset that was moved to last."""
        if start == _NO_OFFSET:
            return -1, -1
        byte, character = self._byte, self._character
        pair = self.move_to(start), self.move_to(end)
        self._byte, self._character = byte, character
        return pair

    def byte_of(self, offset):
        """Returns the offset in bytes for one that a caller gives."""
        return len(self.object[:offset].encode()) if self.has_characters else offset

    def from_character_before(self, offset):
        """Returns the number of an anchor, and the bytes from the character on that ends at an offset. If none ends there, a byte is one."""
        if offset == 0:
            return _AT_START, 0
        length = 1
        while length < min(4, offset) and self.bytes_between(offset - length, offset - length + 1)[0] & 0xC0 == 0x80:
            length += 1
        try:
            is_one = len(self.bytes_between(offset - length, offset).decode()) == 1
        except UnicodeDecodeError:
            is_one = False
        return (_AFTER_CHARACTER, length) if is_one else (_AFTER_BYTE, 1)


class _Stock:
    """Handles of one regex. The one that was compiled is only cloned, and each clone does one search at a time."""

    # A lock that the same thread may take again, since a signal's handler may search too.
    _cloning = threading.RLock()

    def __init__(self, compiled):
        self._compiled, self._idle = compiled, []

    def __del__(self, free=_locked.hanneddois_free):
        for handle in (self._compiled, *self._idle):
            free(handle)

    def take(self):
        """Returns a handle that no other search uses."""
        try:
            return self._idle.pop()
        except IndexError:
            handle = _Handle()
        with self._cloning:
            status = _locked.hanneddois_clone(self._compiled, handle)
        if status != OK:
            raise _error_of(_Failure(status))
        return handle

    def give_back(self, handle):
        self._idle.append(handle)

    def sum_of(self, figure):
        """Adds up a figure of the handles that no search uses."""
        taken = []
        try:
            while True:
                taken.append(self._idle.pop())
        except IndexError:
            pass
        with self._cloning:
            total = sum(map(figure, (self._compiled, *taken)))
        self._idle += taken
        return total


# How a regex that matches at one offset alone is made of the patterns: by what is before them.
_AT_START, _AFTER_CHARACTER, _AFTER_BYTE = range(3)


class Matcher:
    """Compiled patterns. Regex is the class to use."""

    __slots__ = ("_patterns", "_encoded", "_options", "_stock", "_utf8_stock", "_has_empty_loops", "_fits_str", "_names", "_finders")

    def __new__(cls, patterns, encoded, flags, capacity, size_limit, nest_limit):
        self = super().__new__(cls)
        self._patterns, self._encoded, self._options = patterns, encoded, (flags, nest_limit, capacity, size_limit)
        self._stock = self._utf8_stock = self._names = None
        self._has_empty_loops = self._fits_str = False
        self._finders = {}
        self._find_stock(flags & UTF8)
        return self

    patterns = property(lambda self: self._patterns, doc="The patterns, as they were given.")
    flags = property(lambda self: self._options[0], doc="The flags.")
    nest_limit = property(lambda self: self._options[1], doc="How deep groups, classes and repetitions may nest; 0 for 250.")
    capacity = property(lambda self: self._options[2], doc="How many bytes each of both caches may take, which is never exceeded; 0 for 2 MiB, and up to 256 MiB if searches or streams need more.")
    size_limit = property(lambda self: self._options[3], doc="How many bytes each of both automata may take; 0 for 64 MiB.")
    pattern_count = property(lambda self: len(self._patterns), doc="How many patterns there are.")

    def _make_handle(self, flags):
        """Compiles the patterns. That a loop may be empty isn't an error: the searches for groups find the end that is preferred."""
        handle, failure, options = _Handle(), _Failure(), _Options(*self._options)
        if options.capacity == 0:
            flags |= RAISE_CAPACITY  # a pattern that needs more than the default isn't an error
        joined, lengths = b"".join(self._encoded), (ctypes.c_size_t * max(len(self._encoded), 1))(*map(len, self._encoded))
        for options.flags in (flags & ~EMPTY_LOOPS, flags | EMPTY_LOOPS):
            status = _unlocking.hanneddois_new(handle, joined, len(joined), lengths, len(self._encoded), options, failure)
            if status != EMPTY_LOOP:
                break
            self._has_empty_loops = True
        if status != OK:
            error = _error_of(failure)
            count_characters(error, self._patterns)
            raise error
        return handle

    def _find_stock(self, is_utf8):
        """Returns the handles that check their haystacks and split no character, or the others. They are compiled when first needed."""
        if is_utf8:
            if self._utf8_stock is None:
                self._utf8_stock = _Stock(self._make_handle(self.flags | UTF8))
            return self._utf8_stock
        if self._stock is None:
            self._stock = _Stock(self._make_handle(self.flags & ~UTF8))
        return self._stock

    def _search(self, haystack, name, *parameters, is_utf8=False):
        """Searches with a handle that no other search uses, and returns the status and the failure."""
        stock, failure = self._find_stock(is_utf8), _Failure()
        handle = stock.take()
        try:
            call = getattr(haystack.calls, name)
            return call(handle, haystack.address, haystack.length, *parameters, failure), failure
        finally:
            stock.give_back(handle)

    def _checks(self, haystack):
        """Whether the haystack has to be UTF-8, and may be none."""
        return bool(self.flags & UTF8) and not haystack.is_utf8 and not haystack.is_str

    @staticmethod
    def _is_found(status, failure):
        if status not in (OK, NONE):
            raise _error_of(failure)
        return status == OK

    def _open(self, haystack):
        opened = _Haystack(haystack)
        if opened.is_str and not self._fits_str:
            self._check_fits_str()
        return opened

    def _check_fits_str(self):
        """Before a search of a str: raises an error if a match could split a character. The library decides that, unless the patterns
        can't turn Unicode off: then no match does."""
        joined = b"".join(self._encoded)
        if self.flags & NO_UNICODE or (b"?" in joined and b"-" in joined and b"u" in joined):
            self._find_stock(True)
        self._fits_str = True

    def _check_utf8(self, haystack):
        """Before several searches: raises an error if the haystack has to be UTF-8 and isn't."""
        if self._checks(haystack):
            self._is_found(*self._search(haystack, "hanneddois_is_match", is_utf8=True))
            haystack.is_utf8 = True

    def _find_from(self, haystack, offset, width=0):
        """Returns the next match as a tuple of its row and its slots, or None. In a str, an empty match inside a character doesn't count."""
        row, slots, is_utf8 = _Row(), (ctypes.c_size_t * width)(), self._checks(haystack)
        while True:
            if width or self._has_empty_loops:
                status = self._search(haystack, "hanneddois_captures", offset, row, slots, width, is_utf8=is_utf8)
            else:
                status = self._search(haystack, "hanneddois_find_at", offset, row, is_utf8=is_utf8)
            if not self._is_found(*status):
                return None
            if not haystack.is_inside_character(row.start):
                return (row.pattern, row.start, row.end), slots
            offset = row.start + 1

    def _make_match(self, haystack, row, finder=None):
        match = object.__new__(Match)
        match._fields = (row[0], haystack.move_to(row[1]), haystack.move_to(row[2]))
        match._place, match._regex, match._finder, match._row, match._regs = haystack.place, self, finder, row, None
        return match

    def is_match(self, haystack):
        """Whether there is a match in the haystack."""
        haystack = self._open(haystack)
        if haystack.is_utf8:
            return self._find_from(haystack, 0) is not None
        return self._is_found(*self._search(haystack, "hanneddois_is_match", is_utf8=self._checks(haystack)))

    def _find_in(self, haystack):
        found = None if haystack.is_empty else self._find_from(haystack, haystack.start)
        return found and self._make_match(haystack, found[0])

    def find(self, haystack, start=0, end=sys.maxsize):
        """The leftmost match that starts at the offset or after it, or None.

        Looks, as ^ and \\b, see what is before the start. For them the haystack ends at the end."""
        return self._find_in(self._open(haystack).cut(start, end, is_strict=True))

    def search(self, string, pos=0, endpos=sys.maxsize):
        """find as re has it: offsets outside of the haystack stand for the nearest one."""
        return self._find_in(self._open(string).cut(pos, endpos))

    def _match_at(self, haystack, is_full):
        """Matches at one offset, and perhaps up to the end: by a regex that begins with the character before that offset, so that it sees
        that character and reads no more than the match."""
        if haystack.is_empty:
            return None
        self._check_utf8(haystack)
        start = haystack.start
        anchor, back = haystack.from_character_before(start)
        if (anchor, is_full) not in self._finders:
            self._finders[anchor, is_full] = self._anchored(anchor, is_full)
        finder = self._finders[anchor, is_full]
        found = finder._find_from(_Haystack(haystack.bytes_between(start - back, haystack.length)), 0)
        if found is None or haystack.is_inside_character(start):
            return None
        return self._make_match(haystack, (found[0][0], start, start - back + found[0][2]), (finder, back))

    def match(self, string, pos=0, endpos=sys.maxsize):
        """The match that starts at the offset, or None."""
        return self._match_at(self._open(string).cut(pos, endpos), False)

    def fullmatch(self, string, pos=0, endpos=sys.maxsize):
        """The match from the one offset to the other, or None."""
        return self._match_at(self._open(string).cut(pos, endpos), True)

    def _find_groups(self, match):
        """Searches a match again, with its groups. Before one that was sought at one offset, its finder sees the character there alone."""
        haystack, (pattern, start, _) = self._open(match.string).cut(match.start(), match.endpos), match._row
        width = 2 * len(self.group_names[pattern])
        if match._finder:
            finder, back = match._finder
            skipped = start - back
            found = finder._find_from(_Haystack(haystack.bytes_between(skipped, haystack.length)), 0, width)
        else:
            back = skipped = 0
            found = self._find_from(haystack, start, width)
        if found is None or (found[0][0], found[0][1] + skipped) != (pattern, start - back):
            raise ValueError("the haystack was changed after the match was found")
        slots = [it if it == _NO_OFFSET else it + skipped for it in found[1]]
        return (match._fields[1:], *(haystack.pair_of(*slots[at : at + 2]) for at in range(2, width, 2)))

    @property
    def group_names(self):
        """For each pattern a tuple of the names of its groups, with None for a group that has none."""
        if self._names is None:
            stock = self._find_stock(False)
            handle = stock.take()
            self._names = tuple(self._names_of(handle, pattern) for pattern in range(self.pattern_count))
            stock.give_back(handle)
        return self._names

    @staticmethod
    def _names_of(handle, pattern):
        names, text = [], ctypes.create_string_buffer(64)
        for group in range(_locked.hanneddois_group_count(handle, pattern)):
            length = _locked.hanneddois_group_name(handle, pattern, group, text, len(text))
            if length > len(text):
                text = ctypes.create_string_buffer(length)
                _locked.hanneddois_group_name(handle, pattern, group, text, length)
            names.append(text.raw[:length].decode() or None)
        return tuple(names)

    def find_iter(self, haystack, start=0, end=sys.maxsize):
        """An iterator over all matches, each the leftmost one from the end of the one before it.

        An empty match right at the end of the one before it is skipped."""
        haystack = self._open(haystack).cut(start, end)
        return (self._make_match(haystack, row) for row, _ in self._scan(haystack, lists_all=False))

    def finditer(self, string, pos=0, endpos=sys.maxsize):
        """find_iter as re has it: an empty match right at the end of another one is listed too."""
        haystack = self._open(string).cut(pos, endpos)
        return (self._make_match(haystack, row) for row, _ in self._scan(haystack))

    def _scan(self, haystack, width=0, lists_all=True):
        """The matches from the start on, each a tuple of its row and its slots. They are found some at a time. An empty match inside a
        character of a str doesn't count, nor one right at the end of the last one, unless all are listed."""
        self._check_utf8(haystack)
        offset, count, last_end, room = ctypes.c_size_t(haystack.start), ctypes.c_size_t(), None, _LEAST_ROWS
        while not haystack.is_empty:
            rows, slots = (_Row * room)(), (ctypes.c_size_t * (room * width))()
            status, failure = self._search(haystack, "hanneddois_captures_next", offset, rows, room, slots, room * width, width, count)
            found = count.value
            for i, row in enumerate(struct.iter_unpack("NNN", memoryview(rows).cast("B")[: found * ctypes.sizeof(_Row)])):
                _, start, end = row
                if start == end and (haystack.is_inside_character(start) or (end == last_end and not lists_all)):
                    continue
                last_end = end
                yield row, slots[i * width : (i + 1) * width]
            self._is_found(status, failure)
            if found < room:
                return
            room = min(2 * room, _MOST_ROWS)

    def find_all(self, haystack, start=0, end=sys.maxsize):
        """The list of the matches of find_iter."""
        return list(self.find_iter(haystack, start, end))

    def _width(self):
        """How many slots the groups of any pattern take; 0 if there are no groups."""
        most = max(map(len, self.group_names))
        return 2 * most if most > 1 else 0

    def _parts_of(self, haystack, found, otherwise):
        """The parts of the groups of a match from 1 on. One that took no part is the default."""
        (pattern, _, _), slots = found
        pairs = (slots[at : at + 2] for at in range(2, 2 * len(self.group_names[pattern]), 2))
        return [otherwise if start == _NO_OFFSET else haystack.part(start, end) for start, end in pairs]

    def findall(self, string, pos=0, endpos=sys.maxsize):
        """The list of the parts that match: the whole match if its pattern has no group, its group if it has one, and else a tuple of its
        groups.

        A group that took no part is empty."""
        haystack, found = self._open(string).cut(pos, endpos), []
        for row, slots in self._scan(haystack, self._width()):
            parts = self._parts_of(haystack, (row, slots), haystack.part(0, 0)) or [haystack.part(*row[1:])]
            found.append(tuple(parts) if len(parts) > 1 else parts[0])
        return found

    def _scan_whole(self, string, limit, width):
        """The haystack, and its first matches, or all if the limit is 0."""
        haystack = self._open(string).cut(0, sys.maxsize)
        return haystack, itertools.islice(self._scan(haystack, width), 0 if limit < 0 else limit or None)

    def _split(self, string, maxsplit):
        haystack, rows = self._scan_whole(string, maxsplit, self._width())
        pieces, last = [], 0
        for row, slots in rows:
            pieces.append(haystack.part(last, row[1]))
            pieces += self._parts_of(haystack, (row, slots), None)
            last = row[2]
        return [*pieces, haystack.part(last, haystack.length)]

    def _replace(self, string, by, limit, needs_groups):
        haystack, rows = self._scan_whole(string, limit, self._width() if needs_groups else 0)
        pieces, last, count = [], 0, 0
        for row, slots in rows:
            pieces.append(haystack.bytes_between(last, row[1]))
            if isinstance(by, tuple):
                pieces += self._expanded(haystack, (row, slots), by[row[0]])
            else:
                pieces.append(_encode(by(self._make_match(haystack, row)), haystack.is_str))
            last, count = row[2], count + 1
        pieces.append(haystack.bytes_between(last, haystack.length))
        made = b"".join(pieces)
        return (made.decode() if haystack.is_str else made), count

    @staticmethod
    def _expanded(haystack, found, parts):
        """The parts of a template, with those of groups in the place of their numbers."""
        (_, *whole), slots = found
        for part in parts:
            if isinstance(part, int):
                start, end = slots[2 * part : 2 * part + 2] if part else whole
                part = b"" if start == _NO_OFFSET else haystack.bytes_between(start, end)
            yield part

    def matching_patterns(self, haystack):
        """The numbers of the patterns that match anywhere, ascending, also if their matches overlap."""
        haystack, count, found = self._open(haystack), self.pattern_count, ctypes.c_size_t()
        marks, is_utf8 = (ctypes.c_uint8 * count)(), haystack.has_characters or self._checks(haystack)
        self._is_found(*self._search(haystack, "hanneddois_matching_patterns", marks, count, found, is_utf8=is_utf8))
        return [number for number in range(count) if marks[number]]

    def _sum_of(self, figure):
        return sum(stock.sum_of(figure) for stock in (self._stock, self._utf8_stock) if stock)

    @property
    def memory_usage(self):
        """An estimate of how many bytes the caches need now, without those that searches are using."""
        return self._sum_of(_locked.hanneddois_memory_usage)

    @property
    def clear_count(self):
        """How often these caches were cleared, also those that larger ones have replaced."""
        return self._sum_of(_locked.hanneddois_clear_count)


def _encode(result, is_str):
    """What a function returned for a match, as bytes."""
    if result is None:
        return b""
    if isinstance(result, str) != is_str:
        kind = "str" if is_str else "bytes-like object"
        raise TypeError(f"expected a {kind} that replaces a match, got {type(result).__name__!r}")
    return result.encode() if is_str else bytes(memoryview(result))
