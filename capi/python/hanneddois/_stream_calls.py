"""The calls for streams by ctypes: StreamSet, with the interface that it has in _extension.c."""

import ctypes

from . import _ctypes
from ._common import OK

# How many ends a call has room for, at least.
_ROWS = 256


class _End(ctypes.Structure):
    _fields_ = [("pattern", ctypes.c_size_t), ("end", ctypes.c_size_t)]


def _declare(library):
    """Sets the types of the calls for streams."""
    size, word, address = ctypes.c_size_t, ctypes.c_uint32, ctypes.c_void_p
    handle, failure, number = ctypes.POINTER(_ctypes._Handle), ctypes.POINTER(_ctypes._Failure), ctypes.POINTER(ctypes.c_size_t)
    for name, result, *parameters in [
        ("streams_new", word, handle, address, size, number, size, ctypes.POINTER(_ctypes._Options), failure),
        ("streams_free", None, handle),
        ("stream_new", word, handle, number),
        ("stream_feed", word, handle, size, address, size, ctypes.POINTER(_End), size, number, number, failure),
        ("stream_close", word, handle, size, ctypes.POINTER(_End), size, number, failure),
        ("stream_reset", word, handle, size),
        ("stream_clone", word, handle, size, number),
        ("stream_free", word, handle, size),
    ]:
        call = getattr(library, "hanneddois_" + name)
        call.restype, call.argtypes = result, parameters
    return library


_unlocking, _locked = _declare(_ctypes._unlocking), _declare(_ctypes._locked)


class StreamSet:
    """An automaton with its cache and streams, which are known by their numbers. One thread at a time calls it."""

    __slots__ = ("_handle", "_rows")

    def __init__(self, encoded, flags, capacity, size_limit, nest_limit):
        self._handle, self._rows = _ctypes._Handle(), (_End * max(len(encoded), _ROWS))()
        failure, options = _ctypes._Failure(), _ctypes._Options(flags, nest_limit, capacity, size_limit)
        joined, lengths = b"".join(encoded), (ctypes.c_size_t * max(len(encoded), 1))(*map(len, encoded))
        if _unlocking.hanneddois_streams_new(self._handle, joined, len(joined), lengths, len(encoded), options, failure) != OK:
            raise _ctypes._error_of(failure)

    def __del__(self, free=_locked.hanneddois_streams_free):
        free(self._handle)

    def open(self):
        """Adds a stream that has read nothing, and returns its number."""
        number = ctypes.c_size_t()
        return self._added(_locked.hanneddois_stream_new(self._handle, number), number)

    def copy(self, source):
        """Adds a copy of a stream, and returns its number."""
        number = ctypes.c_size_t()
        return self._added(_locked.hanneddois_stream_clone(self._handle, source, number), number)

    @staticmethod
    def _added(status, number):
        if status != OK:
            raise _ctypes._error_of(_ctypes._Failure(status))
        return number.value

    def remove(self, number):
        _locked.hanneddois_stream_free(self._handle, number)

    def reset(self, number):
        _locked.hanneddois_stream_reset(self._handle, number)

    def _pairs(self, count):
        return [(row.pattern, row.end) for row in self._rows[: count.value]]

    def feed(self, number, piece, pairs):
        """Feeds a piece, and appends the pairs that are known by it. Returns how many bytes were read, and the error or None."""
        haystack = _ctypes._Haystack(piece)
        if haystack.is_str:
            raise TypeError("a stream is fed bytes-like objects, not a str: encode it")
        address = ctypes.cast(haystack.address, ctypes.c_void_p).value or 0
        done, taken, count, failure = 0, ctypes.c_size_t(), ctypes.c_size_t(), _ctypes._Failure()
        feed = _unlocking.hanneddois_stream_feed if haystack.calls is _ctypes._unlocking else _locked.hanneddois_stream_feed
        while done < haystack.length:
            status = feed(self._handle, number, address + done, haystack.length - done, self._rows, len(self._rows), taken, count, failure)
            pairs += self._pairs(count)
            done += taken.value
            if status != OK:
                return done, _ctypes._error_of(failure)
        return done, None

    def close(self, number):
        """Closes a stream, and returns the pairs at its end."""
        count, failure = ctypes.c_size_t(), _ctypes._Failure()
        if _locked.hanneddois_stream_close(self._handle, number, self._rows, len(self._rows), count, failure) != OK:
            raise _ctypes._error_of(failure)
        return self._pairs(count)
