"""Searches a block of a file for the lines that `hirgrep -n -b` selects: what a worker of a cluster runs.

A block is a range of offsets of a file. The lines of a block are those that start in the range, so each line of a file is in exactly
one of its blocks, and blocks may be searched anywhere and in any order. Nothing here knows of Dask: `search_block` takes and returns
plain values, and any engine that runs Python functions on other machines can call it.
"""

import os
import re
import socket
import threading
import time
from typing import NamedTuple

import hanneddois

# What is returned of a block.
COUNT, LINES, MATCHES, GROUPS = "count", "lines", "matches", "groups"

PIECE = 1 << 18  # how many bytes one call searches; a processor's cache holds them
LONGEST = 1 << 30  # longer lines are an error, as in hirgrep; lines up to one piece shorter may be

# In these patterns the ends of the haystack aren't the same as the ends of lines, so each line has to be searched by itself: \A, \z,
# and the flags -m and R. Finding them in other patterns too costs time and changes no answer.
SEES_ENDS = re.compile(r"\\[Az]|\(\W*\?\w*(?:R|-\w*m)")


class Query(NamedTuple):
    """What is searched for, and what is returned of it."""

    patterns: tuple
    ignore_case: bool = False
    output: str = LINES


class Block(NamedTuple):
    """The lines of a file that start in a range of offsets."""

    path: str
    start: int
    end: int


class Found(NamedTuple):
    """What is returned of a block: how many line feeds it has, how many lines are selected, and rows unless only counts are asked for.
    A row is a selected line or a match: how many lines of the block are before it, its offset in the file, and its bytes, or the number of
    its pattern and a list of its groups. If the file can't be searched, `error` says why. Also which process searched, and its processor time in seconds."""

    line_feeds: int
    selected: int
    rows: list
    error: str
    worker: str
    seconds: float


def compile_query(query):
    """Returns the regex of a query, and whether it has to search each line by itself. Raises hanneddois.Error if a pattern is wrong."""
    by_line = any(SEES_ENDS.search(it) for it in query.patterns)
    flags = 0 if by_line else hanneddois.MULTI_LINE
    if query.ignore_case:
        flags |= hanneddois.CASE_INSENSITIVE
    if query.output in (COUNT, LINES):
        flags |= hanneddois.EMPTY_LOOPS  # such a loop may change where a match ends, but not whether there is one
    return hanneddois.Regex(query.patterns, flags), by_line


_thread = threading.local()


def compiled(query):
    """Returns what `compile_query` does. Each thread compiles a query once, for all blocks: only one thread may use a regex at a time."""
    if getattr(_thread, "query", None) != query:
        _thread.compiled = compile_query(query)
        _thread.query = query
    return _thread.compiled


def skip_line(file):
    """Reads to the end of a line, in parts, since it may be long."""
    while True:
        part = file.readline(PIECE)
        if not part or part.endswith(b"\n"):
            return


def pieces(block):
    """Yields the lines of a block, many at a time, each time with the offset of the first one."""
    with open(block.path, "rb") as file:
        if block.start > 0:
            file.seek(block.start - 1)
            skip_line(file)  # the line before the block ends here, or in the block
        offset = file.tell()
        while offset < block.end:
            data = file.read(min(PIECE, block.end - offset))
            if not data:
                return  # the file is shorter by now
            if not data.endswith(b"\n"):
                rest = file.readline(LONGEST - PIECE)
                if len(rest) == LONGEST - PIECE:
                    raise ValueError("a line is longer than 1 GiB")
                data += rest
            yield offset, data
            offset += len(data)


def end_of_line(data, offset):
    """Returns where the line ends that has this offset: at its line feed, or at the end of the data."""
    end = data.find(b"\n", offset)
    return len(data) if end < 0 else end


def lines_one_by_one(regex, data, start, stop):
    """Yields the selected lines of those that start in a range, each searched by itself."""
    while start < stop:
        end = end_of_line(data, start)
        if regex.is_match(data[start:end]):
            yield start, end
        start = end + 1


def selected_lines(regex, data):
    """Yields start and end of each line in which the regex matches.

    One search skips all lines without a match. It returns the leftmost match, so no line before that one has any. A match that ends
    in its line is a match of that line alone. A match that goes on after a line feed, as of `\\s+`, isn't one: then each line that it
    touches is searched by itself.
    """
    start = 0
    while start < len(data):
        match = regex.find(data, start)
        if match is None:
            return
        start = data.rfind(b"\n", start, match.start()) + 1 or start
        if start == len(data):
            return  # an empty match after the last line feed, where there is no line
        end = end_of_line(data, match.start())
        if match.end() <= end:
            yield start, end
            start = end + 1
        else:
            yield from lines_one_by_one(regex, data, start, match.end())
            start = end_of_line(data, match.end() - 1) + 1


def matches_of(regex, line):
    """Returns the matches of a line that aren't empty, each with its offset in the line."""
    return [(it.start(), it.group()) for it in regex.find_iter(line) if it.end() > it.start()]


def matches_with_groups(regex, data):
    """Yields the matches of all lines that aren't empty, with their offset in the data.

    One search finds them, with their groups. A match that ends in its line is one of that line alone. If one goes on after a line feed,
    each line that it touches is searched by itself, from the match before it on.
    """
    start = 0
    while start <= len(data):
        last = start
        for match in regex.finditer(data, start):
            if data.find(b"\n", match.start(), match.end()) >= 0:
                break
            last = match.end()
            if last > match.start():
                yield 0, match
        else:
            return
        begin = data.rfind(b"\n", 0, match.start()) + 1
        while begin < match.end():
            end = end_of_line(data, begin)
            yield from matches_in_line(regex, data, begin, end, max(last, begin))
            begin = end + 1
        start = begin


def matches_in_line(regex, data, begin, end, start):
    """Yields the matches of a line that aren't empty, from an offset on, with the offset of the line."""
    for match in regex.finditer(data[begin:end], start - begin):
        if match.end() > match.start():
            yield begin, match


def matches_line_by_line(regex, data):
    """Yields the matches that aren't empty, with the offset of their line. Each line is searched by itself."""
    begin = 0
    while begin < len(data):
        end = end_of_line(data, begin)
        yield from matches_in_line(regex, data, begin, end, begin)
        begin = end + 1


def search_groups(query, block):
    """Returns what `search_lines` returns, with a row for each match: its groups, or the whole match if its pattern has none."""
    regex, by_line = compiled(query)
    line_feeds, selected, rows = 0, 0, []
    for offset, data in pieces(block):
        counted, last = 0, -1
        for begin, match in matches_line_by_line(regex, data) if by_line else matches_with_groups(regex, data):
            start = begin + match.start()
            line_feeds += data.count(b"\n", counted, start)
            counted = start
            selected += line_feeds != last
            last = line_feeds
            rows.append((line_feeds, offset + start, match.pattern, list(match.groups() or (match.group(),))))
        line_feeds += data.count(b"\n", counted)
    return line_feeds, selected, rows


def search_lines(query, block):
    """Returns the number of line feeds and of selected lines of a block, and its rows. Line feeds are only counted for rows."""
    regex, by_line = compiled(query)
    line_feeds, selected, rows = 0, 0, []
    for offset, data in pieces(block):
        found = lines_one_by_one(regex, data, 0, len(data)) if by_line else selected_lines(regex, data)
        if query.output == COUNT:
            selected += sum(1 for _ in found)
            continue
        counted = 0
        for start, end in found:
            selected += 1
            line_feeds += data.count(b"\n", counted, start)
            counted = start
            if query.output == LINES:
                rows.append((line_feeds, offset + start, data[start:end]))
            else:
                rows += [(line_feeds, offset + start + at, text) for at, text in matches_of(regex, data[start:end])]
        line_feeds += data.count(b"\n", counted)
    return line_feeds, selected, rows


def search_block(query, block):
    """Searches a block. An error is returned and not raised: it ends the search of one file, and not of the others."""
    begun = time.thread_time()
    try:
        found, error = (search_groups if query.output == GROUPS else search_lines)(query, block), ""
    except OSError as failed:
        found, error = (0, 0, []), failed.strerror or str(failed)
    except (hanneddois.Error, ValueError, MemoryError) as failed:
        found, error = (0, 0, []), str(failed) or "out of memory"
    return Found(*found, error, f"{socket.gethostname()}:{os.getpid()}", time.thread_time() - begun)
