#!/usr/bin/env python3
"""Searches files by the workers of a Dask cluster, and prints what `hirgrep -H -n -b` prints of them, in the same order.

The workers need the module hanneddois, and the same files by the same paths, as on a shared file system. A worker that dies has its
blocks searched again by others.
"""

import argparse
import asyncio
import collections
import concurrent.futures
import logging
import os
import re
import stat
import sys
import time

import block_search
import distributed
import hanneddois
from distributed.diagnostics.plugin import UploadFile

AHEAD = 4  # blocks for each thread of the cluster that are searched or wait to be printed, so memory stays bounded


class Failed(Exception):
    """Ends the search, with a message."""


def parse_arguments():
    parser = argparse.ArgumentParser(description="Search files for lines by the workers of a Dask cluster.")
    parser.add_argument("words", nargs="+", metavar="PATTERN FILE", help="a pattern, unless -e or -f has one, and files or folders")
    parser.add_argument("-e", action="append", default=[], metavar="PATTERN", help="a pattern, or several, one a line")
    parser.add_argument("-f", action="append", default=[], metavar="FILE", help="a file of patterns, one a line")
    parser.add_argument("-i", action="store_true", help="letters match in either case")
    parser.add_argument("-F", action="store_true", help="patterns are strings, not regular expressions")
    output = parser.add_mutually_exclusive_group()
    output.add_argument("-c", dest="output", action="store_const", const=block_search.COUNT, help="print how many lines are selected")
    output.add_argument("-o", dest="output", action="store_const", const=block_search.MATCHES, help="print the matches that aren't empty")
    parser.add_argument("--scheduler", default="127.0.0.1:8786", metavar="ADDRESS", help="the scheduler's address (127.0.0.1:8786)")
    parser.add_argument("--block", type=int, default=64 << 20, metavar="BYTES", help="the size of a block (64 MiB)")
    parser.add_argument("--wait", type=float, default=30, metavar="SECONDS", help="how long to wait for a scheduler and a worker (30)")
    parser.add_argument("--stats", action="store_true", help="report on standard error what each worker did")
    parser.set_defaults(output=block_search.LINES)
    options = parser.parse_args()
    if options.block < 1:
        parser.error("a block has at least one byte")
    options.patterns = read_patterns(options)
    if len(options.words) == 0:
        parser.error("no file is given")
    return options


def read_patterns(options):
    """Returns the patterns. Takes the first word, if no option has one."""
    given = options.e if options.e or options.f else [options.words.pop(0)]
    patterns = [line for it in given for line in it.split("\n")]
    for name in options.f:
        with open(0 if name == "-" else name, encoding="utf-8", newline="\n") as file:
            patterns += [line.removesuffix("\n") for line in file]
    if options.F:
        patterns = [re.sub(r"[\\.+*?()|\[\]{}^$#&~-]", r"\\\g<0>", it) for it in patterns]
    return tuple(patterns)


def files_of(words, fail):
    """Yields the named files, and the files of the named folders in ascending order, without links that are found there."""
    for word in words:
        if not os.path.isdir(word):
            yield word
            continue
        found = []
        for folder, _, names in os.walk(word, onerror=lambda error: fail(error.filename, error)):
            found += [os.path.join(folder, name) for name in names]
        yield from (it for it in sorted(found) if os.path.isfile(it) and not os.path.islink(it))


def blocks_of(words, size, fail):
    """Yields the name of each file with its blocks, at least one for each file."""
    for name in files_of(words, fail):
        try:
            status = os.stat(name)
        except OSError as error:
            fail(name, error)
            continue
        if not stat.S_ISREG(status.st_mode):
            fail(name, "not a regular file")
            continue
        for start in range(0, max(status.st_size, 1), size):
            yield name, block_search.Block(os.path.abspath(name), start, min(start + size, status.st_size))


def connect(address, wait):
    """Returns a client whose cluster has a worker, and whose workers have the module that searches blocks."""
    try:
        client = distributed.Client(address, timeout=wait, set_as_default=False)
    except (OSError, ValueError) as error:
        raise Failed(f"no scheduler answers at {address}: {error}") from None
    try:
        client.wait_for_workers(1, timeout=wait)
        register = getattr(client, "register_plugin", None) or client.register_worker_plugin  # the name until 2023.9
        register(UploadFile(block_search.__file__), name="block_search")
    except (TimeoutError, asyncio.TimeoutError, distributed.TimeoutError):
        client.close()
        raise Failed("the cluster has no worker") from None
    except ImportError as error:
        client.close()
        raise Failed(f"a worker can't search: {error}") from None
    return client


def results(client, query, blocks):
    """Yields the blocks in their order, each with its file's name and what was found in it."""
    waiting = collections.deque()
    ahead = AHEAD * max(sum(client.nthreads().values()), 1)
    for name, block in blocks:
        waiting.append((name, block, client.submit(block_search.search_block, query, block, pure=False)))
        if len(waiting) >= ahead:
            name, block, future = waiting.popleft()
            yield name, block, future.result()
    while waiting:
        name, block, future = waiting.popleft()
        yield name, block, future.result()


class Printer:
    """Prints what was found in blocks that follow one another, with numbers that count from the start of the file."""

    def __init__(self, output):
        self.output = output
        self.name, self.lines, self.selected, self.has_failed = None, 0, 0, False
        self.any_selected, self.any_failed = False, False

    def fail(self, name, error):
        """Reports that a file can't be searched."""
        report(f"{name}: {getattr(error, 'strerror', None) or error}")
        self.any_failed = True

    def end_file(self):
        """Prints the count of the file whose last block was added."""
        if self.name is not None and self.output == block_search.COUNT and not self.has_failed:
            self.write(b"%s:%d\n" % (os.fsencode(self.name), self.selected))

    def add(self, name, block, found):
        if block.start == 0:
            self.end_file()
            self.name, self.lines, self.selected, self.has_failed = name, 0, 0, False
        if found.error and not self.has_failed:
            self.fail(name, found.error)
            self.has_failed = True
        if self.has_failed:
            return  # what follows has no number
        self.selected += found.selected
        self.any_selected = self.any_selected or found.selected > 0
        prefix = os.fsencode(name)
        self.write(b"".join(b"%s:%d:%d:%s\n" % (prefix, self.lines + before + 1, offset, text) for before, offset, text in found.rows))
        self.lines += found.line_feeds

    @staticmethod
    def write(data):
        sys.stdout.buffer.write(data)


class Stats:
    """What each worker did."""

    def __init__(self):
        self.begun = time.monotonic()
        self.blocks, self.seconds = collections.Counter(), collections.Counter()

    def add(self, found):
        self.blocks[found.worker] += 1
        self.seconds[found.worker] += found.seconds

    def report(self):
        for worker in sorted(self.blocks):
            report(f"{worker}: {self.blocks[worker]} blocks, {self.seconds[worker]:.3f} s of processor time")
        wall = time.monotonic() - self.begun
        report(f"{self.blocks.total()} blocks, {self.seconds.total():.3f} s of processor time, {wall:.3f} s in all")


def report(message):
    print(f"grep.py: {message}", file=sys.stderr)


def search(options):
    """Returns the exit status: 0 if a line is selected, 1 if none is, 2 after an error. Without a pattern no file is searched, and nothing is
    printed, as by hirgrep."""
    if not options.patterns:
        return 1
    query = block_search.Query(options.patterns, options.i, options.output)
    block_search.compile_query(query)  # so that a wrong pattern is reported before anything is sent
    printer = Printer(options.output)
    with connect(options.scheduler, options.wait) as client:
        stats = Stats()
        for name, block, found in results(client, query, blocks_of(options.words, options.block, printer.fail)):
            printer.add(name, block, found)
            stats.add(found)
        printer.end_file()
    sys.stdout.buffer.flush()
    if options.stats:
        stats.report()
    return 2 if printer.any_failed else 0 if printer.any_selected else 1


def main():
    logging.getLogger("asyncio").setLevel(logging.CRITICAL)  # Dask closes connections for whose end nobody waits
    try:
        return search(parse_arguments())
    except hanneddois.Error as error:
        report(f"pattern {error.pattern}: {error}")
    except UnicodeError:
        report("a pattern isn't UTF-8")
    except distributed.scheduler.KilledWorker as error:
        report(f"a block ended several workers: {error}")
    except concurrent.futures.CancelledError:
        report("the scheduler is gone")
    except BrokenPipeError:
        os.dup2(os.open(os.devnull, os.O_WRONLY), sys.stdout.fileno())  # or the flush at the end fails too
    except (Failed, OSError, ImportError) as error:
        report(str(error))
    return 2


if __name__ == "__main__":
    sys.exit(main())
