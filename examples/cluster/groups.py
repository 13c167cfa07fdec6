#!/usr/bin/env python3
"""Searches files by the workers of a Dask cluster, and makes a table of the groups of all matches, in the order of files and offsets.

    groups.py [--scheduler ADDRESS] PATTERN FILE.. >table.csv

The table is a data frame of pandas if that is installed, and otherwise a list of dicts. The command writes it as CSV. A match has a row:
its file, line and offset, and a column for each group, by its name or number. What a worker has to have is as for grep.py.
"""

import argparse
import csv
import logging
import os
import sys

import block_search
import grep
import hanneddois

try:
    import pandas
except ImportError:
    pandas = None


def columns_of(patterns):
    """Returns for each pattern the names of its columns. A group without a name has its number, and a pattern without groups has 0."""
    regex, _ = block_search.compile_query(block_search.Query(tuple(patterns), output=block_search.GROUPS))
    return [[name or str(number) for number, name in enumerate(names)][1:] or ["0"] for names in regex.group_names]


def text_of(group):
    return None if group is None else group.decode(errors="backslashreplace")


def rows_of(client, query, blocks, fail):
    """Yields a dict for each match. Blocks are searched in any order, and their rows come in the order of the blocks."""
    columns, lines, failed = columns_of(query.patterns), 0, None
    for name, block, found in grep.results(client, query, blocks):
        if block.start == 0:
            lines = 0
        if found.error and failed != name:
            fail(name, found.error)
            failed = name
        if failed == name:
            continue
        for before, offset, pattern, groups in found.rows:
            row = {"file": name, "line": lines + before + 1, "offset": offset}
            row.update(zip(columns[pattern], map(text_of, groups)))
            yield row
        lines += found.line_feeds


def names_of(patterns):
    """Returns the names of all columns, each once."""
    return list(dict.fromkeys(["file", "line", "offset", *(name for names in columns_of(patterns) for name in names)]))


def table_of(client, query, blocks, fail):
    """Returns a data frame, or a list of dicts without pandas. A group that took no part, or that another pattern has, is None."""
    names = names_of(query.patterns)
    rows = [{name: row.get(name) for name in names} for row in rows_of(client, query, blocks, fail)]
    return rows if pandas is None else pandas.DataFrame(rows, columns=names)


def write_table(table, patterns):
    if pandas is not None:
        table.to_csv(sys.stdout, index=False)
        return
    writer = csv.DictWriter(sys.stdout, names_of(patterns), lineterminator="\n")
    writer.writeheader()
    writer.writerows(table)


def parse_arguments():
    parser = argparse.ArgumentParser(description="Make a table of the groups of all matches by the workers of a Dask cluster.")
    parser.add_argument("pattern", help="a pattern")
    parser.add_argument("files", nargs="+", metavar="FILE", help="files and folders")
    parser.add_argument("-i", action="store_true", help="letters match in either case")
    parser.add_argument("-e", action="append", default=[], metavar="PATTERN", help="a further pattern")
    parser.add_argument("--scheduler", default="127.0.0.1:8786", metavar="ADDRESS", help="the scheduler's address (127.0.0.1:8786)")
    parser.add_argument("--block", type=int, default=64 << 20, metavar="BYTES", help="the size of a block (64 MiB)")
    parser.add_argument("--wait", type=float, default=30, metavar="SECONDS", help="how long to wait for a scheduler and a worker (30)")
    return parser.parse_args()


def main():
    logging.getLogger("asyncio").setLevel(logging.CRITICAL)  # as in grep.py
    options, failed = parse_arguments(), []

    def fail(name, error):
        grep.report(f"{name}: {getattr(error, 'strerror', None) or error}")
        failed.append(name)

    try:
        query = block_search.Query((options.pattern, *options.e), options.i, block_search.GROUPS)
        columns_of(query.patterns)  # a wrong pattern is reported before anything is sent
        with grep.connect(options.scheduler, options.wait) as client:
            table = table_of(client, query, grep.blocks_of(options.files, options.block, fail), fail)
        write_table(table, query.patterns)
    except hanneddois.Error as error:
        grep.report(f"pattern {error.pattern}: {error}")
        return 2
    except BrokenPipeError:
        os.dup2(os.open(os.devnull, os.O_WRONLY), sys.stdout.fileno())  # or the flush at the end fails too
        return 2
    except (grep.Failed, OSError, ImportError) as error:
        grep.report(str(error))
        return 2
    return 2 if failed else 0 if len(table) else 1


if __name__ == "__main__":
    sys.exit(main())
