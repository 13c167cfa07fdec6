"""Runs the rows of GNU grep's tables of regexes: a status, a regex and a line, as `0@ab*c@abc`."""

import os
import subprocess

from peer_cases.gnu_words import extended

# the tables, and whether their regexes have basic syntax
TABLES = {"spencer1": False, "ere": False, "bre": True}


def rows_of(folder, table):
    """Yields the status, the regex and the line of each row with three parts."""
    with open(os.path.join(folder, "tests", f"{table}.tests"), encoding="utf-8") as file:
        for text in file.read().splitlines():
            parts = text.split("@")
            if len(parts) == 3 and not text.startswith("#"):
                yield int(parts[0]), parts[1], parts[2]


def run_row(program, words, line):
    done = subprocess.run([program, *words], input=f"{line}\n".encode(), capture_output=True, timeout=60, check=False, env={**os.environ, "LC_ALL": "C.UTF-8"})
    return done.returncode, done.stderr.decode(errors="replace")


def reason_of(status, expected, message):
    if status == 2 and expected != 2:
        return "rejected: " + (message.splitlines() or [""])[0].rpartition(": ")[2]
    if expected == 2:
        return "an error is expected, and the regex is accepted"
    return f"status {status} and not {expected}"


def run_table(folder, program, table):
    """The number of rows that GNU grep has as they are in the table, and the regex, the line and the reason of each of these that the program
    has otherwise."""
    passed, failed = 0, []
    for expected, regex, line in rows_of(folder, table):
        theirs, _ = run_row("grep", (["-G"] if TABLES[table] else ["-E"]) + ["-e", regex], line)
        if theirs != expected:
            continue
        words = ["-e", extended(regex) if TABLES[table] else regex]
        status, message = run_row(program, words, line)
        if status == expected:
            passed += 1
        else:
            failed.append((regex, line, reason_of(status, expected, message)))
    return passed, failed


def run_khadafy(folder, program):
    """Whether the program finds all lines of the table khadafy."""
    lines = os.path.join(folder, "tests", "khadafy.lines")
    done = subprocess.run([program, "-E", "-f", os.path.join(folder, "tests", "khadafy.regexp"), lines], capture_output=True, check=False)
    with open(lines, "rb") as file:
        return done.stdout == file.read()
