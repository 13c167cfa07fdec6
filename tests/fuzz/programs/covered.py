"""Runs of a program under cover.c, which notes the blocks that are reached for the first time, and what holds of every run."""

import mmap
import os
import resource
import struct
import subprocess

SECONDS = int(os.environ.get("LONGEST", "60"))
MEMORY = 2 << 30
ENVIRONMENT = {"PATH": os.environ["PATH"], "LC_ALL": "C.UTF-8"}


class Result:
    def __init__(self, status, printed, said):
        self.status, self.printed, self.said = status, printed, said

    def text(self):
        return f"status {self.status}, {self.printed[-200:]!r}, {self.said[-300:]!r}"


def limit():
    resource.setrlimit(resource.RLIMIT_AS, (MEMORY, MEMORY))
    resource.setrlimit(resource.RLIMIT_CORE, (0, 0))


def run(words, folder, given):
    """The result of a run, without a status if it didn't end."""
    try:
        ran = subprocess.run(words, cwd=folder, env=ENVIRONMENT, input=given, capture_output=True, timeout=SECONDS, preexec_fn=limit, check=False)
    except subprocess.TimeoutExpired:
        return Result(None, b"", b"")
    return Result(ran.returncode, ran.stdout, ran.stderr)


def is_clear(said):
    """Whether it is whole lines of printable bytes."""
    return (not said or said.endswith(b"\n")) and not any(it < 32 and it != 10 or it == 127 for it in said)


def not_ended(result):
    """What is wrong with a run of any program, or nothing."""
    if result.status is None:
        return "it didn't end"
    if result.status not in (0, 1, 2):
        return "no status of its own"
    return None if is_clear(result.said) else "bytes on standard error that aren't printable"


def processor_seconds():
    used = resource.getrusage(resource.RUSAGE_CHILDREN)
    return used.ru_utime + used.ru_stime


class Covered:
    """The command that runs a program under cover.c, and what the state has."""

    def __init__(self, cover, state, program):
        self.command = [cover, state, program]
        with open(state, "r+b") as file:
            self.state = mmap.mmap(file.fileno(), 0)

    def fresh(self):
        """How many blocks the last run was the first to reach."""
        return struct.unpack_from("<Q", self.state, 8)[0]

    def reached(self):
        """How many blocks were reached, and how many there are."""
        count = struct.unpack_from("<Q", self.state, 0)[0]
        return sum(struct.unpack_from(f"<{2 * count}I", self.state, 16)[1::2]), count
