"""Runs a program under strace, which lists its system calls and makes some of them fail."""

import os
import re
import shutil
from dataclasses import dataclass

from .runs import run

LINE = re.compile(r"(\w+)\((.*?)\)? += (?:-?\d+|0x[0-9a-f]+|\?)")
FILE = re.compile(r'^\d+<([^>]*)>|"((?:[^"\\]|\\.)*)"')
LIMIT = "limit"  # stands for all calls under a limit of memory
LAST_OF_LOADER = "munmap"  # it gives back the cache of libraries


@dataclass(frozen=True)
class Call:
    name: str
    number: int  # of the calls of this name, from 1
    words: str
    is_own: bool  # of the program, and not of the C library's loader

    @property
    def descriptor(self):
        found = re.match(r"(\d+)<", self.words)
        return int(found[1]) if found else None

    @property
    def file(self):
        """The path of the file that it is about, or nothing."""
        found = FILE.search(self.words)
        return (found[1] or found[2] or "") if found else ""

    @property
    def is_of_memory(self):
        return self.name in ("brk", "mmap", "mremap", LIMIT)


def is_usable(room):
    """Whether there is an strace that may trace a process."""
    return shutil.which("strace") is not None and run(["strace", "-o", os.devnull, "-e", "inject=read:error=EIO:when=9999", "true"], room).status == 0


def calls_of(lines):
    calls, numbers, is_own = [], {}, False
    for found in filter(None, map(LINE.match, lines)):
        name = found[1]
        numbers[name] = numbers.get(name, 0) + 1
        calls.append(Call(name, numbers[name], found[2], is_own))
        is_own = is_own or name == LAST_OF_LOADER
    return calls


class Tracer:
    """Its folder is where it keeps strace's list."""

    def __init__(self, folder):
        self.log = os.path.join(folder, "strace")

    def lines(self):
        with open(self.log, encoding="utf-8", errors="replace") as file:
            return file.read().split("\n")

    def list(self, words, room, **streams):
        """The result of a run without a fault, and its system calls."""
        result = run(["strace", "-y", "-o", self.log, *words], room, **streams)
        return result, calls_of(self.lines())

    def run(self, faults, words, room, **streams):
        """The result of a run with faults, as strace's `inject` has them, and whether one occurred."""
        asked = [it for fault in faults for it in ("-e", f"inject={fault}")]
        result = run(["strace", "-o", self.log, *asked, *words], room, **streams)
        return result, any(it.endswith("(INJECTED)") or "(INJECTED:" in it or "DELAYED" in it for it in self.lines())
