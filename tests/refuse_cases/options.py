"""Each allocation of hirgrep fails in turn, with each option that --help names and each of its values. What fails is loaded before the
system's allocator (tests/refused/programs/fail.c), so the program is the built one."""

import json
import os
import re
import subprocess
from concurrent.futures import ThreadPoolExecutor
from dataclasses import dataclass

from .built import NO_COMPILER, TOP, compile_c, has_compiler, program

OPTION = re.compile(r"^ +(?:-(\w), )?\s*--([\w-]+)(\[?)(?:[= ]?<(\w+)>\]?)?  +(.*)$")
VALUES = re.compile(r"\[possible values: ([^\]]*)\]")
FILES = {
    "a.log": b"ab 1\r\nno\nab ad 2\n\nzz\n",
    "letters": "Füße\nMaß und ab\n".encode(),
    "patterns": b"ab\nzz\n",
    "globs": b"*.none\n!b*\n",
    "tree/one": b"ab in one\nno\n",
    "tree/b.log": b"no\nac\n",
    "tree/sub/two": b"no\nab in two\n",
}
PATTERN = "a[b-d]"
GIVEN = {"PATTERN": PATTERN, "FILE": "patterns", "FOLDER": ".", "N": "1", "GLOB": "*o*", "SEP": "==", "NAME": "given", "TEMPLATE": "<$0>"}
# what no single option has: searches in which the automata give up, several patterns and files, long context
OTHERS = [
    ("-w", "-n", "-e", "Ma.|ab", "letters", "a.log"),
    ("-w", "-o", "-e", "\\w+ß", "letters"),
    ("-x", "-e", "ab .*", "-e", "zz", "a.log"),
    ("-F", "-i", "-c", "-f", "patterns", "a.log", "letters"),
    ("-v", "-n", "-b", "-H", "-T", "-e", PATTERN, "a.log"),
    ("-A1", "-B1", "--color=always", "-n", "-e", PATTERN, "a.log", "letters"),
    ("-M3", "--max-columns-preview", "--column", "--color=always", "-e", PATTERN, "a.log", "letters"),
    ("--replace=<$1$x>", "-o", "-n", "-e", "(a).", "-e", "(?P<x>z)", "a.log", "letters"),
    ("-r", "-l", "-Z", "-e", PATTERN, "tree"),
    ("-r", "--exclude-from", "globs", "--sort", "path", "-e", PATTERN, "tree"),
    ("-e", PATTERN, "missing", "a.log"),
    ("-e", "(ab", "a.log"),
    ("-e", "(?:a*)*b", "a.log"),
    ("--nothing",),
    ("-e", PATTERN),
]


@dataclass(frozen=True)
class Line:
    """A command line, and the option for which it is."""

    option: str
    words: tuple

    def is_quiet(self):
        return bool({"-q", "--quiet"} & set(self.words))

    def is_silent(self):
        return bool({"-s", "--no-messages"} & set(self.words))


def options_of(text):
    """Yields the options of --help: each name, and the values that it is given, or none."""
    for line in text.splitlines():
        found = OPTION.match(line)
        if found and found[4]:
            listed = VALUES.search(found[5])
            values = listed[1].split(", ") if listed else [GIVEN.get(found[4], "1")]
            yield f"--{found[2]}", [(f"--{found[2]}={it}",) for it in values]
        elif found:
            yield f"--{found[2]}", [(f"--{found[2]}",)]


def lines_of(room):
    """Returns the command lines: each option over files and over a folder, and what no option has alone."""
    text = subprocess.run([program(), "--help"], stdout=subprocess.PIPE, text=True, check=True, cwd=room).stdout
    found = []
    for name, choices in options_of(text):
        for words in choices:
            found.append(Line(name, (*words, "-e", PATTERN, "a.log", "letters")))
            found.append(Line(name, (*words, "-r", "-e", PATTERN, "tree")))
    return [*found, *(Line("several", it) for it in OTHERS)]


@dataclass(frozen=True)
class Ended:
    status: int
    printed: bytes
    said: bytes
    made: int

    def is_like(self, other):
        """Whether both are the same answer; figures of messages may differ, as those of --stats."""
        return (self.status, self.printed, masked(self.said)) == (other.status, other.printed, masked(other.said))


def masked(said):
    """Returns messages without figures, and without the number after the system's words, which is left there where no memory is left to
    remove it."""
    return re.sub(rb"\d+(\.\d+)?", b"0", re.sub(rb" \(os error \d+\)", b"", said))


def run(line, room, at=0, goes_on=False):
    """Runs the program with its allocation of this number failing, 0 for none, or also all after it."""
    read, write = os.pipe()
    try:
        env = {"PATH": "/nowhere", "LD_PRELOAD": f"{room}/fail.so", "REFUSED_AT": str(at), "REFUSED_TO": str(write), "LC_ALL": "C"}
        if goes_on:
            env["REFUSED_ON"] = "1"
        ended = subprocess.run([program(), *line.words], cwd=f"{room}/files", env=env, stdin=subprocess.DEVNULL, stdout=subprocess.PIPE, stderr=subprocess.PIPE, pass_fds=(write,), check=False, timeout=300)
        os.close(write)
        write = -1
        counts = os.read(read, 100).split()
    finally:
        os.close(read)
        if write >= 0:
            os.close(write)
    return Ended(ended.returncode, ended.stdout, ended.stderr, int(counts[0]) if counts else -1)


def without_sums(line):
    """The line, or its type alone if it is the last object of --json, whose sums are those of the files that were searched."""
    if not line.endswith(b'"type":"summary"}\n'):
        return line
    return json.dumps({"type": json.loads(line)["type"]}).encode()


def parts(printed):
    """Returns the lines and names that were printed, each with its end."""
    return [without_sums(it) for it in re.findall(rb"[^\n\0]*[\n\0]|[^\n\0]+$", printed)]


def is_part_of(some, every):
    """Whether these stand among the others, in their order."""
    left = iter(every)
    return all(it in left for it in some)


def verdict(line, ample, got):
    """Returns `answered`, `reported`, or what is wrong."""
    if got.is_like(ample):
        return "answered"
    if got.status < 0 or got.made < 0:
        return f"it ended by signal {-got.status}"
    messages = got.said.splitlines()
    said = [it for it in messages if re.fullmatch(rb"(hirgrep|error): (.*: )?out of memory", it)]
    others = [masked(it) for it in messages if it not in said]
    if got.status != 2 and not (line.is_quiet() and got.status == 0):
        return f"status {got.status}, and {ample.status} with ample memory"
    if not said and not line.is_silent() or not is_part_of(others, [masked(it) for it in ample.said.splitlines()]):
        return f"it says {got.said[:200]!r}"
    if not is_part_of(parts(got.printed), parts(ample.printed)):
        return f"it prints {got.printed[:200]!r}"
    return "reported"


def swept(line, room, step, jobs):
    """Makes allocations of a command line fail. Returns how many were made to, how many were reported, how many made up for, and what
    is wrong."""
    ample = run(line, room)
    counts, wrong = {"reported": 0, "answered": 0}, []
    if ample.made < 0 or not run(line, room).is_like(ample):
        return 0, 0, 0, [f"hirgrep {' '.join(line.words)}: two runs with ample memory differ"]
    plan = [(at, False) for at in range(1, ample.made + 1, step)] + [(at, True) for at in range(1, ample.made + 1, 10 * step)]
    with ThreadPoolExecutor(jobs) as pool:
        for (at, goes_on), got in zip(plan, pool.map(lambda it: run(line, room, *it), plan)):
            said = verdict(line, ample, got)
            if said in counts:
                counts[said] += 1
            else:
                wrong.append(f"hirgrep {' '.join(line.words)}: allocation {at} of {ample.made} failed{', and all after it' if goes_on else ''}: {said}")
    return len(plan), counts["reported"], counts["answered"], wrong


def sweep_options(room, names, is_few, jobs):
    """Makes each allocation fail with each option, or with those that are named. With `is_few` a sample fails. Yields for each option a
    row: its name, the command lines, the failed allocations, how many were reported and made up for, and what is wrong."""
    os.makedirs(f"{room}/files")
    for name, data in FILES.items():
        os.makedirs(os.path.dirname(f"{room}/files/{name}"), exist_ok=True)
        with open(f"{room}/files/{name}", "wb") as file:
            file.write(data)
    if not has_compiler():
        yield "all", 0, 0, 0, 0, [NO_COMPILER]
        return
    if not program() or not compile_c(["-shared", "-fPIC", "-o", f"{room}/fail.so", f"{TOP}/tests/refused/programs/fail.c"]):
        yield "all", 0, 0, 0, 0, ["tests/refused/programs/fail.c isn't built: it wants hirgrep of dist/ or of ./prove"]
        return
    lines = [it for it in lines_of(room) if it.option.lstrip("-") in (names or [it.option.lstrip("-")])]
    for name in sorted(set(names) - {it.option.lstrip("-") for it in lines}):
        yield name, 0, 0, 0, 0, [f"hirgrep has no option --{name}"]
    if is_few:
        lines = lines[:: max(1, len(lines) // 6)]
    for option in dict.fromkeys(it.option for it in lines):
        mine = [it for it in lines if it.option == option]
        sums, wrong = [0, 0, 0], []
        for line in mine:
            *counts, found = swept(line, room, 29 if is_few else 1, jobs)
            sums = [a + b for a, b in zip(sums, counts)]
            wrong += found
        yield option, len(mine), *sums, wrong
