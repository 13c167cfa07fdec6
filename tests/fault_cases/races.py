"""What changes between two system calls: strace lets the second one wait while the change is made. And a file that is also the output,
where the system doesn't say so."""

import os
import time

from .runs import Check, Known, Result, ended, error, limit_files, run, start
from .strace import Tracer

DELAY = 3_000_000  # microseconds
HELD = 0.5  # seconds for which no other call than the one that waits is stopped
EVERY = 0.005
MOST = 3  # seconds for what is left to do
LINE = b"ab\n"


def write(path, data):
    with open(path, "wb") as file:
        file.write(data)


def child_of(process):
    with open(f"/proc/{process}/task/{process}/children", encoding="ascii") as file:
        return next(iter(file.read().split()), None)


def is_stopped(process):
    with open(f"/proc/{process}/stat", encoding="utf-8", errors="replace") as file:
        return file.read().rpartition(")")[2].split()[0] == "t"


def wait_until_stopped(tracer):
    """Waits until the program that is traced is held up."""
    held = 0
    while tracer.poll() is None and held * EVERY < HELD:
        child = child_of(tracer.pid)
        try:
            held = held + 1 if child and is_stopped(child) else 0
        except FileNotFoundError:
            held = 0
        time.sleep(EVERY)


class Races:
    def __init__(self, program, room, folder):
        self.program, self.room, self.tracer = program, room, Tracer(folder)
        self.folder = os.path.join(room, "races")
        os.makedirs(os.path.join(self.folder, "sub"))
        write(os.path.join(room, "outside"), LINE)
        os.mkdir(os.path.join(room, "outside.d"))
        write(os.path.join(room, "outside.d/file"), LINE)

    def number_of_open(self, path):
        """Which of the calls that open files opens this one."""
        _, calls = self.tracer.list([self.program, "-r", "ab", "races"], self.room)
        return next(it.number for it in calls if it.name == "openat" and it.file.rstrip("/") == path)

    def raced(self, name, change):
        """A run over the folder in which a file or folder changes right before it is opened, after its kind was asked for."""
        path = os.path.join(self.folder, name)
        number = self.number_of_open(f"races/{name}")
        words = ["strace", "-o", os.devnull, "-e", f"inject=openat:delay_enter={DELAY}:when={number}", self.program, "-r", "ab", "races"]
        with start(words, self.room) as ran:
            wait_until_stopped(ran)
            change(path)
            return ended(ran, seconds=DELAY / 1_000_000 + MOST)

    def file(self, make):
        path = os.path.join(self.folder, "file")
        write(path, LINE)
        result = self.raced("file", lambda path: (os.remove(path), make(path)))
        os.rmdir(path) if os.path.isdir(path) and not os.path.islink(path) else os.remove(path)
        return result

    def folder_becomes_link(self):
        path = os.path.join(self.folder, "sub")
        result = self.raced("sub", lambda path: (os.rmdir(path), os.symlink("../outside.d", path)))
        os.remove(path)
        os.mkdir(path)
        # whether it is reported or skipped is open
        return Result(result.status if result.status not in (1, 2) else 1, result.printed)

    def race_checks(self):
        """GNU grep opens what it finds in a folder without following links and without waiting for a writer."""
        opened = "hirgrep_main/src/files/opening.rt: search_file opens what search_kind found"
        yield Check("a file becomes a FIFO before it is opened", lambda: self.file(os.mkfifo), 1, b"", "", Known(opened, None, ""))
        link = lambda path: os.symlink("../outside", path)
        yield Check("a file becomes a link before it is opened", lambda: self.file(link), 1, b"", "", Known(opened, 0, "", b"races/file:ab\n"))
        said = error("races/file", "Is a directory")
        yield Check("a file becomes a folder before it is opened", lambda: self.file(os.mkdir), 2, b"", said)
        yield Check("a folder becomes a link before it is opened", self.folder_becomes_link, 1, b"")

    def own_output(self, fault, is_named):
        """A run that appends to the file that it reads, with a fault of statx. What it appends is limited."""
        path = os.path.join(self.room, "own")
        write(path, LINE)
        words = ["strace", "-o", os.devnull, "-e", f"inject=statx:error=ENOENT:when={fault}", self.program, "ab"]
        with open(path, "ab") as out, open(os.devnull if is_named else path, "rb") as stdin:
            words += ["own"] if is_named else []
            result = run(words, self.room, stdin=stdin, stdout=out, preexec_fn=limit_files(1 << 16))
        with open(path, "rb") as file:
            return Result(result.status, file.read()[:6], result.said)

    def closing(self):
        """Whether the program closes standard output."""
        result, calls = self.tracer.list([self.program, "ab", "outside"], self.room)
        is_closed = any(it.name == "close" and it.descriptor == 1 for it in calls)
        return Result(result.status, b"closed" if is_closed else b"left open", result.said)

    def closing_checks(self):
        """NFS may report that a write failed when the file is closed. GNU grep closes standard output and reports that; ripgrep doesn't."""
        known = Known("hirgrep_main/src/main.rt: main", 0, "", b"left open")
        yield Check("standard output is closed at the end", self.closing, 0, b"closed", "", known)

    def output_checks(self):
        """GNU grep asks for the files of descriptors, which needs no path: so it also works where there is no /dev."""
        grows = Known("grep_cli/src/files/walking.rt: is_output asks for paths in /dev", 2, error("write error", "File too large"), LINE * 2)
        for name, is_named, last in (("own", True, 3), ("(standard input)", False, 2)):
            said = error(name, "input file is also the output")
            yield Check(f"{name} is also the output", lambda it=is_named: self.own_output(9, it), 2, LINE, said)
            run_without = lambda it=is_named, at=last: self.own_output(at, it)
            yield Check(f"{name} is also the output, and there is no /dev/stdout", run_without, 2, LINE, said, grows)
        run_without = lambda: self.own_output(1, False)
        yield Check("(standard input) is also the output, and there is no /dev/stdin", run_without, 2, LINE, said, grows)

    def checks(self):
        yield from self.race_checks()
        yield from self.output_checks()
        yield from self.closing_checks()
