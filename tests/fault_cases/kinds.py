"""What isn't a plain file: pipes, FIFOs, sockets, devices, /proc, descriptors that are closed or open for something else, and a full or
closed output. What has to be printed is by hand, from the system's manual and what GNU grep does."""

import os
import pty
import signal
import socket
import subprocess
import threading
import time

from .runs import SECONDS, Check, Result, ended, error, limit_descriptors, limit_files, limit_memory, run, start

TEXT = b"".join(b"%d ab\n%d no\n" % (it, it) for it in range(3000)) + b"end ab"
WANTED = b"".join(b"%d ab\n" % it for it in range(3000)) + b"end ab\n"
PIECES = (1, 7, 4095, 4096, 4097, 65537)
CLOSED = "Bad file descriptor"


def write_pieces(descriptor, data, length):
    with os.fdopen(descriptor, "wb", buffering=0) as file:
        for at in range(0, len(data), length):
            file.write(data[at : at + length])


def piped(words, room, length):
    """A run that is given the text in pieces, by a pipe. A read returns what is there."""
    reading, writing = os.pipe()
    text = TEXT if length > 100 else TEXT[-3000:]
    thread = threading.Thread(target=write_pieces, args=(writing, text, length))
    with start(words, room, stdin=reading) as ran:
        os.close(reading)
        thread.start()
        result = ended(ran)
    thread.join()
    wanted = WANTED if length > 100 else b"".join(it + b"\n" for it in text.split(b"\n") if b"ab" in it)
    return Result(result.status, b"each line" if result.printed == wanted else result.printed, result.said)


def unready(words, room):
    """A run over a pipe that has no bytes yet, and that doesn't wait for them."""
    reading, writing = os.pipe()
    os.set_blocking(reading, False)
    result = run(words, room, stdin=reading)
    os.close(reading)
    os.close(writing)
    return result


def stopped(words, room):
    """A run that is stopped and continued while it waits for input."""
    with start(words, room, stdin=subprocess.PIPE) as ran:
        for sent in (b"ab\nno\n", b"ab again\n"):
            ran.stdin.write(sent)
            ran.stdin.flush()
            time.sleep(0.05)
            os.kill(ran.pid, signal.SIGSTOP)
            time.sleep(0.05)
            os.kill(ran.pid, signal.SIGCONT)
        return ended(ran)


def by_shell(words, redirection, room, **streams):
    """A run with a descriptor as the shell makes it."""
    return run(["sh", "-c", f'exec "$@" {redirection}', "sh", *words], room, **streams)


def typed(words, room):
    """A run that reads what is typed at a terminal."""
    ours, theirs = pty.openpty()
    with start(words, room, stdin=theirs) as ran:
        os.close(theirs)
        os.write(ours, b"ab\nno\n\4")
        result = ended(ran)
    os.close(ours)
    return result


def make_kinds(room):
    folder = os.path.join(room, "kinds")
    os.mkdir(folder)
    os.mkfifo(os.path.join(folder, "fifo"))
    os.symlink("loop", os.path.join(folder, "loop"))
    os.symlink("missing", os.path.join(folder, "nowhere"))
    os.symlink("../a.log", os.path.join(folder, "link"))
    with open(os.path.join(folder, "file"), "wb") as file:
        file.write(b"ab\n")
    with socket.socket(socket.AF_UNIX) as each:
        here = os.getcwd()
        os.chdir(folder)  # the path of a socket has few bytes
        each.bind("socket")
        os.chdir(here)
    return folder


class Kinds:
    def __init__(self, program, room):
        self.program, self.room = program, room
        self.folder = make_kinds(room)

    def run(self, *words, **streams):
        return run([self.program, *words], self.folder, **streams)

    def shell(self, redirection, *words, **streams):
        return by_shell([self.program, *words], redirection, self.folder, **streams)

    def pipe_checks(self):
        words = [self.program, "ab"]
        for length in PIECES:
            run_pieces = lambda length=length: piped(words, self.folder, length)
            yield Check(f"a pipe in pieces of {length} bytes", run_pieces, 0, b"each line")
        said = error("(standard input)", "Resource temporarily unavailable")
        yield Check("a pipe that isn't ready", lambda: unready(words, self.folder), 2, b"", said)
        yield Check("a pipe, and the program is stopped and continued", lambda: stopped(words, self.folder), 0, b"ab\nab again\n")
        yield Check("a FIFO", self.fifo, 0, b"ab\n")
        yield Check("a folder with a FIFO, a socket and links", lambda: self.run("-r", "ab"), 0, b"file:ab\n")
        yield Check("a link", lambda: self.run("ab", "link"), 0, b"ab 1\nab 2\n")
        yield Check("a terminal", lambda: typed(words, self.folder), 0, b"ab\n")

    def fifo(self):
        path = os.path.join(self.folder, "fifo")
        thread = threading.Thread(target=lambda: write_pieces(os.open(path, os.O_WRONLY), b"ab\nno\n", 2), daemon=True)
        thread.start()
        result = self.run("ab", "fifo")
        thread.join(SECONDS)
        return result

    def unopened_checks(self):
        """What can't be opened."""
        rows = [
            ("a socket", "socket", "No such device or address"),
            ("a link to itself", "loop", "Too many levels of symbolic links"),
            ("a link to nothing", "nowhere", "No such file or directory"),
            ("a file as a folder", "file/x", "Not a directory"),
            ("a terminal that isn't there", "/dev/tty", "No such device or address"),
        ]
        for name, path, cause in rows:
            yield Check(name, lambda path=path: self.run("ab", path), 2, b"", error(path, cause))
        said = error("missing", "No such file or directory")
        yield Check("a missing file of patterns", lambda: self.run("-f", "missing"), 2, b"", said)
        yield Check("a missing folder", lambda: self.run("--directory", "missing", "ab"), 2, b"", said)
        yield Check("a folder", lambda: self.run("ab", "."), 2, b"", error(".", "Is a directory"))

    def pattern_checks(self):
        """Files of patterns that can't be read to their end, or aren't UTF-8."""
        said = error(".", "Is a directory")
        yield Check("a folder of patterns", lambda: self.run("-f", ".", "file"), 2, b"", said)
        zeros = lambda: run([self.program, "-f", "/dev/zero", "file"], self.folder, preexec_fn=limit_memory(64 << 20))
        yield Check("patterns without an end, in 64 MB of memory", zeros, 2, b"", error("/dev/zero", "out of memory"))
        with open(os.path.join(self.room, "broken_patterns"), "wb") as file:
            file.write(b"ab\n\xff\n")
        broken = "hirgrep: ../broken_patterns: .*UTF-8\n"
        yield Check("patterns that aren't UTF-8", lambda: self.run("-f", "../broken_patterns", "file"), 2, b"", broken)

    def device_checks(self):
        yield Check("/dev/null", lambda: self.run("ab", "/dev/null"), 1, b"")
        yield Check("a first line of /dev/urandom", lambda: self.run("-c", "-m1", "", "/dev/urandom"), 0, b"1\n")
        zeros = lambda: run([self.program, "ab", "/dev/zero", "file"], self.folder, preexec_fn=limit_memory(64 << 20))
        yield Check("a line without an end, in 64 MB of memory", zeros, 2, b"file:ab\n", error("/dev/zero", "out of memory"))

    def proc_checks(self):
        """Files that the system makes as they are read, whose length is 0."""
        with open("/proc/cpuinfo", "rb") as file:
            lines = file.read().count(b"\n")
        yield Check("/proc/cpuinfo", lambda: self.run("-c", "", "/proc/cpuinfo"), 0, b"%d\n" % lines)
        yield Check("/proc/self/comm", lambda: self.run("", "/proc/self/comm"), 0, os.path.basename(self.program)[:15].encode() + b"\n")
        said = error("/proc/self/mem", "Input/output error")
        yield Check("/proc/self/mem", lambda: self.run("ab", "/proc/self/mem"), 2, b"", said)
        yield Check("a folder of descriptors, which are links", lambda: self.run("-r", "ab", f"/proc/{os.getpid()}/fd"), 1, b"")

    def input_checks(self):
        rows = [
            ("closed", "<&-", CLOSED),
            ("open for writing", "0>/dev/null", CLOSED),
            ("a folder", "<.", "Is a directory"),
        ]
        for name, redirection, cause in rows:
            said = error("(standard input)", cause)
            yield Check(f"standard input is {name}", lambda it=redirection: self.shell(it, "ab"), 2, b"", said)
        said = error("(standard input)", CLOSED)
        both = lambda: self.shell("<&-", "ab", "file", "-")
        yield Check("standard input is closed, and a file", both, 2, b"file:ab\n", said)
        yield Check("standard input is closed, and isn't read", lambda: self.shell("<&-", "ab", "file"), 0, b"ab\n")

    def output_checks(self):
        closed, full = error("write error", CLOSED), error("write error", "No space left on device")
        rows = [
            ("closed", ">&-", closed),
            ("open for reading", "1<../b.log", closed),
            ("full", ">/dev/full", full),
        ]
        for name, redirection, said in rows:
            shell = lambda *words, it=redirection: lambda: self.shell(it, *words)
            output = f"standard output is {name}"
            yield Check(output, shell("ab", "file", "file"), 2, b"", said)
            yield Check(f"{output}, and -q", shell("-q", "ab", "file"), 0, b"")
            yield Check(f"{output}, and no line", shell("zz", "file"), 1, b"")
            for option in ("--help", "--version"):
                yield Check(f"{output}, and {option}", shell(option), 2, b"", said)
        yield Check("standard output is a closed pipe", self.closed_pipe, 2, b"")
        large = error("write error", "File too large")
        yield Check("standard output may have one byte", self.one_byte, 2, b"a", large)

    def closed_pipe(self):
        reading, writing = os.pipe()
        os.close(reading)
        result = self.run("ab", "file", stdout=writing)
        os.close(writing)
        return result

    def one_byte(self):
        path = os.path.join(self.room, "one_byte")
        with open(path, "wb") as out:
            result = self.run("ab", "file", stdout=out, preexec_fn=limit_files(1))
        with open(path, "rb") as out:
            return Result(result.status, out.read(), result.said)

    def error_checks(self):
        """A message that can't be written doesn't change the status."""
        for name, redirection in (("closed", "2>&-"), ("full", "2>/dev/full"), ("open for reading", "2<file")):
            yield Check(f"standard error is {name}", lambda it=redirection: self.shell(it, "ab", "missing", "file"), 2, b"file:ab\n")
            yield Check(f"standard error is {name}, and no pattern", lambda it=redirection: self.shell(it), 2, b"")
        yield Check("all is closed", lambda: self.shell("<&- >&- 2>&-", "ab", "file", "missing", "-"), 2, b"")

    def descriptor_checks(self):
        """Files are closed once they are searched: a few descriptors do for many files, and for folders in folders."""
        path = os.path.join(self.room, "nested")
        for _ in range(100):
            os.makedirs(path)
            with open(os.path.join(path, "file"), "wb") as file:
                file.write(b"ab\n")
            path = os.path.join(path, "sub")
        words = [self.program, "-rh", "ab", "nested", *["a.log"] * 100]
        lines = b"ab\n" * 100 + b"ab 1\nab 2\n" * 100
        yield Check("many files, and few descriptors", lambda: run(words, self.room, preexec_fn=limit_descriptors(6)), 0, lines)

    def checks(self):
        yield from self.pipe_checks()
        yield from self.unopened_checks()
        yield from self.pattern_checks()
        yield from self.device_checks()
        yield from self.proc_checks()
        yield from self.input_checks()
        yield from self.output_checks()
        yield from self.error_checks()
        yield from self.descriptor_checks()
