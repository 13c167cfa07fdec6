"""Runs of a program, how they ended, and checks of how they have to end."""

import os
import re
import resource
import signal
import subprocess
from dataclasses import dataclass
from typing import Callable

SECONDS = 20
ENVIRONMENT = {**{it: os.environ[it] for it in ("PATH", "HOME", "TMPDIR") if it in os.environ}, "LC_ALL": "C.UTF-8"}


@dataclass(frozen=True)
class Result:
    status: int | None  # negative after a signal, none if the program had to be ended
    printed: bytes = b""
    said: bytes = b""

    def text(self):
        ended = "it didn't end" if self.status is None else f"status {self.status}"
        return f"{ended}, {self.printed[-300:]!r}, {self.said[-300:]!r}"


NO_END = Result(None)


def limit_memory(most):
    """What a child process does before it runs a program that may have so many bytes of memory."""
    return lambda: resource.setrlimit(resource.RLIMIT_AS, (most, most))


def limit_descriptors(most):
    """What a child process does before it runs a program that may have so many open files."""
    return lambda: resource.setrlimit(resource.RLIMIT_NOFILE, (most, most))


def limit_files(most):
    """What a child process does before it runs a program whose files may have so many bytes. A write beyond that fails."""

    def limit():
        signal.signal(signal.SIGXFSZ, signal.SIG_IGN)
        resource.setrlimit(resource.RLIMIT_FSIZE, (most, most))

    return limit


def end(ran):
    """Ends a process that was started here, and those that it started."""
    os.killpg(ran.pid, signal.SIGKILL)
    ran.communicate()
    return NO_END


def start(words, room, **streams):
    """Starts a program in a session of its own. Standard input is empty unless it is given."""
    streams = {"stdin": subprocess.DEVNULL, "stdout": subprocess.PIPE, "stderr": subprocess.PIPE, **streams}
    return subprocess.Popen(words, cwd=room, env=ENVIRONMENT, start_new_session=True, **streams)


def ended(ran, given=None, seconds=SECONDS):
    """The result of a process that was started."""
    try:
        printed, said = ran.communicate(given, timeout=seconds)
    except subprocess.TimeoutExpired:
        return end(ran)
    return Result(ran.returncode, printed or b"", said or b"")


def run(words, room, given=None, **streams):
    if given is not None:
        streams["stdin"] = subprocess.PIPE
    with start(words, room, **streams) as ran:
        return ended(ran, given)


@dataclass(frozen=True)
class Known:
    """What a program does that isn't right, and the source that does it. `said` is a regular expression."""

    source: str
    status: int | None
    said: str
    printed: bytes | None = None  # none if it is the same


@dataclass(frozen=True)
class Check:
    """A run, and the result that it has to have. `said` is a regular expression."""

    name: str
    run: Callable[[], Result]
    status: int | None
    printed: bytes
    said: str = ""
    known: Known | None = None

    def fits(self, result, status, printed, said):
        return result.status == status and result.printed == printed and re.fullmatch(said.encode(), result.said, re.S) is not None

    def is_right(self, result):
        return self.fits(result, self.status, self.printed, self.said)

    def is_known(self, result):
        it = self.known
        return it is not None and self.fits(result, it.status, self.printed if it.printed is None else it.printed, it.said)

    def wrong(self):
        """What is wrong, or nothing."""
        result = self.run()
        if self.is_right(result):
            return f"{self.name}: it is right now, so its entry `known` has to go" if self.known else None
        if self.is_known(result):
            return None
        return f"{self.name}: {result.text()}, and not {Result(self.status, self.printed, self.said.encode()).text()}"


def error(name, cause):
    """The message of a fault with a file, as GNU grep has it, as a regular expression."""
    return re.escape(f"hirgrep: {name}: {cause}").replace("\\ ", " ") + "\n"

