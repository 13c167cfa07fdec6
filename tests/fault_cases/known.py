"""What is known to be wrong when a system call fails, with the source that does it. If one of these is found right, the test fails, so
that the lists only get shorter."""

import re
from dataclasses import dataclass

from .strace import LIMIT
from .verdicts import NO_STACK

ANY = "any"


@dataclass(frozen=True)
class KnownFault:
    """What goes wrong in a search if a call fails, by its number among those of its name; ANY stands for each. Some things go wrong in some
    environments alone."""

    search: str
    call: str
    number: int | str
    kind: str
    source: str
    is_always: bool = True

    def names(self, case, kind):
        return (
            self.search in (case.search.name, ANY)
            and self.call == case.call.name
            and self.number in (case.call.number, ANY)
            and self.kind == kind
        )


@dataclass(frozen=True)
class KnownWords:
    """What messages say that isn't what failed, and why, in the system's words."""

    calls: tuple
    faults: tuple
    words: str  # a regular expression
    source: str

    def names(self, case, message):
        return case.call.name in self.calls and case.fault in self.faults and re.fullmatch(self.words, message) is not None


KNOWN_FAULTS = [
    # The stack begins with 132 KB, and the system makes it grow at the first write below it. If a limit of memory has room for all else and
    # not for that, the system ends the program: a page fault can't be answered by an error. Up to 20 nested groups nothing more is
    # needed; 30 groups have a window of 8 KB, 120 of 132. Only a smaller stack or one of a fixed size for all work would end that, and
    # the toolchain starts a program on the system's stack.
    KnownFault(ANY, LIMIT, ANY, NO_STACK, "hirgrep_main/src/main.rt: 144 KB of stack are used before a file is opened", False),
]

KNOWN_WORDS: list[KnownWords] = []
