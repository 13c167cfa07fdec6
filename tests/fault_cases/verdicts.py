"""How a run with a fault ended: with the answer, with a message and status 2, or otherwise."""

import errno
import os
import re
import signal

from .cases import SHORT
from .strace import LIMIT

ALL = "all"
# how the C library's loader ends a program; the second if it is out of memory at once
NOT_LOADED = (127, -signal.SIGSEGV)
GOOD = ("answer", "reported", "loader")
NOT_REPEATED = "an interrupted read or write isn't made once more"
NO_STACK = "the stack can't grow"


def affected(case, room):
    """The file below the room that the call is about, or all of them."""
    if case.call.is_of_memory or case.call.name == "chdir":
        return ALL
    path = os.path.relpath(os.path.normpath(os.path.join(room, case.search.folder, case.call.file)), room)
    return ALL if path.startswith("..") or path in (".", "patterns") else path


def is_beginning(part, whole):
    """Whether it is a beginning of the whole that ends with a line."""
    return whole.startswith(part) and (not part or part.endswith(b"\n"))


def is_in_order(pieces, printed):
    """Whether some pieces were printed, each whole but the last one. The files of a folder may come in any order."""
    left = list(pieces)
    while printed:
        found = next((it for it in left if printed.startswith(it)), None)
        if found is None:
            return any(is_beginning(printed, it) for it in left)
        left.remove(found)
        printed = printed[len(found) :]
    return True


def may_be_printed(search, printed, path):
    """Whether this may be printed after a fault with this file: all of the other files, and of this one whole lines from its start."""
    if path == ALL:
        return is_in_order([piece for _, piece in search.pieces], printed)
    touched = []
    for name, piece in search.pieces:
        if name == path or name.startswith(f"{path}/"):
            touched.append(piece)
        elif piece not in printed:
            return False
        else:
            printed = printed.replace(piece, b"", 1)
    return printed == b"" or not search.is_of_whole and is_in_order(touched, printed)


def new_messages(search, said):
    """The messages that aren't there without a fault."""
    lines = said.decode(errors="replace").split("\n")
    if lines.pop() != "":
        return ["a line without a line feed"] * 2
    expected = next((it for it in lines if search.said and it.startswith(search.said)), None)
    return [it for it in lines if it is not expected]


def counts_of_messages(case, path):
    """How many messages there may be."""
    if case.is_stderr or case.is_stdout and case.fault == "EPIPE":
        return (0,)
    if case.search.is_silent and not case.is_stdout and path != ALL:
        return (0,)
    return (0, 1) if case.search.is_quiet else (1,)


def shortened(case, answer, offset):
    """The answer without the bytes that a write returned as written, which strace kept from the system."""
    return answer[:offset] + answer[offset + SHORT[case.fault] :]


def is_answer(case, result, answer):
    """Whether nothing shows of the fault."""
    return result.status == case.search.status and result.printed == answer and not new_messages(case.search, result.said)


def report_of(case, result, answer, room):
    """`reported`, or what is wrong with a run that has to report a fault."""
    path = affected(case, room)
    messages = new_messages(case.search, result.said)
    if result.status != 2 and not (case.search.is_quiet and result.status == 0):
        return "wrong status"
    if len(messages) not in counts_of_messages(case, path):
        return "wrong messages"
    if case.is_stderr:
        return "reported" if result.printed == answer else "wrong output"
    if case.is_stdout:
        return "reported" if answer.startswith(result.printed) else "wrong output"
    return "reported" if may_be_printed(case.search, result.printed, path) else "wrong output"


def verdict(case, result, answer, offset, room):
    """One of GOOD, or what is wrong. The offset is where in the answer the write of the case begins."""
    if result.status is None:
        return "it didn't end"
    if case.is_stdout and case.fault in SHORT:
        answer = shortened(case, answer, offset)
    if is_answer(case, result, answer):
        return "answer"
    if not case.call.is_own and result.status in NOT_LOADED and result.printed == b"":
        return "loader"
    if case.call.name == LIMIT and result.status == -signal.SIGSEGV:
        return NO_STACK
    report = report_of(case, result, answer, room)
    return NOT_REPEATED if report == "reported" and case.call.name in ("read", "write") and case.fault == "EINTR" else report


def is_part_of(printed, answer, may_be_cut):
    """Whether each printed line is one of the answer, in its order; if that may be, but for a last one that is cut."""
    lines = iter(answer.splitlines(True))
    parts = printed.splitlines(True)
    if may_be_cut and parts and not parts[-1].endswith(b"\n"):
        cut = parts.pop()
        return is_part_of(b"".join(parts), answer, False) and any(it.startswith(cut) for it in answer.splitlines(True))
    return all(part in lines for part in parts)


def verdict_of_two(cases, result, answer):
    """One of GOOD, or what is wrong, where two calls fail: what is printed and the status are judged alone."""
    search = cases[0].search
    if result.status is None:
        return "it didn't end"
    if result.status == search.status and result.printed == answer:
        return "answer"
    if result.status != 2 and not (search.is_quiet and result.status == 0):
        return "wrong status"
    if not all(it.startswith("hirgrep: ") for it in new_messages(search, result.said)):
        return "wrong messages"
    return "reported" if is_part_of(result.printed, answer, any(it.is_stdout for it in cases)) else "wrong output"


def cause_of(case):
    """What the message has to say, as a regular expression: the system's words for the error."""
    if case.call.is_of_memory:
        return "out of memory"
    if case.fault == "retval=0":
        return ".+"
    return re.escape(os.strerror(getattr(errno, case.fault)))


def has_right_words(case, message):
    """Whether a message says what failed, and why."""
    cause = cause_of(case)
    if case.call.is_of_memory:
        return re.fullmatch(f"hirgrep: ((\\(standard input\\)|\\S+): )?{cause}", message) is not None
    if case.is_stdout:
        return re.fullmatch(f"hirgrep: write error: {cause}", message) is not None
    name = os.path.basename(case.call.file.rstrip("/"))
    # the folder that a search runs in is the one that it names by a dot
    names = "|".join(map(re.escape, [name, "(standard input)", "-", *(["."] if name == case.search.folder else [])]))
    return re.fullmatch(f"hirgrep: (.*/)?({names}): {cause}", message) is not None
