"""The faults of a system call, one after the other."""

from dataclasses import dataclass

from .scenarios import Search
from .strace import Call

FAULTS = {
    "openat": ("EACCES", "ENOENT", "EMFILE", "EINTR", "EIO"),
    "read": ("EIO", "EINTR", "EAGAIN", "EISDIR"),
    "write": ("ENOSPC", "EPIPE", "EINTR", "EAGAIN", "EIO", "retval=0", "retval=1", "retval=3"),
    "close": ("EIO", "EINTR", "ENOSPC"),
    "statx": ("EIO", "ENOENT", "EACCES", "ENOSYS"),
    "getdents64": ("EIO", "EINTR", "EBADF"),  # ENOENT is the end of a folder that was removed, by POSIX
    "brk": ("retval=0",),  # it fails by a break below the one that was asked for
    "mmap": ("ENOMEM",),
    "mremap": ("ENOMEM",),
    "chdir": ("EACCES", "EIO"),
}
OTHER_FAULTS = ("EPERM", "ENOSYS")
MEMORY = {"brk": "retval=0", "mmap": "error=ENOMEM", "mremap": "error=ENOMEM"}
SHORT = {"retval=1": 1, "retval=3": 3}  # how many bytes a short write writes
NEVER = ("execve", "exit_group")  # before and after the program
ALL_MEMORY = "no memory from here on"


@dataclass(frozen=True)
class Case:
    search: Search
    call: Call
    fault: str

    @property
    def name(self):
        return f"{self.search.name}: {self.call.name} {self.call.number}: {self.fault}"

    @property
    def is_stdout(self):
        return self.call.name == "write" and self.call.descriptor == 1

    @property
    def is_stderr(self):
        return self.call.name == "write" and self.call.descriptor == 2

    def injections(self, calls):
        """The faults as strace has them."""
        if self.fault != ALL_MEMORY:
            fault = self.fault if "=" in self.fault else f"error={self.fault}"
            return [f"{self.call.name}:{fault}:when={self.call.number}"]
        before = [it.name for it in calls[: calls.index(self.call)]]
        return [f"{name}:{fault}:when={before.count(name) + 1}+" for name, fault in MEMORY.items()]


def cases_of(search, calls, with_loader):
    """A case for each call and fault. For memory also one in which no later call gets any."""
    for call in calls:
        if call.name in NEVER or not (call.is_own or with_loader):
            continue
        for fault in FAULTS.get(call.name, OTHER_FAULTS):
            if not (fault in SHORT and call.descriptor == 2):
                yield Case(search, call, fault)
        if call.is_own and call.is_of_memory:
            yield Case(search, call, ALL_MEMORY)
