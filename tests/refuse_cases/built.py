"""Finds the library and the program whose allocations fail, and builds what makes them fail."""

import os
import re
import shutil
import subprocess

TOP = os.path.dirname(os.path.dirname(os.path.dirname(os.path.realpath(__file__))))
HEADER = f"{TOP}/capi/hanneddois.h"
DIST = f"{TOP}/dist/x86_64-linux"
NO_COMPILER = "there is no C compiler, so neither the library nor hirgrep was tried"


def newest(paths):
    """Returns the newest of these files that is there, or None."""
    found = [it for it in paths if it and os.path.isfile(it)]
    return max(found, key=os.path.getmtime) if found else None


def library():
    return os.environ.get("LIBRARY") or newest([f"{TOP}/capi/out/libhanneddois.a", f"{DIST}/libhanneddois.a"])


def program():
    return os.environ.get("PROGRAM") or newest([f"{TOP}/crates/hirgrep_main/out/hirgrep_main", f"{DIST}/hirgrep"])


def has_compiler():
    return shutil.which(os.environ.get("CC", "cc")) is not None


def compile_c(words):
    """Compiles something, and returns whether that went well; what the compiler says is printed."""
    return subprocess.run([os.environ.get("CC", "cc"), "-std=gnu99", "-O1", "-Wall", "-Wextra", *words], check=False).returncode == 0


def calls_of_header():
    """Returns the calls that the header declares, but old names of others."""
    with open(HEADER, encoding="utf-8") as file:
        text = re.sub(r"/\*.*?\*/", "", file.read(), flags=re.S)
    return re.findall(r"(?m)^[a-z_0-9]+ (hanneddois_\w+)\(", text)


def swept_calls(room):
    """Makes each allocation of each call of the library fail. Returns a row for each call: its name, the allocations, how many were
    reported, and after how many the call went on; and what is wrong."""
    place = f"{room}/calls"
    wraps = "-Wl,--wrap=malloc,--wrap=realloc,--wrap=free"
    if not has_compiler():
        return [], [NO_COMPILER]
    if not library() or not compile_c(["-I", f"{TOP}/capi", wraps, "-o", place, f"{TOP}/tests/refused/library/calls.c", library()]):
        return [], ["tests/refused/library/calls.c isn't built: it wants libhanneddois.a of dist/ or of capi/build"]
    run = subprocess.run([place], stdout=subprocess.PIPE, stderr=subprocess.STDOUT, text=True, check=False, timeout=1800)
    rows = [(name, *map(int, counts)) for name, *counts in re.findall(r"(?m)^\| `(\w+)` \| (\d+) \| (\d+) \| (\d+) \|$", run.stdout)]
    wrong = [it for it in run.stdout.splitlines() if not it.startswith("| `")]
    if run.returncode and not wrong:
        wrong.append(f"tests/refused/library/calls.c ended with {run.returncode}")
    return rows, wrong


def lacking_calls(rows):
    """Returns the calls of the header for which there is no row."""
    return sorted(set(calls_of_header()) - {it[0] for it in rows})


def is_library_of_header():
    """Whether the library that is found was built from these sources, so that the header is its own."""
    if library() != f"{DIST}/libhanneddois.a":
        return library() is not None
    return subprocess.run(["sh", "-c", 'top=$1; . "$top/tools/dist.sh"; is_of_sources', "sh", TOP], check=False).returncode == 0
