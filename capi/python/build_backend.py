"""Builds the package `hanneddois` as pip and other front ends ask for (PEP 517): the extension, and the library of dist/ next to it.

It needs a C compiler, Python's headers and the standard library, but neither setuptools nor a network: so `pip install` works in an empty
virtual environment. The environment variable HANNEDDOIS_DIST names another folder than dist/.
"""

import base64
import ctypes
import hashlib
import os
import pathlib
import platform
import re
import shlex
import shutil
import subprocess
import sys
import sysconfig
import tarfile
import tempfile
import zipfile

HERE = pathlib.Path(__file__).resolve().parent
# A source distribution brings along what a clone has above this folder.
BUNDLED = HERE / "bundled"
CAPI, TOP = (BUNDLED, BUNDLED) if BUNDLED.exists() else (HERE.parent, HERE.parents[1])
HEADER = CAPI / "hanneddois.h"
LICENSES = [TOP / "LICENSE-MIT", TOP / "LICENSE-APACHE"]
DIST = pathlib.Path(os.environ.get("HANNEDDOIS_DIST") or TOP / "dist")
# For each machine the library for all its processors, and those that the loader prefers on newer ones, by their folders in its search.
LIBRARIES = {"x86_64": {"x86_64-linux": "", "x86_64-v3-linux": "glibc-hwcaps/x86-64-v3"}, "aarch64": {"aarch64-linux": ""}}
# The oldest version whose limited API the extension keeps to.
OLDEST = (3, 9)


def read_version():
    number = int(re.search(r"^#define HANNEDDOIS_VERSION (\d+)$", HEADER.read_text(), re.MULTILINE)[1])
    return number // 10000, number // 100 % 100, number % 100


VERSION = read_version()
NAME = "hanneddois-" + ".".join(map(str, VERSION))


def soname():
    """Returns the name under which the loader looks for the library. Before version 1 each minor version has its own."""
    return f"libhanneddois.so.{VERSION[0]}" if VERSION[0] else f"libhanneddois.so.0.{VERSION[1]}"


def check_python():
    if sys.implementation.name != "cpython" or sysconfig.get_config_var("Py_GIL_DISABLED"):
        sys.exit("hanneddois: only CPython with its lock loads the extension; the package works by ctypes without one: see README.md")
    if sys.platform != "linux" or platform.machine() not in LIBRARIES:
        sys.exit(f"hanneddois: there are libraries for Linux on {' and '.join(LIBRARIES)}, and not for {sys.platform} on {platform.machine()}")


def find_libraries():
    """Returns the libraries for this machine by the folders of the package that they belong into."""
    check_python()
    found = {to: DIST / name / "libhanneddois.so" for name, to in LIBRARIES[platform.machine()].items()}
    for library in found.values():
        check_library(library)
    return found


def check_library(library):
    if not library.exists():
        sys.exit(f"hanneddois: there is no {library}; build from a clone of the repository, or name a folder like dist/ in HANNEDDOIS_DIST")
    try:
        number = ctypes.CDLL(str(library)).hanneddois_version()
    except OSError as error:
        sys.exit(f"hanneddois: {library} can't be loaded here: {error}")
    if number // 100 != VERSION[0] * 100 + VERSION[1]:
        sys.exit(f"hanneddois: {library} has version {number}, and {HEADER} is of {'.'.join(map(str, VERSION))}; tools/release builds it anew")


def compile_extension(to, libraries):
    """Compiles the extension, which finds the library in the folder lib next to itself."""
    compiler = shlex.split(os.environ.get("CC") or sysconfig.get_config_var("CC") or "cc")
    words = [*compiler, "-std=c11", "-O3", "-DNDEBUG", "-fPIC", "-fno-plt", "-fvisibility=hidden", "-Wall", "-Wextra", *shlex.split(os.environ.get("CFLAGS", ""))]
    words += [f"-I{sysconfig.get_path('include')}", f"-I{HEADER.parent}", str(HERE / "hanneddois/_extension.c")]
    words += ["-shared", "-Wl,-z,relro,-z,now", "-Wl,-rpath,$ORIGIN/lib", str(libraries[""]), *shlex.split(os.environ.get("LDFLAGS", ""))]
    try:
        subprocess.run([*words, "-o", str(to)], check=True)
    except FileNotFoundError:
        sys.exit(f"hanneddois: there is no C compiler {compiler[0]}; the package works by ctypes without one: see README.md")
    except subprocess.CalledProcessError as error:
        sys.exit(f"hanneddois: {compiler[0]} failed with status {error.returncode}; it needs Python's headers, as in the package python3-dev")


def metadata():
    lines = ["Metadata-Version: 2.1", "Name: hanneddois", f"Version: {'.'.join(map(str, VERSION))}",
             "Summary: Regular expressions by a lazy DFA whose answers are proved", "License: MIT OR Apache-2.0",
             *(f"License-File: {it.name}" for it in LICENSES), f"Requires-Python: >={OLDEST[0]}.{OLDEST[1]}",
             "Description-Content-Type: text/markdown", ""]
    return "\n".join(lines) + "\n" + (HERE / "README.md").read_text()


def tag():
    return f"cp{OLDEST[0]}{OLDEST[1]}-abi3-linux_{platform.machine()}"


def write_metadata(folder):
    """Writes the folder of a wheel that describes it, and returns its name."""
    info = folder / f"{NAME}.dist-info"
    info.mkdir()
    (info / "METADATA").write_text(metadata())
    (info / "WHEEL").write_text(f"Wheel-Version: 1.0\nGenerator: hanneddois\nRoot-Is-Purelib: false\nTag: {tag()}\n")
    for each in LICENSES:
        shutil.copyfile(each, info / each.name)
    return info.name


def write_package(folder):
    """Writes the package: the modules, the extension and the libraries."""
    libraries = find_libraries()
    package = folder / "hanneddois"
    package.mkdir()
    for each in HERE.glob("hanneddois/*.py*"):
        if each.is_file():
            shutil.copyfile(each, package / each.name)
    shutil.copyfile(HERE / "hanneddois/py.typed", package / "py.typed")
    compile_extension(package / "_extension.abi3.so", libraries)
    for to, library in libraries.items():
        (package / "lib" / to).mkdir(parents=True, exist_ok=True)
        shutil.copyfile(library, package / "lib" / to / soname())


def pack(packed, name, content):
    """Adds a file without its time, so that the same sources give the same wheel."""
    entry = zipfile.ZipInfo(name)
    entry.compress_type, entry.external_attr = zipfile.ZIP_DEFLATED, 0o644 << 16
    packed.writestr(entry, content)


def write_wheel(folder, wheel):
    """Packs a folder. RECORD lists the files with their checksums, and is the last."""
    record = []
    with zipfile.ZipFile(wheel, "w") as packed:
        for file in sorted(it for it in folder.rglob("*") if it.is_file()):
            name, content = file.relative_to(folder).as_posix(), file.read_bytes()
            digest = base64.urlsafe_b64encode(hashlib.sha256(content).digest()).rstrip(b"=").decode()
            record.append(f"{name},sha256={digest},{len(content)}\n")
            pack(packed, name, content)
        record.append(f"{NAME}.dist-info/RECORD,,\n")
        pack(packed, f"{NAME}.dist-info/RECORD", "".join(record))


# What PEP 517 asks of a backend.


def prepare_metadata_for_build_wheel(metadata_directory, config_settings=None):
    return write_metadata(pathlib.Path(metadata_directory))


def build_wheel(wheel_directory, config_settings=None, metadata_directory=None):
    wheel = f"{NAME}-{tag()}.whl"
    with tempfile.TemporaryDirectory() as room:
        folder = pathlib.Path(room)
        write_package(folder)
        write_metadata(folder)
        write_wheel(folder, pathlib.Path(wheel_directory) / wheel)
    return wheel


def build_sdist(sdist_directory, config_settings=None):
    """Packs the sources, with the header and the libraries of all machines."""
    sources = [HERE / "pyproject.toml", HERE / "build_backend.py", HERE / "README.md", *sorted(it for it in HERE.glob("hanneddois/*") if it.is_file())]
    files = {str(it.relative_to(HERE)): it for it in sources}
    files.update({f"bundled/{it.name}": it for it in [HEADER, *LICENSES]})
    for folder in (it for each in LIBRARIES.values() for it in each):
        if (DIST / folder).exists():
            files[f"bundled/dist/{folder}/libhanneddois.so"] = DIST / folder / "libhanneddois.so"
    with tempfile.TemporaryDirectory() as room, tarfile.open(pathlib.Path(sdist_directory) / f"{NAME}.tar.gz", "w:gz") as packed:
        files["PKG-INFO"] = pathlib.Path(room) / "PKG-INFO"
        files["PKG-INFO"].write_text(metadata())
        for name, file in files.items():
            packed.add(file, f"{NAME}/{name}")
    return f"{NAME}.tar.gz"
