"""Fetches source packages of Debian with apt, which checks their signatures. Nothing is kept in the repository."""

import glob
import os
import subprocess

LIST = "deb-src http://deb.debian.org/debian bookworm main\n"
PACKAGES = {"grep": "grep_3.8.orig.tar.xz", "rust-ripgrep": "rust-ripgrep_13.0.0.orig.tar.gz"}


def options(folder):
    """Options by which apt keeps its lists and its cache in the folder, and reads no other list of sources."""
    lists, cache = os.path.join(folder, "lists"), os.path.join(folder, "cache")
    os.makedirs(os.path.join(lists, "partial"), exist_ok=True)
    os.makedirs(os.path.join(cache, "archives", "partial"), exist_ok=True)
    sources = os.path.join(folder, "sources.list")
    with open(sources, "w", encoding="utf-8") as file:
        file.write(LIST)
    pairs = {"Dir::Etc::sourcelist": sources, "Dir::Etc::sourceparts": "-", "Dir::State::lists": lists, "Dir::Cache": cache}
    return [word for key, value in pairs.items() for word in ("-o", f"{key}={value}")]


def fetch(folder):
    """Makes sure that the archives are in the folder. Returns what prevents it, or None."""
    if all(os.path.exists(os.path.join(folder, it)) for it in PACKAGES.values()):
        return None
    os.makedirs(folder, exist_ok=True)
    for words in (["update"], ["source", "--download-only", *PACKAGES]):
        try:
            done = subprocess.run(["apt-get", "-q", *options(folder), *words], cwd=folder, capture_output=True, text=True, timeout=300, check=False)
        except (OSError, subprocess.TimeoutExpired) as error:
            return str(error)
        if done.returncode != 0:
            lines = (done.stderr or done.stdout).strip().splitlines()
            return lines[-1] if lines else "apt-get failed"
    missing = [it for it in PACKAGES.values() if not os.path.exists(os.path.join(folder, it))]
    return f"no {missing[0]} of Debian 12" if missing else None


def unpack(folder, name):
    """Unpacks the archive of a package, once. Returns the folder of its files."""
    archive = os.path.join(folder, PACKAGES[name])
    to = os.path.join(folder, name)
    if not os.path.isdir(to):
        os.makedirs(to)
        subprocess.run(["tar", "-xf", archive, "-C", to, "--strip-components=1"], check=True)
    return os.path.realpath(glob.glob(to)[0])
