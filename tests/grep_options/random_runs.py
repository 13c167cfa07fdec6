"""Runs random cases by the clock, for tests/grep --random. Each run takes a new seed, and ends with one line. Every few seconds it writes
how far it came into a file; if it is ended, the next run goes on from there, with the seed and the time that is left. Each case that
differs is printed, with the command that runs it alone."""

import json
import os
import secrets
import shlex
import signal
import subprocess
import time
from collections import Counter

from .random_cases import RandomRuns, random_case

OUT = os.path.join(os.path.dirname(os.path.dirname(os.path.realpath(__file__))), "out")
NIGHT = 8 * 3600
SAVED = 10  # seconds between two writes of the state
LONGEST = 30  # seconds for a case
MOST = 20  # differences after which it ends
VERDICTS = ("GNU grep", "ripgrep", "the definition")


class Progress:
    """How far a run came; it is kept in a file until the run has ended."""

    def __init__(self, path, seed):
        self.path = path
        self.values = {"seed": seed or secrets.token_hex(4), "next": 0, "seconds": 0.0, "counts": {}, "different": []}
        self.saved = 0.0
        if os.path.exists(path):
            with open(path, encoding="utf-8") as file:
                saved = json.load(file)
            if seed in (None, saved["seed"]):
                self.values = saved
        self.counts = Counter(self.values["counts"])
        self.begun = time.monotonic() - self.values["seconds"]

    @property
    def seconds(self):
        return time.monotonic() - self.begun

    def save(self):
        """Writes the state aside first, so that a run that is ended leaves a whole one."""
        self.values.update(seconds=self.seconds, counts=dict(self.counts))
        os.makedirs(os.path.dirname(self.path), exist_ok=True)
        with open(f"{self.path}.new", "w", encoding="utf-8") as file:
            json.dump(self.values, file)
        os.replace(f"{self.path}.new", self.path)
        self.saved = self.seconds

    def save_at_times(self):
        if self.seconds - self.saved > SAVED:
            self.save()

    def remove(self):
        """Removes the file, and its folder if that is the one for it."""
        if os.path.exists(self.path):
            os.remove(self.path)
        folder = os.path.dirname(self.path)
        if folder == OUT and os.path.isdir(folder) and not os.listdir(folder):
            os.rmdir(folder)


def differs(progress, case, number, names):
    seed = progress.values["seed"]
    words = " ".join(map(shlex.quote, case.words))
    return f"hirgrep {words}: not as {' and '.join(names)}: tests/grep --random --seed {seed} --case {number}"


def differences(runs, case):
    """As runs has them. Python's re may take years for a pattern: such a case is asked of nobody."""
    signal.signal(signal.SIGALRM, end_case)
    signal.alarm(LONGEST)
    try:
        return runs.differences(case)
    except TimeoutError:
        return [], []
    finally:
        signal.alarm(0)


def end_case(*_):
    raise TimeoutError


def run_until(runs, progress, seconds):
    """Runs cases until the time is over, or too many differ."""
    values = progress.values
    while progress.seconds < seconds and len(values["different"]) < MOST:
        case = random_case(values["seed"], values["next"])
        asked, different = differences(runs, case)
        progress.counts.update(asked)
        if different:
            values["different"].append(differs(progress, case, values["next"], different))
            print(values["different"][-1], flush=True)
        values["next"] += 1
        progress.save_at_times()


def line_of(progress):
    values, counts = progress.values, progress.counts
    compared = ", ".join(f"{counts[it]} with {it}" for it in VERDICTS)
    return (
        f"tests/grep --random: seed {values['seed']}: {values['next']} cases in {progress.seconds:.0f} s, compared {compared}: "
        f"{len(values['different'])} differ"
    )


def show(runs, seed, number):
    """Prints all of one case: its words, its files, and what each prints."""
    case = random_case(seed, number)
    _, different = runs.differences(case)
    print(f"words: {' '.join(map(shlex.quote, case.words))}")
    for name, data in case.contents.items():
        print(f"file {name}: {data}")
    print(f"hirgrep: {runs.ours(case)}")
    for name, result in runs.others(case):
        print(f"{name}{' (differs)' if name in different else ''}: {result}")
    return 1 if different else 0


def end_at_signal(*_):
    raise KeyboardInterrupt


def run_by_clock(runs, path, seed, seconds):
    progress = Progress(path, seed)
    signal.signal(signal.SIGTERM, end_at_signal)
    try:
        run_until(runs, progress, seconds)
    except KeyboardInterrupt:
        progress.save()
        print(f"{line_of(progress)}; the next run goes on")
        return 2
    print(line_of(progress))
    progress.remove()
    return 1 if progress.values["different"] else 0


def add_options(parser):
    """The options of tests/grep that concern random cases."""
    add = parser.add_argument_group("random command lines").add_argument
    add("--random", action="store_true", help="compare random command lines over random files until the time is over")
    add("--for", dest="seconds", type=float, default=NIGHT, metavar="SECONDS", help="the time; 8 hours if it isn't given")
    add("--minutes", dest="seconds", type=lambda it: 60 * float(it), metavar="N", help="the time in minutes, as of tests/compare/run")
    add("--seed", help="the seed of the cases; a new one, or that of a run that was ended")
    add("--state", default=f"{OUT}/random.json", metavar="FILE", help="where it writes how far it came, until it has ended")
    add("--case", type=int, metavar="NUMBER", help="run the case of this number and print all of it")


def run_in(folder):
    """Runs words in a folder with a file as input: the status, none if it didn't end, and the output."""
    env = {**os.environ, "LC_ALL": "C.UTF-8"}

    def run(words, given):
        try:
            with open(given, "rb") as stdin:
                done = subprocess.run(words, cwd=folder, env=env, stdin=stdin, capture_output=True, timeout=60, check=False)
        except subprocess.TimeoutExpired:
            return None, b""
        return done.returncode, done.stdout

    return run


def main(asked, program, room, tools):
    """tools are those of grep and rg that are installed."""
    folder = os.path.join(room, "random")
    os.mkdir(folder)
    runs = RandomRuns(program, folder, run_in(folder), tools)
    if asked.case is not None:
        return show(runs, asked.seed or "", asked.case)
    return run_by_clock(runs, os.path.abspath(asked.state), asked.seed, asked.seconds)
