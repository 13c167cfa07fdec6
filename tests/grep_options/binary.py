"""--binary-files and -I beside GNU grep: random files with and without zero bytes, with options that select and print. In the locale C, so
that all bytes are characters for GNU grep. A zero byte after the first 96 KiB isn't seen here, where GNU grep goes on buffer by buffer, so
no file has its first one there."""

import os
import random

FIRST = 98304
PARTS = (b"ab", b"a", b"b", b"\0", b"\n", b"x", b"\0\0", b"\n\n", b" ")
PATTERNS = ("ab", "^a", "b$", "^$", "a.b", "x|b", "^ab$")
TYPES = (
    ["--binary-files=binary"], ["--binary-files", "binary"], ["--binary-files=without-match"], ["-I"], ["--binary-files=text"], ["-I", "-a"], ["-a", "-I"],
    ["-I", "--binary-files=binary"], ["--binary-files=binary", "-I"], ["--binary-files=binary", "--text"], ["-a", "--binary-files=binary"],
)
SELECTING = ([], [], ["-v"], ["-m1"], ["-m2"], ["-v", "-m1"], ["-x"])
PRINTING = ([], [], ["-o"], ["-c"], ["-l"], ["-L"], ["-q"], ["-n"], ["-b", "-H"], ["-A1"], ["-C1", "-n"], ["-lc"], ["-oc"], ["-lZ"])


def random_file(rng):
    parts = [rng.choice(PARTS) for _ in range(rng.choice([0, 1, 2, 3, 8, 30]))]
    if rng.random() < 0.3:
        parts = [it for it in parts if b"\0" not in it]
    if rng.random() < 0.1:
        parts.append(b"y" * rng.choice([1000, 40000, FIRST]) + rng.choice([b"", b"\nab\n"]))
    return b"".join(parts)


def compare_binary(program, room, run, tell, count=400, seed=1):
    """Compares status, output and messages over one to three files, or standard input."""
    place = os.path.join(room, "binary")
    os.mkdir(place)
    rng = random.Random(seed)
    for _ in range(count):
        names = ["one", "two", "three"][: rng.choice([1, 1, 2, 3])]
        for name in names:
            with open(os.path.join(place, name), "wb") as file:
                file.write(random_file(rng))
        given = random_file(rng) if rng.random() < 0.1 else None
        words = [*rng.choice(TYPES), *rng.choice(SELECTING), *rng.choice(PRINTING), "-e", rng.choice(PATTERNS), *([] if given is not None else names)]
        ours, theirs = (run(it, place, given or b"", {"LC_ALL": "C"}) for it in ([program, *words], ["grep", "-E", *words]))
        if (*ours[:2], ours[2].replace(b"hirgrep: ", b"grep: ")) != theirs:
            tell(words, f"{ours}, and not {theirs}")
