#!/usr/bin/env python3
"""Writes the texts that the benchmarks search, always the same ones for a seed.

    corpora.py FOLDER [MEGABYTES [SEED]]

writes these files into FOLDER, each of so many times 2^20 bytes (32 where none are given):

log       lines such as a server writes: a date and a time, a level, a module, and fields
requests  such lines whose users have names and whose numbers are decimal
prose     sentences of made-up words, in lines of some 70 characters, with a character of two bytes here and there
mixed     lines of words in Latin, Greek, Cyrillic and Chinese characters, digits and emoji
source    the text of programs in a small language, all of it ASCII
random    bytes, each as likely as any other
"""
import os
import random
import sys

LEVELS = ["DEBUG"] * 6 + ["INFO"] * 12 + ["WARN"] * 2 + ["ERROR"]
MODULES = ["auth", "billing", "cache", "db::pool", "http::server", "jobs", "mail", "search", "storage::s3"]
VERBS = ["opened", "closed", "retried", "stored", "dropped", "served", "refused", "renewed"]
USERS = ["ada", "boris", "chloe", "dmitri", "eve", "farid", "greta", "hiro"]
THINGS = ["connection", "session", "request", "object", "lease", "token", "page", "batch"]
SYLLABLES = ["ba", "be", "ca", "co", "da", "de", "el", "en", "fa", "ga", "ha", "in", "ka", "la", "le", "ma", "mi",
             "na", "no", "or", "pa", "ra", "re", "sa", "se", "ta", "te", "un", "va", "wi", "zan", "th\u00e9", "\u00fc"]
ALPHABETS = ["abcdefghijklmnopqrstuvwxyz", "abcdefghijklmnopqrstuvwxyz", "\u00e0\u00e9\u00eenost\u00fc",
             "\u03b1\u03b2\u03b3\u03b4\u03b5\u03b7\u03b9\u03ba\u03bb\u03bd\u03bf\u03c0\u03c1\u03c3\u03c4\u03c9",
             "\u0430\u0431\u0432\u0434\u0435\u0438\u043a\u043b\u043d\u043e\u0440\u0441\u0442\u0443\u044f",
             "\u4e00\u4e2d\u4eba\u5927\u5b66\u6587\u65e5\u6c34", "0123456789", "\U0001f600\U0001f680\U0001f9ed"]
STATEMENTS = ["fn {a}({b}: u32) -> u32 {{\n", "    let {a} = {b} + {n};\n", "    if {a} >= {n} || {b} == 0 {{\n",
              "        return \"{b} is {a}\\n\";\n", "    // {a} stands before {b}\n", "    }} else {{\n", "    }}\n",
              "    while {a} != {b} && {n} < {b}[{n}] {{\n", "    {a} = 0x{n:x} * ({b} - 1.5);\n", "}}\n\n"]


def log_lines(dice):
    second = 0
    while True:
        second += dice.randrange(3)
        day, rest = divmod(second, 86400)
        yield "2024-%02d-%02dT%02d:%02d:%02d.%03dZ %-5s %s: %s %s user=%d id=%08x ms=%d path=/%s/%d\n" % (
            1 + day // 28 % 12, 1 + day % 28, rest // 3600, rest // 60 % 60, rest % 60, dice.randrange(1000),
            dice.choice(LEVELS), dice.choice(MODULES), dice.choice(VERBS), dice.choice(THINGS),
            dice.randrange(100000), dice.getrandbits(32), dice.randrange(2000), dice.choice(THINGS),
            dice.randrange(10000))


def request_lines(dice):
    for line in log_lines(dice):
        begin, _, rest = line.partition(" user=")
        yield "%s user=%s id=%d %s" % (begin, dice.choice(USERS), dice.randrange(10**6), rest.split(" ", 2)[2])


def prose_words(dice):
    return ["".join(dice.choices(SYLLABLES, k=dice.randint(1, 4))) for _ in range(4000)]


def prose_lines(dice):
    words = prose_words(dice)
    line = ""
    while True:
        sentence = dice.choices(words, k=dice.randint(4, 18))
        sentence[0] = sentence[0].capitalize()
        sentence[-1] += "."
        for word in sentence:
            if len(line) + len(word) > 70:
                yield line + "\n"
                line = ""
            line += (" " if line else "") + word


def mixed_lines(dice):
    words = ["".join(dice.choices(dice.choice(ALPHABETS), k=dice.randint(1, 9))) for _ in range(4000)]
    while True:
        yield " ".join(dice.choices(words, k=dice.randint(1, 16))) + "\n"


def source_lines(dice):
    names = ["_".join(dice.choices(SYLLABLES[:-2], k=dice.randint(1, 3))) for _ in range(2000)]
    while True:
        yield dice.choice(STATEMENTS).format(a=dice.choice(names), b=dice.choice(names), n=dice.randrange(10000))


LINES = {"log": log_lines, "requests": request_lines, "prose": prose_lines, "mixed": mixed_lines, "source": source_lines}
NAMES = [*LINES, "random"]


def write_lines(path, lines, size):
    left = size
    with open(path, "wb") as file:
        for line in lines:
            data = line.encode()
            if len(data) > left:
                data = data[:left].decode(errors="ignore").encode()  # cuts no character
            file.write(data)
            left -= len(data)
            if left == 0:
                return


def write_random(path, dice, size):
    with open(path, "wb") as file:
        for begin in range(0, size, 1 << 20):
            file.write(dice.randbytes(min(1 << 20, size - begin)))


def write_corpus(path, name, size, seed):
    dice = random.Random(name + seed)
    if name in LINES:
        write_lines(path, LINES[name](dice), size)
    else:
        write_random(path, dice, size)


def main():
    if not 2 <= len(sys.argv) <= 4:
        sys.exit(__doc__)
    folder = sys.argv[1]
    size = int(sys.argv[2] if len(sys.argv) > 2 else 32) << 20
    seed = sys.argv[3] if len(sys.argv) > 3 else "1"
    os.makedirs(folder, exist_ok=True)
    for name in NAMES:
        write_corpus(os.path.join(folder, name), name, size, seed)


if __name__ == "__main__":
    main()
