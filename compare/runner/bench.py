"""The cases of compare/bench.txt: a request, and the answer that the
rules' words give it."""

import os
import re
from itertools import groupby

from .programs import HERE

HEX = re.compile("([0-9a-f]{2})+\\Z")
RUN_LEAST = 12


def cases():
    """(request, answer) for each."""
    with open(os.path.join(HERE, "bench.txt"), encoding="ascii") as file:
        lines = [text.rstrip("\n") for text in file]
    found, request = [], None
    for text in lines:
        if text.startswith("= "):
            found.append((request, expanded(text[2:]).decode()))
        elif text and not text.startswith("#"):
            request = expanded(text)
    return found


def expanded(text):
    """`00*128+0a00` stands for 128 pairs 00 and then 0a00."""
    words = []
    for word in text.split(" "):
        if "*" in word:
            parts = [part.partition("*") for part in word.split("+")]
            word = "".join(part * int(times or 1) for part, _, times in parts)
        words.append(word)
    return " ".join(words).encode()


def short(text):
    """The other way round, for people."""
    return " ".join(_short_word(word) if HEX.match(word) else word
                    for word in text.split(" "))


def _short_word(word):
    parts, plain = [], ""
    pairs = [word[place:place + 2] for place in range(0, len(word), 2)]
    for pair, run in groupby(pairs):
        times = len(list(run))
        if times < RUN_LEAST:
            plain += pair * times
        else:
            parts += [plain, f"{pair}*{times}"] if plain else [f"{pair}*{times}"]
            plain = ""
    return "+".join(parts + [plain] if plain else parts)
