"""The stored run of `morel`, and damaged files by chance."""

import os
import random
import shutil
import subprocess
import sys
import tempfile

from independent import morel

from .programs import ROOT, Missing, built, environment

CRATE = os.path.join(ROOT, "crates", "morel")
EXAMPLES = os.path.join(ROOT, "examples")

# How many files one run of the program is given.
BATCH = 40


def read(path):
    with open(path, "rb") as file:
        return file.read()


def stored_run():
    """What the words of `args` print, on a copy of data/, and the status."""
    words = read(os.path.join(CRATE, "args")).split(b"\n")
    if words[-1] == b"":
        words.pop()
    with tempfile.TemporaryDirectory() as folder:
        shutil.copytree(os.path.join(CRATE, "data"), folder,
                        dirs_exist_ok=True)
        return morel.run(words, folder)


def main():
    words = sys.argv[1:]
    path = os.path.join(CRATE, "stdout")
    if "--write" in words:
        words.remove("--write")
        with open(path, "wb") as file:
            file.write(stored_run()[0])
    if stored_run()[0] != read(path):
        print("crates/morel/stdout is not what the independent program prints")
        return 1
    print("crates/morel/stdout is what the independent program prints")
    count, seed = (list(map(int, words)) + [0, 1][len(words):])[:2]
    return by_chance(count, seed) if count else 0


# --- Damaged files ---


def damaged(chance, content):
    """A copy with some bytes changed, often those that count, or cut."""
    copy = bytearray(content)
    for _ in range(chance.choice((0, 1, 1, 2, 5, 40))):
        if copy:
            place = chance.randrange(len(copy))
            copy[place] = chance.choice(
                (0, 1, 255, 128, copy[place] ^ 1 << chance.randrange(8),
                 chance.randrange(256)))
    if chance.random() < 0.2:
        del copy[chance.randrange(len(copy) + 1):]
    return bytes(copy)


def command(chance, name, kind):
    if kind == "sii":
        if chance.random() < 0.3:
            alias = chance.choice((0, 1, 255, 256, 65_535, 65_536,
                                   chance.randrange(65_536)))
            spelled = chance.choice((str, hex, "0x{:04X}".format))(alias)
            forced = ["force"] * chance.randrange(2)
            return ["alias", name, spelled] + forced + ["then", "sii", name]
        return ["sii", name]
    if kind == "frame":
        return ["frame", name]
    size = chance.choice((0, 1, 12, 13, 14, 64, 100, 2_047, 2_048,
                          chance.randrange(2_100)))
    areas = chance.choice((0, 1, 2, 3, 31, 32, 33, chance.randrange(40)))
    return ["spread", str(size), str(areas), name]


def batch(chance, originals, folder):
    """Writes some files and gives the words that ask about them."""
    words = []
    for place in range(BATCH):
        original = chance.choice(sorted(originals))
        kind = original.rsplit(".", 1)[1]
        name = f"f{place}"
        with open(os.path.join(folder, name), "wb") as file:
            file.write(damaged(chance, originals[original]))
        words += ["then"] * bool(words) + command(chance, name, kind)
    return words


def difference(ours, theirs):
    """The first line in which they differ."""
    for a, b in zip(ours.split(b"\n"), theirs.split(b"\n")):
        if a != b:
            return f"morel: {a!r}\nindependent: {b!r}"
    return "one of them ends before the other"


def ran(words, folder):
    """What the program writes, and the status that it tells."""
    with tempfile.NamedTemporaryFile() as status:
        # A shell opens the descriptor that the status goes to.
        done = subprocess.run(
            ["sh", "-c", 'exec "$@" 3>"$0"', status.name, built("morel"),
             "--status"] + words, cwd=folder,
            stdout=subprocess.PIPE, env=environment(), check=True)
        return done.stdout, status.read().decode("ascii")


def by_chance(count, seed):
    try:
        built("morel")
    except Missing as why:
        print(f"morel is not asked: {why}")
        return 1
    chance = random.Random(seed)
    originals = {name: read(os.path.join(EXAMPLES, name))
                 for name in os.listdir(EXAMPLES)
                 if name.endswith((".sii", ".frame", ".image"))
                 and "large" not in name}
    asked = 0
    while asked < count:
        with tempfile.TemporaryDirectory() as ours, \
                tempfile.TemporaryDirectory() as theirs:
            words = batch(chance, originals, ours)
            shutil.copytree(ours, theirs, dirs_exist_ok=True)
            got, told = ran(words, ours)
            said, status = morel.run([word.encode() for word in words], theirs)
            if (got, told) != (said, f"{status}\n"):
                print(f"after {asked} files, status {told!r}, not {status}")
                print(difference(got, said))
                return 1
            for name in os.listdir(ours):
                if (read(os.path.join(ours, name))
                        != read(os.path.join(theirs, name))):
                    print(f"after {asked} files {name} was left otherwise")
                    return 1
        asked += BATCH
    print(f"{asked} damaged files: morel and the independent program print "
          "the same")
    return 0
