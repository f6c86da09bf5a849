"""The three programs: where they are, and asking them."""

import functools
import os
import platform
import shutil
import subprocess
import sys
import tempfile

HERE = os.path.dirname(os.path.dirname(os.path.abspath(__file__)))
ROOT = os.path.dirname(HERE)
NAMES = ("desk", "oracle", "independent")

# What a program is taken to say where it ended instead, and what is noted of
# the requests behind, once it has ended too often.
NO_ANSWER = "(no answer)"
NOT_ASKED = "(not asked)"
ENDS_MOST = 20


class Missing(Exception):
    """A program isn't there. The text says why."""


class Program:
    def __init__(self, name, command):
        self.name = name
        self.command = command

    def ask(self, lines):
        """The answers, one for each line (bytes without a line end)."""
        answers = []
        for _ in range(ENDS_MOST):
            left = lines[len(answers):]
            got = self.answers(left)
            if len(got) == len(left):
                return answers + got
            good = self.before_the_end(left)
            answers += self.answers(left[:good]) + [NO_ANSWER]
        return answers + [NOT_ASKED] * (len(lines) - len(answers))

    def before_the_end(self, lines):
        """How many lines it answers before the one that it ends at. What it
        wrote doesn't tell: it may have kept answers back."""
        answered, not_answered = 0, len(lines)
        while not_answered - answered > 1:
            middle = (answered + not_answered) // 2
            if len(self.answers(lines[:middle])) == middle:
                answered = middle
            else:
                not_answered = middle
        return answered

    def answers(self, lines):
        """As many answers as it gives."""
        text = b"".join([line + b"\n" for line in lines])
        answers = self.said(text).decode("latin-1").split("\n")
        # Behind the last line end there is nothing, or a line cut short.
        answers.pop()
        if len(answers) > len(lines):
            raise SystemExit(f"{self.name} answers more lines than it is asked")
        return answers

    def said(self, text):
        """All that the program writes when it reads this text."""
        # Files, not pipes: no program waits for another, whatever it buffers.
        with tempfile.TemporaryFile() as asked, \
                tempfile.TemporaryFile() as wrote:
            asked.write(text)
            asked.seek(0)
            subprocess.run(self.command, stdin=asked, stdout=wrote,
                           env=environment(), check=False)
            wrote.seek(0)
            return wrote.read()


def environment():
    cache = os.path.join(ROOT, "target", "pycache")
    return {**os.environ, "PYTHONPYCACHEPREFIX": cache}


def found(names):
    """The programs that are there, and a sentence for each that isn't."""
    programs, missing = [], []
    for name in names:
        try:
            programs.append(Program(name, COMMANDS[name]()))
        except Missing as why:
            missing.append(f"{name} is not asked: {why}")
    return programs, missing


# --- Where each is ---


def _independent():
    return [sys.executable, os.path.join(HERE, "independent")]


def before(names):
    """The independent program, with these requests' amendments switched off."""
    words = [word for name in names for word in ("--before", name)]
    return Program("independent", _independent() + words)


def _oracle():
    if not shutil.which("cargo"):
        raise Missing("there is no cargo to build it with")
    built = subprocess.run([os.path.join(HERE, "oracle", "build")],
                           stdout=subprocess.PIPE, stderr=subprocess.PIPE,
                           text=True, check=False)
    if built.returncode == 3:
        raise Missing("there are no sources of ethercrab 0.7.1; "
                      "ETHERCRAB_SRC can name their src/")
    if built.returncode != 0:
        # Changed originals or a failed build are no reason to go on.
        raise SystemExit("compare/oracle/build failed:\n" + built.stderr)
    return [built.stdout.strip()]


@functools.lru_cache(maxsize=None)
def built(name):
    """Where a program of ours is, as `rt` proved and built it."""
    found = subprocess.run([os.path.join(HERE, "program"), name],
                           stdout=subprocess.PIPE, stderr=subprocess.PIPE,
                           text=True, check=False)
    if found.returncode != 0:
        raise Missing(found.stderr.strip())
    return startable(found.stdout.strip())


def desk_at(path):
    """A desk that was built before, and kept there."""
    if not os.path.exists(path):
        raise Missing(f"there is no {path}")
    return Program("desk", [startable(os.path.abspath(path))])


def startable(path):
    """`rt` builds for this processor alone."""
    if platform.machine() not in ("x86_64", "AMD64"):
        raise Missing(f"{path} is a program for x86-64")
    return path


def _desk():
    return [built("desk")]


COMMANDS = {"desk": _desk, "oracle": _oracle, "independent": _independent}
