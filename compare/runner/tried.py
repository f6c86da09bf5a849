"""The desk before its proof: `rt try` builds it with checks, runs it, and what
it writes is held to what is expected. It proves nothing; `rt ci` does."""

import os
import shutil
import subprocess
import tempfile

from .programs import ROOT, environment

# It gives no answer where a program writes more than 1,048,576 bytes. Its
# interpreter, the other way in which it runs a program, has too few steps for
# as many lines as this.
MOST = 1_000_000


class Tried:
    def __init__(self):
        self.folder = tempfile.TemporaryDirectory()
        self.desk = os.path.join(self.folder.name, "crates", "desk")
        self.runs = 0
        self.asked = 0
        shutil.copy(os.path.join(ROOT, "crates.txt"), self.folder.name)
        for name in os.listdir(os.path.join(ROOT, "crates")):
            there = os.path.join("crates", name, "src")
            shutil.copytree(os.path.join(ROOT, there),
                            os.path.join(self.folder.name, there))

    def faults(self, lines, answers):
        """The first request of each run that is not answered so, by a run's
        report; nothing where all are."""
        for first, last in stretches(answers):
            fault = self.fault(lines[first:last], answers[first:last])
            if fault:
                yield fault

    def fault(self, lines, answers):
        done = subprocess.run(["rt", "try"], cwd=self.desk,
                              input=b"".join(line + b"\n" for line in lines),
                              stdout=subprocess.PIPE, stderr=subprocess.PIPE,
                              env=environment(), check=False)
        self.runs += 1
        self.asked += len(lines)
        told = done.stderr.decode("utf-8", "replace")
        if done.returncode != 0:
            return None, told
        said = done.stdout.split(b"\n")
        expected = [answer.encode("latin-1") for answer in answers] + [b""]
        for request, a, b in zip(lines, said, expected):
            if a != b:
                return request, f"it answers {a.decode('latin-1')}\n{told}"
        return None if said == expected else (None, told)


def stretches(answers):
    """Places from and to, so that no stretch is more than a run may write."""
    first, size = 0, 0
    for place, answer in enumerate(answers):
        if size + len(answer) + 1 > MOST and first < place:
            yield first, place
            first, size = place, 0
        size += len(answer) + 1
    if first < len(answers):
        yield first, len(answers)
