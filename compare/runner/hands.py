"""`run` and `morel` in rough hands: eight shells at once, every cut of the
example, images of the most bytes, each status, an alias over a wrong checksum,
a folder that can't be written, links, no kit.

It takes `morel` as `rt` built it, and `.ci/run` calls it where it has passed,
so that `run` has nothing to prove. Where it is to prove, a stand-in for `rt`
does as if, and once `rt` itself proves a program that does nothing.
"""

import os
import pty
import shutil
import stat
import subprocess
import sys
import tempfile
import time
from concurrent.futures import ThreadPoolExecutor

from independent import morel

from .morel import EXAMPLES, ran as told_by, read
from .programs import ROOT, Missing, built, environment

RUN = os.path.join(ROOT, "run")
LOOM = os.path.join(EXAMPLES, "loom.sii")
FULL = os.path.join(EXAMPLES, "loom-full.sii")
SHELLS = 8
NOBODY = 65_534

# The milliseconds in which `run` has started the program.
START_MOST = 50

# A stand-in for `rt`: `rt run` in crates/morel says two crates, takes PACE
# seconds for each and leaves the program. Two at once, or a file `broken`, and
# it fails.
STAND_IN = """\
#!/bin/sh
[ "$*" = "run -- sii ../../examples/loom.sii" ] || exit 2
[ -e ../../broken ] && { echo "logic=not-proved"; exit 1; }
mkdir ../../target/proving || { echo "rt: two at once"; exit 1; }
echo "logic=proved functions=4"
sleep "$PACE"
echo "logic=proved functions=9"
sleep "$PACE"
mkdir -p out
cp ../../program out/morel
echo proved >>../../target/proofs
rmdir ../../target/proving
"""

KIT_ID = "rattle-kit-0 stand-in\n"

# A program that `rt` itself proves in little time.
LITTLE = """\
#![tactic(auto)]

fn main(_rt: HostRuntime) {}
"""


class Wrong(Exception):
    """A test that fails. The text says how."""


def expect(holds, text):
    if not holds:
        raise Wrong(text)


# --- Running ---


class Ran:
    def __init__(self, done):
        self.status = done.returncode
        self.said = done.stdout
        self.told = done.stderr.decode("utf-8", "replace")


def start(words, folder=ROOT, run=RUN, path=None, **more):
    """Starts `run`; `ended` waits for it."""
    env = environment()
    env.update(more.pop("env", {}))
    if path is not None:
        env["PATH"] = path
    return subprocess.Popen([run] + list(words), cwd=folder, env=env,
                            stdin=subprocess.DEVNULL, stdout=subprocess.PIPE,
                            stderr=subprocess.PIPE, **more)


def ended(process):
    said, told = process.communicate()
    return Ran(subprocess.CompletedProcess((), process.returncode, said, told))


def ran(words, folder=ROOT, **more):
    return ended(start(words, folder, **more))


def at_once(count, words, folder=ROOT, **more):
    return [ended(process) for process in
            [start(words, folder, **more) for _ in range(count)]]


def expected(words, folder=ROOT):
    """What the independent program says, on a copy of the folder's files."""
    with tempfile.TemporaryDirectory() as copy:
        for name in os.listdir(folder):
            if os.path.isfile(os.path.join(folder, name)):
                shutil.copy(os.path.join(folder, name), copy)
        return morel.run([word.encode() for word in words], copy)


def same(got, words, folder):
    said, status = expected(words, folder)
    expect(got.said == said, f"{words}: not what the independent one says")
    expect(got.status == status,
           f"{words}: status {got.status} instead of {status}: {got.told}")


# --- A copy of the repository, with a stand-in for `rt` ---


class Copy:
    """What `run` needs, in a folder of its own, which is its kit too: `rt`
    proves nothing."""

    def __init__(self, folder):
        self.folder = folder
        self.run = os.path.join(folder, "run")
        shutil.copy(RUN, folder)
        shutil.copy(os.path.join(ROOT, "crates.txt"), folder)
        shutil.copy(built("morel"), os.path.join(folder, "program"))
        shutil.copytree(EXAMPLES, os.path.join(folder, "examples"))
        self.crate = os.path.join(folder, "crates", "morel")
        os.makedirs(os.path.join(self.crate, "src"))
        self.source = os.path.join(self.crate, "src", "main.rt")
        self.touch(self.source)
        self.write(os.path.join(folder, "KIT-ID"), KIT_ID)
        self.tools = os.path.join(folder, "tools")
        os.mkdir(self.tools)
        rt = os.path.join(self.tools, "rt")
        self.write(rt, STAND_IN)
        os.chmod(rt, 0o755)
        self.path = self.tools + os.pathsep + os.environ["PATH"]
        self.env = {"PACE": "0.3"}

    def write(self, path, text):
        os.makedirs(os.path.dirname(path), exist_ok=True)
        with open(path, "w", encoding="ascii") as file:
            file.write(text)

    def touch(self, path):
        with open(path, "ab"):
            os.utime(path)

    def proofs(self):
        try:
            return len(read(os.path.join(self.folder, "target", "proofs"))
                       .splitlines())
        except OSError:
            return 0

    def start(self, words=(), **more):
        more.setdefault("path", self.path)
        return start(words, self.folder, run=self.run, env=self.env, **more)

    def ran(self, words=(), **more):
        return ended(self.start(words, **more))


def in_copy(test):
    def run():
        with tempfile.TemporaryDirectory() as folder:
            os.chmod(folder, 0o755)
            return test(Copy(folder))
    run.__name__ = test.__name__
    run.__doc__ = test.__doc__
    return run


def default_words(got):
    said, status = expected(["sii", "loom.sii"], EXAMPLES)
    said = said.replace(b"file                        loom.sii",
                        b"file                        examples/loom.sii")
    expect((got.said, got.status) == (said, status),
           f"not what the example holds: {got.status} {got.told}")


# --- The tests ---


def test_shells_at_once():
    """Eight at once prove once, or not at all what `.ci/run` has passed, and
    eight more nothing."""
    shutil.rmtree(os.path.join(ROOT, "target", "run"), ignore_errors=True)
    first = at_once(SHELLS, ())
    for got in first:
        default_words(got)
    proving = sum("run: proving and building" in got.told for got in first)
    expect(proving <= 1, f"{proving} of {SHELLS} shells proved")
    for got in at_once(SHELLS, ()):
        default_words(got)
        expect(got.told == "", f"a run that proves nothing said: {got.told}")


@in_copy
def test_shells_while_proving(copy):
    """Eight at once where the proof takes its time, and a changed source."""
    for proofs in (1, 2):
        for got in [ended(process) for process in
                    [copy.start() for _ in range(SHELLS)]]:
            default_words(got)
        expect(copy.proofs() == proofs, f"proved {copy.proofs()} times")
        copy.touch(copy.source)


@in_copy
def test_passed(copy):
    """What `.ci/run` has passed is not proved again, until a source changes."""
    copy.write(os.path.join(copy.folder, "target", "ci", "passed"), KIT_ID)
    os.mkdir(os.path.join(copy.crate, "out"))
    shutil.copy(built("morel"), os.path.join(copy.crate, "out", "morel"))
    for _ in range(2):
        got = copy.ran()
        default_words(got)
        expect(got.told == "" and copy.proofs() == 0, f"it said: {got.told}")
    # The clock that notes a change ticks every few milliseconds.
    time.sleep(0.1)
    copy.touch(copy.source)
    default_words(copy.ran())
    expect(copy.proofs() == 1, f"proved {copy.proofs()} times")


@in_copy
def test_proved(copy):
    """`rt` itself proves and builds what `run` then starts. The program tells
    no status."""
    copy.write(os.path.join(copy.folder, "crates.txt"), "morel:\n")
    copy.write(copy.source, LITTLE)
    for first in (True, False):
        got = copy.ran(path=os.environ["PATH"])
        expect(got.status == 1 and "run: morel ended early" in got.told
               and first == ("run: proving and building" in got.told),
               f"status {got.status}: {got.told}")


@in_copy
def test_without_flock(copy):
    """The same by a folder for a lock, one of them left by a shell that is
    gone."""
    names = ("awk cat cp date find grep mkdir mv readlink rm rmdir sh sleep "
             "tail touch").split()
    for name in names:
        os.symlink(shutil.which(name), os.path.join(copy.tools, name))
    held = os.path.join(copy.folder, "target", "run", "held")
    os.makedirs(held)
    gone = subprocess.Popen(["true"])
    gone.wait()
    with open(os.path.join(held, "pid"), "w", encoding="ascii") as file:
        file.write(f"{gone.pid}\n")
    for got in [ended(process) for process in
                [copy.start(path=copy.tools) for _ in range(SHELLS)]]:
        default_words(got)
    expect(copy.proofs() == 1, f"proved {copy.proofs()} times")
    expect(not os.path.exists(held), "the lock is left")


@in_copy
def test_progress(copy):
    """Crate k of n, a line for each; on a terminal one line that moves."""
    # It looks every second.
    copy.env["PACE"] = "1.5"
    told = copy.ran().told
    count = sum(1 for _ in crates())
    for crate in (2, 3):
        expect(f"run: crate {crate} of {count}, " in told,
               f"no crate {crate} of {count}: {told}")
    copy.touch(copy.source)
    ours, theirs = pty.openpty()
    process = subprocess.Popen(
        [copy.run], env={**environment(), **copy.env, "PATH": copy.path},
        stdin=subprocess.DEVNULL, stdout=subprocess.DEVNULL, stderr=theirs)
    os.close(theirs)
    shown = b""
    try:
        while part := os.read(ours, 1_000):
            shown += part
    except OSError:
        # so a terminal ends
        pass
    os.close(ours)
    expect(process.wait() == 0, "status on a terminal")
    moving = f"\rrun: crate 3 of {count}, ".encode()
    expect(moving in shown, f"no line that moves: {shown!r}")


def crates():
    """Those that morel rests on, and itself."""
    below, seen, left = {}, set(), ["morel"]
    with open(os.path.join(ROOT, "crates.txt"), encoding="utf-8") as file:
        for text in file:
            name, colon, those = text.split("#")[0].partition(":")
            if colon:
                below[name.split()[0]] = those.split()
    while left:
        name = left.pop()
        if name in below and name not in seen:
            seen.add(name)
            left += below[name]
            yield name


@in_copy
def test_failed_proof(copy):
    """A proof that fails is status 1, and is tried again."""
    broken = os.path.join(copy.folder, "broken")
    copy.touch(broken)
    got = copy.ran()
    expect(got.status == 1 and "not-proved" in got.told, f"it said {got.told}")
    os.remove(broken)
    default_words(copy.ran())


@in_copy
def test_folder_not_writable(copy):
    """Another user runs what is built, also where a source has changed; where
    nothing is built it is status 2."""
    got = as_other(copy)
    if got is None:
        return "skipped: a folder that cannot be written"
    expect(got.status == 2, f"not built: status {got.status}: {got.told}")
    default_words(copy.ran())
    got = as_other(copy)
    default_words(got)
    expect(got.told == "", f"it said: {got.told}")
    copy.touch(copy.source)
    got = as_other(copy)
    default_words(got)
    expect("cannot be written" in got.told, "a changed source is not told")
    return None


def as_other(copy):
    """Root writes where it likes: it runs as nobody, if that can reach all."""
    if os.geteuid() == 0:
        try:
            return copy.ran(user=NOBODY, group=NOBODY, extra_groups=[])
        except OSError:
            return None
    modes = {}
    for folder, _, _ in os.walk(copy.folder):
        modes[folder] = stat.S_IMODE(os.stat(folder).st_mode)
        os.chmod(folder, 0o555)
    try:
        return copy.ran()
    finally:
        for folder, mode in modes.items():
            os.chmod(folder, mode)


def test_links():
    """A link to `run`, a link to that, from elsewhere."""
    with tempfile.TemporaryDirectory() as folder:
        link = os.path.join(folder, "link")
        os.symlink(RUN, link)
        os.symlink("link", os.path.join(folder, "second"))
        shutil.copy(LOOM, folder)
        for name in ("link", "second"):
            path = os.path.join(folder, name)
            default_words(ran((), folder, run=path))
            words = ["sii", "loom.sii"]
            same(ran(words, folder, run=path), words, folder)


def test_no_kit():
    with tempfile.TemporaryDirectory() as folder:
        for name in ("sh", "readlink"):
            os.symlink(shutil.which(name), os.path.join(folder, name))
        got = ran((), path=folder)
    expect(got.status == 2 and "kit is missing" in got.told,
           f"status {got.status}: {got.told}")


def test_statuses():
    """Each status, by `run`; of several commands the worst."""
    cases = (
        ("sii loom.sii", 0), ("frame loom.frame", 0),
        ("spread 64 4 loom.image", 0), ("sii loom-tail.sii", 0),
        ("sii loom-checksum.sii", 1), ("sii loom-cut.sii", 1),
        ("sii loom-fmmu.sii", 1), ("frame loom-length.frame", 1),
        ("spread 12 1 loom.image", 1), ("alias loom-short.sii 1", 1),
        ("sii missing.sii", 2), ("sii loom-large.sii", 2),
        ("weave loom.sii", 2), ("sii", 2), ("alias loom.sii x", 2),
        ("alias loom.sii 1 farce", 2),
        ("spread x 1 loom.image", 2),
        ("sii loom.sii then sii loom-cut.sii then frame loom.frame", 1),
        ("sii missing.sii then sii loom-cut.sii then sii loom.sii", 2),
    )
    for text, status in cases:
        words = text.split()
        got = ran(words, EXAMPLES)
        same(got, words, EXAMPLES)
        expect(got.status == status, f"{text}: status {got.status}")


def test_alias():
    """Over a wrong checksum only by force; numbers in hex."""
    with tempfile.TemporaryDirectory() as folder:
        for name in ("loom.sii", "loom-checksum.sii", "loom.frame"):
            shutil.copy(os.path.join(EXAMPLES, name), folder)
        frame = os.path.join(folder, "sixteen.frame")
        with open(frame, "wb") as file:
            file.write(read(os.path.join(folder, "loom.frame"))[:16])
        for text, status, written in (
                ("alias sixteen.frame 1", 1, False),
                ("alias loom.frame 1", 1, False),
                ("alias loom-checksum.sii 0x1234", 1, False),
                ("alias loom-checksum.sii 0x1234 force", 0, True),
                ("alias loom-checksum.sii 0xABCD", 0, True),
                ("alias loom.sii 0xffff", 0, True),
                ("alias loom.sii 0x10000", 2, False),
                ("alias loom.sii 0x", 2, False)):
            words = text.split()
            path = os.path.join(folder, words[1])
            before = read(path)
            said = expected(words, folder)
            got = ran(words, folder)
            expect((got.said, got.status) == said and got.status == status,
                   f"{text}: status {got.status}: {got.said!r}")
            expect((read(path) != before) == written,
                   f"{text}: written or not")
            expect(written == (b"alias written" in got.said), text)


def test_program_alone():
    """Without the descriptor it writes the same, and ends."""
    words = ["--status", "sii", "missing.sii"]
    done = subprocess.run([built("morel")] + words, cwd=EXAMPLES,
                          env=environment(), stdout=subprocess.PIPE,
                          stderr=subprocess.PIPE, close_fds=True, check=False)
    said, _ = expected(words, EXAMPLES)
    expect((done.stdout, done.returncode) == (said, 0), "it does not")


def labelled(said):
    """The lines behind the first three, by their labels."""
    return {text[:morel.COLUMN]: text for text in said.split("\n")[3:]}


def test_cuts():
    """Every cut of the example: what differs from the whole is marked, and
    the status is 1 where anything is."""
    content = read(LOOM)
    with tempfile.TemporaryDirectory() as folder:
        for length in range(len(content) + 1):
            with open(os.path.join(folder, f"c{length}"), "wb") as file:
                file.write(content[:length])

        def one(length):
            words = ["sii", f"c{length}"]
            said, told = told_by(words, folder)
            by_other = morel.run([word.encode() for word in words], folder)
            expect((said, int(told)) == by_other,
                   f"cut at {length}: not what the independent one says")
            return said.decode("ascii"), int(told)

        with ThreadPoolExecutor(os.cpu_count() or 1) as pool:
            cuts = list(pool.map(one, range(len(content) + 1)))
    whole = labelled(cuts[-1][0])
    for length, (said, status) in enumerate(cuts[:-1]):
        marks_of_a_cut(length, len(content), said, status, whole)
    marked = sum(morel.CUT in said for said, _ in cuts)
    return f"{marked} of {len(cuts)} lengths have marks"


def marks_of_a_cut(length, most, said, status, whole):
    lines = said.split("\n")
    # By the size word, where it is there; else by the fixed area.
    size = most if length >= 126 else 128
    if length < size:
        expect(lines[3] == f"image cut: {size - length} of {size} bytes are "
               "missing and read as 0xff", f"cut at {length}: {lines[3]}")
    else:
        expect(not lines[3].startswith("image cut"), f"cut at {length}")
    changed = [text for label, text in labelled(said).items()
               if whole.get(label) != text
               and not label.startswith("image cut")]
    for text in changed:
        expect(text.endswith(morel.CUT), f"cut at {length}: {text}")
    expect(status == (1 if changed else 0), f"cut at {length}: {status}")


def categories(content):
    """Header and body of each category of an image that ends with the last."""
    at = 128
    while at < len(content):
        end = at + 4 + 2 * int.from_bytes(content[at + 2:at + 4], "little")
        yield content[at:end]
        at = end


def asked(words, folder):
    """What is printed, and the status, which the independent one has too."""
    other = expected(words, folder)
    said, told = told_by(words, folder)
    expect((said, int(told)) == other,
           f"{words}: not what the independent one says")
    return said.decode("ascii"), int(told)


def test_large():
    """Images of the most bytes, each category once at their end; one that
    would end a word later; an alias; one byte more."""
    content = read(FULL)
    most = len(content)
    *others, own, last = categories(content)
    others.append(last)
    with tempfile.TemporaryDirectory() as folder:
        path = os.path.join(folder, "large")

        def large(command, image):
            with open(path, "wb") as file:
                file.write(image)
            return asked(command.split(), folder)

        small = labelled(told_by(["sii", LOOM], folder)[0].decode("ascii"))
        for ending in others:
            image = content[:128] + b"".join(
                other for other in others if other is not ending)
            said, status = large("sii large", image + own + ending)
            lines = labelled(said)
            differ = [lines.get(label) for label in small | lines
                      if small.get(label) != lines.get(label)]
            expect(differ == [f"sii bytes                   {most}"]
                   and status == 0, f"category {ending[0]} ends it: {differ}")
        place = most - len(last)
        longer = bytearray(content)
        longer[place + 2] += 1
        said, status = large("sii large", longer)
        expect("clock modes                 refused 1 Address\n" in said
               and status == 1, f"one that would end past {most}")
        said, status = large("alias large 0x1234", content)
        after = read(path)
        expect(status == 0 and after[8:10] == b"\x34\x12"
               and after[:8] + after[10:14] + after[16:]
               == content[:8] + content[10:14] + content[16:],
               f"an alias in {most} bytes: {said}")
        for command in ("sii large", "alias large 1"):
            said, status = large(command, content + b"\xff")
            expect(said.endswith(f"bytes at most               {most}\n")
                   and status == 2 and read(path) == content + b"\xff",
                   f"{command}, of {most + 1} bytes: {said}")
    return f"{len(others)} categories end at byte {most}"


def test_start():
    """What `run` takes where nothing changed, less what the program takes, in
    time of the processor: other work on the machine doesn't count."""
    def taken(words, count=20):
        before = os.times()
        for _ in range(count):
            subprocess.run(words, cwd=EXAMPLES, env=environment(),
                           stdout=subprocess.DEVNULL, check=False)
        after = os.times()
        return 1000 / count * (
            after.children_user - before.children_user
            + after.children_system - before.children_system)

    alone = taken([built("morel"), "sii", "empty"])
    before = taken([RUN, "sii", "empty"]) - alone
    expect(before < START_MOST, f"run takes {before:.0f} ms")
    return (f"run takes {before:.0f} ms before the program, which takes "
            f"{alone:.0f} ms itself")


TESTS = (test_shells_at_once, test_shells_while_proving, test_passed,
         test_proved, test_without_flock, test_progress, test_failed_proof,
         test_folder_not_writable, test_links, test_no_kit, test_statuses,
         test_alias, test_program_alone, test_cuts, test_large, test_start)


def main():
    try:
        built("morel")
    except Missing as why:
        print(f"morel is not asked: {why}")
        return 2
    began, failed = time.monotonic(), 0
    for test in TESTS:
        try:
            note = test()
        except Wrong as wrong:
            failed += 1
            note = f"FAILED: {wrong}"
        if note:
            print(f"{test.__name__[5:].replace('_', ' ')}: {note}")
    print(f"morel in rough hands: {len(TESTS) - failed} of {len(TESTS)} tests "
          f"hold ({time.monotonic() - began:.0f} s)")
    sys.stdout.flush()
    return 1 if failed else 0
