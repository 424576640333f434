"""What the tests of the operator's commands share: a folder with a plan and a cursor, calls on it, and how answers are read.

The expected tables and verdicts come from the judge, which owes nothing to the verified code.
"""

import functools
import os
import platform
import re
import shutil
import subprocess
import tempfile
from collections import namedtuple
from pathlib import Path

import judge
from judge import HOME

COMMAND = str(HOME / "conepalhui")
STATUS = {"granted": 0, "nothing violated": 0, "violated": 1, "refused": 2, "paused": 3}

# What a recheck says of the whole plan, and its exit status.
CLAIMS = {"accepted,": 0, "first violated here,": 1, "violated,": 1, "not known,": 3}

# An answer's kind, the words of its first line, its revision or None, its third line or nothing, and of a recheck what it says of the whole plan and its place, or None.
Answer = namedtuple("Answer", "kind words revision last claim")


def streams(count, hops=2):
    """Gives a table of so many streams of so many legs each, in which nothing is violated."""
    links = [(node, node + 1, 8, 500) for node in range(hops)]
    known = [(1_000_000, 1_176 * hops, 64, hops * number, hops) for number in range(count)]
    legs = [(number, hop, 700 * number + 1_176 * hop, 0) for number in range(count) for hop in range(hops)]
    words = [0, len(links), len(known), len(legs), 100]
    for record in (*links, *known, *legs):
        words += record
    return words


def verdict(words):
    """Gives the verdict of a whole check: ("nothing violated",) or ("violated", leg, place, rule)."""
    told = judge.check(words)
    return told[:1] if told[0] == "nothing violated" else ("violated", *told[1][1:], told[3])


def read(out):
    """Gives the answer in what was printed. Without two or three whole lines there is none, and the kind is nothing. A recheck has two lines, or five with a
    move. The program itself prints one more, its status."""
    lines = re.sub(r"(?m)^status .*\n\Z", "", out).split("\n")
    rechecked = len(lines) in (3, 6) and lines[-2].startswith("whole plan: ")
    whole = (len(lines) in (3, 4) or rechecked) and lines[-1] == ""
    line = lines[0] if whole else ""
    kind = next((kind for kind in STATUS if line.startswith(kind + " ")), "nothing")
    revision = re.search(r" revision (\d+)$", line)
    claim = None
    if whole and rechecked:
        kind = kind if len(lines) == 6 else "rechecked"
        claim = next(claim for claim in CLAIMS if lines[-2].removeprefix("whole plan: ").startswith(claim)), lines[-3].partition(" looked at ")[0]
    return Answer(kind, line.split(), int(revision.group(1)) if revision else None, lines[2] if whole else "", claim)


def told(answer):
    """Gives the verdict in an answer, in the form that verdict has, or None."""
    if answer.kind == "nothing violated":
        return ("nothing violated",)
    if answer.kind == "violated":
        return ("violated", int(answer.words[1]), int(answer.words[2]), answer.words[3])
    return None


def is_true(claim, words):
    """Whether what a recheck says of the whole plan is so."""
    due = verdict(words)
    return {
        "accepted,": due == ("nothing violated",),
        "first violated here,": " ".join(map(str, due)) == claim[1],
        "violated,": due[0] == "violated",
        "not known,": claim[1] == "nothing violated",
    }[claim[0]]


class Desk:
    """A folder with a plan and a cursor, each in a folder of its own below it."""

    def __init__(self, words):
        self.folder = Path(tempfile.mkdtemp())
        (self.folder / "plans").mkdir()
        (self.folder / "cursors").mkdir()
        self.plan, self.cursor = self.folder / "plans" / "a", self.folder / "cursors" / "c"
        self.seen = self.folder / "cursors" / "c.seen"
        self.accepted = self.folder / "cursors" / "c.accepted"
        self.put(words)

    def __enter__(self):
        return self

    def __exit__(self, *_):
        shutil.rmtree(self.folder)

    def put(self, words):
        self.plan.write_bytes(judge.encoded(words))

    def words(self):
        """Gives the table as it stands in the plan file."""
        found = judge.read_plan(self.plan.read_bytes())
        if found[0] != "words":
            raise AssertionError(f"the plan file is damaged: {found}")
        return list(found[1])

    def line(self, verb, *numbers):
        return [COMMAND, verb, str(self.plan), str(self.cursor), *map(str, numbers)]

    def call(self, verb, *numbers, wait=30):
        done = subprocess.run(
            self.line(verb, *numbers),
            stdout=subprocess.PIPE,
            stderr=subprocess.PIPE,
            text=True,
            timeout=600,
            env={**os.environ, "CONEPALHUI_WAIT": str(wait)},
        )
        answer = read(done.stdout)
        if done.returncode != (CLAIMS[answer.claim[0]] if answer.claim else STATUS.get(answer.kind, 4)):
            raise AssertionError(f"exit status {done.returncode} after {done.stdout!r} {done.stderr!r}")
        return answer

    def check(self):
        """Gives the verdict of './conepalhui check', in the form that verdict has."""
        out = subprocess.run([COMMAND, "check", str(self.plan)], stdout=subprocess.PIPE, text=True, timeout=600).stdout.split()
        return ("nothing violated",) if out[4:] == ["accepted"] else (out[4], int(out[5]), int(out[6]), out[7])


def build():
    """Makes first calls, which prove and build the programs, however long that takes."""
    wanted = ["--route", "0", "--period", "1", "--deadline", "1", "--octets", "64"]
    for words in (["start", "missing", "missing"], ["check", "/dev/null"], ["admit", "missing", "missing", *wanted], ["gates", "/dev/null", "0"]):
        subprocess.run([COMMAND, *words], capture_output=True)


@functools.lru_cache
def program(name="operator", folder=".built"):
    """Gives the words that run a built program directly, as the command runs it on this processor."""
    built = str(HOME / folder / name)
    if platform.machine() == "x86_64":
        return [built]
    cross = Path("/usr/x86_64-linux-gnu")
    return ["qemu-x86_64", str(cross / "lib64" / "ld-linux-x86-64.so.2"), "--library-path", str(cross / "lib"), built]
