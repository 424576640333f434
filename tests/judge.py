"""Asks the judge, a plain checker in Rust that was written from document 01 (compare/judge.rs says what it answers).

A table is a list of words, and a cursor (revision, leg, place). An answer is a tuple; a refusal is ("refused", number, at).
"""

import atexit
import re
import subprocess
import threading
from pathlib import Path

HOME = Path(__file__).resolve().parent.parent
JUDGE = str(HOME / "compare" / "judge")
WORD_MAX = 2**32 - 1

lock, process = threading.Lock(), None


def ask(*question):
    """Gives the lines of the judge's answer. One judge answers all questions of a test."""
    global process
    with lock:
        if process is None:
            process = subprocess.Popen([JUDGE, "serve"], stdin=subprocess.PIPE, stdout=subprocess.PIPE, text=True, bufsize=1)
            atexit.register(process.communicate)
        process.stdin.write(" ".join(map(str, question)) + "\n")
        process.stdin.flush()
        lines = [process.stdout.readline()]
        while lines[-1] not in ("", "\n"):
            lines.append(process.stdout.readline())
    if lines[-1] == "" or len(lines) == 1 or lines[0].startswith("bad question"):
        raise AssertionError(f"the judge has no answer to {' '.join(map(str, question))[:200]}: {lines}")
    return [line.rstrip("\n") for line in lines[:-1]]


# ---- How questions and answers are told


def told(given):
    """Gives the word that stands for bytes, or for a table or a cursor."""
    return f"x{given.hex()}" if isinstance(given, bytes) else "w" + ",".join(map(str, given))


def data_of(line):
    return bytes.fromhex(line[1:])


def words_of(line):
    return [int(word) for word in line[1:].split(",")]


def refused(line):
    """Gives a refusal, or None where the line is none."""
    words = line.split()
    return ("refused", int(words[1]), int(words[2])) if words[0] == "refused" else None


ANSWER = re.compile(r"(granted|nothing violated|paused|violated) (\d+) (\d+) (\d+)(?: steps (\d+))?(?: (\w+))?")


def answered(line):
    """Gives (kind, cursor), (kind, cursor, steps) or (kind, cursor, steps, rule), or a refusal."""
    if refused(line):
        return refused(line)
    kind, revision, leg, place, steps, rule = ANSWER.fullmatch(line).groups()
    given = [kind, (int(revision), int(leg), int(place)), steps and int(steps), rule]
    return tuple(part for part in given if part is not None)


# ---- Files


def encoded(numbers):
    """Gives the bytes of these numbers, each in its shortest form."""
    return data_of(ask("encode", told(numbers))[0])


def read_plan(data):
    """Gives ("words", list) or a refusal."""
    lines = ask("words", told(data))
    return refused(lines[0]) or ("words", [int(word) for line in lines for word in line.split()])


def read_cursor(data):
    """Gives ("cursor", cursor) or a refusal."""
    line = ask("cursor", told(data))[0]
    return refused(line) or ("cursor", tuple(int(word) for word in line.split()[1:]))


def convert(data, room):
    """Gives ("bytes", data) with the file of today that a file of the first layout becomes, or a refusal. room is the length of the lent buffer."""
    line = ask("convert", told(data), room)[0]
    return refused(line) or ("bytes", data_of(line))


def write_plan(words, room):
    """Gives ("bytes", data) or a refusal. room is the length of the lent buffer."""
    line = ask("write", told(words), room)[0]
    return refused(line) or ("bytes", data_of(line))


def write_cursor(cursor, room):
    line = ask("save", told(cursor), room)[0]
    return refused(line) or ("bytes", data_of(line))


def printed(verb, data):
    """Gives what the program of this verb prints: words, shape or check."""
    return "".join(line + "\n" for line in ask(verb, told(data)))


# ---- Tables


def parts(words):
    """Gives the records of a table: the links, the streams and the legs."""
    records = [tuple(map(int, line.split())) for line in ask("words", told(words))[1:]]
    streams, legs = words[1], words[1] + words[2]
    return records[:streams], records[streams:legs], records[legs:]


def index(words, name):
    """Gives the index of a word by its name, for instance "revision" or "stream 0 octets"."""
    return int(ask("word", told(words), name)[0])


def changed(words, changes):
    """Gives the table with other words, by their names."""
    new = list(words)
    for name, word in changes.items():
        new[index(words, name)] = word
    return new


def offset_at(words, leg):
    return index(words, f"leg {leg} offset")


def offsets_at(words):
    """Gives the index of the offset of each leg."""
    first = offset_at(words, 0)
    step = offset_at(words, 1) - first if words[3] > 1 else 1
    return [first + step * leg for leg in range(words[3])]


def with_offset(words, leg, offset):
    """Gives the table with this leg's offset, at the same revision."""
    return changed(words, {f"leg {leg} offset": offset})


def periods_at(words, leg):
    return index(words, f"leg {leg} periods")


def times_at(words):
    """Gives the indexes of what a move sets, the offset and the period word, of each leg."""
    step = periods_at(words, 0) - offset_at(words, 0)
    return [(at, at + step) for at in offsets_at(words)]


def shape(words):
    """Gives ("well-formed",) or a refusal."""
    line = ask("shape", told(words))[0]
    return refused(line) or (line,)


def places(legs):
    return int(ask("places", legs)[0])


def accepted_plan(seed, streams):
    """Gives a table in which nothing is violated, of so many streams or fewer."""
    return words_of(ask("plan", seed, streams)[0])


PLAN_A = read_plan((HOME / "plans" / "plan-a.plan").read_bytes())[1]


# ---- Start, slice and move


def start(words):
    """Gives ("granted", cursor), or a refusal with the cursor (0, 0, 0)."""
    answer = answered(ask("start", told(words))[0])
    return answer if answer[0] == "granted" else (*answer, (0, 0, 0))


def slice(words, cursor, budget):
    """Gives ("violated", cursor, steps, rule), ("nothing violated", cursor, steps), ("paused", cursor, steps), or a
    refusal with the given cursor."""
    answer = answered(ask("slice", told(words), told(cursor), budget)[0])
    return answer if answer[0] != "refused" else (*answer, cursor)


def cursor_fault(words, cursor):
    """Gives the refusal of a table and a cursor, or None."""
    answer = slice(words, cursor, 0)
    return answer[:3] if answer[0] == "refused" else None


def move(words, cursor, leg, offset, periods=0):
    """Gives ("granted", cursor, new words), or a refusal with the given cursor."""
    lines = ask("move", told(words), told(cursor), leg, offset, periods)
    answer = answered(lines[0])
    return (*answer, words_of(lines[1])) if answer[0] == "granted" else (*answer, cursor)


def check(words):
    """Gives the answer of a whole check: a start, and a slice with enough budget."""
    begun = start(words)
    return slice(words, begun[1], WORD_MAX) if begun[0] == "granted" else begun


# ---- What is said of a refusal


def why(call, *given):
    """Gives the sentence that goes to standard error with a refusal, or None where nothing is refused.

    The call is words, shape or check, given a plan; convert, given a file of the first layout; slice, given a plan and a cursor; or move, given a leg, an
    offset and a period word too.
    """
    line = ask("why", call, *(part if isinstance(part, int) else told(part) for part in given))[0]
    return None if line == "none" else line


# ---- Files for the programs


def inputs(verb, seed, most):
    """Gives plan files for the program of a verb, so many of each family or fewer, and what the judge complains of."""
    done = subprocess.run([JUDGE, "inputs", verb, str(seed), str(most)], stdout=subprocess.PIPE, text=True)
    lines = done.stdout.splitlines()
    files = [data_of(line) for line in lines if line.startswith("x")]
    faults = [line for line in lines if not line.startswith("x")]
    return files, faults + [f"the judge ended with {done.returncode}"] * (done.returncode not in (0, 1) or not files)
