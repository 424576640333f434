#!/usr/bin/env python3
"""Counts the places of each point of docs/DESIGN-PASS.md in crates/*/src, and the answers in crates/*/proofs.

usage: python3 -B tests/figures.py [ROOT]     prints a line for each count: its name, all places, and how many each crate has
       python3 -B tests/figures.py --open [ROOT] [CRATE..]     lists the places that have no reason beside them

A reason is a line `// Kept: ..`: above the place, in the comments above the function or type that it lies in, or in those above the block of functions.
"""
import re
import sys
from collections import Counter
from pathlib import Path

WORDS = [word for word in sys.argv[1:] if word != "--open"]
ROOT = Path(WORDS[0] if WORDS else ".") / "crates"
TEXT = {p: p.read_text() for p in sorted(ROOT.glob("*/src/**/*.rt"))}
REASON = "// Kept: "
ITEM = re.compile(r"^ *(?:pub(?:\([a-z]+\))? )?(?:const |unsafe |extern \"C\" )*(?:fn|struct|enum|impl|trait|mod)\b")


def crate(path):
    return path.relative_to(ROOT).parts[0]


def lines(pattern, unless="(?!)"):
    """Lines that match, and do not match the second pattern: path and number."""
    for path, text in TEXT.items():
        for i, line in enumerate(text.split("\n")):
            if re.search(pattern, line) and not re.search(unless, line):
                yield path, i


def items(kind):
    """Each enum, or struct and enum, with the derive line above it: path, number of its head's line, derives, body."""
    for path, text in TEXT.items():
        for m in re.finditer(r"^((?:#\[derive\((.*?)\)\]\n)?)(?:pub(?:\(crate\))? )?(%s) (\w+)[^{;]*\{\n(.*?)^\}" % kind, text, re.M | re.S):
            yield path, text[:m.start(3)].count("\n"), m.group(2) or "", m.group(5)


def own_answers():
    """Enums that are a bool, an Option or a Result: two cases of which at most one has values, or a case Refused or Stop."""
    for path, i, _, body in items("enum"):
        cases = re.findall(r"^    ([A-Z]\w*)([({]?)", body, re.M)
        values = sum(1 for _, opened in cases if opened)
        if (len(cases) == 2 and values < 2) or any(case in ("Refused", "Stop") and opened for case, opened in cases):
            yield path, i


def bare_types():
    """Plain types (Clone and Copy) that have no derived equality or Debug."""
    for path, i, derives, _ in items("struct|enum"):
        if "Copy" in derives and ("PartialEq" not in derives or "Debug" not in derives):
            yield path, i


def heads(pattern):
    """Functions whose parameters match."""
    for path, text in TEXT.items():
        for m in re.finditer(r"\bfn \w+[^(]*\(([^)]*)\)", text):
            if re.search(pattern, re.sub(r"\s+", " ", m.group(1))):
                yield path, text[:m.start()].count("\n")


def has_reason(path, i):
    """Whether a reason stands above line i, or in the comments above an item around it."""
    text = TEXT[path].split("\n")
    here = i
    while here >= 0:
        above = here - 1
        while above >= 0 and re.match(r" *(//|#\[)", text[above]):
            if REASON in text[above]:
                return True
            above -= 1
        # The next head of an item above that is set less deep, or that line i itself is part of.
        deep = len(text[here]) - len(text[here].lstrip())
        here = next((n for n in range(here - 1, -1, -1) if ITEM.match(text[n]) and len(text[n]) - len(text[n].lstrip()) < max(deep, 1)), -1) if deep or not ITEM.match(text[here]) else -1
    return False


NOT_KINDS = "MARK|MASK|MAX|MIN|EDITION|ANY|NEW_WORD|FIRST|BY_|SHORTEST|PERIOD"
SHAPES = "Sized|Guarantees|WellFormedTable|BeforeLegs|LinksPassed|LegIn|FrameOf|CursorRight|MayList|CanAsk|Moving|CanMeet|CanRecheck|NetworkInRange|Slots|AllSound|Sound|Brief|Repeats"
COUNTS = [
    ("1a own enums that are a bool, an Option or a Result", own_answers),
    ("1b refusals as numbers", lambda: lines(r"(Refused|Stop)\(u32|^pub (const|\(crate\) const) [A-Z_]+: u32 = (1?[0-9]|2[0-7]);", NOT_KINDS)),
    ("1c kinds as numbers", lambda: lines(r"^(pub(\(crate\))? )?const [A-Z_]+: u32 = [0-9];", NOT_KINDS + "|pub const")),
    ("2 twins, by the names of what std or one generic function has", lambda: lines(r"fn (wide|long|lesser|least|greater|over|same|are_same|copy|copied|put_same|plus_one|is_between|word_at|set_word|small|short|labelled|reduced|place_of|is_end)\b")),
    ("3 loops with while", lambda: lines(r"^ *while ")),
    ("4a equality and printing by hand", lambda: lines(r"fn [a-z_]*(same|equal|is_like)[a-z_]*\(|fn (rule|rule_word|part_word|text|number|word|say|line|labelled|octet)\(")),
    ("4b plain types without derived equality or Debug", bare_types),
    ("5a a shape said again in a clause", lambda: lines(r"(requires|ensures).*\b(" + SHAPES + r")\b")),
    ("5b parameters that travel together", lambda: heads(r"t: &\[u32\].*f: Frame|(words|slots): &(mut )?\[u32\].*(count|n): usize|events: usize.*constraints: &\[i64\]|t: &\[u32\].*w: Wanted.*route")),
    ("6 buffers with a length beside", lambda: lines(r"let mut [a-z_]+ = \[[^]]*;|: &mut \[u(8|32)\], *(n|count|at): usize|\b(n|count): usize, [a-z_]+: &mut \[")),
    ("7 switches by words compared, by orders", lambda: lines(r'are_same\([a-z_]+, b"|enum (Order|After|Keep|Part)\b|== b"')),
]


def counted(name, found):
    print(f"{name}\n  {sum(found.values())}: {', '.join(f'{c} {n}' for c, n in sorted(found.items()))}")


def main():
    if "--open" in sys.argv:
        crates = WORDS[1:]
        left = [(path, i, name.split(" ")[0]) for name, places in COUNTS for path, i in places() if not has_reason(path, i)]
        left = [place for place in left if not crates or crate(place[0]) in crates]
        for path, i, point in sorted(left, key=lambda place: (place[2], place[0], place[1])):
            print(f"{point} {path.relative_to(ROOT.parent)}:{i + 1}: {TEXT[path].split(chr(10))[i].strip()[:120]}")
        print(f"{len(left)} places have no reason beside them")
        return
    for name, places in COUNTS:
        counted(name, Counter(crate(path) for path, _ in places()))
    answers = {path: path.read_text().count("\n") for path in ROOT.glob("*/proofs/**/Answers.antt")}
    counted("8a functions with answers by hand (Answers.antt)", Counter(map(crate, answers)))
    counted("8b lines of these", sum((Counter({crate(path): n}) for path, n in answers.items()), Counter()))
    text = "".join(TEXT.values())
    print("functions", len(re.findall(r"^ *(pub(?:\([a-z]+\))? )?(?:extern \"C\" )?(?:const )?fn ", text, re.M)), "lines of src", text.count("\n"), "of specs", sum(p.read_text().count("\n") for p in ROOT.glob("*/specs/*.antt")), "of proofs", sum(p.read_text().count("\n") for p in ROOT.glob("*/proofs/**/*.antt")))


main()
