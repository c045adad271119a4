#!/usr/bin/env python3
"""Counts and lists the places in crates/*/src that docs/DESIGN-PASS.md speaks of, by point.

    tools/places.py [POINT..]

Each place is a line FILE:LINE TEXT; behind each point stands how many there are. What a pattern cannot see, which functions are twins, is
listed by the page itself.
"""
import collections
import pathlib
import re
import sys

TOP = pathlib.Path(__file__).resolve().parent.parent
SOURCES = sorted(TOP.glob("crates/*/src/**/*.rt"))


def lines():
    """Each line of code, comments left out: file, number, text."""
    for path in SOURCES:
        for number, text in enumerate(path.read_text().splitlines(), 1):
            if not text.lstrip().startswith("//"):
                yield path, number, text


def functions():
    """Each function's head, from `fn` to its body, as one line: file, number, text."""
    for path in SOURCES:
        head, began = None, 0
        for number, text in enumerate(path.read_text().splitlines(), 1):
            if head is None and re.match(r"\s*(pub(\(crate\))? )?(const )?(unsafe )?(extern \"C\" )?fn ", text):
                head, began = [], number
            if head is not None:
                head.append(text.strip())
                if text.strip() == "{" or re.search(r"\) (-> .* )?\{$", text) or text.rstrip().endswith(";"):
                    yield path, began, " ".join(head)
                    head = None


def where(pattern, among):
    return [(path, number, text) for path, number, text in among if re.search(pattern, text)]


def point1():
    """Flags as fields and parameters; numbers for a refusal, a kind, or for none; a case that stands for none."""
    flags = where(r"^\s*(pub )?[a-z_]+: bool,", lines())
    params = where(r"[(,] ?(ok|serves|can|up|goes|next|zero|balanced): bool", functions())
    numbers = where(r"\b(refusal|tables|kind|found|answer|number): (u64|isize)\b(?!.*\bensures \{ result ≡ (kept|numbered))", functions())
    results = where(r"fn (\w*refusal|verdict|overfull_\w+|first_overfull)\(.*-> u64", functions())
    cases = where(r"^\s*(Bad|Refuse)\b.*,$", lines())
    fields = where(r"^\s*(kind: u64|answer: isize|at: u16),", lines())
    return flags + params + numbers + results + cases + fields


def point3():
    """Loops without `for`."""
    return where(r"^\s*(while|loop)\b", lines())


def point4():
    """Conversions by `as`; a struct's fields copied one by one; zero values and the library's arithmetic written out."""
    casts = where(r" as (u|i)(8|16|32|64|size)\b", lines())
    copied = where(r"^\s*(\w+): \w+(\.\w+)*\.\1,$", lines())
    zeros = where(r"^\s*(deadline|submitted|clients|clock): 0,$", lines())
    byhand = where(r"fn (saturating_next|one_less|smaller|earlier|zero|shift_at|is_zero|are_zero_four|is_refused|turns_left|up_to|wide)\(", functions())
    return casts + copied + zeros + byhand


def point5():
    """Facts in the `requires` of three or more functions."""
    found = collections.defaultdict(list)
    for path, number, text in functions():
        for clause in re.findall(r"requires(?: \w+)? \{(.*?)\}(?= ensures| requires| \{|$)", text):
            for fact in clause.split("×"):
                fact = fact.strip()
                while fact.startswith("(") and fact.endswith(")") and fact.count("(") == fact.count(")"):
                    fact = fact[1:-1].strip()
                found[re.sub(r"\.(now|old)\b", "", fact)].append((path, number))
    return [(*places[0], f"{fact}: {len(places)} functions") for fact, places in sorted(found.items()) if len(places) > 2]


def point6():
    """A lent slice with places or lengths beside it."""
    return where(r"&(mut )?\[[\w; ]+\](, \w+: [^,)]*)*, (n|from|to|at|end|count|have|more): usize", functions())


def point7():
    """Parameters that say which step to run."""
    return where(r"\b(up: bool|which: Count)", functions())


def point8():
    """Files of answers, with their lines."""
    answers = sorted(TOP.glob("crates/*/proofs/**/Answers.antt"))
    return [(path, len(path.read_text().splitlines()), "lines") for path in answers]


POINTS = {1: point1, 3: point3, 4: point4, 5: point5, 6: point6, 7: point7, 8: point8}


def main():
    for point in map(int, sys.argv[1:] or POINTS):
        places = POINTS[point]()
        for path, number, text in places:
            print(f"{path.relative_to(TOP)}:{number} {text.strip()[:150]}")
        print(f"point {point}: {len(places)}, {POINTS[point].__doc__}")


main()
