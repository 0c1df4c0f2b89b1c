#!/usr/bin/env python3
"""Lists, for each of the points of docs/DESIGN-PASS.md, the places in src/ that a reader should look at.

    python3 tools/forms.py [POINT ..]      POINT: 1 to 7; none: all. Run at the top of the repository.
    python3 tools/forms.py --counts        only how many places each list has

It reads text, not programs: a list may hold a place that is right as it is, and a reader may know of one that is not in it.
Crates of tests are left out but for point 3.
"""
import collections
import pathlib
import re
import sys

ROOT = pathlib.Path(__file__).resolve().parent.parent


def sources(tests):
    for path in sorted(ROOT.glob("crates/*/src/**/*.rt")):
        crate = path.relative_to(ROOT).parts[1]
        if tests or not crate.endswith("_tests"):
            yield path, path.read_text().split("\n")


def each_line(tests=False):
    """Each line of the sources, with its file, its number and the lines of that file."""
    for path, lines in sources(tests):
        for n, line in enumerate(lines):
            yield path, n, line, lines


def place(path, number, text):
    return f"{path.relative_to(ROOT)}:{number + 1}: {text.strip()}"


def arms(lines, start):
    """The patterns of the arms of the match that begins on a line, one level below it."""
    indent = len(lines[start]) - len(lines[start].lstrip())
    found = []
    for line in lines[start + 1:]:
        depth = len(line) - len(line.lstrip())
        if line.strip() and depth <= indent:
            break
        if depth == indent + 4 and "=>" in line:
            found.append(line.strip().split("=>")[0].strip())
    return found


def point1():
    """matches whose arms are all of an Option or a Result; let-else that hand on None or an Err; enums with a case Refused;
    answers that are a bool though memory is written; numbers with a value that means none"""
    handed = re.compile(r"^(Some|None|Ok|Err)\b")
    hands_on = ("return None", "return Err", "return false")
    for path, n, line, lines in each_line():
        if re.search(r"\bmatch\b.*\{$", line):
            patterns = arms(lines, n)
            if patterns and all(handed.match(p) for p in patterns):
                yield place(path, n, line)
        if re.search(r"let (Some|Ok)\(.*\} else \{$|let (Some|Ok)\(.*\) = .* else \{$", line):
            if lines[n + 1].strip().startswith(hands_on):
                yield place(path, n, line)
        if re.match(r"\s*Refused\(", line):
            yield place(path, n, line)
        if re.search(r"fn .*&mut .*-> bool$", line):
            yield place(path, n, line)
        if re.search(r"\b(found|number)\b (==|!=|>) 0\b|^\s*0 => None|=> 0,$", line):
            yield place(path, n, line)


def point3():
    """loops over a range, and while loops"""
    for path, n, line, _ in each_line(tests=True):
        if re.match(r"\s*('\w+: )?for .* in .*\.\.|\s*while ", line):
            yield place(path, n, line)


def point4():
    """casts by as; functions that compare two records field by field; a zero record by hand"""
    by_hand = r"fn (comes_before|closes|is_entry|zero)\(.*(self|closure|\)).*"
    for path, n, line, _ in each_line():
        for _ in re.findall(r" as (?:u8|u16|u32|u64|usize)\b", line):
            yield place(path, n, line)
        if re.search(by_hand, line) and "cells" not in line:
            yield place(path, n, line)


def functions(lines):
    """Each function's signature with its clauses, as one text a line."""
    n = 0
    while n < len(lines):
        if re.match(r"\s*(pub(\(\w+\))? )?fn ", lines[n]):
            start, text = n, []
            while n < len(lines) and lines[n].strip() not in ("{",) and not lines[n].rstrip().endswith(("{", ";")):
                text.append(lines[n])
                n += 1
            text.append(lines[n] if n < len(lines) else "")
            yield start, text
        n += 1


def point5():
    """clauses, but for the answer's own, that stand in three or more functions of a crate; pairs of parameters that go together in
    three or more of its functions"""
    clauses, pairs, where = collections.Counter(), collections.Counter(), {}
    for path, lines in sources(False):
        crate = path.relative_to(ROOT).parts[1]
        for start, text in functions(lines):
            whole = " ".join(t.strip() for t in text)
            for kind, fact in re.findall(r"(requires|ensures)(?: \w+)? \{ (.*?) \}(?= requires| ensures| \{|;|$)", whole):
                plain = re.sub(r"\.(old|new|now)\b", "", fact)
                if "result" not in plain:
                    clauses[crate, kind, plain] += 1
                    where.setdefault((crate, kind, plain), place(path, start, text[0]))
            names = re.findall(r"\b(\w+): (?!_)", re.split(r"\b(?:requires|ensures)\b", whole)[0])
            names = sorted(set(names) - {"heap", "rt"})
            for i, a in enumerate(names):
                for b in names[i + 1:]:
                    pairs[crate, a, b] += 1
    for (crate, kind, fact), count in sorted(clauses.items()):
        if count >= 3:
            yield f"{crate}: {kind} {{ {fact} }} in {count} functions"
    for (crate, a, b), count in sorted(pairs.items()):
        if count >= 3:
            yield f"{crate}: {a} and {b} in {count} functions"


def point6():
    """arrays and counts in structs; loops that search a list"""
    for path, n, line, lines in each_line():
        if re.match(r"\s*(pub )?\w+: (\[.*; \w+\]|usize),$", line):
            yield place(path, n, line)
        found = r"\s*(return (true|Some|i\b))"
        if re.match(r"\s*for ", line) and any(re.match(found, later) for later in lines[n + 1:n + 4]):
            yield place(path, n, line)


def point7():
    """matches on which call to make"""
    for path, n, line, _ in each_line():
        if re.search(r"\bmatch call\b|fn\(.*\) -> .*,$|dyn ", line):
            yield place(path, n, line)


POINTS = {"1": point1, "3": point3, "4": point4, "5": point5, "6": point6, "7": point7}


def main():
    chosen = [a for a in sys.argv[1:] if a in POINTS] or list(POINTS)
    for point in chosen:
        found = list(POINTS[point]())
        print(f"point {point}: {len(found)}")
        if "--counts" not in sys.argv:
            for line in found:
                print("   ", line)


main()
