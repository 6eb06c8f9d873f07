#!/usr/bin/env python3
"""Lists the places in src/ where code may have an older form, one list for each of seven questions.

places.py [FOLDER]   the repository's folder, by default this one
places.py FOLDER N   one question

A line that is listed is a place to look at, not yet a fault: docs/DESIGN-PASS.md tells what became of each.
"""
import difflib
import pathlib
import re
import sys
from collections import defaultdict

QUESTIONS = {
    1: "Option or Result by hand: enums of an empty variant and one with fields, flags in structs, pairs with "
    "an Option, numbers for kinds and refusals, places past the end that stand for none",
    2: "twins: functions with bodies that are alike, word for word, to four fifths",
    3: "loops: ranges that count, while, loop, and for loops that only look, count or add",
    4: "equality, order, conversion, defaults and printing by hand",
    5: "clauses that stand three times or more, and parameters that travel together through three functions",
    6: "arrays, lengths and positions beside buffers",
    7: "rules as types, flags that choose a step, function pointers, dyn",
}


def sources(top):
    for path in sorted(pathlib.Path(top).glob("crates/*/src/**/*.rt")):
        yield path.relative_to(top), path.read_text().split("\n")


def grep(top, pattern, skip=()):
    word = re.compile(pattern)
    for path, lines in sources(top):
        if path.parts[1] in skip:
            continue
        for number, line in enumerate(lines, 1):
            if not line.lstrip().startswith("//") and word.search(line):
                yield f"{path}:{number}: {line.strip()}"


def functions(top, skip=()):
    """Each function: path, line, name, parameters, body without clauses."""
    for path, lines in sources(top):
        if path.parts[1] in skip:
            continue
        i = 0
        while i < len(lines):
            head = re.match(r"\s*(pub(\(crate\))? )?(final )?fn (\w+)", lines[i])
            if not head:
                i += 1
                continue
            start, name = i, head.group(4)
            signature = lines[i]
            while ")" not in signature.split("->")[0] or signature.count("(") != signature.count(")"):
                i += 1
                signature += " " + lines[i].strip()
            indent = len(lines[start]) - len(lines[start].lstrip())
            one_line = signature.rstrip().endswith("{")
            i += 1
            body = []
            if not one_line:
                while i < len(lines) and not re.match(r"\s{%d}\{$" % indent, lines[i]) and lines[i].strip() != "":
                    i += 1
                i += 1
            while i < len(lines) and lines[i] != " " * indent + "}" and (one_line or lines[i - 1].strip() != ""):
                body.append(lines[i].strip())
                i += 1
            inside = re.search(r"\((.*)\)", signature.split("->")[0])
            parameters = [p.strip() for p in split(inside.group(1))] if inside else []
            yield path, start + 1, name, parameters, body
            i += 1


def split(text):
    """Parameters, parted at commas outside brackets."""
    parts, depth, last = [], 0, ""
    for c in text:
        depth += c in "<([" and 1 or c in ">)]" and -1 or 0
        if c == "," and depth == 0:
            parts.append(last)
            last = ""
        else:
            last += c
    return [p for p in parts + [last] if p.strip()]


def first(top):
    for path, lines in sources(top):
        text = "\n".join(lines)
        for found in re.finditer(r"enum (\w+)[^{]*\{(.*?)\n\}", text, re.S):
            body = re.sub(r"//.*", "", found.group(2))
            variants = re.findall(r"^    (\w+)( \{|\()?", body, re.M)
            if len(variants) == 2 and {bool(v[1]) for v in variants} == {False, True}:
                number = text[: found.start()].count("\n") + 1
                yield f"{path}:{number}: enum {found.group(1)} {[v[0] for v in variants]}"
    yield from grep(top, r"^\s+(pub(\(crate\))? )?\w+: bool,$")
    yield from grep(top, r"\(Decision, Option<u16>\)|Decided\(Decision, Option")
    yield from grep(top, r"\bkind: u8\b|fn number\(")
    yield from grep(top, r"return at;$|^\s+\w+\.len\(\)$")


def second(top):
    found = [f for f in functions(top) if len(f[4]) >= 2]
    for i, one in enumerate(found):
        for other in found[i + 1 :]:
            a = re.findall(r"\w+|\S", " ".join(one[4]))
            b = re.findall(r"\w+|\S", " ".join(other[4]))
            if difflib.SequenceMatcher(None, a, b, False).ratio() >= 0.8:
                yield f"{one[0]}:{one[1]}: {one[2]} ~ {other[0]}:{other[1]}: {other[2]}"


def third(top):
    yield from grep(top, r"^\s*(for|while|loop)\b")


def fourth(top):
    yield from grep(top, r"=> (true|false),$|fn (same|same_place|has_key|is_\w+|strictness|rank|digits|put_digits|kind_in_range)\b")
    yield from grep(top, r"const (BLANK|NONE)\b")
    yield from grep(top, r"^\s*impl.*\b(From|TryFrom|Display|PartialEq|Eq|Ord|Default|Clone|Copy|Debug)\b.* for\b")


def fifth(top):
    clauses = defaultdict(list)
    for path, lines in sources(top):
        for number, line in enumerate(lines, 1):
            clause = re.match(r"\s*(requires|ensures)[ \w]*\{ (.*) \}[;]?$", line)
            if clause:
                for part in clause.group(2).split(" × "):
                    clauses[clause.group(1) + " " + part.strip("() ")].append(f"{path}:{number}")
    for clause, places in sorted(clauses.items()):
        if len(places) >= 3:
            yield f"{len(places)} times: {clause}"
    together = defaultdict(list)
    for path, number, name, parameters, _ in functions(top):
        names = sorted(p for p in parameters if "self" not in p)
        for i, a in enumerate(names):
            for j in range(i + 1, len(names)):
                together[(a, names[j])].append(f"{path.parts[1]}:{name}")
    for pair, places in sorted(together.items()):
        if len(places) >= 3:
            yield f"{len(places)} functions: {pair[0]}, {pair[1]}: {' '.join(places)}"


def sixth(top):
    yield from grep(top, r"^\s+\w+: \[[^\[\]]+; \w+\],|^\s+len: usize|\[[^\[\]]+; [A-Z]+\] *\{?$|\[\w+; [A-Z]+\];", ("trials",))
    yield from grep(top, r"&mut \[u8\], at: usize|room: usize, at: usize|^\s+at: usize,|\[bool; CELLS\],")


def seventh(top):
    yield from grep(top, r"^\s*(pub )?trait |\bdyn\b|\bfn\(|Retain|plan\.(search|request|backward)")


LISTS = {1: first, 2: second, 3: third, 4: fourth, 5: fifth, 6: sixth, 7: seventh}


def main():
    top = sys.argv[1] if len(sys.argv) > 1 else "."
    wanted = [int(sys.argv[2])] if len(sys.argv) > 2 else list(LISTS)
    for number in wanted:
        places = list(LISTS[number](top))
        print(f"{number}. {QUESTIONS[number]}: {len(places)}")
        for place in places:
            print("   " + place)


main()
