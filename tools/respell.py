#!/usr/bin/env python3
"""Brings the repository's own definitions and lemmas to today's spelling: snake case, and camel case for types.

usage: python3 tools/respell.py        at the top of the repository, once, right after port.py, with all committed

    between-accounts, place-later, from-account  ->  between_accounts, place_later, from_account
    Found-draft, tells-draft (a fact)            ->  FoundDraft, TellsDraft

It turns what files of specs/ and proofs/ declare, wherever crates/*/src, specs and proofs name it. Names that Rattle
makes (goals, steps) and those of std keep their spelling. It prints names that would fall together, and then writes
nothing. It lays the files out at last.
"""

import os
import re
import subprocess
import sys

WORD = r"[^\s(){}\[\];,.:|\"]+"
DECLARED = re.compile(
    r"^[ ]*(?P<how>(?:abbrev|unfoldable|pub|record|data|module)(?: (?:abbrev|unfoldable|pub|record|data|module)(?![^ ]))*(?![^ ]))?[ ]*"
    r"(?P<names>" + WORD + r"(?: " + WORD + r")*?)[ ]*(?:[({][^\n]*?[)}][ ]*)*:[ ](?P<type>[^\n]*)$",
    re.M,
)
# What a file binds: parameters, and names of `let`, of a clause's pattern and of `λ`.
BOUND = re.compile(r"[({](" + WORD + r"(?: " + WORD + r")*) : |\blet (" + WORD + r") [:=]|λ ((?:" + WORD + r" ?)+)\.|^[ ]*" + WORD + r" ([^\n:]*?)=", re.M)
GOAL = re.compile(r"^goal\.")
STD = re.compile(r"^[ ]*(?:ghost )?use Rattle\.(?:std|core|std_alloc)\.[^\n]*$|^[ ]*(?:ghost )?use (?:borrow|denote|Prim)\.[^\n]*$", re.M)
COMMENT = re.compile(r"--[^\n]*")

# Those that would have the name of a function of std, or of a field of the code.
OTHERWISE = {"bit-or": "bit_or_lem", "on-draft": "is_on_draft"}
# Those that have the name of the function of the code that computes them.
SHARED = {"is-delegatable", "may-pass", "passes-to"}


def files(*kinds):
    for folder, dirs, names in os.walk("crates"):
        dirs[:] = sorted(d for d in dirs if d not in ("out", "must-fail", "data"))
        for name in sorted(names):
            if name.endswith(kinds):
                yield os.path.join(folder, name)


def read(path):
    with open(path, encoding="utf-8", newline="") as f:
        return f.read()


def camel(name):
    return "".join(part[:1].upper() + part[1:] for part in re.split("[-_]", name))


def snake(name):
    return name.replace("-", "_")


def declared(text):
    for m in DECLARED.finditer(text):
        if GOAL.match(m["type"]):
            continue
        how = (m["how"] or "").split()
        names = m["names"].split()
        if names[0] in ("use", "let", "in", "where", "|", "module", "--", "λ") or (how and how[-1] == "module"):
            continue
        fact = "record" in how or "data" in how or bool(re.search(r"(^|→ )Type 0( where)?$", m["type"].strip()))
        for name in names if not how or len(names) == 1 else names[:1]:
            yield name, fact


def bound(text, std):
    names = set()
    for groups in BOUND.findall(COMMENT.sub("", text)):
        for group in groups:
            names.update(n for n in re.findall(WORD, group) if re.fullmatch(r"[a-z][\w']*(-[\w']+)+", n) and n not in std)
    return {n: snake(n) for n in names}


def main():
    if not os.path.isfile("crates.txt"):
        sys.exit("run it at the top of the repository")
    turned, all_names, std = {}, set(), set()
    for path in files(".antt", ".rt"):
        text = read(path)
        for line in STD.findall(text):
            std.update(re.findall(WORD, line))
        all_names.update(re.findall(WORD, COMMENT.sub("", STD.sub("", text))))
    for path in files(".antt"):
        for name, fact in declared(COMMENT.sub("", read(path))):
            if not re.fullmatch(r"[A-Za-z][\w'-]*", name) or name in std:
                continue
            new = OTHERWISE.get(name) or (camel(name) if fact else snake(name))
            if new != name:
                if turned.get(name, new) != new:
                    sys.exit(f"{name} is a fact in one place and none in another")
                turned[name] = new
    clash = sorted((old, new) for old, new in turned.items() if (new in all_names or new in std) and old not in SHARED)
    doubles = sorted(new for new in set(turned.values()) if list(turned.values()).count(new) > 1)
    if "--list" in sys.argv:
        for old in sorted(turned):
            print(old, "->", turned[old])
        for old, new in clash:
            print("stands already:", old, "->", new)
        print("twice:", doubles)
        return
    if doubles or clash:
        sys.exit("these would fall together: " + ", ".join(doubles + [f"{old} and {new}" for old, new in clash]))
    for path in files(".antt", ".rt"):
        text = read(path)
        kept = {}

        def keep(m):
            kept[f"\0{len(kept)}\0"] = m[0]
            return f"\0{len(kept) - 1}\0"

        body = STD.sub(keep, text)
        mine = bound(body, std) if path.endswith(".antt") else {}
        body = re.sub(r"\.?" + WORD, lambda m: m[0][0] == "." and "." + turned.get(m[0][1:], m[0][1:]) or turned.get(m[0]) or mine.get(m[0], m[0]), body)
        for mark, line in kept.items():
            body = body.replace(mark, line)
        if body != text:
            with open(path, "w", encoding="utf-8", newline="") as f:
                f.write(body)
    print(f"{len(turned)} names turned")
    for crate in sorted(os.listdir("crates")):
        subprocess.run(["rt", "fmt"], cwd=os.path.join("crates", crate), stdout=subprocess.DEVNULL, stderr=subprocess.DEVNULL)


if __name__ == "__main__":
    main()
