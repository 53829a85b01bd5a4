#!/usr/bin/env python3
"""Brings the names of definitions and lemmas to today's spelling: words in snake case, facts and types in camel case.

usage: python3 tools/spell.py        once, at the top of the repository, right after the toolchain's own port script

A name of ours with a dash loses it: `term-at` becomes `term_at`, `Always-ground` becomes `AlwaysGround`. Names that the
toolchain makes (goals, steps and fields behind `c`, `l` and `w`) and names of its library keep their dashes. It says
which names it turned, and stops before any file is written where two names would fall together.
"""

import os
import re
import sys

NAME = r"[A-Za-z][A-Za-z0-9_']*(?:-[A-Za-z0-9_']+)+"
TOKEN = re.compile(r"(?<![A-Za-z0-9_'\-])(" + NAME + r")(?![A-Za-z0-9_'\-])")
SIGNATURE = re.compile(r"^\s*(?:(?:pub|abbrev|unfoldable)\s+)*(" + NAME + r")\s+:(?!\S)")
DECLARED = re.compile(r"\b(?:data|record|ruleset)\s+(?:pub\s+)?(" + NAME + r")")
BOUND = re.compile(r"\blet\s+(" + NAME + r")\s*[:=]")
GOAL = re.compile(r"goal\.(" + NAME + r")")
MADE = re.compile(r"(?:^|[^A-Za-z0-9_'])[clw]\.$")

# names of ours that no signature gives: parameters, names of patterns, names of imports
BOUND_ELSEWHERE = """
all-is below-y bit-i bit-x bit-y cored-a cored-b empty-a empty-b fits-a fits-b groups-is has-x has-y kept-is models-is
one-x one-ys read-row shared-backed shared-entered shared-tied some-met-is some-x some-ys unions-is with-x-is with-ys-is
y-below ys-below the-core the-entry the-model the-return
""".split()

# these would fall together with words of the library
OTHERWISE = {"bit-and": "bit_of_and", "bit-or": "bit_of_or"}

# the toolchain's script took these for words of its library
TAKEN = {"TheTie": "the_tie"}


def files():
    for folder, dirs, names in os.walk("crates"):
        dirs[:] = sorted(d for d in dirs if d != "out")
        for name in sorted(names):
            if name.endswith((".antt", ".rt", ".edit")):
                yield os.path.join(folder, name)


def read(path):
    with open(path, encoding="utf-8") as f:
        return f.read()


def respelled(name):
    if name in OTHERWISE:
        return OTHERWISE[name]
    if name[0].isupper():
        return "".join(part[:1].upper() + part[1:] for part in name.split("-"))
    return name.replace("-", "_")


def ours(texts):
    found, goals = set(BOUND_ELSEWHERE), set()
    for path, text in texts.items():
        if path.endswith(".antt"):
            for line in text.splitlines():
                code = line.split("--")[0]
                for form in (SIGNATURE, DECLARED, BOUND):
                    found.update(form.findall(code))
            goals.update(GOAL.findall(text))
    return found - goals


def turned(text, names):
    def put(m):
        made = MADE.search(text, max(0, m.start() - 3), m.start()) is not None
        return m.group(1) if made or m.group(1) not in names else respelled(m.group(1))

    for word, name in TAKEN.items():
        text = re.sub(r"\b" + word + r"\b", name, text)
    return TOKEN.sub(put, text)


def main():
    texts = {path: read(path) for path in files()}
    names = ours(texts)
    words = set()
    for text in texts.values():
        words.update(re.findall(r"[A-Za-z][A-Za-z0-9_']*", text))
    given = {}
    for name in sorted(names):
        to = respelled(name)
        if to in given or (to in words):
            sys.exit(f"spell: {name} and {given.get(to, to)} would fall together as {to}")
        given[to] = name
    for path, text in texts.items():
        new = turned(text, names)
        if new != text:
            with open(path, "w", encoding="utf-8") as f:
                f.write(new)
    for to, name in given.items():
        print(f"{name} -> {to}")
    print(f"spell: {len(given)} names")


main()
