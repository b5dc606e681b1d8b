#!/usr/bin/env python3
"""Spells this repository's own definitions and lemmas in snake case, and its own types in camel case.

usage: python3 tools/respell.py [--check] [TOP]

A name is ours where a file of specs/ or a lemma file of proofs/ says it and no library gives it to that file. Its dashes become underscores;
where it begins with a capital, it is a type, and its words are put together: date-of is date_of, Dates-right is DatesRight.
Labels that Rattle makes of a function's places stay as they are, and so do strings, comments and the code of src/. With --check, nothing is
written, and the names that would fall together with another name of the same file are listed.
"""
import os
import re
import sys

WORD = re.compile(r"(?<![\w'-])[A-Za-z][\w']*(?:-[\w']+)+(?![\w'-])")
PLAIN = re.compile(r"(?<![\w'-])[A-Za-z_][\w']*(?![\w'-])")
USE = re.compile(r"\buse (Rattle\.std|Rattle\.core|mathlib|lib|native|Prim)[\w.'-]*\.\{([^}]*)\}")
GOALS = re.compile(r"\buse Rattle\.[\w.'-]*\.(?:Goals|Given)\.\{([^}]*)\}")
OWN_GOAL = re.compile(r"(?m)^\s*(?:pub |abbrev )*([\w'+-]+) : goal\.")
# the name behind one of these is a place of the function that is proved
HEAD = re.compile(r"(?<![\w'.-])(?:goal|c|w|l|g|x|it)\.$")
FUNCTIONS = re.compile(r"/proofs/.*(Answers|Invariants|Proof)\.antt$")
# names that would fall together with another, and what they are called instead
INSTEAD = {w: 'Part' + w.replace('-', '') for w in ["First-slot", "Second-slot", "First-home", "Second-home"]}


def files(top):
    for folder, dirs, names in os.walk(os.path.join(top, "crates")):
        dirs[:] = sorted(d for d in dirs if d != "out")
        for name in sorted(names):
            if name.endswith((".antt", ".rt")):
                yield os.path.join(folder, name)


def pieces(text, antt):
    """The text cut into code and what is no code: comments and strings."""
    quiet = r"(?m)(?:(?<=\s)|^)--(?=\s|$)[^\n]*" if antt else r'//[^\n]*|b?"(?:\\.|[^"\\])*"'
    at = 0
    for m in re.finditer(quiet, text):
        yield True, text[at : m.start()]
        yield False, m[0]
        at = m.end()
    yield True, text[at:]


def code(text, antt):
    return " ".join(t for is_code, t in pieces(text, antt) if is_code)


def lent(text):
    return {n.strip().split(" as ")[0].strip() for m in USE.finditer(text) for n in m[2].split(",")}


def labels(text):
    found = set(OWN_GOAL.findall(text))
    for m in GOALS.finditer(text):
        found.update(n.strip().split(" as ")[0].strip() for n in m[1].split(","))
    return {p for n in found for p in [n, *n.split("+")]}


def spelled(name):
    if name in INSTEAD:
        return INSTEAD[name]
    if name[0].isupper():
        return "".join(w[:1].upper() + w[1:] for w in name.split("-"))
    return name.replace("-", "_")


def respell(text, antt, own, function):
    kept = lent(text) | (labels(text) if function else set())

    def one(m):
        name = m[0]
        if name not in own or name in kept:
            return name
        if function and HEAD.search(m.string[: m.start()]):
            return name
        return spelled(name)

    return "".join(WORD.sub(one, t) if is_code else t for is_code, t in pieces(text, antt))


def main(argv):
    check = "--check" in argv
    top = ([a for a in argv if not a.startswith("--")] or ["."])[0]
    texts = {}
    for path in files(top):
        with open(path, encoding="utf-8") as f:
            texts[path] = f.read()
    own = set()
    for path, text in texts.items():
        if path.endswith(".antt") and not FUNCTIONS.search(path):
            said = code(text, True)
            own |= set(WORD.findall(said)) - lent(text)
        elif FUNCTIONS.search(path):
            said = code(text, True)
            own |= set(re.findall(r"(?m)^(?:pub |abbrev |unfoldable )*([A-Za-z][\w']*(?:-[\w']+)+)(?: \{[^}]*\})? : ", said)) - lent(text) - labels(text)
    changed = 0
    for path, text in texts.items():
        antt = path.endswith(".antt")
        function = bool(FUNCTIONS.search(path))
        new = respell(text, antt, own, function)
        if check:
            said = code(text, antt)
            here = {n for n in WORD.findall(said) if n in own and n not in lent(text)}
            plain = set(PLAIN.findall(said))
            for n in sorted(here):
                if spelled(n) in plain:
                    print(f"{path}: {n} meets {spelled(n)}")
        elif new != text:
            with open(path, "w", encoding="utf-8") as f:
                f.write(new)
            changed += 1
    print(f"{len(own)} names of ours; {changed} files changed")


main(sys.argv[1:])
