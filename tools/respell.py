#!/usr/bin/env python3
"""Respells this repository's own definitions and lemmas: words in snake case, facts in camel case.

usage: python3 tools/respell.py [--list]     at the top of the repository, once, after the kit's own port script

A name with a dash that specs/ or proofs/ defines loses its dashes: tie-of becomes tie_of, and Told-true becomes ToldTrue.
Names of goals, which the prover makes, keep theirs, and so do the library's names, comments, strings and functions of src/.
"""
import os
import re
import sys

WORD = r"[^\s(){}\[\],;.:@\"«»\\]+"
DEFINED = re.compile(r"^\s*(?:(?:abbrev|unfoldable|pub|data|record|ruleset)\s+)*(" + WORD + r")(?=\s*(?::(?:\s|$)|\s\(|\s\{|\s:))", re.M)
BOUND = re.compile(r"\b(?:let|where)\s+(" + WORD + r")\s*(?::(?:\s|$)|=)")
ALIAS = re.compile(r"\bas\s+(" + WORD + r")(?=\s*[,};]|$)", re.M)
BINDER = re.compile(r"[({]([^(){}:;=]+?)\s:\s")
GOAL = re.compile(r"^(?:returns|loop|invariant|decreases|overflow|bounds|offset|index|unreachable|shared|from|divisor|ensures)[-_·]|-requires(?:-|$)|-(?:preserved|init|smaller)(?:-|$)")
GOALFILES = ("Answers.antt", "Invariants.antt", "Choices.antt", "Proof.antt")
LIBRARY_USE = re.compile(r"use\s+Rattle\.std\.[\w.+]*\{([^}]*)\}")
SKIP = re.compile(r'"(?:[^"\\\n]|\\.)*"')


# Names that would fall together with another once the dashes are gone.
CHOSEN = {"No-plan": "HasNoPlan", "No-room": "HasNoRoom", "Reads-back": "LinesReadBack"}


def files(kinds):
    for top, dirs, names in os.walk("crates"):
        dirs[:] = sorted(d for d in dirs if d != "out")
        for n in sorted(names):
            if n.endswith(kinds):
                yield os.path.join(top, n)


def read(path):
    with open(path, encoding="utf-8") as f:
        return f.read()


def uncommented(text, mark):
    return re.sub(re.escape(mark) + r"(?:\s.*|$)", "", text, flags=re.M)


def defined():
    names = {}
    for path in files(".antt"):
        text = uncommented(read(path), "--")
        goals = os.path.basename(path) in GOALFILES
        found = [m.group(1) for m in DEFINED.finditer(text)]
        found += [m.group(1) for m in BOUND.finditer(text)]
        for m in BINDER.finditer(text):
            found += m.group(1).split()
        found += aliases(text)
        for n in found:
            if "-" in n.strip("-") and re.match(r"[A-Za-z]", n) and "·" not in n:
                if goals and GOAL.search(n):
                    continue
                names.setdefault(n, set()).add(path)
    for path in files(".rt"):
        for n in aliases(uncommented(read(path), "//")):
            if "-" in n:
                names.setdefault(n, set()).add(path)
    return names


def aliases(text):
    """The names that imports give with `as`."""
    return [m.group(1) for line in text.split("\n") if re.match(r"\s*(?:ghost )?use ", line) for m in ALIAS.finditer(line)]


def new_name(old):
    if old in CHOSEN:
        return CHOSEN[old]
    if old[0].isupper():
        parts = old.split("-")
        return "".join(p[:1].upper() + p[1:] for p in parts)
    return old.replace("-", "_")


def respelled(text, names, mark, kept):
    """The text with each whole word in names turned, outside comments and strings."""
    word = re.compile(WORD)

    def turn(piece):
        return word.sub(lambda m: names[m.group(0)] if m.group(0) in names and m.group(0) not in kept else m.group(0), piece)

    out = []
    for line in text.split("\n"):
        at = re.search(r"(?:^|\s)" + re.escape(mark) + r"(?:\s|$)", line)
        code, comment = (line[: at.start()], line[at.start():]) if at else (line, "")
        done, last = [], 0
        for s in SKIP.finditer(code):
            done += [turn(code[last:s.start()]), s.group(0)]
            last = s.end()
        done.append(turn(code[last:]))
        out.append("".join(done) + comment)
    return "\n".join(out)


def taken_from_library(text):
    return {w for m in LIBRARY_USE.finditer(text) for w in re.split(r"[\s,]+", m.group(1)) if w}


def main():
    found = defined()
    names = {n: new_name(n) for n in found}
    words = {}
    for path in files((".antt", ".rt")):
        for w in set(re.findall(WORD, read(path))):
            words.setdefault(w, set()).add(path)
    together = {}
    for n, to in names.items():
        together.setdefault(to, []).append(n)
    if "--list" in sys.argv:
        for n in sorted(names):
            met = words.get(names[n], set())
            print(n, names[n], *(["also:"] + sorted(met) if met else []))
        for to, olds in sorted(together.items()):
            if len(olds) > 1:
                print("together:", to, *olds)
        return
    for path in files((".antt", ".rt", ".edit")):
        text = read(path)
        turned = respelled(text, names, "--" if path.endswith(".antt") else "//", taken_from_library(text))
        if turned != text:
            with open(path, "w", encoding="utf-8") as f:
                f.write(turned)


main()
