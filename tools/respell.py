#!/usr/bin/env python3
"""Spells this repository's own definitions, lemmas, fields, constructors and variables in snake case, and its facts in
camel case.

usage: python3 tools/respell.py          in the repository, once, after the kit's own script
       python3 tools/respell.py --list   says what it would rename, and what it keeps

A name is ours when some file of specs/ or proofs/ declares it: by a signature, as a field or a constructor, or as a
variable of a pattern, a `let` or a λ. Kept as they are: what is imported from the library, what the checker makes from
the source (goals, invariants, and the steps below `c.` and `l.`), and all names of src/ outside of clauses.
"""

import os
import re
import sys

WORD = r"[A-Za-z_][\w']*(?:-[\w'+*≡≤]+)+"
TOKEN = re.compile(r"(?<![\w'◌-])(" + WORD + r")(?![\w'-])")
STEP = re.compile(r"(?<![\w'-])[clw]\.$")


def files():
    for root, dirs, names in os.walk("crates"):
        dirs[:] = sorted(d for d in dirs if d != "out")
        for n in sorted(names):
            if n.endswith((".antt", ".rt", ".edit")):
                yield os.path.join(root, n)


def read(path):
    with open(path, encoding="utf-8") as f:
        return f.read()


def code(line):
    """The line without its comment."""
    return line.split("--", 1)[0] if line.lstrip().startswith("--") else re.sub(r"\s--\s.*$", "", line)


def declared(text):
    """The names with a dash that a file of specs/ or proofs/ declares."""
    found = set()
    for raw in text.split("\n"):
        line = code(raw)
        # a signature, a field, a constructor: the name stands before a colon
        m = re.match(r"\s*(?:abbrev |unfoldable )?(?:pub )?(?:abbrev |unfoldable |data |record |ruleset )?((?:" + WORD + r"|[\w']+)(?:\s+(?:" + WORD + r"|[\w']+))*)\s*:", line)
        if m and "goal." not in line.split(":", 1)[1][:8]:
            found.update(w for w in re.findall(WORD, m.group(1)))
        # a data type, a record or a ruleset with parameters
        m = re.match(r"\s*(?:abbrev |unfoldable )?(?:pub )?(?:data|record|ruleset)\s+(" + WORD + ")", line)
        if m:
            found.add(m.group(1))
        # let x =, let x :
        found.update(re.findall(r"\blet\s+(" + WORD + r")\s*[:=]", line))
        # λ a b.
        for part in re.findall(r"λ\s+([^.]*)\.", line):
            found.update(re.findall(WORD, part))
        # (a b : T), {a b : T}
        for part in re.findall(r"[({]((?:[\w'-]+\s+)*[\w'-]+)\s*:", line):
            found.update(re.findall(WORD, part))
    return found


def bound(text, known):
    """The names of patterns: with a dash, on the left of `=` or `↦`, and not known to be the library's."""
    found = set()
    for raw in text.split("\n"):
        line = code(raw)
        if " = " in line and not line.lstrip().startswith(("use ", "let ")):
            found.update(w for w in re.findall(WORD, line.split(" = ", 1)[0]))
        for part in re.findall(r"[\[|]([^|↦\[]*)↦", line):
            found.update(re.findall(WORD, part))
    return {w for w in found if w not in known}


def foreign(text):
    """What is imported from the library, and what the checker makes."""
    found = set()
    for m in re.finditer(r"\buse\s+([\w.+'-]+)\.\{([^}]*)\}", text):
        path, names = m.groups()
        names = re.findall(WORD, names)
        if re.match(r"Rattle\.(?!std\b)", path):
            if path.endswith((".Goals", ".Given")):
                found.update(names)
            continue
        found.update(names)
    for m in re.finditer(r"\bgoal\.(" + WORD + ")", text):
        found.add(m.group(1))
    return found


def ours():
    mine, theirs, left = set(), set(), set()
    for p in files():
        if p.endswith(".antt"):
            t = read(p)
            theirs |= foreign(t)
            mine |= declared(t)
    for p in files():
        if p.endswith(".antt"):
            left |= bound(read(p), theirs | mine)
    made = {w for w in left if re.match(r"(then|else|in|if|returns|loop|field|invariant|decreases|overflow|bounds)[-_]", w)}
    return mine - theirs, theirs, left - made, made


def spelled(word):
    """A fact, which begins with a capital, is written as a type; all else with underscores."""
    if word[0].isupper():
        return "".join(part[0].upper() + part[1:] for part in word.split("-"))
    return word.replace("-", "_")


def turn(line, names):
    def one(m):
        word = m.group(1)
        return word if word not in names or STEP.search(line[: m.start()]) else names[word]

    return TOKEN.sub(one, line)


def main():
    mine, theirs, left, made = ours()
    if "--list" in sys.argv:
        for title, names in (("renamed", mine), ("kept, of the library or made by the checker", theirs), ("of patterns, renamed", left), ("of patterns, kept", made)):
            print(f"# {title}: {len(names)}")
            for w in sorted(names):
                print("   ", w)
        return
    taken = set()
    for p in files():
        taken |= set(re.findall(r"[A-Za-z_][\w']*", read(p)))
    names = {}
    for w in sorted(mine | left):
        names[w] = spelled(w)
        if names[w] in taken:
            # a function of src/, or another name of ours, is called that
            names[w] += "_lem"
            print(w, "would fall together with another name, and is", names[w])
    for p in files():
        text = read(p)
        new = "\n".join(turn(line, names) for line in text.split("\n"))
        if new != text:
            with open(p, "w", encoding="utf-8") as f:
                f.write(new)
    print(len(names), "names respelled")


main()
