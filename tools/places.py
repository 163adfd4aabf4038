#!/usr/bin/env python3
"""Lists the places in the crates' sources where an older form of the language may stand.

usage: python3 tools/places.py [COMMIT]     of the working tree, or of a commit
       python3 tools/places.py -q [COMMIT]  only the counts

A line is a candidate, found by its text: whether it is a place is for a reader to say. The points are those of
docs/DESIGN-PASS.md, which names the places among the candidates. Comment lines and proofs are passed over, but for the last point.
"""

import re
import subprocess
import sys
from collections import defaultdict

# What a line of a source has to have, point by point.
LINES = {
    "1 a flag, a number or an own pair of cases": [
        (r"^\s*(pub )?[a-z_]+: bool,", "a flag in a struct"),
        (r"^\s*(Some|None|Ok|Err|Refused|NotShown|Nothing|Missing|No[A-Z]\w*)\b.*,$", "a case of failure beside others"),
        (r"&mut .*\) -> bool\b", "success told by a flag"),
        (r"fn (number|code|kind)\b.* -> u(8|16|32)", "a number for a case"),
        (r"None => Err\(|Err\(_\) => None|None => return None|else \{$", "a failure passed on by hand"),
    ],
    "3 a loop over an index, or one that counts": [
        (r"\bfor \w+ in .*\.\.", "a range"),
        (r"\bwhile\b", "a while"),
        (r"\bloop \{", "a loop"),
        (r"\bfor \w+ in ", "a for"),
    ],
    "4 a conversion, a comparison or a text by hand": [
        (r"fn (same|name|meaning|digit|hex_digit|\w+_operator|\w+_of|is_star|put_digits|digits_value|number|as_\w+|to_\w+|into_\w+)\b", "a function that converts or compares"),
        (r"\bimpl (PartialEq|PartialOrd|Ord|Clone|Default)\b", "a derive written out"),
        (r"\bas u(8|16|32|64|size)\b|\bas usize\b", "a cast"),
        (r"(first|start|low)\w* <= .* && .* <= ", "a range tested by hand"),
        (r"< \w[\w.()]*\.len\(\)", "a bound tested by hand"),
        (r"^\s*(Class|Node) \{$", "a blank value written out"),
    ],
    "6 a buffer with a length, an arena": [
        (r"\[[A-Za-z]\w*(<.*>)?; ?[0-9A-Z_]+\]", "an array of fixed size"),
        (r"^\s*(pub )?(count|len|depth|width|size|length|end): (u8|u16|u32|usize),", "a length or an index in a struct"),
    ],
    "7 a step chosen by a value": [
        (r"\bmatch (self|\*self|request|operator|head|word|byte|node|table\.node)", "a match on what to do"),
        (r"\bdyn\b|\bfn\(|impl Fn|: Fn", "a function as a value"),
    ],
}


def files(commit):
    where = [commit] if commit else []
    command = ["git", "ls-tree", "-r", "--name-only", *where] if commit else ["git", "ls-files", "-co", "--exclude-standard"]
    names = subprocess.run(command, capture_output=True, text=True, check=True).stdout.split("\n")
    for name in sorted(set(names)):
        if re.match(r"crates/\w+/(src|proofs)/.*\.(rt|antt)$", name):
            try:
                yield name, text(commit, name)
            except FileNotFoundError:
                pass


def text(commit, name):
    if commit:
        return subprocess.run(["git", "show", f"{commit}:{name}"], capture_output=True, text=True, check=True).stdout
    with open(name, encoding="utf-8") as file:
        return file.read()


def functions(source):
    """Each function's head: from `fn` up to the line that opens its body."""
    head = []
    for line in source.split("\n"):
        if re.match(r"\s*(pub(\(\w+\))? )?(const )?fn ", line):
            head = [line]
        elif head:
            head.append(line)
        if head and (line.strip() == "{" or line.rstrip().endswith((" {", ";"))):
            yield head
            head = []


def clauses(head):
    """The facts that a head's clauses state, each side of a product by itself."""
    for line in head:
        for kind, body in re.findall(r"(requires|ensures)(?: \w+)? \{(.*)\}\s*$", line):
            for fact in re.split(r"\) × \(", body.strip().strip("()")):
                yield f"{kind} {fact.strip()}"


def parameters(head):
    joined = " ".join(part.strip() for part in head)
    found = re.search(r"fn (\w+)(?:<.*?>)?\((.*?)\)\s*(?:->|requires|ensures|where|\{|;)", joined)
    if not found:
        return "", []
    names = re.findall(r"(?:mut )?(\w+): ([^,]+(?:<[^>]*>)?)", found.group(2))
    return found.group(1), [f"{name}: {kind.strip()}" for name, kind in names]


def main():
    words = [word for word in sys.argv[1:] if word != "-q"]
    quiet = "-q" in sys.argv[1:]
    commit = words[0] if words else None
    sources = list(files(commit))

    for point, patterns in LINES.items():
        rows = []
        for name, source in sources:
            if not name.endswith(".rt"):
                continue
            for number, line in enumerate(source.split("\n"), 1):
                if line.lstrip().startswith("//") or "ghost use" in line:
                    continue
                for pattern, meaning in patterns:
                    if re.search(pattern, line):
                        rows.append(f"  {name}:{number}: {meaning}: {line.strip()}")
                        break
        print(f"point {point}: {len(rows)}")
        if not quiet:
            print("\n".join(rows))

    facts, pairs = defaultdict(set), defaultdict(set)
    for name, source in sources:
        if not name.endswith(".rt") or name.endswith("tests.rt"):
            continue
        crate = name.split("/")[1]
        for head in functions(source):
            function, names = parameters(head)
            for fact in clauses(head):
                facts[(crate, fact)].add(f"{name}:{function}")
            for i, first in enumerate(names):
                for second in names[i + 1:]:
                    pairs[(crate, first, second)].add(f"{name}:{function}")
    facts = {key: sorted(where) for key, where in facts.items() if len(where) >= 3}
    pairs = {key: sorted(where) for key, where in pairs.items() if len(where) >= 3}
    print(f"point 5 a fact in three contracts: {len(facts)}, parameters that travel together: {len(pairs)}")
    if not quiet:
        for key, where in [*facts.items(), *pairs.items()]:
            print(f"  {' | '.join(key)} in {len(where)}: {', '.join(w.split(':')[1] for w in where)}")

    answers = [name for name, _ in sources if name.endswith("/Answers.antt")]
    hints = [name for name, _ in sources if name.endswith("/Invariants.antt")]
    lemmas = [name for name, _ in sources if re.match(r"crates/\w+/proofs/\w+\.antt", name) and not name.endswith("/Lib.antt")]
    count = {name: len(source.split("\n")) - 1 for name, source in sources}
    print(
        f"point 8 proofs: {len(answers)} files of answers, {len(hints)} of invariants, {len(lemmas)} of lemmas; "
        f"{sum(count[n] for n in answers)}, {sum(count[n] for n in hints)} and {sum(count[n] for n in lemmas)} lines"
    )


main()
