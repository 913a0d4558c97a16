#!/usr/bin/env python3
"""Spells this repository's own names as the library spells its own: functions, lemmas, fields and constructors in snake case, types and facts in camel case.

usage: python3 tools/respell.py [FOLDER]    once, after /opt/rattle/port/port.py; FOLDER is the top of a checkout, this one if it isn't given

What is renamed: what a file of specs/ or a lemma file of proofs/ defines. What stays: names that Rattle makes (the goals in Answers and Invariants), names that
come from a library, functions of src/, strings. It stops before it writes anything if two names of one crate would fall together.
"""

import glob
import os
import re
import sys

# functions whose names ended in the letter of what they are about
BY_HAND = {
    "bytesH": "bytes_of_head",
    "bytesE": "bytes_of_expr",
    "bytesEs": "bytes_of_exprs",
    "bytesP": "bytes_of_prog",
    "bytesT": "bytes_of_tree",
    "bytesTs": "bytes_of_trees",
    "nodesT": "nodes_of_tree",
    "nodesTs": "nodes_of_trees",
    "arityOf": "arity_of",
    "judgedNumber": "judged_number",
    "judgedNumbers": "judged_numbers",
    "ranNumbers": "ran_numbers",
    # port.py has turned this one, as a word and not as a fact
    "Goes_on": "GoesOn",
    # callgraph has StepRows
    "Step-rows": "RowsOfSteps",
    "Way-rows": "RowsOfWays",
}
LETTER = r"A-Za-z0-9_\-'₀-₉·◌"
HEAD = re.compile(r"^\s*(?:abbrev )?(?:unfoldable )?(?:pub )?(?:data |record )?(?:\{[^}]*\} )?([A-Za-z][%s]*)(?= .*:|$| :)" % LETTER)
MADE = ("Answers.antt", "Invariants.antt", "Proof.antt")  # in a function's folder of proofs/


def spelled(name):
    if name in BY_HAND:
        return BY_HAND[name]
    if "-" not in name:
        return name
    if name[0].isupper():
        return "".join(part[:1].upper() + part[1:] for part in name.split("-"))
    return name.replace("-", "_")


def read(path):
    with open(path, encoding="utf-8") as f:
        return f.read()


def crate_of(path, root):
    return os.path.relpath(path, root).split(os.sep)[1]


def is_made(path, root):
    """Whether a file answers goals, whose names Rattle makes."""
    parts = os.path.relpath(path, root).split(os.sep)
    return parts[-1] in MADE and parts[2] == "proofs" and len(parts) > 4


def foreign(text, own):
    """Names that a file takes from a library, and names of its own for what it takes from this repository."""
    names, aliases = set(), set()
    for path, items in re.findall(r"\buse ([\w.\-]+)\.\{([^}]*)\}", text):
        parts = path.split(".")
        if parts[0] == "Rattle" and len(parts) > 1 and parts[1] in own:
            aliases.update(item.split(" as ")[1].strip() for item in items.split(",") if " as " in item)
        else:
            names.update(item.split(" as ")[-1].strip() for item in items.split(","))
    return names, aliases


def local(text):
    """Names with a dash that a lemma file uses, not behind a dot and not in a comment: its own variables among them."""
    code = "\n".join(line.split("--")[0] for line in text.split("\n"))
    return set(re.findall(r"(?<![.%s])([a-z][%s]*)" % (LETTER, LETTER), code))


def main():
    root = os.path.abspath(sys.argv[1] if len(sys.argv) > 1 else os.path.join(os.path.dirname(__file__), ".."))
    antt = [p for p in glob.glob(root + "/crates/*/*/**/*.antt", recursive=True) if "/out/" not in p]
    other = [p for p in glob.glob(root + "/crates/*/src/**/*.rt", recursive=True)] + glob.glob(root + "/crates/*/must-fail/*.edit")
    own = {os.path.basename(p) for p in glob.glob(root + "/crates/*")}
    defined, made, library = {}, set(), set()
    for p in antt:
        text = read(p)
        taken, aliases = foreign(text, own)
        library |= taken
        for line in text.split("\n"):
            if line.lstrip().startswith("--"):
                continue
            m = HEAD.match(line)
            if m and is_made(p, root) and not line.startswith(" "):
                made.add(m.group(1))
            elif m:
                defined.setdefault(m.group(1), set()).add(crate_of(p, root))
        for name in aliases | (set() if is_made(p, root) else local(text)):
            defined.setdefault(name, set())
    for p in other:
        taken, aliases = foreign(read(p), own)
        library |= taken
        for name in aliases:
            defined.setdefault(name, set())
    turn = {n: spelled(n) for n in defined if spelled(n) != n and n not in library and n not in made}
    # a lemma that would have its function's name
    turn = {n: t + "_lem" if t in library else t for n, t in turn.items()}
    print("with _lem:", ", ".join(sorted(t for t in turn.values() if t.endswith("_lem"))) or "none")
    kept = sorted(n for n in defined if spelled(n) != n and n not in turn)
    clash = sorted((n, t) for n, t in turn.items() if t in defined and defined[t] & defined[n])
    for n, t in clash:
        print(f"would fall together: {n} and {t} in {', '.join(sorted(defined[t] & defined[n]))}")
    back = {}
    for n, t in turn.items():
        back.setdefault(t, []).append(n)
    for t, ns in back.items():
        if len(ns) > 1:
            print(f"would fall together: {', '.join(ns)} as {t}")
    if clash or any(len(ns) > 1 for ns in back.values()):
        raise SystemExit(1)
    word = re.compile(r"(?<![%s])([A-Za-z][%s]*)(?![%s])" % (LETTER, LETTER, LETTER))
    step = re.compile(r"(?<![%s])(?<!\bc\.)([A-Za-z][%s]*)(?![%s])" % (LETTER, LETTER, LETTER))
    one = lambda m: turn.get(m.group(1), m.group(1))
    changed = 0
    for p in antt + other:
        text = read(p)
        if p.endswith(".rt"):
            new = "".join(s if i % 2 else word.sub(one, s) for i, s in enumerate(re.split(r'("(?:[^"\\\n]|\\.)*")', text)))
        else:
            # behind 'c.' in an answer stand names that Rattle makes
            new = (step if is_made(p, root) else word).sub(one, text)
        if new != text:
            changed += 1
            with open(p, "w", encoding="utf-8") as f:
                f.write(new)
    print(f"respell: {len(turn)} names in {changed} files; kept, as Rattle or a library has them: {', '.join(kept) or 'none'}")


main()
