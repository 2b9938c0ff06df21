#!/usr/bin/env python3
"""Respells the repository's own names of specs/ and proofs/, once, after the toolchain's port script.

usage: python3 tools/respell.py        at the top of a checkout, after port.py and before any edit by hand

Words are in snake case, types and facts in upper camel case: `list-refusal` becomes `list_refusal`, `Well-made`
becomes `WellMade`. A name is taken for the repository's own where a file of specs/ or proofs/ declares it: a
definition, a lemma, a record, a field or a local of a `let`. Names that the checker makes (goals, steps of a proof)
and the library's keep their spelling, as do functions of src/, strings, inputs and outputs. It prints each name and
what it became, and fails where a new name is already in use in a file that has the old one.
"""

import glob
import re
import sys

DECLARED = re.compile(r"^\s*(?:(?:pub|abbrev|unfoldable|ruleset) )*([^\s:(){}]+) :(?!=)\s*(.*)")
RECORD = re.compile(r"^\s*(?:pub )?(?:record|data) ([^\s:(){}]+)")
LET = re.compile(r"\blet ([^\s:(){}=]+) (?::|=)")
IMPORT = re.compile(r"^\s*(?:ghost |pub )?use (Rattle\.\w+)[\w.'+-]*\.\{([^}]*)\}")
WORD = r"[\w'·◌∷≡≤<-]"


def texts():
    for kind in ("specs", "proofs"):
        yield from sorted(glob.glob("crates/*/%s/**/*.antt" % kind, recursive=True))


def made_by_hand(path):
    """Whether a file's own declarations are goals of a function, as in proofs/F/Answers.antt."""
    return path.rsplit("/", 1)[1] in ("Answers.antt", "Invariants.antt", "Proof.antt", "Choices.antt")


def respelled(name):
    name = name.replace("getD", "get_or")
    parts = name.split("-")
    if name[0].isupper():
        return "".join(p[:1].upper() + p[1:] for p in parts)
    return "_".join(parts)


def own_names():
    names, fields = set(), set()
    for path in texts():
        depth = None
        for line in open(path, encoding="utf8"):
            lead = len(line) - len(line.lstrip())
            if line.strip() and depth is not None and lead <= depth:
                depth = None
            record = RECORD.match(line)
            if record:
                names.add(record.group(1))
                depth = lead
            said = DECLARED.match(line)
            if said and not said.group(2).startswith("goal."):
                (names if depth is None or record else fields).add(said.group(1))
            names.update(LET.findall(line))
    return {n for n in names if "-" in n}, {n for n in fields if "-" in n}


def library_names(text):
    """Names that a file takes from the library."""
    found = set()
    for line in text.splitlines():
        said = IMPORT.match(line)
        if said and said.group(1) == "Rattle.std":
            found.update(w.strip().split(" as ")[-1].strip() for w in said.group(2).split(","))
    return found


def clauses(text, path):
    """What a new name must not stand in already: all of a proof file, the ghost lines of code. A clause never means a
    function of src/, so a definition may have the name of the function that it is the meaning of."""
    if path.endswith(".antt"):
        return text
    return "\n".join(line for line in text.splitlines() if line.lstrip().startswith("ghost "))


def turned(text, path, names, fields, clashes):
    library = library_names(text)
    inner = made_by_hand(path)
    for name in sorted(names | fields, key=len, reverse=True):
        if name not in text or name in library and name not in fields:
            continue
        new = respelled(name)
        before = r"(?<!%s)" % WORD
        if inner and name not in fields:
            before = r"(?<![\w'·◌∷≡≤<.-])"
        pattern = re.compile(before + re.escape(name) + r"(?!%s)" % WORD)
        if not pattern.search(text):
            continue
        if re.search(r"(?<![\w'.-])%s(?![\w'-])" % re.escape(new), clauses(text, path)):
            clashes.append("%s: %s becomes %s, which stands there already" % (path, name, new))
        text = pattern.sub(new, text)
    return text


def main():
    names, fields = own_names()
    clashes = []
    for name in sorted(names | fields):
        print("%s -> %s" % (name, respelled(name)))
    for path in list(texts()) + sorted(glob.glob("crates/*/src/**/*.rt", recursive=True)):
        text = open(path, encoding="utf8").read()
        new = turned(text, path, names, fields, clashes)
        if new != text:
            open(path, "w", encoding="utf8").write(new)
    for line in clashes:
        print("clash: " + line)
    return 1 if clashes else 0


if __name__ == "__main__":
    sys.exit(main())
