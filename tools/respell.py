#!/usr/bin/env python3
"""Brings the repository's own definitions and lemmas to the toolchain's spelling.

usage: python3 tools/respell.py        at the top of the repository, once, after the toolchain's port.py

Definitions, lemmas, fields and local names with dashes get snake case, and types and facts camel case. A dash stays in a
lemma's name where it joins the names of two definitions, as in length-flagged. What the toolchain names itself (goals, steps)
is left as it is. It prints each old name beside its new one.
"""
import os
import re
import sys

NAME = r"[A-Za-z_][\w']*(?:-[\w']+)+"
DECLARED = re.compile(r"^\s*(?:(abbrev pub|unfoldable pub|pub record|pub data|abbrev|unfoldable|record|data|pub)\s+)?(" + NAME + r")(?:\s+[^:]*?)?\s+:\s+(\S+)")
BRANCHES = ("Answers.antt", "Invariants.antt", "Proof.antt", "Choices.antt")
# names bound within a lemma or an answer
LOCAL = (
    "Told-back all-met at-k h-small in-square in-text m-small n-small one-kind one-long other-long plane-long rack-steps"
    " record-joins record-refused record-refused-flags same-k same-l sheet-area slate-steps w-small cut-sheet"
).split()
# definitions that would have the name of a function of the source
MIRRORS = {"answer_line", "command_on", "is_sized", "places_in", "run_lines"}
# and one that would have the name of a field, in its crate
FIELDS = {"pictures": {"height-at": "height_at_lem"}}
# words of the library that these names are made of, as they are spelt now
LIBRARY = {"getD": "get_or", "natAbs": "nat_abs", "ofInt": "of_int"}
WORDS = set("length map take drop set append push fold replicate count get_or nat_abs of_int".split())


def files(root):
    for folder, dirs, names in os.walk(os.path.join(root, "crates")):
        dirs[:] = sorted(d for d in dirs if d != "out")
        for name in sorted(names):
            if name.endswith((".rt", ".antt")):
                yield os.path.join(folder, name)


def declared(paths):
    """The dashed names that specs/ and proofs/ declare: those of definitions and fields, and those of lemmas."""
    words, lemmas = set(), set()
    for path in paths:
        if not path.endswith(".antt"):
            continue
        spec = "/specs/" in path
        for line in open(path, encoding="utf-8"):
            found = DECLARED.match(line)
            if not found or found.group(3).startswith("goal."):
                continue
            kind, name = found.group(1) or "", found.group(2)
            if os.path.basename(path) in BRANCHES and not spec and (kind or re.match(r"returns-|loop-|invariant-|decreases-", name)):
                continue
            (words if spec or "abbrev" in kind or "unfoldable" in kind or "record" in kind or "data" in kind else lemmas).add(name)
    return words, lemmas


def snake(name):
    return name.replace("-", "_")


def camel(name):
    return "".join(part[:1].upper() + part[1:] for part in name.split("-"))


def joined(name, vocabulary):
    """A lemma's name: a dash between two names of definitions, and _ elsewhere."""
    parts = [LIBRARY.get(part, part) for part in name.split("-")]
    names, at = [], 0
    while at < len(parts):
        end = next((e for e in range(len(parts), at, -1) if "_".join(parts[at:e]) in vocabulary), at + 1)
        names.append("_".join(parts[at:end]))
        at = end
    made = names[0]
    for before, after in zip(names, names[1:]):
        made += ("-" if before in vocabulary and after in vocabulary else "_") + after
    return made


def turned(paths):
    words, lemmas = declared(paths)
    plain = set()
    for path in paths:
        if path.endswith(".antt") and "/specs/" in path:
            plain |= set(re.findall(r"(?m)^(?:abbrev|unfoldable) pub ([a-z][a-z_0-9]*) ", open(path, encoding="utf-8").read()))
    vocabulary = WORDS | plain | {snake(name) for name in words if name[0].islower()}
    names = {}
    for name in sorted(words | lemmas | set(LOCAL)):
        if name[0].isupper() and name != "Told-back":
            names[name] = camel(name)
        elif name in words or name in LOCAL:
            names[name] = snake(name).lower() if name == "Told-back" else snake(name)
        else:
            names[name] = joined(name, vocabulary)
        if names[name] in MIRRORS:
            names[name] += "_lem"
    return {old: new for old, new in names.items() if old != new}


def respell(text, names, fields):
    def new(found):
        old = found.group(0)
        before = text[found.start() - 1 : found.start()]
        if old not in names or (before == "." and old not in fields):
            return old
        return names[old]

    return re.sub(r"(?<![\w'\-])" + NAME, new, text)


def main():
    paths = list(files("."))
    names = turned(paths)
    there = set()
    fields = set()
    for path in paths:
        text = open(path, encoding="utf-8").read()
        there |= set(re.findall(r"[A-Za-z_][\w'\-]*", text))
        if path.endswith(".antt"):
            fields |= set(re.findall(r"(?m)^  (?:pub )?(" + NAME + r") : ", text))
    seen = {}
    for old, new in sorted(names.items()):
        note = "  falls together with a name that is there" if new in there else "  falls together with " + seen[new] if new in seen else ""
        seen[new] = old
        print(f"{old}  {new}{note}")
    for path in paths:
        text = open(path, encoding="utf-8").read()
        done = respell(text, names | FIELDS.get(path.split(os.sep)[2], {}), fields)
        if done != text:
            with open(path, "w", encoding="utf-8") as out:
                out.write(done)
    return 0


if __name__ == "__main__":
    sys.exit(main())
