#!/usr/bin/env python3
"""Respells the repository's own names in specs, proofs, clauses and must-fail edits: words in snake case, types and facts in camel case.

usage: tools/respell.py [--dry]    at the top of the repository, once, right after the toolchain's port.py

A name is the repository's own if it is declared in a file of specs/ or proofs/ (a definition, a lemma, a field, a constructor) or bound
there (by a let, an import's `as`, or as a parameter). Goals of a function, names behind `c.`, `w.`, `l.` and `goal.` in the files of a function's proof, comments and strings
stay as they are. The script stops where two names would fall together.
"""
import os
import re
import sys

TOP = os.path.join(os.path.dirname(os.path.realpath(__file__)), "..")
DECLARED = re.compile(r"(?m)^\s*(?:abbrev |unfoldable )?(?:pub )?(?:abbrev )?(?:record |data )?([A-Za-zμ][\w']*(?:-[\w']+)+) (?=\(|\{|:)")
BOUND = re.compile(r"\b(?:let|as) ([A-Za-zμ][\w']*(?:-[\w']+)+)(?= :| =|[,}])")
BINDERS = re.compile(r"[({]((?:[A-Za-zμ][\w'\-]* )+): ")
PIECES = re.compile(r'(--[^\n]*|//[^\n]*|"(?:\\.|[^"\\])*")')
OWN_PROOF = ("Answers.antt", "Invariants.antt", "Proof.antt", "Choices.antt")


def files():
    for folder, dirs, names in os.walk(os.path.join(TOP, "crates")):
        dirs[:] = sorted(d for d in dirs if d != "out")
        for name in sorted(names):
            if name.endswith((".antt", ".rt", ".edit")):
                yield os.path.join(folder, name)


def outside(text):
    """The text without comments and strings."""
    return "".join(p for i, p in enumerate(PIECES.split(text)) if i % 2 == 0)


def respelt(name):
    if name[0].isupper():
        return "".join(p[:1].upper() + p[1:] for p in re.split(r"[-_]", name))
    return name.replace("-", "_")


def own_names(texts):
    own = set()
    for path, text in texts.items():
        if path.endswith(".antt"):
            code = outside(text)
            goals = set(re.findall(r"goal\.([\w'\-+]+)", code))
            bound = [n for names in BINDERS.findall(code) for n in names.split() if "-" in n]
            own |= {n for n in DECLARED.findall(code) + BOUND.findall(code) + bound if n not in goals}
    return own


def imported(texts):
    """Names that some file takes from a library of the toolchain, or from what the toolchain makes."""
    taken = {}
    for path, text in texts.items():
        for module, names in re.findall(r"(?m)^\s*(?:ghost )?use ([\w.+\-]+)\.\{([^}]*)\}", outside(text)):
            first = module.split(".")
            ours = first[0] == "Rattle" and os.path.isdir(os.path.join(TOP, "crates", first[1]))
            if not ours or first[-1] in ("Goals", "Given") or "declared" in first:
                for name in re.split(r",\s*", names):
                    taken.setdefault(name.strip(), set()).add(path)
    return taken


def turned(path, text, names):
    made = os.path.basename(path) in OWN_PROOF
    token = re.compile(r"(?<![\w'\-+◌])([A-Za-zμ][\w']*(?:-[\w']+)+)(?![\w'\-+◌])")

    def one(code):
        def put(m):
            before = code[: m.start()]
            if before.endswith(("goal.", "Goals.", "Given.")) or made and re.search(r"(?<![\w.])(?:c|w|l|l\.initial|l\.fn)\.$", before):
                return m.group(0)
            return names.get(m.group(1), m.group(0))

        return token.sub(put, code)

    return "".join(one(p) if i % 2 == 0 else p for i, p in enumerate(PIECES.split(text)))


def main():
    dry = "--dry" in sys.argv
    texts = {}
    for path in files():
        with open(path, encoding="utf-8") as f:
            texts[path] = f.read()
    own = own_names(texts)
    taken = imported(texts)
    both = {n for n in own if n in taken}
    for n in sorted(both):
        print("left: both ours and a library's:", n, sorted(os.path.relpath(p, TOP) for p in taken[n])[:4])
    names = {n: respelt(n) for n in own - both}
    words = set()
    for path, text in texts.items():
        if path.endswith(".antt"):
            # a function or a field of src/ may share its name with a definition: paths and fields do not count
            words |= set(re.findall(r"(?<![\w'\-+◌.])([A-Za-zμ][\w']*(?:-[\w']+)*)(?![\w'\-+◌.])", outside(text)))
    back = {}
    for n, m in sorted(names.items()):
        back.setdefault(m, []).append(n)
    apart = True
    for m, ns in sorted(back.items()):
        if len(ns) > 1 or m in words:
            print("fall together:", m, ns, "(stands already)" if m in words else "")
            apart = False
    if dry or not apart:
        print(len(names), "names")
        return 0 if dry else 1
    for path, text in texts.items():
        new = turned(path, text, names)
        if new != text:
            with open(path, "w", encoding="utf-8") as f:
                f.write(new)
    print(len(names), "names respelt")
    return 0


if __name__ == "__main__":
    raise SystemExit(main())
