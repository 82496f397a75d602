#!/usr/bin/env python3
"""In the files of a function's proof, writes names of goals and steps as today's toolchain makes them: a name of the source keeps its `_`.

usage: tools/keep_names.py CRATE..    at the top of the repository
"""
import os
import re
import sys

TOP = os.path.join(os.path.dirname(os.path.realpath(__file__)), "..")
MADE = {
    "overflow_add", "overflow_sub", "overflow_mul", "overflow_shl", "overflow_shr", "overflow_cast", "overflow_step",
    "nonzero_div", "nonzero_rem", "slice_bounds", "offset_bounds", "in_default", "in_ok", "in_err", "invariant_of",
}
PIECES = re.compile(r'(--[^\n]*|"(?:\\.|[^"\\])*")')


def source_names(crate):
    names = set(MADE)
    for folder, dirs, files in os.walk(os.path.join(TOP, "crates", crate, "src")):
        for name in files:
            with open(os.path.join(folder, name), encoding="utf-8") as f:
                code = re.sub(r"//[^\n]*", "", f.read())
            names |= set(re.findall(r"\b[A-Za-z][A-Za-z0-9]*(?:_[A-Za-z0-9]+)+\b", code))
    return sorted(names, key=len, reverse=True)


def main():
    for crate in sys.argv[1:]:
        names = source_names(crate)
        parts = {n.replace("_", "-"): n for n in names}
        dashed = re.compile("(?<![\\w'])(?:" + "|".join(re.escape(p) for p in sorted(parts, key=len, reverse=True)) + ")(?![\\w'])")
        for folder, dirs, files in os.walk(os.path.join(TOP, "crates", crate, "proofs")):
            for name in files:
                if name not in ("Answers.antt", "Invariants.antt"):
                    continue
                path = os.path.join(folder, name)
                with open(path, encoding="utf-8") as f:
                    text = f.read()
                library = set()
                for module, taken in re.findall(r"use ([\w.+\-]+)\.\{([^}]*)\}", text):
                    if not module.endswith((".Goals", ".Given")):
                        library |= set(re.split(r",\s*", taken))

                def token(m):
                    return m.group(0) if m.group(0) in library else dashed.sub(lambda d: parts[d.group(0)], m.group(0))

                new = "".join(
                    re.sub(r"[A-Za-zμ][\w']*(?:-[\w']+)+(?:\+[\w'\-]+)*", token, p) if i % 2 == 0 else p
                    for i, p in enumerate(PIECES.split(text))
                )
                if new != text:
                    with open(path, "w", encoding="utf-8") as f:
                        f.write(new)


if __name__ == "__main__":
    main()
