#!/usr/bin/env python3
"""Counts the places in src/ that docs/DESIGN-PASS.md speaks of, by their text. Usage: count_forms.py [-v] [ROOT]

-v prints each place. What a pattern finds is a place to read, not a verdict.
"""
import collections
import glob
import itertools
import os
import re
import sys

verbose = '-v' in sys.argv
rest = [a for a in sys.argv[1:] if a != '-v']
root = rest[0] if rest else '.'
texts = {}
for path in sorted(glob.glob(os.path.join(root, 'crates/*/src/**/*.rt'), recursive=True)):
    texts[os.path.relpath(path, os.path.join(root, 'crates'))] = open(path).read()


def places(pattern):
    """Each match, as a place: file and line."""
    found = []
    for name, text in texts.items():
        for m in re.finditer(pattern, text, re.M):
            found.append(f"{name}:{text.count(chr(10), 0, m.start()) + 1}: {' '.join(m.group(0).split())}")
    return found


def show(point, what, found):
    print(f'{point:3} {len(found):4}  {what}')
    if verbose:
        for line in found:
            print(f'          {line}')


show('1a', 'functions that answer `Option<Refusal>`', places(r'-> Option<Refusal>'))
show('1b', 'flags among the fields of a struct', places(r'^ +(pub(\(crate\))? )?[a-z_]+: bool,'))
show('1c', 'cases of enums that mean none or refused', places(r'^ +(Neither|NotUnderstood|NotAllowed|BegunEmpty|Refused\(.*\)),'))
show('1d', '`return None` behind `else`, and `None => None`', places(r'else \{\s*return None;\s*\}|\bNone => None\b'))
show('1e', 'an error handed on or turned by hand', places(r'(Err|Some)\(refusal\) => (Err|Answer|refused)\b.*|if let Some\(refusal\) = .*'))
show('3', 'loops over a range of numbers, or with a comparison', places(r'^ +for [a-z_]+ in [^{]*\.\..*|^ +while (?!let)[^{]*<[^{]*'))
show('4a', 'casts by `as`', places(r' as (u8|u16|u32|u64|usize|char)\b'))
show('4b', 'values of zeros written out', places(r'\b[A-Z][a-z]+ \{\s*([a-z]+: 0,?\s*){2,}\}'))

clauses = collections.defaultdict(list)
for name, text in texts.items():
    for m in re.finditer(r'^ +requires(?: [a-z_]+)? \{ (.*) \}$', text, re.M):
        clauses[m.group(1)].append(name)
often = [f'{len(names)} times: {clause} ({", ".join(sorted(set(names)))})' for clause, names in sorted(clauses.items(), key=lambda c: -len(c[1])) if len(names) >= 3]
show('5a', 'facts that stand in the `requires` of three or more functions', often)

groups = collections.defaultdict(list)
for name, text in texts.items():
    for m in re.finditer(r'fn ([a-z_]+)(?:<[^(]*>)?\(([^)]*)\)', text):
        parameters = []
        for p in m.group(2).split(','):
            if ':' in p and not p.strip().startswith(('rt:', 'heap:')):
                left, right = p.split(':', 1)
                parameters.append(left.replace('mut ', '').strip() + ': ' + right.strip())
        for k in (3, 4, 5):
            for group in itertools.combinations(sorted(set(parameters)), k):
                groups[name.split('/')[0], group].append(m.group(1))
largest = []
for (crate, group), names in sorted(groups.items(), key=lambda g: (-len(g[0][1]), -len(g[1]))):
    if len(names) >= 3 and not any(crate == c and set(group) < set(g) and len(groups[c, g]) >= len(names) for c, g in largest):
        largest.append((crate, group))
show('5b', 'three or more parameters that stand together in three or more functions of a crate', [f"{c}: {', '.join(g)} ({', '.join(groups[c, g])})" for c, g in largest])
show('6', 'the front of a buffer, by a count beside it', places(r'\[(0)?\.\.[a-z_.]+\]'))
show('7', 'closures, bounds on functions, dyn', places(r'\bFn(Once|Mut)?\(|\bdyn |\|[a-z_&(), ]+\| '))
answers = 0
lines = 0
for path in glob.glob(os.path.join(root, 'crates/*/proofs/**/*.antt'), recursive=True):
    text = open(path).read()
    lines += text.count('\n')
    if path.endswith('/Answers.antt'):
        answers += len(re.findall(r'^pub [^:]+ : goal\.', text, re.M))
print(f'8a  {answers:4}  answers in proofs/')
print(f'8b  {lines:4}  lines in proofs/')
