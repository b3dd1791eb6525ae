#!/usr/bin/env python3
"""Brings the repository's own definitions and lemmas to the library's spelling, in every crate.

usage: python3 tools/respell.py [--list]

Words are in snake case, and names that begin with a capital in camel case: `plays-on` and `blocksOf` become `plays_on`
and `blocks_of`, `Canonical-row` becomes `CanonicalRow`. Only names that a file of specs/ or proofs/ declares are
turned, and none that the check makes (what answers a goal, or is imported from a function's goals). Run once.
"""

import collections
import os
import re
import sys

TOKEN = re.compile(r"[^\s(){}\[\];,.\"]+")
DECLARED = re.compile(r"^\s*(?:(?:abbrev|unfoldable|pub)\s+)*([A-Za-z][^\s(){}\[\];,.\":]*)\s*:\s+(.*)$")
HEADED = re.compile(r"^\s*(?:pub\s+)?(?:data|record|ruleset|module)\s+([A-Za-z][^\s(){}\[\];,.\":]*)")
# names that would fall together with another of the same files: a lemma that would have its function's name gets `_lem`
APART = {
    "On-delay": "OnDelayLaw",
    "appended-all": "appended_all_lem",
    "delay-of": "delay_of_lem",
    "is-nan": "is_nan_lem",
    "is-trial": "is_trial_lem",
    "next-by": "next_by_lem",
    "out-by": "out_by_lem",
}
MADE = re.compile(r"^(?:goal|given|Goals|Given)\.")
GOALS = re.compile(r"^use Rattle\.\w+\.proofs\..*\.(?:Goals|Given)\.\{(.*)\}")


def files():
    for folder, dirs, names in os.walk("crates"):
        dirs[:] = sorted(d for d in dirs if d != "out")
        for name in sorted(names):
            if name.endswith((".antt", ".rt")):
                yield os.path.join(folder, name)


def turned(name):
    if name in APART:
        return APART[name]
    if name[0].isupper():
        return re.sub(r"-([A-Za-z0-9])", lambda m: m.group(1).upper(), name)
    name = re.sub(r"(?<=[a-z0-9])([A-Z])(?=[a-z])", lambda m: "_" + m.group(1).lower(), name)
    return name.replace("-", "_")


def main():
    texts = {}
    for path in files():
        with open(path, encoding="utf-8") as f:
            texts[path] = f.read()
    own, made = collections.OrderedDict(), set()
    for path, text in texts.items():
        if not path.endswith(".antt"):
            continue
        for line in text.split("\n"):
            m = GOALS.match(line)
            if m:
                made.update(w.strip() for w in m.group(1).split(","))
            m = DECLARED.match(line)
            if m:
                (made.add if MADE.match(m.group(2)) else lambda n: own.setdefault(n, path))(m.group(1))
            m = HEADED.match(line)
            if m:
                own.setdefault(m.group(1), path)
    new = {n: turned(n) for n in own if n not in made and turned(n) != n and n != "_"}
    there = collections.Counter(w for t in texts.values() for w in TOKEN.findall(t))
    if "--list" in sys.argv[1:]:
        for n in sorted(new):
            note = f"  (stands {there[new[n]]} times already)" if there[new[n]] else ""
            print(f"{n} -> {new[n]}{note}  {own[n]}")
        for n in sorted(own):
            if n in made and turned(n) != n:
                print(f"kept: {n}  {own[n]}")
        return
    for path, text in texts.items():
        out = TOKEN.sub(lambda m: new.get(m.group(0), m.group(0)), text)
        if out != text:
            with open(path, "w", encoding="utf-8") as f:
                f.write(out)


main()
