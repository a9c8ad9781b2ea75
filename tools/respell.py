#!/usr/bin/env python3
"""Brings the repository's own definitions, lemmas and record fields to today's spelling: words in snake case, `D` of a default as `or`, fields without a hyphen.

usage: python3 tools/respell.py [--list]     at the top of the repository, once, behind port.py

What a name means is not touched: only the token changes, in .antt files, in clauses and comments of .rt files, in edits, and in the pages.
"""

import os
import re
import sys

# a token of antt: what stands between brackets, blanks, dots and the like
TOKEN = re.compile(r"[^\s(){}\[\].,;:λ→∷×⊎|↦∙`\"«»⌜⌝=]+")
# the scope's own signs, and names of the library
KEPT = {"nR", "nW", "hN", "hP", "shr_slice_Lawful", "shr_slice_Tells", "uint_Lawful", "uint_Makes", "uint_Tells", "walk_Meets", "mut_Tells", "mut_slice_Tells"}
# a test that computes has no `B` behind its name any more
TESTS = re.compile(r"^(apart|blank|counts|falls|frames|good|inPlaces|numbered|ordered|pages|sound|whole)B$")
# fields of the records in specs/ and proofs/ that had a hyphen
FIELDS = [
    "N-high", "N-low", "P-high", "P-low", "b-high", "b-low", "r-high", "r-low", "w-high", "w-low", "empty-off", "empty-same", "first-falls", "second-falls",
    "inside-first", "inside-second", "mark-off", "mark-same", "notes-same", "numbers-same", "page-bytes", "page-same", "page-set", "read-cost", "write-cost",
    "reads-high", "records-same", "resident-off", "resident-same", "served-high", "target-high", "writes-high",
]
# lemmas of the repository that port.py wrote with `_`, since std has or had a word like them: a lemma keeps its hyphens
LEMMAS = (
    "above-same add-none after-is after-op all-fit all-go and-both both-end chosen-is clear-first copy-more every-front every-of exact-and filled-is first- "
    "fits fits-kept found-drop found-in found-within frame-below fresh-kept goes-on has-room has-same keep-out keeps-same knows-more last-one last-taken "
    "last-within last-written listed-below made-by marked-append merged-by moved-by near-down near-step near-up not-found not-none number-same of-pair of- "
    "reader one-more open-by ordered-same part-length place-is place-rest placed-same put-one put-other put-same read-again read-has read-keeps read-opened "
    "read-right refused-none refused-says run-moved run-sound same-left same-outcome set-here splice-all splice-front stands-same start-right step-in step- "
    "right sum-fits sum-low taken-in taken-is takes-first takes-none target-is under-first used-sound write-again write-keeps writes-one written-back "
    "written-is"
).split()
BACK = {n.replace("-", "_"): n for n in LEMMAS}


def word(w):
    """One word of a name: between hyphens."""
    if not re.match(r"^[a-z]\w*", w) or w in KEPT or re.match(r"^b'.'$", w) or "_" in w and re.search(r"_[A-Z]", w):
        return w
    m = TESTS.match(w)
    if m:
        w = m[1] + "Test"
    if w == "getD":
        return "get_or"
    w = re.sub(r"(?<=[A-Z])([A-Z])(?=[a-z])", lambda m: "_" + m[1], w)
    return re.sub(r"(?<=[a-z0-9'])([A-Z])", lambda m: "_" + m[1], w).lower()


def spelled(token):
    if token in KEPT or "/" in token:
        return token
    if token in FIELDS:
        return token.replace("-", "_")
    return "-".join(word(w) for w in token.split("-"))


def files(root):
    for top in ("crates", "docs", "tests", "tools", "bench", "README.md"):
        start = os.path.join(root, top)
        if os.path.isfile(start):
            yield start
        for folder, dirs, names in os.walk(start):
            dirs[:] = [d for d in dirs if d not in ("out", "target", "__pycache__")]
            for n in sorted(names):
                if n.endswith((".antt", ".rt", ".edit", ".md")):
                    yield os.path.join(folder, n)


def turned(path, text):
    whole = path.endswith((".antt", ".rt", ".edit"))
    if whole:
        # behind a dot stands a step, a module or a field, and no lemma
        lemmas = "/proofs/" in path and path.endswith(".antt")
        return TOKEN.sub(lambda m: BACK[m[0]] if lemmas and m[0] in BACK and text[m.start() - 1 : m.start()] != "." else spelled(m[0]), text)
    return re.sub(r"`[^`\n]+`", lambda c: TOKEN.sub(lambda m: spelled(m[0]), c[0]), text)


def main(argv):
    root = os.path.dirname(os.path.dirname(os.path.abspath(__file__)))
    seen = {}
    there = set()
    for p in files(root):
        with open(p, encoding="utf-8") as f:
            text = f.read()
        for m in TOKEN.findall(text):
            there.add(m)
            if spelled(m) != m:
                seen.setdefault(m, set()).add(os.path.relpath(p, root))
        new = turned(p, text)
        if "--list" not in argv and new != text:
            with open(p, "w", encoding="utf-8") as f:
                f.write(new)
    if "--list" in argv:
        made = {}
        for m in sorted(seen):
            made.setdefault(spelled(m), []).append(m)
        for new, old in sorted(made.items()):
            both = len(old) > 1 or new in there
            print(f"{'BOTH ' if both else ''}{' '.join(old)} -> {new}" + (f"   {' '.join(sorted(seen[old[0]])[:3])}" if both else ""))
    return 0


if __name__ == "__main__":
    raise SystemExit(main(sys.argv[1:]))
