#!/usr/bin/env python3
"""Looks at the must-fail edits without proving anything.

usage: tools/check_edits.py [CRATE..]        at the top of the repository

Each `old:` is to stand exactly once in its file, where the pairs before it are applied. Named besides, for a look: a word of a
`new:` that no source of the repository has, since an edit that cites a name which is gone is refused for that alone.
"""
import glob
import os
import re
import sys

WORD = re.compile(r"[^\s(){}\[\],;.\"`|]+")


def read(path):
    with open(path, encoding="utf-8") as f:
        return f.read()


def pairs(path):
    """The pairs (file, old, new) of an edit, in order."""
    file = old = None
    for line in read(path).split("\n"):
        if line.startswith("file: "):
            file = line[len("file: ") :]
        elif line.startswith("old: "):
            old = line[len("old: ") :]
        elif line.startswith("new:"):
            yield file, old, line[len("new: ") :]
            old = None


def main():
    crates = sys.argv[1:] or sorted(os.listdir("crates"))
    known = set()
    for folder, inner, names in os.walk("crates"):
        inner[:] = [x for x in inner if x not in ("out", "must-fail")]
        for name in names:
            if name.endswith((".rt", ".antt")):
                known |= set(WORD.findall(read(os.path.join(folder, name))))
    edits = bad = 0
    for crate in crates:
        for path in sorted(glob.glob(f"crates/{crate}/must-fail/*.edit")):
            edits += 1
            texts, said = {}, []
            found = list(pairs(path))
            if not found:
                said.append("no pair")
            for file, old, new in found:
                whole = f"crates/{crate}/{file}"
                if whole not in texts:
                    texts[whole] = read(whole) if os.path.exists(whole) else ""
                n = texts[whole].count(old)
                if n != 1:
                    said.append(f"{file}: stands {n} times: {old}")
                texts[whole] = texts[whole].replace(old, new, 1)
                for w in WORD.findall(new):
                    if w not in known and re.match(r"[^\W\d]", w) and w not in WORD.findall(old):
                        print(f"look: {path}: `{w}` in no source")
            if said:
                bad += 1
                print("\n".join([path] + ["  " + s for s in said]))
    print(f"{edits} edits, {bad} that don't fit")
    return 1 if bad else 0


if __name__ == "__main__":
    raise SystemExit(main())
