#!/usr/bin/env python3
"""Gives the repository's own definitions and lemmas the spelling of today's Rattle: functions, lemmas and fields in snake case.

usage: tools/spell_names.py        at the top of the repository, once, after the kit's port.py

A name of our own is one that a file of specs/ or proofs/ declares and that no file imports from a library. Camel case
(`floorOf`) and dashes (`below-whole`) become snake case (`floor_of`, `below_whole`). A lemma that would have its
function's name gets `_lem`. Strings, the code of functions, exported names and inputs stay: in .rt files and edits only
names that are declared in .antt files are touched, in comments and pages only those between backticks.
"""
import collections
import os
import re

# Where a lemma and a definition, or a name of the library, would fall together.
LEMMAS = {
    "block-length": "block_length_lem",
    "code-number": "code_number_lem",
    "floor-of": "floor_of_lem",
    "level-of": "level_of_lem",
    "noted-all": "noted_all_lem",
    "noted-by": "noted_by_lem",
    "past-bar": "past_bar_lem",
    "places-from": "places_from_lem",
    "sample-position": "sample_position_lem",
    "slew-input": "slew_input_lem",
    "nan-bits": "nan_bits_lem",
    "of-int": "of_int_lem",
    "row-of": "row_of_lem",
}
# port.py gave the lemma of `allPlain` the name that is the definition's now.
BESIDE = {"allPlain": ("all_plain", "all_plain_lem")}

TOKEN = re.compile(r"[^\s(){}\[\],;.\"`|]+")
STRING = re.compile(r'b?"(?:[^"\\]|\\.)*"')
COMMENT = {".antt": re.compile(r"(?m)(?:^|(?<=\s))--(?=\s|$).*"), ".rt": re.compile(r"//.*")}
SIGNATURE = re.compile(r"(?m)^\s*(?:abbrev |unfoldable )?(?:pub )?(?:abbrev |unfoldable )?([^\s(){}:]+(?: [^\s(){}:]+)*) :(?: |$)")


def files(*endings):
    for folder, inner, names in os.walk("crates"):
        inner[:] = sorted(x for x in inner if x != "out")
        for name in sorted(names):
            if name.endswith(endings):
                yield os.path.join(folder, name)


def read(path):
    with open(path, encoding="utf-8") as f:
        return f.read()


def spelled(name):
    if name in LEMMAS:
        return LEMMAS[name]
    if re.match(r"[a-z]", name):
        name = re.sub(r"(?<=[a-z0-9])([A-Z])(?![A-Z])", lambda m: "_" + m.group(1).lower(), name)
        name = re.sub(r"(?<=[\w'])-(?=\w)", "_", name)
    return name


def own_names():
    crates = set(os.listdir("crates"))
    library, declared = set(), set()
    for path in files(".antt"):
        text = COMMENT[".antt"].sub(" ", read(path))
        for m in re.finditer(r"(?m)^use ([^\s{}]+)\.\{([^}]*)\}", text):
            parts = m.group(1).split(".")
            if not (parts[0] == "Rattle" and parts[1] in crates):
                library |= {n.split(" as ")[0].strip() for n in m.group(2).split(",")}
        for m in SIGNATURE.finditer(text):
            declared |= set(m.group(1).split())
    return {n: spelled(n) for n in declared if (n in LEMMAS or n not in library) and spelled(n) != n}


def renamed(text, names, walked):
    """The names of a text that is no string and no comment. In a proof that walks the code (walked), what hangs on `c` or
    `tie` is a name of the code."""
    def one(m):
        if walked:
            before = re.search(r"([^\s(){}\[\],;\"`|]*)\.$", text[: m.start()])
            if before and before.group(1).split(".")[0] in ("c", "tie"):
                return m.group()
        return names.get(m.group(), m.group())

    return TOKEN.sub(one, text)


def in_backticks(text, names):
    return re.sub(r"`([^`\n]*)`", lambda m: "`" + TOKEN.sub(lambda t: names.get(t.group(), t.group()), m.group(1)) + "`", text)


def turned(text, names, comment, walked=False):
    """Strings as they are, comments between backticks, the rest by name."""
    marks = sorted([(m.start(), m.end(), "string") for m in STRING.finditer(text)] + [(m.start(), m.end(), "comment") for m in comment.finditer(text)])
    out, at = [], 0
    for start, end, kind in marks:
        if start < at:
            continue
        out.append(renamed(text[at:start], names, walked))
        out.append(text[start:end] if kind == "string" else in_backticks(text[start:end], names))
        at = end
    out.append(renamed(text[at:], names, walked))
    return "".join(out)


def edit(text, names):
    out, comment = [], COMMENT[".antt"]
    for line in text.split("\n"):
        if re.match(r"(old|new):", line):
            out.append(turned(line, names, comment))
        else:
            out.append(in_backticks(line, names))
    return "\n".join(out)


def write(path, old, new):
    if old != new:
        with open(path, "w", encoding="utf-8") as f:
            f.write(new)


def main():
    names = own_names()
    for path in files(".antt"):
        text = read(path)
        here = dict(names)
        for beside, (old, new) in BESIDE.items():
            if re.search(rf"(?<![\w'-]){beside}(?![\w'-])", text):
                here[old] = new
        write(path, text, turned(text, here, COMMENT[".antt"], path.endswith("/Proof.antt")))
    for path in files(".rt"):
        text = read(path)
        write(path, text, turned(text, names, COMMENT[".rt"]))
    for path in files(".edit"):
        text = read(path)
        write(path, text, edit(text, names))
    pages = ["README.md", "CONTRIBUTING.md"] + sorted("docs/" + n for n in os.listdir("docs") if n.endswith(".md"))
    for path in pages:
        text = read(path)
        write(path, text, in_backticks(text, names))
    print(f"{len(names)} names spelled anew")


if __name__ == "__main__":
    main()
