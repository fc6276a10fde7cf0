#!/usr/bin/env python3
"""Carries the must-fail edits of a commit over to the sources as they are now.

usage: tools/turn_edits.py [COMMIT]        at the top of the repository. COMMIT is one in which every edit fits the sources beside
                                           it; without it the first line of docs/PORT.md, the last commit in the older spelling

An edit replaces a piece of a line, `old:`, which stands once in its file, by another, `new:`. The lines of each file of COMMIT
are laid beside those of today; from the pairs a dictionary of tokens is learned, each token by what most lines have for it.
A piece is turned by the dictionary and by the rules of today's form (a projection is written tight, a clause has no brackets
and no λ). It counts as turned where that gives today's line for the whole of the old line; where the line has changed by more,
the edit is named, to be mended by hand. An import is turned by its names: those that an edit adds come from where today's files
take them. The notes of an edit keep their words, and what stands between backticks is turned by the dictionary.

A run from the older spelling knows nothing of what was mended by hand after it: to carry the edits on once more, give the last
commit in which all of them fit.

An edit that fits the sources of today as it stands, and whose new text the dictionary leaves alone, keeps its text.
`--words` prints the dictionary of the repository's own names instead; `--pages` turns the names between backticks in the pages.
"""
import collections
import difflib
import os
import re
import subprocess
import sys

TOKEN = re.compile(r'b?"(?:[^"\\]|\\.)*"|[^\s(){}\[\],;.\"`|]+|[(){}\[\],;.`|]|\s+|.')
WORD = re.compile(r"[^\s(){}\[\],;.\"`|]+")
SIGNATURE = re.compile(r"(?m)^\s*(?:abbrev |unfoldable )?(?:pub )?(?:abbrev |unfoldable )?([^\s(){}:]+(?: [^\s(){}:]+)*) :(?: |$)")
# Where the library has what an edit alone takes from it.
LIBRARY = {name: "Rattle.std.specs.Prelude" for name in ("◌/◌", "leb", "ltb", "eqb", "cond", "true", "false")}
LIBRARY |= {name: "Rattle.std.specs.Float.Ieee" for name in ("eq", "rem", "neg")}
IMPORT = re.compile(r"^(?:pub )?(?:ghost )?(?:pub )?use ([^\s{};]+)\.\{([^}]*)\}")


def git(*words):
    return subprocess.run(["git", *words], check=True, capture_output=True, text=True).stdout


def files_of(commit):
    """The .rt, .antt and .edit files of a commit."""
    names = [n for n in git("ls-tree", "-r", "--name-only", commit, "crates").split("\n") if n.endswith((".rt", ".antt", ".edit"))]
    feed = "".join(f"{commit}:{n}\n" for n in names).encode()
    out = subprocess.run(["git", "cat-file", "--batch"], input=feed, check=True, capture_output=True).stdout
    found, at = {}, 0
    for n in names:
        end = out.index(b"\n", at)
        size = int(out[at:end].split()[-1])
        found[n] = out[end + 1 : end + 1 + size].decode()
        at = end + 2 + size
    return found


def files_now():
    found = {}
    for folder, inner, names in os.walk("crates"):
        inner[:] = sorted(x for x in inner if x != "out")
        for name in sorted(names):
            if name.endswith((".rt", ".antt")):
                path = os.path.join(folder, name)
                with open(path, encoding="utf-8") as f:
                    found[path] = f.read()
    return found


def key(line):
    """A line with what the two spellings have in common."""
    return re.sub(r"[\s_\-·.(){}⌜⌝◌;,«»]", "", line).casefold()


def beside(old, new):
    """Pairs of lines that stand for each other, by their numbers."""
    a, b = [key(x) for x in old], [key(x) for x in new]
    pairs = {}
    for kind, i, j, k, l in difflib.SequenceMatcher(None, a, b, autojunk=False).get_opcodes():
        if kind == "equal":
            pairs.update(zip(range(i, j), range(k, l)))
        elif kind == "replace" and (j - i) * (l - k) < 40000:
            start = k
            for n in range(i, j):
                best = max(((difflib.SequenceMatcher(None, a[n], b[m], autojunk=False).ratio(), -m) for m in range(start, l)), default=(0, 0))
                if best[0] > 0.6:
                    pairs[n] = -best[1]
                    start = -best[1] + 1
    return pairs


def words(line):
    return WORD.findall(line)


class Sources:
    """The sources of the commit and those of today, with the lines that stand for each other and the dictionary."""

    def __init__(self, commit):
        self.old, self.new = files_of(commit), files_now()
        self.pairs, votes, walked = {}, collections.defaultdict(collections.Counter), collections.defaultdict(collections.Counter)
        for path, text in self.old.items():
            if path.endswith(".edit") or path not in self.new:
                continue
            a, b = text.split("\n"), self.new[path].split("\n")
            self.pairs[path] = beside(a, b)
            for i, j in self.pairs[path].items():
                if IMPORT.match(a[i]) or IMPORT.match(b[j]):
                    continue
                x, y = words(a[i]), words(b[j])
                if len(x) == len(y):
                    for s, t in zip(x, y):
                        if key(s) == key(t) or len(x) > 2:
                            (walked if path.endswith("/Proof.antt") else votes)[s][t] += 3 if key(s) == key(t) else 1
        self.dictionary = {s: c.most_common(1)[0][0] for s, c in [*walked.items(), *votes.items()]}
        self.places = {"proofs": collections.defaultdict(collections.Counter), "specs": collections.defaultdict(collections.Counter)}
        for path, text in self.new.items():
            for line in text.split("\n"):
                m = IMPORT.match(line)
                if m:
                    for n in names_in(m.group(2)):
                        self.places[part(path)][n][m.group(1)] += 1
        for path, text in self.old.items():
            for line in text.split("\n") if not path.endswith(".edit") else []:
                m = IMPORT.match(line)
                if m:
                    for n in names_in(m.group(2)):
                        hole = re.sub(r"(?<![^_])_|_(?![^_])", "◌", n) if re.search(r"[^\w_]", n) and "_" in n else n
                        if n not in self.dictionary and hole != n:
                            self.dictionary[n] = hole

    def word(self, w):
        return self.dictionary.get(w, w)

    def own(self):
        declared = set()
        for path, text in self.old.items():
            if path.endswith(".antt") and not path.endswith("/Proof.antt"):
                for m in SIGNATURE.finditer(re.sub(r"(?m)(?:^|(?<=\s))--(?=\s|$).*", " ", text)):
                    declared |= set(m.group(1).split())
        return {n: self.dictionary[n] for n in declared if self.dictionary.get(n, n) != n}


def part(path):
    """What the imports of a file look like: the code's clauses cite what definitions do."""
    return "proofs" if "/proofs/" in path else "specs"


def names_in(text):
    return [n.strip() for n in text.split(",") if n.strip()]


# ---- the form of today
def clause(text):
    """`ensures { λ r. ⌜ r ≡ x ⌝ }` is `ensures { result ≡ x }`."""
    m = re.match(r"(\s*(?:requires|ensures|invariant|decreases)\b[^{]*\{ )(?:λ (\w+)\. )?(.*)", text)
    if m:
        body = m.group(3)
        if m.group(2):
            body = re.sub(rf"(?<![\w'.-]){m.group(2)}(?![\w'-])", "result", body)
        text = m.group(1) + body
    return text.replace("⌜ ", "").replace(" ⌝", "")


BREAKS = re.compile(r"^(?:[=→λ∀:≡×⊎↔+\-*/^%<>≤≥∷&|∙⊕⊖⊗⊘¬]+.*|in|let|where|rw|simp|at|unfold|unfolding|record|search|case)$")


def tight(text):
    """`f x .p` is `(f x).p`, and `(x .p)` is `x.p`."""
    tokens = [t for t in TOKEN.findall(text)]

    def parse(i, close):
        out, spine = [], []          # a spine: atoms of one application, in text form with blanks between

        def flush():
            out.extend(spine)
            spine.clear()

        while i < len(tokens):
            t = tokens[i]
            if t == close:
                break
            if t.isspace():
                if i + 1 < len(tokens) and tokens[i + 1] == "." and i + 2 < len(tokens) and WORD.fullmatch(tokens[i + 2]) and spine:
                    field = tokens[i + 2]
                    atoms = [s for s in spine if not s.isspace()]
                    head = spine[0] if len(atoms) == 1 else "(" + "".join(spine).strip() + ")"
                    spine[:] = [head + "." + field]
                    i += 3
                    continue
                spine.append(t) if spine else out.append(t)
                i += 1
                continue
            if t in "([{" and len(t) == 1:
                inner, j = parse(i + 1, {"(": ")", "[": "]", "{": "}"}[t])
                end = tokens[j] if j < len(tokens) else ""
                body = "".join(inner)
                if t == "(" and end == ")" and re.fullmatch(r"[^\s(){}\[\],;\"`|]+", body) and "." in body:
                    spine.append(body)
                else:
                    spine.append(t + body + end)
                i = j + 1
                continue
            if t in ",;|`)]}" or BREAKS.match(t):
                flush()
                out.append(t)
                i += 1
                continue
            if t == ".":
                if spine and not spine[-1].isspace():
                    spine[-1] += t
                    if i + 1 < len(tokens) and WORD.fullmatch(tokens[i + 1]):
                        spine[-1] += tokens[i + 1]
                        i += 1
                    else:
                        flush()
                else:
                    flush()
                    out.append(t)
                i += 1
                continue
            spine.append(t)
            i += 1
        flush()
        return out, i

    out, i = parse(0, None)
    return "".join(out) + "".join(tokens[i:])


def form(text, ghost):
    return tight(clause(text)) if ghost else text


def is_clause(line):
    return bool(re.match(r"\s*(?:requires|ensures|invariant|decreases|ghost)\b", line))


class Turner:
    def __init__(self, sources):
        self.s = sources

    def text(self, text, ghost):
        if not ghost:
            return text
        turned = "".join(t if t.startswith(('"', 'b"')) else self.s.word(t) if WORD.fullmatch(t) else t for t in TOKEN.findall(text))
        return form(turned, ghost)

    def notes(self, line):
        own = self.own
        return re.sub(r"`([^`\n]*)`", lambda m: "`" + WORD.sub(lambda t: own.get(t.group(), t.group()), m.group(1)) + "`", line)

    def edit(self, path):
        """The edit in today's spelling, and what is left to do by hand."""
        crate = path.split("/")[1]
        left, out = [], []
        before, today, file, old = {}, {}, None, None
        for line in self.s.old[path].split("\n"):
            if line.startswith("file: "):
                file = f"crates/{crate}/{line[6:]}"
                if file not in before:
                    before[file] = self.s.old[file]
                    today[file] = self.s.new.get(file)
                out.append(line)
            elif line.startswith("old: "):
                old = line[5:]
            elif line.startswith("new:"):
                new = line[5:]
                for o, n in self.pair(file, old, new, before, today, left):
                    out += ["old: " + o, ("new: " + n).rstrip() if not n.strip() else "new: " + n]
                    if today[file] is not None:
                        if today[file].count(o) != 1:
                            left.append(f"{file}: `{o}` stands {today[file].count(o)} times")
                        today[file] = today[file].replace(o, n, 1)
                before[file] = before[file].replace(old, new, 1)
            else:
                out.append(self.notes(line))
        clean = []
        for n, line in enumerate(out):      # a file with no pair left
            if line.startswith("file: ") and (n + 1 == len(out) or not out[n + 1].startswith("old: ")) and not any(x.startswith("old: ") for x in out[n + 1 : n + 3]):
                continue
            clean.append(line)
        return "\n".join(clean), left

    def pair(self, file, old, new, before, today, left):
        text = before[file]
        if text.count(old) != 1:
            left.append(f"{file}: `{old}` stood {text.count(old)} times")
            return [(old, new)]
        if today[file] is None:
            left.append(f"{file} is gone")
            return [(self.text(old, True), self.text(new, True))]
        at = text.index(old)
        start = text.rindex("\n", 0, at) + 1 if "\n" in text[:at] else 0
        end = text.find("\n", at) if "\n" in text[at:] else len(text)
        line, head, tail = text[start:end], text[start:at], text[at + len(old) : end]
        m = IMPORT.match(line)
        ghost = file.endswith(".antt") or is_clause(line)
        if m and (file.endswith(".antt") or "ghost" in line):
            return self.imports(file, m, head + new + tail, today, left)
        if file.endswith(".antt") and line.startswith("--"):
            added = IMPORT.match(new)
            if added:
                return self.imports(file, None, new, today, left)
        if today[file].count(old) == 1 and self.text(line, ghost) == line:
            return [(old, self.text(new, ghost))]
        # today's line for it
        turned = self.text(line, ghost)
        o, n = self.text(old, ghost), self.text(new, ghost)
        lines = today[file].split("\n")
        if turned in lines:
            if today[file].count(o) == 1:
                return [(o, n)]
            if today[file].count(turned) == 1:
                return [(turned, self.text(head + new + tail, ghost))]
        number = self.s.old[file].split("\n").index(line) if line in self.s.old[file].split("\n") else None
        now = self.s.pairs[file].get(number) if number is not None else None
        now = self.s.new[file].split("\n")[now] if now is not None else "?"
        left.append(f"{file}:\n    was    {line}\n    turned {turned}\n    now    {now}")
        return [(o, n)]

    def imports(self, file, m, new, today, left):
        """Pairs that add today's names to today's imports."""
        was = set(names_in(m.group(2))) if m else set()
        fresh = IMPORT.match(new)
        if not fresh:
            left.append(f"{file}: an import, {new}")
            return []
        pairs, text = [], today[file]
        have = {n for line in text.split("\n") for x in [IMPORT.match(line)] if x for n in names_in(x.group(2))}
        wanted = collections.defaultdict(list)
        for n in names_in(fresh.group(2)):
            w = self.s.word(n)
            if n in was or w in have:
                continue
            found = self.s.places[part(file)].get(w) or ({LIBRARY[w]: 1} if w in LIBRARY else None)
            if not found:
                left.append(f"{file}: no file of today imports `{w}` (it was {fresh.group(1)}.{n})")
                continue
            found = sorted(found, key=lambda p: (p.split(".")[-1] != fresh.group(1).split(".")[-1], -found[p]))
            wanted[found[0]].append(w)
        for place, names in wanted.items():
            for line in text.split("\n"):
                x = IMPORT.match(line)
                if x and x.group(1) == place:
                    o = x.group(0)[: x.start(2)]
                    pairs.append((o, o + "".join(n + "," for n in names)))
                    break
            else:
                use = "use " + place + ".{" + ", ".join(names) + "}"
                if file.endswith(".rt"):
                    first = next(l for l in text.split("\n") if l.startswith("ghost use "))
                    pairs.append((first, "ghost " + use + "; " + first))
                else:
                    first = next(l for l in text.split("\n") if l.startswith("--"))
                    pairs.append((first, use))
            for o, n in pairs[-1:]:
                text = text.replace(o, n, 1)
        return pairs


def main():
    words_only = "--words" in sys.argv
    arguments = [a for a in sys.argv[1:] if not a.startswith("--")]
    if arguments:
        commit = arguments[0]
    else:
        with open("docs/PORT.md", encoding="utf-8") as f:
            commit = f.readline().strip()
    sources = Sources(commit)
    turner = Turner(sources)
    turner.own = sources.own()
    if words_only:
        for a, b in sorted(turner.own.items()):
            print(a, b)
        return
    if "--pages" in sys.argv:
        for path in ["README.md", "CONTRIBUTING.md"] + sorted("docs/" + n for n in os.listdir("docs") if n.endswith(".md") and n != "PORT.md"):
            with open(path, encoding="utf-8") as f:
                text = f.read()
            new = "\n".join(turner.notes(line) for line in text.split("\n"))
            if new != text:
                print(path)
                with open(path, "w", encoding="utf-8") as f:
                    f.write(new)
        return
    kept = turned = 0
    by_hand = {}
    for path in sorted(p for p in sources.old if p.endswith(".edit")):
        text, left = turner.edit(path)
        if text == sources.old[path]:
            kept += 1
        else:
            turned += 1
        if left:
            by_hand[path] = left
        with open(path, "w", encoding="utf-8") as f:
            f.write(text)
    for path, left in by_hand.items():
        print(path)
        for l in left:
            print("  " + l)
    print(f"{kept} edits keep their text, {turned} are turned; {len(by_hand)} of them are to be mended by hand")


if __name__ == "__main__":
    main()
