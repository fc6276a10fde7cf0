#!/usr/bin/env python3
"""Turns the proof files that walk the code (Proof.antt) to invariants and answers.

usage: tools/turn_proofs.py CRATE [FUNCTION ..]      at the top of the repository

Takes the proof files of crates/CRATE/proofs/FUNCTION/Proof.antt, asks the check for the old and the new names of goals and
steps, and writes Invariants.antt and Answers.antt beside them; Proof.antt is removed. It goes by text: rt check decides.
"""
import json
import os
import re
import subprocess
import sys
import tempfile

TRIVIAL = re.compile(r"^\(?λ c( κs)?\. search rules\)?$")
# what a negated test says, said of what is negated
NOTS = re.compile(r"(?<![\w-])not-(?:true|false) (?:_|\([^()]*\)|\S+) (c\.if-not-[\w.-]+)")
SPECIAL = {"args", "requires", "ranges", "well-formed", "well_formed", "type-inv", "type_inv", "auto", "lifetimes"}


def norm(s):
    return s.replace("-", "_").replace("·", "_")


def paragraphs(text):
    out, cur = [], []
    for line in text.split("\n"):
        if line.strip() == "":
            if cur:
                out.append("\n".join(cur))
                cur = []
        else:
            cur.append(line)
    if cur:
        out.append("\n".join(cur))
    return out


def split_args(s):
    """Top-level arguments of a call."""
    out, depth, cur = [], 0, ""
    for ch in s:
        if ch in "([{":
            depth += 1
        if ch in ")]}":
            depth -= 1
        if ch.isspace() and depth == 0:
            if cur:
                out.append(cur)
            cur = ""
        else:
            cur += ch
    if cur:
        out.append(cur)
    return out


class Fn:
    def __init__(self, info):
        self.info = info
        self.parent, self.step = {}, {}
        for place, parent, step, callee, more in info["places"]:
            self.parent[place] = parent
            self.step[place] = step
        self.arm = {p[0]: a for p, a in zip(info["places"], info["arms"]) if a}
        self.needs = [tuple(n) for n in info["needs"]]
        self.at = [a[0] for a in info["asked_at"]]

    def up(self, place, k):
        for _ in range(k):
            if self.parent.get(place) is None:
                return place
            place = self.parent[place]
        return place

    def chain(self, place):
        out = []
        while place is not None:
            out.append(place)
            place = self.parent[place]
        return out

    def path(self, place, name, depth, rest):
        """Today's path of a step's field: in an arm, that of the arm."""
        step = self.find(place, name, depth)
        if step is None:
            return None
        old, new = step
        best = None
        for p in self.chain(place):
            if p not in self.arm:
                continue
            arm, _, fields = self.arm[p]
            for field, of, under in fields:
                if of == old and rest[: len(under)] == under and (best is None or len(under) > len(best[1])):
                    best = (f"{arm}.{field}", under)
        if best:
            return ".".join([best[0]] + rest[len(best[1]):])
        return ".".join([new] + rest)

    def find(self, place, name, depth):
        """The old and the new name of a step: at the place so deep, or else at the nearest place above where it has that name."""
        here = self.up(place, depth)
        if norm(self.step[here][0]) == norm(name):
            return self.step[here]
        best = None
        chain = self.chain(place)
        index = min(depth, len(chain) - 1)
        order = sorted(range(len(chain)), key=lambda i: (abs(i - index), i))
        for i in order:
            if norm(self.step[chain[i]][0]) == norm(name):
                return self.step[chain[i]]
        # a number at the end may differ
        for i in order:
            if re.sub(r"\d+$", "", norm(self.step[chain[i]][0])) == re.sub(r"\d+$", "", norm(name)):
                return self.step[chain[i]]
        return best


def body_of(fn, place, text, notes):
    """The paths of c in a text, in today's names."""
    aliases = {"c": 0}
    text = re.sub(r"«([^»]*)»", r"\1", text)
    # lets that only name a place
    def drop(m):
        name, root, befores = m.group(2), m.group(3), m.group(4)
        if root in aliases:
            aliases[name] = aliases[root] + befores.count(".before")
            return m.group(1)
        return m.group(0)

    while True:
        new = re.sub(r"(\s*)let ([\w'₀-₉-]+) = ([\w'₀-₉]+)((?:\.before)*) in(?=\s)", drop, text, count=1)
        if new == text:
            break
        text = new

    def path(m):
        root, befores, name, rest = m.group(1), m.group(2) or "", m.group(3), m.group(4) or ""
        if root not in aliases:
            return m.group(0)
        depth = aliases[root] + befores.count(".before")
        if name is None:
            if depth or root != "c":
                notes.append(f"a place is handed on: {m.group(0)}")
            return "c"
        if name in SPECIAL:
            return "c." + norm(name) + rest
        found = fn.path(place, name, depth, [r for r in rest.split(".") if r])
        if found is None:
            notes.append(f"no step for {m.group(0)}")
            return m.group(0)
        return "c." + found

    return re.sub(r"(?<![\w.'-])([A-Za-z][\w'₀-₉]*)((?:\.before)*)(?:\.([\w'₀-₉-]+))?((?:\.[\w'₀-₉-]+)*)(?![\w'-])", lambda m: path(m) if (m.group(1) in aliases and (m.group(2) or m.group(3) or m.group(1) != "c" or True)) else m.group(0), text)


def loop_body(fn, index, params, text):
    (old, new), names = fn.info["loops"][index]
    changed = fn.info["changed"][index]
    where = []
    for v, ch in zip(names, changed):
        where.append(("l.initial." if ch else "l.") + v)
    where += ["l." + v for v, ch in zip(names, changed) if ch]
    table = dict(zip(params, where))
    if len(params) != len(where):
        table["?"] = f"{len(params)} parameters for {len(where)} variables"
    body = re.sub(r"(?<![\w.'-])([A-Za-z_][\w'₀-₉-]*)(?![\w'-])", lambda m: table.get(m.group(1), m.group(1)) if m.group(1) != "_" else "_", text)
    return body, table.get("?")


def imports_used(lines, text):
    out = []
    for line in lines:
        m = re.match(r"use ([^\s{}]+)\.\{(.*)\}$", line)
        if not m:
            out.append(line)
            continue
        keep = []
        for n in m.group(2).split(","):
            n = n.strip()
            word = n.split(" as ")[-1]
            probe = word.strip("◌")
            if "◌" in word:
                ok = all(part in text for part in word.split("◌") if part)
            else:
                ok = re.search(rf"(?<![\w'-]){re.escape(probe)}(?![\w'-])", text) is not None
            if ok:
                keep.append(n)
        if keep:
            out.append(f"use {m.group(1)}.{{{', '.join(keep)}}}")
    return out


def turn(crate, fn_name, path, info):
    fn = Fn(info)
    text = open(path, encoding="utf-8").read().rstrip("\n")
    paras = paragraphs(text)
    head_comment, imports = [], []
    invariants, answers, helpers, notes = [], {}, [], []
    unfolding_of_spec = None
    used_names = {}  # local name of an answer -> need old name
    spec_args = None
    order = []
    for para in paras:
        lines = para.split("\n")
        if lines[0].startswith("use ") or (lines[0].startswith("--") and any(l.startswith("use ") for l in lines)):
            for l in lines:
                (imports if l.startswith("use ") else head_comment).append(l)
            continue
        comment = []
        while lines and lines[0].startswith("--"):
            comment.append(lines.pop(0))
        if not lines:
            continue
        sig = lines[0]
        m = re.match(r"(abbrev )?(pub )?(\S+) : tie\.(\S+)(.*)$", sig)
        if m and m.group(4).startswith(("invariant-", "decreases-")):
            kind, loop = m.group(4).split("-", 1)
            body = "\n".join(lines[1:])
            d = re.match(rf"\s*{re.escape(m.group(3))}((?:\s+[\w'₀-₉_-]+)*)\s*=(.*)$", body, re.S)
            params = d.group(1).split()
            index = next(i for i, l in enumerate(info["loops"]) if norm(l[0][0]) == norm(loop))
            new_loop = info["loops"][index][0][1]
            b, odd = loop_body(fn, index, params, d.group(2))
            if odd:
                notes.append(odd)
            name = f"{kind}-{new_loop}"
            invariants.append("\n".join(comment + [f"abbrev pub {name} : goal.{name}", f"{name} l ={b}"]))
            continue
        if m and m.group(4).startswith("Need-"):
            used_names[m.group(3)] = m.group(4)[5:]
            answers[m.group(4)[5:]] = (comment, lines[1:], m.group(3))
            order.append(m.group(4)[5:])
            continue
        if re.search(r"statement M", sig):
            rest = lines[1:]
            unf = None
            if rest and rest[0].startswith("unfolding "):
                unf = rest.pop(0)
            unfolding_of_spec = unf
            whole = " ".join(rest)
            k = whole.index("tie.spec") + len("tie.spec")
            inner = whole[k:].strip()
            # cut at the closing parenthesis of (tie.spec ..)
            depth, end = 0, len(inner)
            for i, ch in enumerate(inner):
                if ch in "([{":
                    depth += 1
                elif ch in ")]}":
                    depth -= 1
                    if depth < 0:
                        end = i
                        break
            tail = inner[end + 1:].strip()
            if tail:
                helpers.append("-- after the walk: " + tail)
                notes.append("something follows the walk: " + tail[:80])
            spec_args = split_args(inner[:end])
            continue
        helpers.append("\n".join(comment + lines))

    needs = fn.needs
    nloops = len(info["loops"])
    args = [a for a in (spec_args or [])]
    # leading invariants and measures
    lead = 0
    while lead < len(args) and re.match(r"^(invariant|decreases)", args[lead]):
        lead += 1
    args = args[lead:]
    result = []
    by_old = {}
    index_of_old = {norm(n): i for i, (o, n) in enumerate(needs)} | {norm(o): i for i, (o, n) in enumerate(needs)}
    # align the arguments with the needs
    assigned = {}
    pos = []
    for a in args:
        if a in used_names:
            pos.append(index_of_old.get(norm(used_names[a])))
        else:
            pos.append(None)
    if len(args) == len(needs):
        pos = [i if p is None else p for i, p in enumerate(pos)]
    else:
        # between anchors of the same distance, one by one
        anchors = [(-1, -1)] + [(i, p) for i, p in enumerate(pos) if p is not None] + [(len(args), len(needs))]
        for (i0, p0), (i1, p1) in zip(anchors, anchors[1:]):
            gap_a, gap_n = i1 - i0 - 1, p1 - p0 - 1
            for k in range(gap_a):
                if gap_a == gap_n:
                    pos[i0 + 1 + k] = p0 + 1 + k
                elif i1 == len(args):
                    # the last ones
                    q = len(needs) - (gap_a - k)
                    if q > p0:
                        pos[i0 + 1 + k] = q
                elif not TRIVIAL.match(args[i0 + 1 + k]):
                    # a count from the right
                    q = p1 - (gap_a - k)
                    if q > p0:
                        pos[i0 + 1 + k] = q
                        notes.append(f"a guess: {args[i0 + 1 + k][:60]} answers {needs[q][1]}")
    for a, p in zip(args, pos):
        if a in used_names:
            continue
        if TRIVIAL.match(a) and not unfolding_of_spec:
            continue
        if p is None:
            if not TRIVIAL.match(a):
                notes.append(f"not placed: {a[:100]}")
            continue
        m = re.match(r"^\(λ ([\w κ]+)\.(.*)\)$", a, re.S)
        if not m:
            notes.append(f"not read: {a[:100]}")
            continue
        old, new = needs[p]
        body = m.group(2).strip()
        body = body_of(fn, fn.at[p], body, notes)
        ls = [f"pub {new} : goal.{new}"]
        if unfolding_of_spec:
            ls.append(unfolding_of_spec)
        ls.append(f"{new} c = {body}")
        result.append((p, NOTS.sub(r"\1", "\n".join(ls))))
    gone = []
    for old in order:
        comment, lines, local = answers[old]
        i = index_of_old.get(norm(old))
        if i is None:
            gone.append(old)
            notes.append(f"no goal today for {old}")
            helpers.append("\n".join("-- gone: " + l for l in lines))
            continue
        new = needs[i][1]
        ls = list(comment) + [f"pub {new} : goal.{new}"]
        rest = list(lines)
        if rest and rest[0].strip().startswith("unfolding "):
            ls.append(rest.pop(0))
        body = "\n".join(rest)
        body = re.sub(rf"^(\s*){re.escape(local)}((?: c)?)( κs)?(?=\s)", rf"\1{new}\2", body)
        # other clauses of the same answer
        lhs, _, rhs = body.partition("=")
        rhs = re.sub(r"^\n(?:[ ]*\n)+", "\n", body_of(fn, fn.at[i], rhs, notes))
        ls.append(lhs + "=" + rhs)
        result.append((i, NOTS.sub(r"\1", "\n".join(ls))))
    result.sort(key=lambda r: r[0])
    folder = os.path.dirname(path)
    head = "\n".join(head_comment)
    base = [l for l in imports if not re.search(r"\.(Statement|Tie)(\.\{.*\})?( as tie)?$", l)]
    made = []
    if invariants:
        body = "\n\n".join(invariants)
        use = imports_used(base, body) + [f"use Rattle.{crate}.proofs.{fn_name}.Given as goal"]
        made.append(("Invariants.antt", "\n".join(([head] if head else []) + use) + "\n\n" + body + "\n"))
    if result or helpers:
        body = "\n\n".join(helpers + [r[1] for r in result])
        use = imports_used(base, body) + [f"use Rattle.{crate}.proofs.{fn_name}.Goals as goal"]
        made.append(("Answers.antt", "\n".join(([head] if head and not invariants else []) + use) + "\n\n" + body + "\n"))
    for name, content in made:
        with open(os.path.join(folder, name), "w", encoding="utf-8") as f:
            f.write(content)
    os.remove(path)
    if not made:
        try:
            os.rmdir(folder)
        except OSError:
            pass
    for n in notes:
        print(f"{crate}/{fn_name}: {n}")


def attribute(crate):
    for root in ("lib.rt", "main.rt"):
        path = f"crates/{crate}/src/{root}"
        if os.path.exists(path):
            text = open(path, encoding="utf-8").read()
            if "#![tactic(auto" not in text:
                lines = text.split("\n")
                k = 0
                while k < len(lines) and lines[k].startswith("//"):
                    k += 1
                lines[k:k] = ["#![tactic(auto)]", ""]
                open(path, "w", encoding="utf-8").write("\n".join(lines))


def main():
    crate, only = sys.argv[1], sys.argv[2:]
    root = f"crates/{crate}"
    attribute(crate)
    old = {}
    for folder, inner, names in os.walk(f"{root}/proofs"):
        if "Proof.antt" in names:
            fn = os.path.relpath(folder, f"{root}/proofs")
            if not only or fn in only:
                old[fn] = os.path.join(folder, "Proof.antt")
    if not old:
        return
    with tempfile.TemporaryDirectory() as d:
        said = subprocess.run(["rt", "check", "--generated", d, "--old-names"], cwd=root, capture_output=True, text=True)
        try:
            info = json.load(open(os.path.join(d, "names.json")))
        except FileNotFoundError:
            sys.exit(f"{crate}: the check wrote no names: {(said.stdout + said.stderr)[-2000:]}")
    for fn, path in sorted(old.items()):
        key = f"Rattle-{crate}-proofs.{fn.replace('/', '.')}.Lts"
        if key not in info:
            near = [k for k in info if k.endswith("." + fn.split("/")[-1] + ".Lts")]
            if len(near) == 1:
                key = near[0]
        if key not in info:
            print(f"{crate}/{fn}: no names")
            continue
        try:
            turn(crate, fn.replace("/", "."), path, info[key])
        except Exception as e:  # left as it is, by hand
            print(f"{crate}/{fn}: {type(e).__name__} {e}")


main()
