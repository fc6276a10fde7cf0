#!/usr/bin/env python3
"""Counts the places where the code still has an older language's form, point by point.

usage: tools/places.py N [--list]        at the top of the repository; N is 1 to 8

Points 1 to 7 read crates/*/src/*.rt, point 8 crates/*/proofs/**/*.antt. Each rule prints its count, with --list after the places themselves; the last line is
the sum. A rule is a search over the text, as rt fmt lays it out, or a list of places that were judged by reading, which tools/places.txt has. A judged place
counts as long as its crate declares the function, which answers neither an Option nor a Result. What `extern "C"` and #[repr(C)] fix, the C interface, is no place.
"""
import collections
import glob
import re
import sys

NUMBERS = {"u8", "u16", "u32", "u64", "usize", "f32"}
WORDS = set("let mut while if else return match for in as true false self break TEXT NUMBER".split())

Function = collections.namedtuple("Function", "key name place params answer contract body")
Type = collections.namedtuple("Type", "key name place kind lines")
Place = collections.namedtuple("Place", "rule where what")


def read_judged():
    sections = {}
    for line in open(f"{sys.path[0]}/places.txt", encoding="utf-8"):
        line = line.strip()
        if line.startswith("["):
            section = sections.setdefault(line[1:-1], {})
        elif line and not line.startswith("#"):
            section[line.split(": ")[0] if re.match(r"\w+/", line) else line] = line.partition(": ")[2]
    return sections


def sources():
    for path in sorted(glob.glob("crates/*/src/*.rt")):
        yield path.split("/")[1], path[len("crates/"):], open(path, encoding="utf-8").read().split("\n")


def code(lines):
    return [line.strip() for line in lines if line.strip() and not line.strip().startswith("//")]


def read_functions():
    """Each `fn` but the `extern "C" fn`: its body begins after a line that ends in `{`, and ends with a `}` as far in as the `fn` is."""
    for crate, path, lines in sources():
        for i, line in enumerate(lines):
            head = re.match(r"( *)(?:pub(?:\(\w+\))? )?(?:const )?fn (\w+)", line)
            # one with no body ends in `;` or `{}`
            start = next((j for j in range(i, len(lines)) if lines[j].endswith(("{", ";", "{}"))), i)
            if head and lines[start].endswith("{"):
                contract = [c for c in lines[i:start] if re.match(r"\s*(requires|ensures)\b", c)]
                signature = re.sub(r"\s+", " ", " ".join(c for c in lines[i:start + 1] if c not in contract)).rstrip("{ ")
                params, answer = re.search(r"fn \w+(?:<.*?>)?\((.*)\)(?: -> (.*))?$|$", signature).groups(default="")
                params = [p.strip() for p in re.split(r",(?![^\[(<]*[\])>])", params) if p.strip()]
                body = code(lines[start + 1:lines.index(head[1] + "}", start)])
                yield Function(f"{crate}/{head[2]}", head[2], f"{path}:{i + 1}", params, answer, contract, body)


def read_types():
    for crate, path, lines in sources():
        for i, line in enumerate(lines):
            head = re.match(r"(?:pub )?(enum|struct) (\w+).*\{$", line)
            if head and "#[repr(C)]" not in lines[max(i - 3, 0):i]:
                yield Type(f"{crate}/{head[2]}", head[2], f"{path}:{i + 1}", head[1], code(lines[i + 1:lines.index("}", i)]))


def search(rule, test=lambda f: False, param=""):
    """The functions that pass a test, have a parameter or were judged. `io::Result` is of the input and the output, and no answer of the function's own."""
    wanted, but = JUDGED.get(rule, {}), JUDGED.get(f"{rule}, not", {})
    for f in FUNCTIONS:
        if f.key in wanted and not re.search(r"(?<!io::)\b(Option|Result)<", f.answer):
            yield Place(rule, f.place, f"{f.name} {wanted[f.key]}".strip())
        elif f.key not in but and (test(f) or any(re.fullmatch(param, p) for p in f.params)):
            yield Place(rule, f.place, f.name)


def point_1():
    places = []
    for t in TYPES:
        # a variant Refused(..), or two variants of which at most one has a value and one is named for its lack
        lack = any(re.match(r"(Not|No|None|Wrong|Above|Other|Accepted)", v) for v in t.lines)
        valued = sum("(" in v or "{" in v for v in t.lines)
        if t.kind == "enum" and (any(v.startswith("Refused(") for v in t.lines) or (len(t.lines) == 2 and valued <= 1 and lack)):
            places.append(Place("enums of the shape of Option or Result", t.place, t.name))
        # a bool or a refusal among the fields
        flags = " ".join(v for v in t.lines if re.search(r": (bool|Answer|Refusal),", v))
        if t.kind == "struct" and flags and t.key not in JUDGED["structs of a value and a flag, not"]:
            places.append(Place("structs of a value and a flag", t.place, f"{t.name} {flags}"))
    places += search("functions that answer or take a sentinel")
    places += search("numbers of a segment, a panel or a code", param="(k|number|caption|code): u8")
    places += search("codes and turns as numbers", param="(code|turns): u32")
    # constants that number the cases of a kind
    constant = r"(pub )?const ((ATTACK|DECAY|SUSTAIN|RELEASE|NO_CAPTION): u8|(GATES|TAPS): u64)"
    return places + [Place("constants for kinds", f"{path}:{i + 1}", line) for _, path, lines in sources() for i, line in enumerate(lines) if re.match(constant, line)]


def normal_form(body):
    """A body with each name, number, text and type replaced: a name by when it is first used."""
    text = re.sub(r'b?"(?:[^"\\]|\\.)*"', "TEXT", " ".join(body))
    text = re.sub(r"b'[^']*'|\b\d[\w.]*", "0", text)
    text = re.sub(r"\b(u8|u16|u32|u64|usize|f32|bool)\b", "NUMBER", text)
    seen = {}
    text = re.sub(r"[A-Za-z_]\w*(::\w+)*", lambda m: m[0] if m[0] in WORDS else seen.setdefault(m[0], f"x{len(seen)}"), text)
    return re.sub(r",? *([()\[\]]) *", r"\1", text)


def point_2():
    rule, groups = "functions and types of one form, beyond the first", collections.defaultdict(list)
    for f in FUNCTIONS:
        # of three lines or more, and not a lone call
        lone = re.match(r"[\w:]+\( [^;]*\)$", re.sub(r'"(?:[^"\\]|\\.)*"', "", " ".join(f.body)))
        if len(f.body) >= 3 and not lone and f.key not in JUDGED["functions and types of one form, not"]:
            groups[normal_form(f.body)].append(f)
    for t in TYPES:
        # enums of two variants by how many have a value; structs of an array and a count, or of a value and an answer
        valued = sum("(" in v for v in t.lines)
        if len(t.lines) == 2 and t.kind == "enum" and valued:
            groups[f"{valued} of two"].append(t)
        if len(t.lines) == 2 and t.kind == "struct" and re.search("count: usize|answer: Answer", " ".join(t.lines)):
            groups[f"count: {'count' in t.lines[1]}"].append(t)
    places = [Place(rule, f.place, f"{f.name} as {same[0].key}") for same in groups.values() for f in same[1:]]
    return places + [p for p in search("twins by reading, beyond the first") if p.where not in {q.where for q in places}]


def point_3():
    places = []
    for _, path, lines in sources():
        for i, line in enumerate(lines):
            loop = re.match(r"( *)while (.*) \{$", line)
            # the body changes by one what the condition tests
            if loop and any(re.match(rf"\s*{name} [+-]= 1;", b) for name in re.findall(r"[a-z_]\w*", loop[2]) for b in lines[i:lines.index(loop[1] + "}", i)]):
                places.append(Place("loops that count by hand", f"{path}:{i + 1}", line.strip()))
    # an array at three or more places that are written out
    indexed = {f.key: collections.Counter(name for name, _ in set(re.findall(r"\b([\w.]+)\[(\d+)\]", " ".join(f.body)))) for f in FUNCTIONS}
    return [*places, *search("steps that are written out", lambda f: any(n >= 3 for n in indexed[f.key].values()))]


def point_4():
    # one match from an enum to a number, or back
    def converts(f):
        matches = len(f.params) == 1 and re.match("match .*}$", " ".join(f.body))
        return matches and (f.params[0].split(": ")[-1] in NUMBERS) != (f.answer in NUMBERS)
    # a word of a table, or digits
    tests = {"conversion by hand": converts, "printing by hand": lambda f: re.search(r"\bput_word\(|\bput_digits\(|\b(48|55|87) \+", " ".join(f.body))}
    rules = [rule for rule in JUDGED if rule.endswith(" by hand") and not rule.startswith("lists")]
    return [p for rule in rules for p in search(rule, tests.get(rule, lambda f: False))]


def facts(f):
    """The clauses of a contract, with `_` for a parameter as it is at the start."""
    names = [p.split(":")[0] for p in f.params]
    for fact in " × ".join(re.findall(r"(?m)\{ (.*) \}$", "\n".join(f.contract))).split(" × "):
        yield re.sub(r"(?<![\w.])(\w+)(\.old|\.now)?(?!\w)", lambda m: "_" if m[1] in names else m[0], re.sub(r"^\((.*)\)$", r"\1", fact))


def point_5():
    stands = collections.Counter(fact for f in FUNCTIONS for fact in set(facts(f)))
    # what a function answers or writes, and a bound by another parameter, is no fact about a value
    told = r"result ≡|_\.new ≡ (?!length)|Puts|result ≤ _$|Returned|Numbers"
    repeated = {fact for fact, n in stands.items() if n >= 3 and not re.search(told, fact)}
    places = [Place("contracts with a fact of three or more", f.place, f"{f.name} {'; '.join(sorted(repeated & set(facts(f))))}") for f in FUNCTIONS]
    # a pair that three signatures have, or four parameters of one type
    pairs = [set(re.split(r", (?=\w+:)", pair)) for pair in JUDGED["pairs of parameters"]]
    pairs = [pair for pair in pairs if sum(pair <= set(f.params) for f in FUNCTIONS) >= 3]
    for f in FUNCTIONS:
        types = collections.Counter(p.partition(": ")[2] for p in f.params)
        together = [", ".join(p for p in f.params if p in pair) for pair in pairs if pair <= set(f.params)] + [f"{n} of {t}" for t, n in types.items() if n >= 4]
        places.append(Place("signatures with parameters that travel together", f.place, f"{f.name} {'; '.join(together)}"))
    return [p for p in places if p.what.partition(" ")[2]]


def point_6():
    def parallel(f):
        lengths = collections.Counter(re.findall(r"; (MAX_\w+|GATES_DRAWN)\]", " ".join(f.params)))
        return 2 in lengths.values() or {"heights", "captions"} <= {p.split(":")[0] for p in f.params}

    def filled(f):
        buffers = re.findall(r"let mut (\w+) = (?:\[[^;]*; [^\]]*\]|\w+\(\));", " ".join(f.body))
        return any(re.search(rf"\b{b}\[\w*\.\.|&{b}, n\)", " ".join(f.body)) for b in buffers)
    places = [Place("arrays with a count beside them", t.place, t.name) for t in TYPES
              if t.kind == "struct" and re.search(r": \[.*; \w+\],", " ".join(t.lines)) and re.search(r"\b(count|used|failed): ", " ".join(t.lines))]
    places += [*search("parallel arrays", parallel), *search("buffers that are filled in part", filled)]
    # a number among the parameters that a slice is cut at
    places += search("a slice and its count", lambda f: any(f"[..{p[:-7]}]" in " ".join(f.body) for p in f.params if p.endswith(": usize")))
    # functions that only answer zeros
    places += search("rooms of zeros", lambda f: re.fullmatch(r"\[0(\.0)?; \w+\]|zeros\(\)", " ".join(f.body)))
    places += search("lists searched by hand", lambda f: re.search(r"\b(index_of|put_word)\(", " ".join(f.body)))
    # parameters that are given text of our own, as b".."
    return [*places, *search("text of our own as bytes", param=r"(name|label|words|unnamed|start|way|up|follows): &\[u8\]")]


def point_7():
    """A match on a value's own sum, as Shape or Code, is today's form and no place."""
    places = [Place("a kind that chooses a function", t.place, t.name) for t in TYPES if t.name == "Kind"]
    places += search("a kind that chooses a function", param="kind: Kind")
    places += search("a letter that chooses a step", lambda f: re.search(r"b'.'(?: \| b'.')* =>|letter == b'|== (GATES|TAPS)\b", " ".join(f.body)))
    # two arms or more that are numbers
    return [*places, *search("a number that chooses a step", lambda f: sum(bool(re.match(r"\d[\d.= |]* => ", b)) for b in f.body) >= 2)]


def form(statement):
    """A statement with each variable that it binds replaced by a number, and all binders alike."""
    bound = [n for group in re.findall(r"[({]([^(){}:]+) : ", statement) for n in group.split()]
    return re.sub(r"[^\s()]+", lambda m: f"x{bound.index(m[0])}" if m[0] in bound else m[0], statement.replace("{", "(").replace("}", ")"))


def point_8():
    places, library = [], {form(line.partition(" ")[2]): line.split()[0] for line in JUDGED["lemmas that the library has"]}
    same, files, stated = (collections.defaultdict(list) for _ in range(3))
    for path in sorted(glob.glob("crates/*/proofs/**/*.antt", recursive=True)):
        # without comments, and a statement in one line
        where, text = path[len("crates/"):], re.sub(r"(?m)^\s*--.*\n?", "", open(path, encoding="utf-8").read())
        text = re.sub(r"\n +→ ", " → ", text)
        if path.endswith("/Answers.antt"):
            files[re.sub(r"\s+", " ", re.sub(r"(?m)^use .*", "", text))].append(where)
            # a goal's name, what it unfolds, and its answer
            for name, unfolds, answer in re.findall(r"(?m)^pub ([\w-]+) : goal\..*\n(?:unfolding (.*)\n)?\1 c =\s*((?:.+\n?)+)", text):
                answer = re.sub(r"\s+", " ", answer).strip()
                if answer == "search rules":
                    places.append(Place("answers that are `search rules` alone", where, f"{name} unfolding {unfolds}" if unfolds else name))
                else:
                    same[unfolds, answer].append((where, f"{name}: {answer}"))
        elif not path.endswith("/Invariants.antt"):
            for indent, name, statement in re.findall(r"(?m)^( *(?:pub )?)([^\s(){}:]+) : (.*)$", text):
                if form(statement) in library:
                    places.append(Place("lemmas that the library has", where, f"{name}: {library[form(statement)]}"))
                # lemmas that are not local, and bind what they speak of
                elif indent in ("", "pub ", "  pub ") and re.match("[({].*[≡≤<]", statement):
                    stated[form(statement)].append((where, name))
    places += [Place("answers that stand in three files or more", *p) for all_of in same.values() if len({w for w, _ in all_of}) >= 3 for p in all_of]
    places += [Place("files of answers that are those of another", where, f"as {all_of[0]}") for all_of in files.values() for where in all_of[1:]]
    return places + [Place("lemmas that are stated again", where, f"{name} as {' of '.join(all_of[0][::-1])}") for all_of in stated.values() for where, name in all_of[1:]]


JUDGED, FUNCTIONS, TYPES = read_judged(), list(read_functions()), list(read_types())


def main():
    if not re.fullmatch(r"[1-8]( --list)?", " ".join(sys.argv[1:])):
        sys.exit(__doc__)
    places = set(globals()[f"point_{sys.argv[1]}"]())
    for rule in sorted({p.rule for p in places}):
        of_rule = sorted(p for p in places if p.rule == rule)
        print("".join(f"{p.where}: {p.what}\n" for p in of_rule if "--list" in sys.argv) + f"{rule}: {len(of_rule)}")
    print(f"point {sys.argv[1]}: {len(places)}")


if __name__ == "__main__":
    main()
