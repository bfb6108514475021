#!/usr/bin/env python3
"""Lists the places of src/ where older forms of code may stand, point by point of docs/DESIGN-PASS.md.

    tools/places.py [--count] [TREE]

TREE is a checkout (default: this one). Each line is 'point what: file:line: text'; --count prints numbers alone. What is listed is
found by pattern, so it is more than what should change: the page says of each kind what became of it.
"""
import collections, glob, os, re, sys

tree = ([a for a in sys.argv[1:] if a != "--count"] or [os.path.join(os.path.dirname(__file__), "..")])[0]
files = sorted(glob.glob(os.path.join(tree, "crates/*/src/**/*.rt"), recursive=True))
text = {f: open(f).read() for f in files}
name = {f: os.path.relpath(f, os.path.join(tree, "crates")) for f in files}
found = collections.OrderedDict()


def put(kind, f, at, what):
    line = text[f].count("\n", 0, at) + 1
    found.setdefault(kind, []).append(f"{name[f]}:{line}: {' '.join(what.split())[:110]}")


def each(kind, pattern, keep=lambda m: True):
    found.setdefault(kind, [])
    for f in files:
        code = re.sub(r"//[^\n]*", lambda m: " " * len(m[0]), text[f])
        for m in re.finditer(pattern, code, re.M):
            if keep(m):
                put(kind, f, m.start(), m[0])


# Functions, with their bodies, by brace depth.
def functions(f):
    code = re.sub(r"//[^\n]*", lambda m: " " * len(m[0]), text[f])
    for m in re.finditer(r"^ *(?:pub(?:\(crate\))? )?(?:final )?fn (\w+)", code, re.M):
        end = m.end()
        body = None
        while end < len(code):
            if code[end] == ";" and body is None:
                break
            if code[end] == "{":
                start, depth = end, 0
                while end < len(code):
                    depth += {"{": 1, "}": -1}.get(code[end], 0)
                    end += 1
                    if depth == 0:
                        break
                before = code[m.end():start].rstrip()
                words = re.split(r"\s", before)
                # a clause's braces follow its keyword, or its keyword and name
                if re.search(r"(ensures|requires|ghost)\*?( \w+)?:?$", before.split("\n")[-1].strip()) :
                    continue
                body = code[start:end]
                break
            end += 1
        if body:
            yield m.start(), m[1], code[m.start():end - len(body)], body


# 1
each("1 own enums", r"^ *(?:pub(?:\(crate\))? )?enum \w+")
each("1 answers that are a flag", r"fn \w+[^{;]*?-> *(?:Result<)?bool\b[^{;\n]*", lambda m: "is_" not in m[0] and "has_" not in m[0])
each("1 numbers for kinds", r"^ *(?:pub )?(?:number|layer|place|side|default|kind|code): u\d+")
# 2
shapes = collections.defaultdict(list)
for f in files:
    for at, fn, head, body in functions(f):
        words = re.findall(r"\w+|[^\w\s]", body)
        if len(words) >= 18:
            shape = re.sub(r"\b(Bid|Ask|bids|asks|[A-Z]\w*|\d[\d_]*)\b", "_", " ".join(words))
            shapes[shape].append((f, at, fn))
found["2 like bodies"] = []
for group in shapes.values():
    if len(group) > 1:
        for f, at, fn in group:
            put("2 like bodies", f, at, f"fn {fn}, {len(group)} alike")
found["2 like files"] = []
whole = collections.defaultdict(list)
for f in files:
    whole["".join(text[f].split())].append(f)
for group in whole.values():
    if len(group) > 1:
        for f in group:
            put("2 like files", f, 0, f"{len(group)} alike")
# 3
each("3 while and loop", r"\b(?:while|loop)\b[^\n]*")
each("3 for over numbers", r"\bfor \w+ in [^\n{]*\.\.[^\n{]*")
each("3 indices written", r"\b\w+\[\w[\w.+ -]*\](?= =)|\+= 1;|-= 1;")
# 4
each("4 impls of std's traits", r"^impl[^\n]*\b(?:PartialEq|Eq|PartialOrd|Ord|Hash|Clone|Copy|Default|Display|Debug|From|TryFrom)\b[^\n]* for [^\n]*")
each("4 conversions and names by hand", r"fn (?:code|read|numbered|name|place|bound|to_\w+|as_\w+|into_\w+)\(self[^\n]*|fn (?:numbered|read)\([^\n]*")
each("4 orders by hand", r"fn (?:is_ahead|is_above|is_below|goes_before)\b[^\n]*")
# 5
facts = collections.defaultdict(list)
for f in files:
    for at, fn, head, body in functions(f):
        for c in re.finditer(r"(?:ensures|requires)\*? *\w* *\{(.*)\}", head):
            facts[(name[f].split("/")[0], " ".join(c[1].split()))].append((f, at, fn))
    code = re.sub(r"//[^\n]*", "", text[f])
found["5 facts in three contracts or more"] = []
for (crate, fact), group in facts.items():
    if len({fn for _, _, fn in group}) >= 3:
        for f, at, fn in group:
            put("5 facts in three contracts or more", f, at, f"fn {fn}: {fact}")
pairs = collections.defaultdict(set)
for f in files:
    for at, fn, head, body in functions(f):
        inside = re.search(r"\((.*?)\)\s*(?:->|requires|ensures|where|$)", head, re.S)
        params = re.findall(r"(\w+): ", inside[1]) if inside else []
        for i, a in enumerate(params):
            for b in params[i + 1:]:
                pairs[(name[f].split("/")[0], a, b)].add((f, at, fn))
found["5 parameters together in three or more"] = []
for (crate, a, b), group in pairs.items():
    if len(group) >= 3 and "rt" not in (a, b):
        for f, at, fn in sorted(group):
            put("5 parameters together in three or more", f, at, f"fn {fn}: {a}, {b}")
# 6
each("6 arrays in structs", r"^ *(?:pub(?:\(crate\))? )?\w+: \[[^\n]*;[^\n]*\],")
each("6 counts beside", r"^ *(?:pub(?:\(crate\))? )?(?:used|count|depth|len|size): usize,")
# 7
each("7 switches on a step", r"match (?:self\.draw\.below|kind|step)[^\n]*|match self \{\n *Kind::EnterBest => enter[^\n]*")
each("7 function pointers and dyn", r"\bdyn \w+|: fn\(")

for kind, places in found.items():
    print(f"{kind}: {len(places)}")
    if "--count" not in sys.argv:
        for p in places:
            print(f"    {p}")
lines = {k: sum(open(p).read().count("\n") for p in glob.glob(os.path.join(tree, f"crates/*/{k}/**/*.antt"), recursive=True)) for k in ("specs", "proofs")}
answers = glob.glob(os.path.join(tree, "crates/*/proofs/**/Answers.antt"), recursive=True)
goals = sum(len(re.findall(r"^pub [\w+-]+ : goal\.", open(p).read(), re.M)) for p in answers)
print(f"8 lines of proofs: {lines['proofs']}\n8 answer files: {len(answers)}\n8 goals answered: {goals}")
