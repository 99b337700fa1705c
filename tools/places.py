#!/usr/bin/env python3
"""Lists, below crates/*/src and proofs, the lines at which today's forms could replace older ones: python3 tools/places.py [POINT..]

A line is a place to look at, not a verdict. docs/DESIGN-PASS.md says what each is."""
import collections, pathlib, re, sys

ROOT = pathlib.Path(__file__).resolve().parent.parent
if len(sys.argv) > 1 and pathlib.Path(sys.argv[1]).is_dir():
    ROOT = pathlib.Path(sys.argv.pop(1))

def sources():
    for path in sorted(ROOT.glob("crates/*/src/**/*.rt")):
        if path.name != "tests.rt":
            yield path

def grep(pattern):
    found = []
    for path in sources():
        for number, line in enumerate(path.read_text().split("\n"), 1):
            if re.search(pattern, line) and not line.lstrip().startswith("//"):
                found.append(f"{path.relative_to(ROOT)}:{number}: {line.strip()}")
    return found

def functions():
    """Each function with a body: where it stands, its name, its clauses and its body."""
    for path in sources():
        lines = path.read_text().split("\n")
        for at, line in enumerate(lines):
            start = re.match(r"( *)(pub(\([a-z]+\))? )?(final )?(const )?fn ([a-z_0-9]+)", line)
            if not start:
                continue
            end = next((i for i in range(at, len(lines)) if lines[i] == start[1] + "}" or (i == at and line.endswith("}"))), None)
            stop = next((i for i in range(at, len(lines)) if lines[i].endswith(";")), len(lines))
            if end is None:
                continue
            text = lines[at:end + 1]
            body_at = next((i for i, x in enumerate(text) if x == start[1] + "{" or (i == 0 and x.endswith("{"))), None)
            if body_at is None or at + body_at > stop:
                continue
            clauses = [x.strip() for x in text[1:body_at + 1] if re.match(r" *(ensures|requires)", x)]
            body = " ".join(x.strip() for x in text[body_at + 1:-1] if not x.strip().startswith("//"))
            yield f"{path.relative_to(ROOT)}:{at + 1}", start[6], clauses, body

def shape(body):
    """A body with the names of types, constants and fields and all numbers taken out."""
    body = re.sub(r"\b[A-Z][A-Za-z_0-9]*(::<[^>]*>)?", "T", body)
    body = re.sub(r"\.[a-z_0-9]+", ".f", body)
    body = re.sub(r"\b\d\w*\b", "0", body)
    return re.sub(r"\b(?!T\b|f\b|self\b|if\b|match\b|return\b|let\b|mut\b|for\b|in\b)[a-z_][a-z_0-9]*\b", "x", body)

def options():
    return grep(r"\benum |-> \(bool,|\bfn [a-z_]+(<.*?>)?\(.*-> (u8|u16|u32|u64|usize)\b|// .*\b0 stands for")

def twins():
    groups = collections.defaultdict(list)
    for where, name, _, body in functions():
        if len(body) > 20:
            groups[shape(body)].append(f"{where}: {name}")
    return [line for names in groups.values() if len(names) > 1 for line in [f"{len(names)} alike:"] + ["    " + n for n in names]]

def loops():
    return grep(r"^\s*(while|loop|for)\b")

def by_hand():
    return grep(r"^impl.*\b(PartialEq|Eq|PartialOrd|Ord|Clone|Copy|Debug|Default|Hash)\b.* for |\bfn (from|to|into|as|parse)_[a-z_]+|^impl.*\b(Display|From<.*>|TryFrom<.*>|FromStr) for ")

def repeated():
    facts = collections.Counter()
    where = collections.defaultdict(list)
    for at, name, clauses, _ in functions():
        for clause in clauses:
            fact = re.sub(r"^(ensures|requires) *[a-z_]* *", "", clause)
            facts[fact] += 1
            where[fact].append(name)
    lists = collections.Counter()
    for path in sources():
        for arguments in re.findall(r"fn [a-z_]+(?:<.*?>)?\(([^)]*)\)", path.read_text()):
            names = [a for a in re.findall(r"([a-z_]+):", arguments)]
            for width in (2, 3, 4):
                for i in range(len(names) - width + 1):
                    lists[tuple(names[i:i + width])] += 1
    return [f"{n} contracts: {fact} ({', '.join(where[fact])})" for fact, n in facts.most_common() if n >= 3] + \
           [f"{n} parameter lists: {', '.join(names)}" for names, n in lists.most_common() if n >= 2]

def buffers():
    return grep(r"^\s*(pub(\([a-z]+\))? )?[a-z_]+: \[.*;.*\],|\bcount: usize|\blen: usize|binary_search")

def steps():
    return grep(r"\bdyn\b|: fn\(|\bBox<")

def proofs():
    found = []
    for path in sorted(ROOT.glob("crates/*/proofs/**/*.antt")):
        found.append(f"{path.relative_to(ROOT)}: {len(path.read_text().splitlines())} lines")
    return found

POINTS = [("1 options, results, kinds", options), ("2 twins", twins), ("3 loops", loops), ("4 by hand", by_hand),
          ("5 repeated facts, parameters together", repeated), ("6 buffers", buffers), ("7 steps", steps), ("8 proofs", proofs)]

for name, find in POINTS:
    if len(sys.argv) > 1 and name[0] not in sys.argv[1:]:
        continue
    found = find()
    print(f"== {name}: {len([x for x in found if not x.startswith('    ')])}")
    for line in found:
        print("  " + line)
