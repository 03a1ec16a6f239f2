#!/usr/bin/env python3
"""Lists places in src/ that an older Rattle would have written so: python3 tools/design_places.py [FOLDER]

A place is one to look at, not a fault. docs/DESIGN-PASS.md tells what became of each. Some patterns are names and
facts of the older text, so that they find what it had; a search for new places wants reading besides.
"""
import pathlib
import re
import sys
from collections import defaultdict

ROOT = pathlib.Path(sys.argv[1] if len(sys.argv) > 1 else ".")
FILES = sorted(p for p in ROOT.glob("crates/*/src/**/*.rt") if "out" not in p.parts)


def code_of(path):
    """The file's lines without comments, imports and clauses, each with its number."""
    kept = []
    for number, line in enumerate(path.read_text().splitlines(), 1):
        line = re.sub(r"//.*", "", line)
        if re.match(r"\s*(ghost|use|pub use|requires|ensures)\b", line):
            continue
        kept.append((number, line))
    return kept


# Point 1: an answer taken apart by hand and put together again; a number that stands for none.
REWRAP = re.compile(
    r"\b(None|Err\([^()]*\)|Ok\(\(\)\)) => (None|Err\(|Ok\(\(\)\)|false|0\b|[A-Z]\w*::[A-Z]\w*,|\(0, 0\)|unreachable|sized)"
    r"|let (Some|Ok)\(\w+\) = .* else \{|\bOk\(_\) => (Err|return Err)|unreachable\(\)|else \{\s*None\s*\}"
)
SENTINEL = re.compile(r"\bRowKind::\w+, 64,|pub (position: usize|half: u8)|^\s*(iei|place): 0,$")

# Point 3: a loop over positions, an element or a part by hand, its bounds tested by hand.
INDEX = re.compile(
    r"\bfor (position|other|i|index) in .*\.\.|\w\[[a-z_]+(\.[a-z_]+)*\]|\w\[0\.\.[a-z]"
    r"|\.min\([^()]*len\(\)\)|len\(\)\.min\(|\bif [a-z_.]+ (<|<=|>=) [a-z_.]+\.len\(\)|\bposition (<|>=) 64\b|\w\[\.\.[a-z]"
)

# Point 4: equality, order, conversion or printing by hand where a derive, From or a library's method is.
BY_HAND = re.compile(
    r"\bimpl .*\b(PartialEq|Eq|PartialOrd|Ord|Clone|Copy|Default|Debug|Error|Display)\b.* for\b"
    r"|\bfn (shape_of_\w+|line_of|last_line|presence_severity|hex_\w+)\b|\.number\(\) <|\bas (usize|u16)\b"
    r"|\b(bits: 0 \}|ies: 0, octets: 0 \}|Self::Clear$|Severity::none\(\))"
)

# Point 6: a buffer with its length beside it, a table reached by index.
BUFFERS = re.compile(r"^\s*(pub )?\w+: \[\w+; \d+\],|\bbits: u64,$|\b\w+_(len|length|count|size): usize,$")

# Point 7: which step to run, as a value.
STEPS = re.compile(r"\bfn\(|&dyn |Box<dyn|step: |_kind: u8|mode: ")


def by_line(pattern):
    return [f"{p.relative_to(ROOT)}:{n}: {line.strip()}" for p in FILES for n, line in code_of(p) if pattern.search(line)]


def by_number():
    """Enums whose numbers a match tells."""
    return [f"{p.relative_to(ROOT)}:{n}: {name}" for p, n, name, _, body in functions() if len(re.findall(r"=> \d+,", body)) > 1]


def functions():
    """Each function: its file, line, name, signature with clauses, and body."""
    for path in FILES:
        text = re.sub(r"//.*", "", path.read_text())
        for m in re.finditer(r"^( *)(?:pub(?:\(crate\))? )?fn (\w+)", text, re.M):
            # the body's brace ends a line or stands alone on one; a declaration of a trait ends in a semicolon
            found = re.compile(r"(\) \{|[\w>)\]] \{|^%s\{)$|[});\w>];$" % m.group(1), re.M).search(text, m.end())
            start = found.end() - 1 if found else len(text)
            end = re.compile(r"^%s\}" % m.group(1), re.M).search(text, start) if found and text[start] == "{" else None
            line = text.count("\n", 0, m.start()) + 1
            yield path, line, m.group(2), text[m.start():start], text[start:end.end() if end else start]


def twins():
    """Functions and types of one shape, names of types and numbers apart."""
    shapes = defaultdict(list)
    for path, line, name, _, body in functions():
        words = re.findall(r"\w+|[^\w\s]", body)
        if len(words) < 6:
            continue
        shape = " ".join("#" if w[0].isdigit() else "T" if w[0].isupper() else w for w in words)
        shapes[shape].append(f"{path.relative_to(ROOT)}:{line}: {name}")
    for path in FILES:
        text = re.sub(r"//.*", "", path.read_text())
        for m in re.finditer(r"\bstruct (\w+)([^;{]*)(\{[^}]*\}|;)", text):
            shape = re.sub(r"\d+", "#", re.sub(r"\b[A-Z]\w*", "T", m.group(2) + m.group(3)))
            shape = "struct" + re.sub(r"\s+", " ", shape)
            line = text.count("\n", 0, m.start()) + 1
            shapes[shape].append(f"{path.relative_to(ROOT)}:{line}: struct {m.group(1)}")
    return [" = ".join(found) for found in shapes.values() if len(found) > 1]


FACTS = [
    (r"\breading \(C\.", "reading (C ..) (S ..) (S ..)"),
    (r"\bleft C\.\S+ S\.\S+ S\.\S+", "left C.. S.. S.. walk"),
    (r"\bstate [\w.]*times", "state times (admitted order)"),
    (r"length .*≤ 65535", "an IE lies within 65,535 octets"),
    (r"\(s p : ℕ\) → ", "an order rule's function stays"),
]


def together():
    """A clause in three functions or more; two parameters that stand together in three or more."""
    clauses, pairs = defaultdict(list), defaultdict(list)
    for path, line, name, head, _ in functions():
        at = f"{path.relative_to(ROOT)}:{line} {name}"
        for fact, what in FACTS:
            if re.search(fact, head):
                clauses[what].append(at)
        params = re.findall(r"\b([a-z]\w*): ", re.sub(r"(requires|ensures).*|<.*?>(?=\()", "", head))
        names = sorted(set(params) - {"self", "f"})
        for i, a in enumerate(names):
            for b in names[i + 1:]:
                pairs[f"({a}, {b})"].append(at)
    rows = {**clauses, **pairs}
    return [f"{what}: " + "; ".join(sorted(set(ats))) for what, ats in rows.items() if len(set(ats)) >= 3]


POINTS = [
    ("1a answers taken apart by hand", by_line(REWRAP)),
    ("1b numbers of kinds and refusals told by hand", by_number()),
    ("1c a number that stands for none", [x for x in by_line(SENTINEL) if "ie_report" in x and "tests" not in x]),
    ("2 twins", twins()),
    ("3 an index counted or tested by hand", by_line(INDEX)),
    ("4 derived or converted by hand", by_line(BY_HAND)),
    ("5 facts and parameters that go together", together()),
    ("6 buffers and tables", by_line(BUFFERS)),
    ("7 a switch on a step", by_line(STEPS)),
]

for title, places in POINTS:
    print(f"== {title}: {len(places)}")
    for place in places:
        print(f"   {place}")
