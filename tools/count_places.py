#!/usr/bin/env python3
"""Counts the places of docs/DESIGN-PASS.md in the sources of a work tree: `tools/count_places.py [TREE] [--list]`.

Each count is of lines, functions or types that match a pattern; with --list each is printed with its file. What a pattern finds is
a candidate: docs/DESIGN-PASS.md says of each what became of it."""
import collections
import pathlib
import re
import sys

args = [a for a in sys.argv[1:] if not a.startswith("-")]
LIST = "--list" in sys.argv
ROOT = pathlib.Path(args[0] if args else ".")
FILES = sorted(ROOT.glob("crates/*/src/**/*.rt"))


def code(path):
    """The lines of a file with comments and string texts taken out, so that words in them are not counted."""
    for number, line in enumerate(path.read_text().splitlines(), 1):
        line = re.sub(r'b?"(\\.|[^"\\])*"', '""', line)
        yield number, re.sub(r"//.*", "", line)


def lines(title, pattern, flags=0):
    rule = re.compile(pattern, flags)
    found = [(p, n, l.strip()) for p in FILES for n, l in code(p) if rule.search(l)]
    show(title, [f"{p.relative_to(ROOT)}:{n}: {l}" for p, n, l in found])


def text(title, pattern):
    rule = re.compile(pattern, re.S)
    found = []
    for p in FILES:
        whole = "\n".join(l for _, l in code(p))
        for m in rule.finditer(whole):
            found.append(f"{p.relative_to(ROOT)}:{whole.count(chr(10), 0, m.start()) + 1}: {' '.join(m.group(0).split())[:90]}")
    show(title, found)


def show(title, found):
    print(f"{len(found):4}  {title}")
    if LIST:
        for f in found:
            print(f"        {f}")


FN = re.compile(r"^( *)(pub(\(crate\))? )?(const )?fn (\w+)", re.M)


def functions():
    """Each function: file, name, parameters, clauses, body (comments gone)."""
    for p in FILES:
        whole = "\n".join(l for _, l in code(p))
        starts = [m for m in FN.finditer(whole)]
        for m in starts:
            indent = m.group(1)
            end = re.compile(r"^" + indent + r"(\}|\{\}|.*;)$", re.M).search(whole, m.start())
            piece = whole[m.start() : end.end() if end else len(whole)]
            opening = re.search(r"^" + indent + r"\{|\{$|\{\}$", piece, re.M)
            head = piece[: opening.start()] if opening else piece
            body = piece[opening.start() :] if opening else ""
            yield p, m.group(5), head, body


FUNCTIONS = list(functions())

print("1. shapes of Option and Result, flags beside values, numbers for kinds")
lines("arms that hand an error on by hand", r"Err\((\w+)\) => (return )?Err\(\1\)")
text("an Option made a Result by hand (`None => Err`)", r"None => (return )?Err\(")
text("a Result or Option left by hand (`else { return Err }`)", r"let (Some|Ok)\([^)]*\) = [^;{]*else \{\s*return Err\([^)]*\);\s*\}")
text("an Option mapped by hand (`None => None`)", r"None => None")
text("a default taken by hand (`Err(_) => value`, `None => value`)", r"(Err\(_\)|None) => (?!Err|None|return|\{|true|false|tell|self|current)[^,]*,")
text("a function that changes a value and answers a bool", r"fn \w+[^{};]*&mut [^{};]*\) -> bool")
text("a bool field", r"\n *(pub(\(crate\))? )?\w+: bool,")
text("an own enum (which of them have that shape is said by hand)", r"enum \w+")

print("2. twins: functions whose bodies are the same but for names, types and numbers")
KEEP = set("if else match for in while loop return let mut fn as true false Ok Err Some None self Self".split())


def shape(body):
    names = {}
    out = []
    for token in re.findall(r"[A-Za-z_]\w*|\d[\d_]*|\S", body):
        if token in KEEP:
            out.append(token)
        elif re.match(r"[A-Za-z_]", token):
            out.append(f"#{names.setdefault(token, len(names))}")
        elif token[0].isdigit():
            out.append("N")
        else:
            out.append(token)
    return " ".join(out)


groups = collections.defaultdict(list)
for p, name, head, body in FUNCTIONS:
    if body.count(";") + body.count("=>") + body.count("(") >= 2:
        groups[shape(body)].append(f"{p.relative_to(ROOT)}:{name}")
twins = [g for g in groups.values() if len(g) > 1]
show("groups of functions with one shape", [", ".join(g) for g in twins])
show("functions in these groups", [f for g in twins for f in g])

print("3. loops")
lines("loops over a range (`for i in a..b`)", r"\bfor \w+ in .*\.\.")
lines("`while` and `loop`", r"\b(while|loop)\b")

print("4. comparisons, copies, conversions, printing by hand")
lines("impl of a comparison, Clone, Drop by hand", r"^impl(<.*>)? (PartialEq|Eq|PartialOrd|Ord|Clone|Drop) for")
text("a test of a case by hand (`=> true, .. => false`)", r"=> true,\s*_ => false")
text("an object written out (`executable: ..`)", r"executable: (true|false|\w+\.executable),")
text("methods that convert or name (`number`, `name`, `word`, `kind`, `object`, `of`)", r"fn (number|name|word|kind|object|number_object|of|phase_of|same_as|same_value)\b[^{};]*->")

print("5. facts and parameters that come again and again")
for word in "stacked printed entries model memory_of state_of open_saves journal_kept copies_kept Counted procedures".split():
    cited = [f"{p.relative_to(ROOT)}:{name}" for p, name, head, body in FUNCTIONS if re.search(r"\b%s\b" % word, head)]
    show(f"functions whose contract says `{word}`", cited)
facts = collections.defaultdict(list)
for p, name, head, body in FUNCTIONS:
    for fact in re.findall(r"requires(?: \w+)? \{ (.*) \}", head):
        facts[(p.relative_to(ROOT).parts[1], fact)].append(name)
show("a `requires` that three or more functions of a crate have", [f"{c}: {f}: {', '.join(n)}" for (c, f), n in facts.items() if len(n) > 2])
pairs = collections.defaultdict(list)
for p, name, head, body in FUNCTIONS:
    parameters = re.search(r"\(([^)]*)\)", head, re.S)
    kinds = re.findall(r"(\w+): (&(?:'\w+ )?(?:mut )?\w+)", parameters.group(1)) if parameters else []
    for i in range(len(kinds)):
        for j in range(i + 1, len(kinds)):
            pairs[(p.relative_to(ROOT).parts[1], kinds[i][0], kinds[j][0])].append(name)
show("two references that three or more functions of a crate take", [f"{c}: {a}, {b}: {', '.join(n)}" for (c, a, b), n in pairs.items() if len(n) > 2])

print("6. buffers with a length beside them")
lines("fields that are arrays", r"^\s+(pub(\(crate\))? )?\w+: \[.*; .*\],")
lines("fields that count or point into one", r"^\s+(pub(\(crate\))? )?(len|count|used|depth|opened|start|made|done|pending|strings|place|next): (usize|u8|u16|u32|Option<u16>),")

print("7. switches on what to do")
text("a match whose arms call one function each", r"match [^{}]*\{(\s*[\w:({, ._})]+ => [\w.:]+\([^{}]*\),){3,}")
lines("closures and bounds on them", r"\|\w*(, \w+)*\| |Fn(Once|Mut)?\(")

print("8. proofs")
PROOFS = sorted(ROOT.glob("crates/*/proofs/**/*.antt"))
show("proof files", [str(p.relative_to(ROOT)) for p in PROOFS])
print(f"{sum(len(p.read_text().splitlines()) for p in PROOFS):4}  lines in them")
print(f"{sum(1 for p in FILES for line in p.read_text().splitlines() if line.strip().startswith('// Kept: ')):4}  lines `// Kept: ` in src/")
