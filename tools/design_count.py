"""Counts the places of docs/DESIGN-PASS.md in crates/*/src, point by point.

usage: python3 tools/design_count.py [-v] [ROOT]       -v names each place

It goes by text, so it finds forms and judges nothing: whether a place is better in today's form is for docs/DESIGN-PASS.md to say.
"""

import collections
import glob
import os
import re
import sys

verbose = "-v" in sys.argv[1:]
rest = [a for a in sys.argv[1:] if a != "-v"]
root = rest[0] if rest else os.path.join(os.path.dirname(os.path.abspath(__file__)), "..")

WORDS = set("fn let mut if else match while for in loop return break continue as true false pub crate self Self struct enum impl const use mod ref move where".split())
TYPES = set("u8 u16 u32 u64 usize i32 isize bool".split())


def sources():
    for path in sorted(glob.glob(os.path.join(root, "crates", "*", "src", "**", "*.rt"), recursive=True)):
        with open(path, encoding="utf-8") as f:
            yield os.path.relpath(path, root), f.read()


def bare(text):
    """The text with comments blanked out, every place as it was."""
    return re.sub(r"//[^\n]*", lambda m: " " * len(m.group()), text)


def line(text, at):
    return text.count("\n", 0, at) + 1


def closing(text, at):
    """The place behind the bracket that closes the one at a place; quotes are passed over."""
    depth, i = 0, at
    while i < len(text):
        c = text[i]
        if c == '"':
            i += 1
            while text[i] != '"':
                i += 2 if text[i] == "\\" else 1
        elif c == "'" and re.match(r"'(\\.|[^'\\])'", text[i:]):
            i += len(re.match(r"'(\\.|[^'\\])'", text[i:]).group()) - 1
        elif c in "{([":
            depth += 1
        elif c in "})]":
            depth -= 1
            if depth == 0:
                return i + 1
        i += 1
    return len(text)


def items(text, word):
    """Each item that a word begins, by name, place and body between its braces."""
    for m in re.finditer(r"^\s*(?:pub(?:\(crate\))? )?" + word + r" (\w+)[^;{(]*\{", text, re.M):
        end = closing(text, m.end() - 1)
        yield m.group(1), m.start(1), text[m.end() : end - 1]


def functions(text):
    """Each function: name, place, parameters, result, the clauses of its contract, body."""
    for m in re.finditer(r"^[ ]*(?:pub(?:\(crate\))? )?fn (\w+)(?:<[^>(]*>)?\(", text, re.M):
        after = closing(text, m.end() - 1)
        params = text[m.end() : after - 1]
        i, clauses = after, []
        result = re.match(r"\s*->\s*([^{\n]+?)\s*(?=\n|\{)", text[i:])
        if result:
            i += result.end()
        while True:
            c = re.match(r"\s*(requires|ensures)(?: \w+)? (?=\{)", text[i:])
            if not c:
                break
            end = closing(text, i + c.end())
            clauses.append((c.group(1), " ".join(text[i + c.end() + 1 : end - 1].split())))
            i = end
        b = re.match(r"\s*(?:where[^{]*)?\{", text[i:])
        if b:
            yield m.group(1), m.start(1), params, result.group(1) if result else "", clauses, text[i + b.end() : closing(text, i + b.end() - 1) - 1]


def variants(body):
    """The variants of an enum: whether each carries something, and what."""
    found, i = [], 0
    while True:
        m = re.compile(r"\s*(?:#\[[^\]]*\]\s*)?(\w+)\s*").match(body, i)
        if not m:
            return found
        i, carried = m.end(), ""
        if i < len(body) and body[i] in "({":
            end = closing(body, i)
            carried, i = body[i + 1 : end - 1], end
        found.append((m.group(1), carried.strip()))
        i = re.compile(r"\s*,?").match(body, i).end()


def shape(body):
    """A function's body with names and numbers by order of first use, so that twins read the same."""
    seen, out = {}, []
    for t in re.findall(r"b?\"(?:\\.|[^\"\\])*\"|\w+|[^\s\w]", body):
        if t in WORDS:
            out.append(t)
        elif re.match(r"\w", t) and t in TYPES:
            out.append("T")
        elif re.match(r"\d|b?\"", t):
            out.append("#")
        elif re.match(r"\w", t):
            out.append(seen.setdefault(t, f"n{len(seen)}"))
        else:
            out.append(t)
    return " ".join(out), len(out)


places = collections.OrderedDict((n, []) for n in ("1", "2", "3", "4", "5", "6", "7"))
twins, facts, together, standing = (collections.defaultdict(list) for _ in range(4))

for path, whole in sources():
    text = bare(whole)
    crate = path.split(os.sep)[1]

    def note(point, at, what):
        places[point].append(f"{path}:{line(text, at)} {what}")

    for name, at, body in items(text, "enum"):
        vs = variants(body)
        carrying = [v for v in vs if v[1]]
        if carrying and (len(carrying) == 1 or len({v[1] for v in carrying[1:]}) == 1 and len(vs) == len(carrying)):
            note("1", at, f"enum {name}: one of its variants carries the value")
    for name, at, body in items(text, "struct"):
        fields = re.findall(r"(?:pub(?:\(crate\))? )?(\w+): ([^,\n]+)", body)
        for f, t in fields:
            if t == "u8" and f in ("number", "rule", "kind") and len(fields) > 1:
                note("1", at, f"struct {name}: {f} is a number for a kind or a refusal, 0 for none")
            if t == "bool" and f in ("failed", "more", "good", "room", "seen", "opened", "counts"):
                note("1", at, f"struct {name}: the flag {f} beside values")
        arrays = [t for _, t in fields if re.match(r"\[[^;]+; ", t)]
        sizes = [t.split("; ")[1] for t in arrays]
        if len(set(sizes)) < len(sizes):
            note("6", at, f"struct {name}: parallel arrays")
        if arrays and any(t == "usize" for _, t in fields):
            note("6", at, f"struct {name}: an array and how much of it counts")
    for name, at, params, result, clauses, body in functions(text):
        flat = " ".join(body.split())
        if result == "u8" and re.search(r"refus|number", name):
            note("1", at, f"fn {name}: a refusal as a number")
        s, n = shape(body)
        if n >= 12:
            twins[s].append(f"{path}:{line(text, at)} fn {name}")
        arms = re.fullmatch(r"match [\w.]+ \{(.*)\}", flat)
        if arms and result and all(re.fullmatch(r"[^=]*=> [\w:]+,?", a.strip() + ",") for a in re.split(r",\s*(?=[\w:(_]+(?:\([^)]*\)|\{[^}]*\})?\s*=>)", arms.group(1).strip().rstrip(",")) if a.strip()):
            note("4", at, f"fn {name}: a match from values to values")
        if re.fullmatch(r"if ([\w.]+) (<|<=) ([\w.]+) \{ (\1|\3|\1 as u8|[\d]+) \} else \{ (\1|\3|[\d]+) \}", flat):
            note("4", at, f"fn {name}: the lesser or the greater of two by hand")
        if not params and result and re.match(r"^(Self|[A-Z]\w*)( \{|::)", result + " {") and re.search(r"\b(0|false|None|Nobody|Idle)\b", flat) and not re.search(r"\bif\b|\bmatch\b|\(", flat.replace("Place { at: 0, room: true }", "(")):
            note("4", at, f"fn {name}: a value of zeros by hand")
        for kind, c in clauses:
            if kind == "requires":
                for fact in re.split(r" × ", c):
                    facts[crate, fact.strip("() ")].append(f"{path}:{line(text, at)} fn {name}")
        ps = [p.strip() for p in params.replace("\n", " ").split(",") if ":" in p]
        for p in ps:
            standing[crate, p].append(f"{path}:{line(text, at)} fn {name}")
        for i in range(len(ps)):
            for j in range(i + 1, len(ps)):
                together[crate, ps[i], ps[j]].append(f"{path}:{line(text, at)} fn {name}")
    for m in re.finditer(r"^\s*(while|loop)\b[^{]*\{", text, re.M):
        note("3", m.start(1), m.group().strip())
    for m in re.finditer(r"^\s*for (\w+) in [^{]*\.\.[^{]*\{", text, re.M):
        end = closing(text, m.end() - 1)
        if re.search(r"\[[^\]]*\b" + m.group(1) + r"\b[^\]]*\]", text[m.end() : end]):
            note("3", m.start(1), m.group().strip() + " as an index")
    for m in re.finditer(r"match (\w+)(?: % \d+)? \{\s*\d+ => [^,]*\(", text):
        note("7", m.start(), m.group().split("{")[0].strip() + ": which step, by a number")
    for m in re.finditer(r"\bfn\([^)]*\)|\[fn\b", text):
        note("7", m.start(), "a table of functions")

for group in twins.values():
    if len(group) > 1:
        places["2"].append("twins: " + "; ".join(group))
for (crate, fact), group in facts.items():
    if len(group) > 2:
        places["5"].append(f"{crate}: `{fact}` in the contracts of {len(group)} functions")
# a parameter that stands in three functions or more, never without another: grouped by what it travels with
seen = collections.defaultdict(set)
for (crate, a, b), group in together.items():
    for one, other in ((a, b), (b, a)):
        if len(group) > 2 and len(group) == len(standing[crate, one]):
            seen[crate, one].add(other)
done = set()
for crate, one in seen:
    names = {one}
    while True:
        more = {o for n in names for o in seen.get((crate, n), ())} | {n for (c, n), os in seen.items() if c == crate and os & names}
        if more <= names:
            break
        names |= more
    if (crate, frozenset(names)) not in done:
        done.add((crate, frozenset(names)))
        n = len({f for m in names for f in standing[crate, m]})
        places["5"].append(f"{crate}: {', '.join(sorted(m.split(':')[0] for m in names))} travel together through {n} functions")

for point, found in places.items():
    n = sum(p.count("; ") + 1 for p in found) if point == "2" else len(found)
    print(f"point {point}: {n}" + (f" functions in {len(found)} groups" if point == "2" else ""))
    if verbose:
        for p in found:
            print("  " + p)

answers = lemmas = lines = 0
for path in glob.glob(os.path.join(root, "crates", "*", "proofs", "**", "*.antt"), recursive=True):
    with open(path, encoding="utf-8") as f:
        text = f.read()
    lines += sum(1 for x in text.split("\n") if x.strip())
    stated = len(re.findall(r"^(?:pub )?[^\s:][^:\n]* : ", text, re.M))
    if os.path.basename(os.path.dirname(path)) == "proofs":
        lemmas += stated
    else:
        answers += stated
print(f"point 8: {answers} answers and invariants of functions, {lemmas} lemmas of their own files, {lines} lines of proofs without empty ones")
