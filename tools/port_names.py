#!/usr/bin/env python3
"""Brings this repository's own definitions and lemmas to the spelling of today's Rattle: words in snake case, a dash only between two names.

usage: python3 tools/port_names.py        at the top, once, right after the kit's port.py and before any edit by hand

The table beside this script has a row for each name: old, a tab, new. A lemma that would have its definition's name ends in _lem. What turns:
- in crates/*/specs and crates/*/proofs each word of the table, but in strings;
- in crates/*/src and crates/*/must-fail each name of specs/ and proofs/ that was in camel case, but in strings of Rust;
- in README.md and docs/ each word of the table in a code span or a fenced block;
- in proofs/F/Proof.antt the exported proof, as 'with-block-spec', is called by its folder, 'with_block_spec'.
Functions of src/, exported names, strings, inputs and outputs keep their names. An old name that is in snake case already turns only where its own
lemma is meant: in the file that declares it and in those that import it from there.
"""

import glob
import os
import re
import sys

WORD = re.compile(r'[^\s(){}.;,@"«»⟨⟩\[\]`]+')
STRING = re.compile(r'"(?:[^"\\\n]|\\.)*"')
SPANS = re.compile(r"^```.*?^```|`[^`\n]+`", re.S | re.M)
here = os.path.dirname(os.path.realpath(__file__))
top = os.path.dirname(here)
with open(os.path.join(here, "port_names.tsv"), encoding="utf-8") as f:
    table = dict(line.rstrip("\n").split("\t") for line in f if line.strip())
plain = {old for old in table if re.fullmatch(r"[a-z_]+", old)}
camel = {old for old in table if re.search(r"[a-z0-9][A-Z]", old) and "-" not in old}


def turned(text, words, behind_dot=True):
    """The text with each whole word of 'words' turned, but in strings."""

    def one(m):
        if m[0] not in words:
            return m[0]
        if not behind_dot and m.string[m.start() - 1 : m.start()] == ".":
            return m[0]
        return table[m[0]]

    out, at = [], 0
    for s in STRING.finditer(text):
        out += [WORD.sub(one, text[at : s.start()]), s[0]]
        at = s.end()
    return "".join(out + [WORD.sub(one, text[at:])])


def declares(text, name):
    return re.search(rf"^(?:(?:abbrev|unfoldable|opaque) )*(?:pub )?{name} :", text, re.M)


def antt(path, text):
    here_meant = set()
    for name in plain:
        if declares(text, name) and "/proofs/" in path:
            here_meant.add(name)
        for m in re.finditer(r"^use Rattle\.(\w+)\.proofs\.([\w.+]+)\.\{([^}]*)\}", text, re.M):
            if name in [w.split(" ")[0] for w in m[3].split(", ")]:
                lemma_file = os.path.join(top, "crates", m[1], "proofs", *m[2].split(".")) + ".antt"
                if os.path.exists(lemma_file) and name in declared_in.get(lemma_file, ()):
                    here_meant.add(name)
    text = turned(text, table.keys() - plain)
    if here_meant:
        text = turned(text, here_meant, behind_dot=False)
    if os.path.basename(path) == "Proof.antt":
        folder = os.path.basename(os.path.dirname(path))
        old = re.findall(r"^pub (\+?[\w-]+-spec) :", text, re.M)
        if len(old) == 1:
            text = re.sub(rf"(?<![\w+-]){re.escape(old[0])}(?![\w-])", folder + "_spec", text)
    return text


def write(path, old, new):
    if old != new:
        with open(path, "w", encoding="utf-8") as f:
            f.write(new)
        return 1
    return 0


sources = sorted(glob.glob(top + "/crates/*/specs/**/*.antt", recursive=True) + glob.glob(top + "/crates/*/proofs/**/*.antt", recursive=True))
texts = {p: open(p, encoding="utf-8").read() for p in sources}
declared_in = {p: {n for n in plain if declares(t, n)} for p, t in texts.items()}
changed = 0
for p, t in texts.items():
    changed += write(p, t, antt(p, t))
for p in sorted(glob.glob(top + "/crates/*/src/**/*.rt", recursive=True)):
    t = open(p, encoding="utf-8").read()
    changed += write(p, t, turned(t, camel))
for p in sorted(glob.glob(top + "/crates/*/must-fail/*")):
    t = open(p, encoding="utf-8").read()
    changed += write(p, t, WORD.sub(lambda m: table[m[0]] if m[0] in camel else m[0], t))
for p in [top + "/README.md"] + sorted(glob.glob(top + "/docs/*.md")):
    t = open(p, encoding="utf-8").read()
    changed += write(p, t, SPANS.sub(lambda s: WORD.sub(lambda m: table[m[0]] if m[0] in table.keys() - plain else m[0], s[0]), t))
print(f"port_names: {len(table)} names, {changed} files changed")
