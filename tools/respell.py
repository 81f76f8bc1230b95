#!/usr/bin/env python3
"""Brings the repository's own definitions, lemmas and fields to the spelling of today's Rattle, once, behind port.py.

usage: tools/respell.py [ROOT]

Words of specs/ and proofs/ are in snake case: `firstUses` becomes `first_uses`, `copy-turns` becomes `copy_turns`. Where a part of a name is a
name of several words itself, the dash joins names and stays: `firstUses-append` becomes `first_uses-append`. Types and modules, which begin with
a capital, keep their form; three definitions that are types get theirs. A lemma that would come to the name of another thing that its file names
ends in `_lem`, such a field of a record in `_is`. Names of the library, of src/ and of exported functions, strings, inputs and outputs stay as they are. In comments and
in the pages of docs/ a name is turned only between backticks.
"""
import collections
import glob
import os
import re
import sys

TOKEN = re.compile(r"[A-Za-z_\u0370-\u03ff\u2080-\u2089\u2100-\u214f][\w'\u2080-\u2089]*(?:-[\w'\u2080-\u2089*+=<>\u2264\u2261\u2218\u2237]+)*")
TYPES = {"Rattle.together.proofs.Nearest": {"small": "Small", "summed": "Summed"}, "Rattle.calls.specs.Calls": {"says": "Says"}}
DECLARED = re.compile(r"^\s*((?:(?:abbrev|unfoldable|pub|record|data)\s+)*)([A-Za-z][\w'\-\u2080-\u2089]*)(?:\s+(?:\{[^}]*\}|\([^)]*\)))*\s+:(?:\s|$)")
KIT = re.compile(r"^\s*(?:pub )?(?:ghost )?use ([\w.+'\-]+?)(?:\.\{(.*)\}|)(?: as ([\w'\-]+))?;?\s*$")
CLAUSE = re.compile(r"^\s*(requires|ensures)\b")


def snake(word):
    if word == "getD":
        return "get_or"
    w = re.sub(r"(?<=[a-z0-9'])([A-Z])(?![A-Z])", lambda m: "_" + m.group(1).lower(), word)
    return w


def turned(name):
    """The name in today's spelling, or itself."""
    if name[0].isupper() and "-" not in name:
        return name
    parts = name.split("-")
    joins = any(re.search(r"[a-z0-9][A-Z]|_", p) for p in parts)
    out = [snake(p) if not p[0:1].isupper() else p for p in parts]
    if len(parts) == 1:
        return out[0]
    if any(not p or not (p[0].isalnum()) for p in parts):
        return "-".join(out)
    return ("-" if joins else "_").join(out)


def taken(text, crates):
    """The names that a file takes from the library, which keep their spelling."""
    kit = set()
    for line in text.split("\n"):
        m = KIT.match(line)
        if m and not own_path(m.group(1), crates) and m.group(2):
            kit |= {it.split(" as ")[0].strip() for it in m.group(2).split(",")}
    return kit


def apart(files, declared, fields, table, crates):
    """Names that would fall together in a file get different ones."""
    texts = {}
    for p in files:
        if p.endswith(".antt") and not p.endswith("/Proof.antt") and "__" not in os.path.basename(p):
            text = open(p, encoding="utf-8").read()
            lines = [l.partition(" -- ")[0] for l in text.split("\n") if not l.lstrip().startswith("--")]
            texts[p] = (set(TOKEN.findall("\n".join(lines))), taken(text, crates))
    for _ in range(5):
        found = False
        for p, (words, kit) in texts.items():
            to = collections.defaultdict(set)
            for n in words:
                to[n if n in kit else table.get(n, n)].add(n)
            for w, ns in to.items():
                if len(ns) < 2:
                    continue
                for n in sorted(ns, key=lambda n: (n == w, "-" not in n))[:-1]:
                    found = True
                    table[n] = turned(n) + ("_is" if n in fields and not turned(n).endswith("_is") else "_lem") if table[n] == turned(n) else table[n] + "_lem"
        if not found:
            return


def own_path(path, crates):
    m = re.match(r"Rattle\.([a-z_0-9]+)(?:\.|$)", path)
    return bool(m) and m.group(1) in crates


def main(root):
    crates = set(os.listdir(os.path.join(root, "crates")))
    files = sorted(p for k in ("antt", "rt") for p in glob.glob(os.path.join(root, "crates", "*", "**", "*." + k), recursive=True) if "/out/" not in p)
    declared = collections.defaultdict(set)
    fields = set()
    for p in files:
        if not p.endswith(".antt") or p.endswith("/Proof.antt") or "__" in os.path.basename(p):
            continue
        record = None
        for line in open(p, encoding="utf-8"):
            if not line.strip() or line.lstrip().startswith("--"):
                continue
            depth = len(line) - len(line.lstrip())
            if record is not None and depth <= record:
                record = None
            m = DECLARED.match(line)
            if m:
                declared[m.group(2)].add(os.path.relpath(p, root))
                if record is not None:
                    fields.add(m.group(2))
            if re.match(r"^\s*(pub )?record [A-Z]", line):
                record = depth
    table = {n: turned(n) for n in declared if turned(n) != n}
    apart(files, declared, fields, table, crates)
    said = []
    changed = 0
    for p in files:
        text = open(p, encoding="utf-8").read()
        # names that this file takes from the library keep their spelling
        kit = taken(text, crates)
        mine = dict(table)
        here = "Rattle." + os.path.relpath(p, os.path.join(root, "crates"))[:-5].replace("/", ".").split("__")[0]
        for path, words in TYPES.items():
            if here == path:
                mine |= words
            for m in re.finditer(r"use " + re.escape(path) + r"\.\{([^}]*)\}", text):
                mine |= {k: v for k, v in words.items() if k in [i.strip() for i in m.group(1).split(",")]}
        new = turn_file(text, p.endswith(".rt"), mine, kit, os.path.relpath(p, root), said, p.endswith("/Proof.antt"))
        if new != text:
            changed += 1
            open(p, "w", encoding="utf-8").write(new)
    for p in [os.path.join(root, "README.md")] + sorted(glob.glob(os.path.join(root, "docs", "*.md"))) + sorted(glob.glob(os.path.join(root, "crates", "*", "*.md"))):
        if os.path.basename(p) in ("PORT.md",) or not os.path.exists(p):
            continue
        text = open(p, encoding="utf-8").read()
        new = ticks(text, table)
        if new != text:
            changed += 1
            open(p, "w", encoding="utf-8").write(new)
    print("\n".join(said))
    print(f"{len(table)} names, {changed} files")


def ticks(text, table):
    return re.sub(r"`([^`\n]+)`", lambda m: "`" + TOKEN.sub(lambda t: table.get(t.group(0), t.group(0)), m.group(1)) + "`", text)


def turn_file(text, source, table, kit, path, said, walk=False):
    met = collections.defaultdict(set)

    def one(m):
        n = m.group(0)
        # in a walk of the code, what stands behind a step's `c.` is a name that the kit makes
        if walk and re.search(r"(?:^|[^\w'-])(?:c|tie|(?:\S+\.)?before)\.$", m.string[max(0, m.start() - 400):m.start()]):
            return n
        w = n if n in kit else table.get(n, n)
        met[w].add(n)
        return w

    out = []
    inside = False
    for line in text.split("\n"):
        mark = "//" if source else "--"
        if line.lstrip().startswith(mark):
            out.append(ticks(line, {k: v for k, v in table.items() if k not in kit}))
            continue
        if source:
            if CLAUSE.match(line):
                inside = True
            if inside or re.match(r"^\s*ghost\b", line):
                out.append(TOKEN.sub(one, line))
            else:
                out.append(line)
            if inside and line.rstrip().endswith("}"):
                inside = False
            continue
        code, sep, rest = line.partition(" -- ")
        out.append(TOKEN.sub(one, code) + sep + rest)
    for w, ns in met.items():
        if len(ns) > 1 and not walk:
            said.append(f"fall together in {path}: {w} of {sorted(ns)}")
    return "\n".join(out)


if __name__ == "__main__":
    main(sys.argv[1] if len(sys.argv) > 1 else ".")
