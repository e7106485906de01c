#!/usr/bin/env python3
"""Brings the repository's own definitions and lemmas to the kit's spelling, once, right after the kit's port.py.

usage: python3 tools/respell.py        at the top of the repository

What is declared in specs/ and in the lemma files of proofs/ is turned, in every .antt and .rt file, in the must-fail edits and in
the code spans of the pages:
  facts stay in upper camel case; every other name goes to snake case: workAt is work_at;
  a dash stays only between two names that are declared themselves; a plain word is added with an underscore: row-past is row_past;
  a name that would meet another one in some file gets the ending _lem if a lemma, else _of.
Functions of src/, exported names, strings, inputs and outputs keep theirs. It says each name that it turned.
"""

import collections
import os
import re
import sys

TOKEN = re.compile(r'[^\s(){}\[\].;,:@"«»`|/\\]+')
DECLARED = re.compile(r"^( *)((?:unfoldable )?(?:abbrev )?(?:pub )?)([^\s(){}=,;.:«»]+)(?: \{[^{}]*\})* :(?: |$)(.*)")
NOT_NAMES = re.compile(r"^(use|module|record|data|let|in|open|where|elim|λ)$")
COMMENT = re.compile(r"(?m)(?:^|(?<=\s))--.*$")
TYPE = re.compile(r"^ *(?:pub )?(?:record|data) ([^\s(){}:]+)")
USE = re.compile(r"(?:^|\n) *(?:pub |ghost )*use ([^\s{;]+?)(?:\.\{([^}]*)\})?;?(?=\n|$)")
# Words of the library that lemmas are named after.
STD = set("length take drop get_or map foldl append set replicate cond min max sum reverse concat".split())
# A fact that was spelled like a function, in the files that know it.
FACTS = {"all": ("All", "Rattle.grid.proofs.All")}
# Names that would meet another one, by hand.
BY_HAND = {"border-of": "rust_border", "scratch-reach": "scratch_reach_lem", "work-reach": "work_reach_lem"}


def files(endings):
    for top in ("crates", "docs", "tools", "python"):
        for folder, dirs, names in os.walk(top):
            dirs[:] = sorted(d for d in dirs if d not in ("out", "target", ".git"))
            for name in sorted(names):
                if name.endswith(endings):
                    yield os.path.join(folder, name)
    if ".md" in endings:
        yield "README.md"


def read(path):
    with open(path, encoding="utf-8") as f:
        return f.read()


def is_stated(path):
    """Whether the file is one of specs/ or a lemma file of proofs/, and no proof of a function."""
    parts = path.split("/")
    return path.endswith(".antt") and ("specs" in parts or parts[-2] == "proofs" or not parts[-1].startswith(("Proof", "Answers", "Invariants")))


def declared(path):
    for line in read(path).split("\n"):
        if line.lstrip().startswith("--"):
            continue
        m = TYPE.match(line)
        if m:
            yield m.group(1), True
            continue
        m = DECLARED.match(line)
        if m and not NOT_NAMES.match(m.group(3)) and "'" not in m.group(3)[:1]:
            yield m.group(3), bool(re.search(r"(?:→ |^)Type \d$", m.group(4)))


def snake(name):
    if re.fullmatch(r"[A-Z0-9]+(-[A-Z0-9]+)+", name):
        return name.replace("-", "_")
    return re.sub(r"(?<=[a-z0-9'])([A-Z])(?=[a-z])", lambda m: "_" + m.group(1).lower(), name) if not name[0].isupper() else name


def spelled(name, known):
    """The name in the kit's spelling; known are the names, old and new, that a dash may stand between."""
    words = [snake(w) for w in name.split("-")]
    if len(words) == 1:
        return words[0]
    if name.isupper():
        return "_".join(words)
    out = words[0]
    for at in range(1, len(words)):
        rest = "-".join(words[at:])
        left = out
        joins = left in known and (rest in known or rest.replace("-", "_") in known)
        out += ("-" if joins else "_") + words[at]
    return out


def main():
    antt = [p for p in files((".antt",))]
    stated = [p for p in antt if is_stated(p)]
    facts, names, where = set(), collections.Counter(), collections.defaultdict(set)
    in_specs = set()
    for p in stated:
        for name, is_fact in declared(p):
            names[name] += 1
            where[name].add(p)
            if is_fact:
                facts.add(name)
            if "/specs/" in p:
                in_specs.add(name)
    known = {snake(n) for n in in_specs if len(n) > 1} | STD
    table = {}
    for name in sorted(names):
        if name in FACTS or not re.search(r"[a-zA-Z]", name):
            continue
        new = BY_HAND.get(name) or spelled(name, known)
        if new != name:
            table[name] = new

    # Every token of each text, as it stands, and what each file takes from a library.
    texts = {p: read(p) for p in files((".antt", ".rt", ".edit", ".md"))}
    tokens = {p: set(TOKEN.findall(COMMENT.sub("", t))) for p, t in texts.items()}
    own = {p.split("/")[1] for p in antt}
    lent = collections.defaultdict(set)
    for p, t in texts.items():
        for m in USE.finditer(t):
            head = m.group(1).split(".")
            mine = head[0] == "Rattle" and len(head) > 1 and head[1] in own
            if not mine and m.group(2):
                lent[p] |= {x.strip().split(" as ")[-1] for x in m.group(2).split(",")}

    # Names that would meet in some file of specs/ or of lemmas: a definition keeps the plain name, a lemma or a local one gives way.
    for _ in range(9):
        again = False
        for p in stated:
            turned = collections.defaultdict(set)
            for x in tokens[p]:
                turned[x if x in lent[p] else table.get(x, x)].add(x)
            for new, olds in sorted(turned.items()):
                if len(olds) < 2:
                    continue
                kept = [x for x in olds if x in lent[p]] or [x for x in olds if x in in_specs] or [x for x in olds if x not in names] or sorted(olds)[:1]
                for old in sorted(olds):
                    if old == kept[0] or old not in names:
                        continue
                    table[old] = new + ("_of" if old in in_specs else "_lem")
                    print(f"meets: {old} -> {table[old]}, since {new} is in {p}, for {kept[0]}")
                    again = True
                if kept[0] in in_specs and any(x not in names for x in olds):
                    print(f"meets a local name: {kept[0]}: {new} in {p}: {sorted(olds)}")
        if not again:
            break

    for old, new in sorted(table.items()):
        print(f"{old}\t{new}")

    for p, t in texts.items():
        skip = lent[p]

        def turn(m):
            x = m.group(0)
            return table[x] if x in table and x not in skip else x

        if p.endswith(".md"):
            new = re.sub(r"`[^`\n]*`", lambda m: TOKEN.sub(turn, m.group(0)), t)
        elif p.endswith(".rt") or p.endswith(".edit") and "file: src/" in t:
            new = TOKEN.sub(lambda m: turn(m) if not re.fullmatch(r"[a-z0-9_]+", m.group(0)) else m.group(0), t)
        elif p.endswith(".antt") and p not in stated:
            # In a function's proof a plain word behind a dot is a step of the code.
            new = TOKEN.sub(lambda m: m.group(0) if t[m.start() - 1 : m.start()] == "." and re.fullmatch(r"[a-z0-9_]+", m.group(0)) else turn(m), t)
        else:
            new = TOKEN.sub(turn, t)
        for old, (fact, module) in FACTS.items():
            if p.endswith(".antt") and (module in t or p.endswith(module.replace("Rattle.", "").replace(".", "/") + ".antt")):
                new = re.sub(rf"(?<![^\s(){{}},]){old}(?![^\s(){{}},])", fact, new)
        if new != t:
            with open(p, "w", encoding="utf-8") as f:
                f.write(new)
    return 0


if __name__ == "__main__":
    sys.exit(main())
