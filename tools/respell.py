#!/usr/bin/env python3
"""Spells the repository's own definitions and lemmas in snake case, as Rattle's library spells its own.

usage: tools/respell.py [--dry] [FOLDER]      FOLDER holds crates/; the one above tools/ if none is named

Runs once, right after the toolchain's port.py, over the text as that left it. A name is turned where a file of specs/ or a lemma file
of proofs/ declares it: camelCase and kebab-case become snake_case. Types, modules and what Rattle names itself stay. Where two names
would fall together, APART says what the one that is turned becomes instead. Functions of src/, exported names, strings, inputs and outputs stay;
in a .rt file only `ghost use` items, clauses and comments' code spans are turned, and in a must-fail edit its lines `old:` and `new:`.
"""

import glob
import os
import re
import sys

WORD = r'[^\s(){}.;,@"«»\x60:]+'
DECLARED = re.compile(r'(?m)^(\s*)(?:(?:abbrev|unfoldable|pub|data|record|ruleset)\s+)*([^\s(){}.;,@"«»]+)(?: \{[^{}\n]*\})*\s*(?::|=|\()')
# A lemma in kebab-case beside a definition in camelCase, which takes the plain name.
LAWS = """action-fits action-in after-or all-below all-nullable-in at-end begins-in can-begin can-begin-in cell-fits child-of children-fit children-left
comes-in depth-fits dot-fits dot-fits-in dot-in empty-spot end-at end-or expected-word file-reply first-bad first-false first-in first-or follow-ups
follow-ups-in follows-in formed-at goto-fits goto-in has-goto has-item has-item-for has-token left-fits length-nodes-of look-column lookahead-in
mark-end mark-entry mark-start moves-on moves-on-in no-mark no-token node-words nodes-fit nullable-in out-of-units production-entry production-in
record-words records-fit reduce-fits-in root-at root-of set-fits set-in sim-top simulate-on simulate-reduce sizes-fit start-in start-or state-in symbol-in
symbols-in token-at token-entry top-at tree-from word-in words-in"""
APART = {name: snake_law for name in LAWS.split() for snake_law in [name.replace("-", "_") + "_law"]}
# The same for names that port.py turned already: the beginnings of the files that they are turned in.
TURNED = {
    "after_check": ("after_check_law", ["lr/specs/"]),
    "any_below": ("any_below_law", ["lr/specs/"]),
    "end_below": ("end_below_law", ["refine/specs/"]),
    "look_in": ("look_in_law", ["lr/specs/"]),
    "move_in": ("move_in_law", ["coming/specs/", "following/specs/", "items/specs/", "lr/specs/"]),
    "no_shift": ("no_shift_here", ["lr/specs/Choice", "lr/specs/Search"]),
    "no_words": ("no_words_law", ["printer/specs/"]),
    "opens_in": ("opens_in_law", ["following/specs/"]),
    "units_of": ("units_of_law", ["lr/specs/"]),
}


def snake(name):
    turned = re.sub(r"(?<=[a-z0-9'])[A-Z]", lambda m: "_" + m[0].lower(), name)
    return turned.replace("-", "_")


def files(root, *patterns):
    return sorted(p for q in patterns for p in glob.glob(os.path.join(root, "crates", "*", q), recursive=True) if "/out/" not in p)


def read(path):
    with open(path, encoding="utf-8") as f:
        return f.read()


def table(root):
    """old name -> new name"""
    declared = set()
    for path in files(root, "specs/**/*.antt", "proofs/*.antt"):
        for m in DECLARED.finditer(read(path)):
            declared.add(m[2])
    rows = {}
    for name in sorted(declared):
        if name[0].islower() and re.fullmatch(r"[\w'-]+", name) and snake(name) != name:
            rows[name] = APART.get(name, snake(name))
    return rows


def turned_here(path):
    return {old: new for old, (new, heads) in TURNED.items() if any("/crates/" + h in "/" + path.replace(os.sep, "/") for h in heads)}


def clashes(root, rows):
    """Two names that are turned into one, and a new name that some definition's file has beside the old one."""
    found, by = [], {}
    for old, new in rows.items():
        if new in by:
            found.append((old, new, "as " + by[new]))
        by[new] = old
    for path in files(root, "specs/**/*.antt", "proofs/*.antt"):
        words = set(re.findall(WORD, re.sub(r"(?m)^use .*\.(?=\w+$)", "", read(path)))) - set(turned_here(path))
        found += [(old, new, "both in " + path) for old, new in rows.items() if old in words and new in words]
    return found


def turn(text, rows):
    return re.sub(WORD, lambda m: rows.get(m[0], m[0]), text)


def turn_rt(text, rows):
    """`ghost` items, clauses and comments' code spans of a .rt file."""
    out, at = [], 0
    starts = re.compile(r"ghost\s+use\b|(?:requires|ensures)\s*\*?\s*(?:\w+\s*)?\{|ghost\s+\w+\s*[:=]\s*\{|//[^\n]*")
    for m in iter(lambda: starts.search(text, at), None):
        out.append(text[at : m.start()])
        if m[0].startswith("//"):
            end = m.end()
            out.append(re.sub(r"\x60[^\x60\n]*\x60", lambda s: turn(s[0], rows), m[0]))
        elif m[0].endswith("{"):
            depth, end = 1, m.end()
            while depth:
                depth += {"{": 1, "}": -1}.get(text[end], 0)
                end += 1
            out.append(m[0] + turn(text[m.end() : end], rows))
        else:
            end = text.index(";", m.end())
            out.append(turn(text[m.start() : end], rows))
        at = end
    return "".join(out) + text[at:]


def main():
    words = [a for a in sys.argv[1:] if a != "--dry"]
    root = words[0] if words else os.path.dirname(os.path.dirname(os.path.abspath(__file__)))
    rows = table(root)
    found = clashes(root, rows)
    for old, new, why in found:
        print(f"falls together: {old} -> {new}: {why}")
    print(f"{len(rows)} names, {len(found)} fall together")
    if "--dry" in sys.argv or found:
        return 1 if found else 0
    everywhere = rows
    for path in files(root, "**/*.antt", "src/*.rt", "must-fail/*.edit"):
        rows = everywhere | turned_here(path)
        old = read(path)
        if path.endswith(".rt"):
            new = turn_rt(old, rows)
        elif path.endswith(".edit") and re.search(r"(?m)^file: src/", old):
            new = re.sub(r"(?m)^(?:old|new): (.*)$", lambda m: m[0][:5] + (turn_rt(m[1], rows) if m[1].strip().startswith(("ghost", "requires", "ensures", "//")) else m[1]), old)
        elif path.endswith(".edit"):
            new = re.sub(r"(?m)^(?:old|new): .*$", lambda m: m[0][:5] + turn(m[0][5:], rows), old)
        else:
            new = turn(old, rows)
        if new != old:
            with open(path, "w", encoding="utf-8") as f:
                f.write(new)
    return 0


sys.exit(main())
