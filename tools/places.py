#!/usr/bin/env python3
"""Counts, in crates/*/src, the places of which docs/DESIGN-PASS.md speaks. Run at the top of a checkout; --list names each place."""
import glob
import re
import sys

SOURCES = {p: open(p, encoding="utf-8").read() for p in sorted(glob.glob("crates/*/src/**/*.rt", recursive=True))}
LIST = "--list" in sys.argv


def tell(point, what, places):
    print(f"{point}  {len(places):4}  {what}")
    if LIST:
        for p in places:
            print("        " + p)


def lines(pattern, paths="", bare=True):
    """Lines of code (comments left out) that have the pattern."""
    out = []
    for path, text in SOURCES.items():
        if paths and not re.search(paths, path):
            continue
        for n, line in enumerate(text.split("\n"), 1):
            code = line.split("//")[0] if bare else line
            if re.search(pattern, code):
                out.append(f"{path}:{n}: {line.strip()}")
    return out


def functions():
    """(path, name, parameters, head with clauses) of each function."""
    for path, text in SOURCES.items():
        for m in re.finditer(r"\bfn (\w+)(?:<[^(]*>)?\(([^{]*?)\)(?= *->| *$|\s*\{|\s*\n)", text, re.M):
            params = [p for p in re.split(r",(?![^<\[(]*[>\])])", m[2].replace("\n", " ")) if p.strip()]
            rest = text[m.end():]
            head = rest[: rest.find("\n{\n")] if "\n{\n" in rest else rest[:0]
            yield path, m[1], params, head


FNS = list(functions())

tell(1, "enums (those of the shape of Option or Result are named on the page)", lines(r"^(pub )?enum "))
tell(1, "parameters and fields of type bool", lines(r"\b(?!fn )\w+: bool\b"))
tell(1, "numbers for kinds or refusals: parameters and fields named number, kind or refusal", lines(r"\b(number|refusal)s?: (u8|u16|u32|usize)\b"))
tell(2, "functions that differ in a width or a count in their name", [f"{p}: {n}" for p, n, _, _ in FNS if re.search(r"[a-z](2|4|8|16|32)$", n)])
tell(2, "functions that read one field of an entry, a token or an item", [f"{p}: {n}" for p, n, _, _ in FNS if re.fullmatch(r"(state|node|start|end|first|after)_at|token_(kind|start|end)|item_(state|production|dot|lookahead)", n)])
tell(2, "functions that make one scan's step of the check and hand on to the next", [f"{p}: {n}" for p, n, _, _ in FNS if "checker" in p and n.startswith("check")])
tell(2, "loops that look for the first place at which a test is false, or test all below a bound", lines(r"^\s*(while|for) ", "crates/(tables|shapes|items|coming|following)/"))
tell(3, "loops: while and loop", lines(r"^\s*(while|loop)\b"))
tell(3, "  of these with a counter stepped by hand (`x += 1;` or `x -= 1;`)", lines(r"^\s*\w+ [+-]= 1;"))
tell(4, "variant tests written as a function over each variant", [f"{p}: {n}" for p, n, _, _ in FNS if re.fullmatch(r"is_shift|is_said|is_ended|goes_to", n)])
tell(4, "structs copied field by field", lines(r"^\s*height: st\.height,"))
tell(4, "orders and conversions written by hand", [f"{p}: {n}" for p, n, _, _ in FNS if re.fullmatch(r"before|in_numbers|less|within|fitting|weight|count_ones", n)])
tell(4, "matches that list every answer", [f"{p}: {n}" for p, n, _, _ in FNS if re.fullmatch(r"number_of|root_of|place_of|value_of|expected_of", n)])
tell(5, "functions with more than six parameters", [f"{p}: {n} ({len(a)})" for p, n, a, _ in FNS if len(a) > 6])
for fact in (r"Listed items", r"Grid states", r"Small g", r"Fine \(length", r"Fit \(call_tables", r"Safe g"):
    tell(5, f"contracts that ask `{fact}`", [f"{p}: {n}" for p, n, _, h in FNS if re.search(r"requires[^\n]*" + fact, h)])
tell(6, "a buffer with a place beside it that the function hands back", lines(r"buf: &mut \[u8\], at: usize"))
tell(6, "arrays taken apart by index, eight at a time", lines(r"words\[7\]"))
tell(6, "a part of a slice as start and size", lines(r"\bstart: usize|\bsize: usize"))
tell(7, "switches on which step to run", lines(r"match (mode|act)\b"))
ANSWERS = glob.glob("crates/*/proofs/**/*.antt", recursive=True)
TEXT = [open(p, encoding="utf-8").read() for p in ANSWERS]
print(f"8  {sum(t.count(chr(10)) for t in TEXT):4}  lines of proof files, in {len(ANSWERS)} files, with {sum(len(re.findall(r'^pub |^abbrev pub ', t, re.M)) for t in TEXT)} answers")
print(f"-  {sum(t.count(chr(10)) for t in SOURCES.values()):4}  lines of src/ in {len(SOURCES)} files")
