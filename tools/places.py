#!/usr/bin/env python3
"""Counts, in the sources of the crates, the places that docs/DESIGN-PASS.md speaks of: python3 tools/places.py [-v] [FOLDER].

FOLDER is a checkout, this one if none is given. -v names each place. A count is of text: it finds what looks like such a place, and the page
says which of them stay and why."""
import os
import re
import sys
from pathlib import Path

TOKEN = re.compile(r"[A-Za-z_][A-Za-z_0-9]*|\d[\d_]*|b?\"[^\"]*\"|b?'[^']*'|->|=>|==|!=|<=|>=|&&|\|\||::|\.\.=?|\S")
KEPT_WORDS = set("if else match while for in return let mut loop true false as u8 u16 u32 u64 usize bool fn".split())


def lines_of(folder):
    for path in sorted(folder.glob("crates/*/src/**/*.rt")):
        for number, line in enumerate(path.read_text().split("\n"), 1):
            if not line.lstrip().startswith("//"):
                yield f"{path.relative_to(folder)}:{number}", line


def functions_of(folder):
    """Each function: its place, its name, its head and its body."""
    for path in sorted(folder.glob("crates/*/src/**/*.rt")):
        text = re.sub(r"//[^\n]*", lambda m: " " * len(m[0]), path.read_text())
        for m in re.finditer(r"^[ ]*(?:pub(?:\([a-z]+\))? )?(?:const )?(?:extern \"C\" )?fn (\w+)", text, re.M):
            end = re.compile(r"^" + re.match(" *", m[0])[0] + r"\}", re.M).search(text, m.end())
            whole = text[m.start(): end.end() if end else len(text)]
            cut = re.search(r"^ *\{\n|\{\n", whole, re.M)
            opening = re.search(r"(?m)^ *\{$|^(?!.*\b(?:ensures|requires)\b).*[^\n]\{$", whole)
            at = opening.end() if opening else (cut.end() if cut else 0)
            yield f"{path.relative_to(folder)}:{text.count(chr(10), 0, m.start()) + 1}", m[1], whole[:at], whole[at:]


def grep(pattern):
    def find(folder):
        return [f"{place} {line.strip()[:90]}" for place, line in lines_of(folder) if re.search(pattern, line)]
    return find


def heads(pattern):
    def find(folder):
        return [f"{place} {name}" for place, name, head, _ in functions_of(folder) if re.search(pattern, " ".join(head.split()))]
    return find


def enums(folder):
    found = []
    for path in sorted(folder.glob("crates/*/src/**/*.rt")):
        for m in re.finditer(r"(#\[derive\([^\n]*\n)?(?:pub(?:\(crate\))? )?enum (\w+) \{(.*?)^\}", path.read_text(), re.S | re.M):
            if "Error" not in (m[1] or "") and re.search(r"^\s*(Refused|Nothing|Empty|BadSize)\b", m[3], re.M):
                found.append(f"{path.relative_to(folder)} {m[2]}")
    return found


def twins(folder):
    """Functions of one shape: the same body but for names, numbers and texts."""
    shapes = {}
    for place, name, _, body in functions_of(folder):
        shape = tuple("w" if re.match(r"[A-Za-z_]", t) and t not in KEPT_WORDS else "n" if re.match(r"\d|b?[\"']", t) else t for t in TOKEN.findall(body))
        if len(shape) >= 16:
            shapes.setdefault(shape, []).append(f"{place} {name}")
    return [", ".join(group) for group in shapes.values() if len(group) > 1]


def facts(folder):
    """Premises that three or more functions of one crate state."""
    seen = {}
    for place, name, head, _ in functions_of(folder):
        for clause in re.findall(r"requires(?: \w+)? \{ (.*?) \}", " ".join(head.split())):
            for part in re.split(r" × ", clause):
                part = re.sub(r"^\(|\)$", "", part.strip()) if part.count("(") != part.count(")") or part.startswith("(") else part
                seen.setdefault((place.split("/")[1], part), []).append(f"{place} {name}")
    return [f"{crate}: {part} ({len(where)})" for (crate, part), where in seen.items() if len(where) > 2 for _ in where]


COUNTS = [
    ("1", "functions that answer a number of one byte", heads(r"\) -> u8\b")),
    ("1", "records of a refusal's number beside a value", grep(r"^\s*(pub )?(refusal|result): u8,")),
    ("1", "enums of the shape of Option or Result", enums),
    ("1", "numbers for states and kinds of lines (constants)", grep(r"const [A-Z_]+: u32 = \d;|const FAILED: usize")),
    ("1", "words by number, in a text between semicolons", grep(r"b\"[^\"]*;[^\"]*\"")),
    ("2", "groups of functions of one shape", twins),
    ("3", "loops by `while`", grep(r"^\s*while ")),
    ("4", "comparisons of numbers within a type", grep(r"\.0 (==|!=|<=|<) |(==|!=|<=|<) [a-z_]+(\(.*\))?\.0\b")),
    ("4", "conversions by a function of its own (`wide`)", grep(r"\bwide\(")),
    ("4", "least, larger, sums by a function of its own", grep(r"\b(capped|shorter|larger|plus|add|after)\(|std::num::wrapping")),
    ("4", "digits, columns and texts printed by hand", grep(r"\b(say|tell|tell_one|pad|right|left|column|hex|put|count|word|size)\(stdout")),
    ("5", "functions that take a page and a place in it", heads(r"page: &(mut )?\[u8; 65536\]")),
    ("5", "functions that take homes, copies and primaries", heads(r"homes: &\[u8\], copies: &\[u8\], primaries: &\[u8\]")),
    ("5", "functions that take both memories", heads(r"registers: &(mut )?\[u32; 593\],.*channel: &(mut )?\[u32; channel::WORDS\]")),
    ("5", "premises that three or more functions of a crate state", facts),
    ("6", "buffers with a place or a length beside", heads(r"text: &(mut )?\[u8; 64\], (at|n): usize|line: &(mut )?\[u8; 255\]|table: &(mut )?\[u8; 36944\]|from: usize|line: &\[u8\], at: usize")),
    ("7", "functions or closures by number", grep(r"\bfn\(|dyn Fn|Box<dyn")),
]


def main():
    arguments = [a for a in sys.argv[1:] if a != "-v"]
    folder = Path(arguments[0] if arguments else Path(__file__).resolve().parent.parent)
    for point, what, find in COUNTS:
        places = find(folder)
        print(f"{point}  {len(places):4}  {what}")
        if "-v" in sys.argv:
            for place in places:
                print("        " + place)
    answers = sorted(folder.glob("crates/*/proofs/**/Answers.antt")) + sorted(folder.glob("crates/*/proofs/**/Invariants.antt"))
    answers = [a for a in answers if "/out/" not in str(a)]
    given = sum(len(re.findall(r"^(?:abbrev )?pub \S+ : goal\.", a.read_text(), re.M)) for a in answers)
    print(f"8  {len(answers):4}  files of answers and invariants, with {given} of them")


try:
    main()
    sys.stdout.flush()
except BrokenPipeError:
    os.dup2(os.open(os.devnull, os.O_WRONLY), 1)
    sys.exit("places: what was found cannot be written")
