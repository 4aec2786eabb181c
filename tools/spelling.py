#!/usr/bin/env python3
"""Spells the names of the project's definitions and lemmas as Rattle's library does: words in snake case, types and modules in camel case.

usage: tools/spelling.py        once, at the top of the project, after the toolchain's own scripts

A name of specs/ or proofs/ in lower camel case (`functionOf`) or with dashes (`once-front`) is written with `_`; names that a file takes from
the toolchain's libraries, names that the check makes and names of src/ stay. Where a lemma would fall together with the definition that it is
about, it gets `_lem`. Comments follow where they name a definition.
"""
import os
import re

LIBRARY = re.compile(r"Rattle\.(?:std|core|io|libc|os)\b")
WORD = re.compile(r"[^\s(){}\[\].,;\"@`:]+")
# what a proof cites of the code before a goal: the check makes these names
CITED = re.compile(r"(?<![\w.'-])c(?:\.[^\s(){}\[\].,;\"@`:]+)+")
USE = re.compile(r"^\s*use ([^\n{]*?)\.\{([^}]*)\}", re.M)
# words with a dash that comments have for themselves, and not for a name
PROSE = set(
    "multi-multi multi-single single-multi single-single read-reply update-reply "
    "read-do update-do well-founded request-read request-update ill-sized".split()
)
# lemmas that the toolchain's scripts spelled as the definitions that they are about are spelled here
LEMMAS = {
    "crates/channel/proofs/LetterFits.antt": {"word_fits": "word_fits_lem"},
    "crates/runfile/proofs/AnswerMeaning.antt": {"two_bytes": "two_bytes_lem", "four_bytes": "four_bytes_lem"},
}


def files(*endings):
    for folder, below, names in os.walk("crates"):
        below[:] = sorted(d for d in below if d != "out")
        for name in sorted(names):
            if name.endswith(endings):
                yield os.path.join(folder, name)


def text_of(path):
    with open(path, encoding="utf-8") as f:
        return f.read()


def plain(text):
    return re.sub(r"--[^\n]*", "", text)


def taken(text):
    """The names that a file takes from other libraries than the project's."""
    out = set()
    for it in USE.finditer(text):
        if LIBRARY.match(it[1]) or not it[1].startswith("Rattle."):
            out |= {name.strip().split(" as ")[0] for name in it[2].split(",")}
    return out


def turned(name):
    return re.sub(r"(?<=[^-])[A-Z]", lambda it: "_" + it[0].lower(), name).replace("-", "_")


def is_old(name):
    return re.match(r"[a-z]", name) and ("-" in name[1:] or re.search(r"[A-Z]", name))


def main():
    antt = {path: text_of(path) for path in files(".antt")}
    lemmas = [path for path in antt if not path.endswith("/Proof.antt")]
    library = set().union(*(taken(text) for text in antt.values()))
    words = set().union(*(set(WORD.findall(plain(antt[path]))) for path in lemmas))
    old = {name for name in words if is_old(name) and name not in library}
    # definitions first: a lemma gives way
    fixed = {turned(name) for name in old if "-" not in name} | {name for name in words if not is_old(name)}
    new = {name: turned(name) + ("_lem" if "-" in name and turned(name) in fixed else "") for name in old}

    def spelled(text, table, comment, cited=re.compile("(?!)")):
        out = []
        for line in text.split("\n"):
            at = re.search(comment, line)
            code, said = (line[: at.start()], line[at.start() :]) if at else (line, "")
            parts, last = [], 0
            for it in cited.finditer(code):
                parts += [WORD.sub(lambda it: table.get(it[0], it[0]), code[last : it.start()]), it[0]]
                last = it.end()
            code = "".join(parts) + WORD.sub(lambda it: table.get(it[0], it[0]), code[last:])
            said = WORD.sub(lambda it: it[0] if it[0] in PROSE else new.get(it[0], it[0]), said)
            out.append(code + said)
        return "\n".join(out)

    for path, text in antt.items():
        table = dict(new)
        if path in LEMMAS:
            table |= LEMMAS[path]
        elif path.endswith("/Proof.antt"):
            for it in re.finditer(r"^(?:pub )?([a-z][^\s:]*) : (?!tie\.)", plain(text), re.M):
                if is_old(it[1]) and not it[1].endswith("-spec"):
                    table.setdefault(it[1], turned(it[1]))
        to = spelled(text, table, r"--", CITED) if path.endswith("/Proof.antt") else spelled(text, table, r"--")
        if to != text:
            with open(path, "w", encoding="utf-8") as f:
                f.write(to)
    for path in files(".rt"):
        text = text_of(path)
        to = spelled(text, new, r"//")
        if to != text:
            with open(path, "w", encoding="utf-8") as f:
                f.write(to)


if __name__ == "__main__":
    main()
