#!/usr/bin/env python3
"""Spells the repository's own definitions, lemmas and fields in snake case: `trackOf` and `count-at-once` become `track_of` and `count_at_once`.

usage: tools/respell.py [--check]        at the top of the repository, once, right after the kit's script for older repositories

A name turns that a file of specs/ or proofs/ declares, in the texts of antt, in the clauses and `ghost use` items of Rattle and in the code spans of the
pages. What a library declares stays, and so does a name in a file that imports that very name from a library. Types, modules, functions of src/ and file
names stay. A proof file of one function (Proof.antt, or today Invariants.antt and Answers.antt) has names that the prover made: there only what the repository declares turns.
Names that would fall together are told, and then nothing is written.
"""

import collections
import os
import re
import sys

WORD = re.compile(r'[^\s(){}.;,@"«»\[\]]+')
QUIET = re.compile(r'"(?:[^"\\\n]|\\.)*"|(?<![^\s(){}.;,@"«»])--[^\n]*')
OLD = re.compile(r"[a-z].*(?:[a-z0-9₀-₉][A-Z]|[A-Za-z0-9₀-₉]-[A-Za-z0-9])")
DECLARED = re.compile(r'^\s*(?:(?:pub|abbrev|unfoldable)\s+)*((?:[^\s(){}.;,@":]+\s+)+)(?:\{[^{}\n]*\}\s+)*:\s', re.M)
TELESCOPE = re.compile(r'[({]((?:[^\s(){}.;,@":]+\s+)+):\s')
USE = re.compile(r"^(?:pub )?use ([^\s{;]+)(?:\{([^}]*)\})?(?: as (\S+))?", re.M)
PATH = re.compile(r"\bRattle(?:\.[^\s(){}.;,@\"«»]+)+")
OF_RATTLE = re.compile(r"Rattle\.(?!std\b|core\b|io\b|libc\b|os\b)")
CLAUSE = re.compile(r"\b(?:requires|ensures)\s*\*?\s*(?:\w+\s*)?\{|\bghost\s+\w+\s*:\s*\{")
GHOST_USE = re.compile(r"ghost\s+use\b[^;]*;")
OF_ONE = re.compile(r"crates/\w+/proofs/.+/(?:Proof|Answers|Invariants)\.antt")
SPAN = re.compile(r"`[^`\n]+`")


def turned(name):
    name = name.replace("getD", "get_or")
    return re.sub(r"(?<=[a-z0-9₀-₉])[A-Z]", lambda m: "_" + m[0].lower(), name).replace("-", "_") if OLD.match(name) else name


def texts(suffix):
    for crate in sorted(os.listdir("crates")):
        for part in ("src", "specs", "proofs"):
            for folder, folders, files in os.walk(os.path.join("crates", crate, part)):
                folders.sort()
                yield from (os.path.join(folder, f) for f in sorted(files) if f.endswith(suffix))


def read(path):
    with open(path, encoding="utf-8") as f:
        return f.read()


def bare(text):
    return QUIET.sub("", text)


def of_library(text):
    """The names that a file imports from a library."""
    names = set()
    for m in USE.finditer(text):
        if not OF_RATTLE.match(m[1]):
            names |= {w for item in (m[2] or "").split(",") for w in item.split(" as ")[:1] for w in [w.strip()] if w}
    return names


def table(paths):
    """What the repository declares in an old spelling: each name with its new one. Where a definition and a lemma would fall together, the lemma gets `_lem`."""
    names = set()
    for p in paths:
        if not OF_ONE.fullmatch(p):
            text = bare(read(p))
            for m in list(DECLARED.finditer(text)) + list(TELESCOPE.finditer(text)):
                names |= set(m[1].split())
    rows = {n: turned(n) for n in names if OLD.match(n)}
    defined = {turned(n) for n in rows if "-" not in n}
    for n in names:
        if turned(n) in defined and ("-" in n or "_" in n):
            rows[n] = turned(n) + "_lem"
    return rows


def clashes(paths, rows):
    """Names that would fall together within one file."""
    for p in paths:
        kept = of_library(read(p))
        words = set(WORD.findall(PATH.sub("", bare(read(p)))))
        by = collections.defaultdict(set)
        for w in words:
            by[rows[w] if w in rows and w not in kept else w].add(w)
        yield from (f"{p}: {' and '.join(sorted(them))}" for them in by.values() if len(them) > 1)


def respelled(text, rows, kept, code_only=False):
    rows = {a: b for a, b in rows.items() if a not in kept}
    word = lambda m: rows.get(m[0], m[0])
    out, at = [], 0
    for m in QUIET.finditer(text):
        out.append(WORD.sub(word, text[at : m.start()]))
        out.append(WORD.sub(word, m[0]) if m[0].startswith("--") else m[0])
        at = m.end()
    return "".join(out) + WORD.sub(word, text[at:])


def body_end(text, at):
    """The offset after the brace that closes the one before `at`."""
    depth = 1
    while depth:
        depth += {"{": 1, "}": -1}.get(text[at], 0)
        at += 1
    return at


def in_source(text, rows):
    out, at = [], 0
    while True:
        found = [m for m in (CLAUSE.search(text, at), GHOST_USE.search(text, at)) if m]
        if not found:
            return "".join(out) + text[at:]
        m = min(found, key=lambda m: m.start())
        end = m.end() if m[0].endswith(";") else body_end(text, m.end())
        out += [text[at : m.start()], WORD.sub(lambda w: rows.get(w[0], w[0]), text[m.start() : end])]
        at = end


def in_page(text, names):
    """A name in a code span, also one that the kit's script turned: as it is spelled now."""

    def word(m):
        w = m[0].strip("`")
        now = next((n for n in (turned(w) + "_lem", turned(w)) if n in names), w) if OLD.match(w) and "-" in w else turned(w) if turned(w) in names else w
        return m[0].replace(w, now) if w else m[0]

    return SPAN.sub(lambda s: WORD.sub(word, s[0]), text)


def pages():
    yield "README.md"
    for folder, _, files in os.walk("docs"):
        # the page on this very change has both spellings
        yield from (os.path.join(folder, f) for f in sorted(files) if f.endswith(".md") and f != "PORT.md")


def main():
    antt = list(texts(".antt"))
    rows = table(antt)
    told = list(clashes([p for p in antt if not OF_ONE.fullmatch(p)], rows))
    if told:
        print("\n".join(told))
        return 1
    new = {p: respelled(read(p), rows, of_library(read(p))) for p in antt}
    new |= {p: in_source(read(p), rows) for p in texts(".rt")}
    names = {n for p in antt for n in WORD.findall(bare(new[p]))}
    new |= {p: in_page(read(p), names) for p in pages()}
    changed = [p for p, text in new.items() if text != read(p)]
    if "--check" not in sys.argv:
        for p in changed:
            with open(p, "w", encoding="utf-8") as f:
                f.write(new[p])
    print(f"{len(rows)} names, {len(changed)} files")
    return 0


if __name__ == "__main__":
    raise SystemExit(main())
