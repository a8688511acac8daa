#!/usr/bin/env python3
"""Respells the definitions and lemmas of this repository as today's Rattle spells names: in snake case, where a dash joins two names.

usage: tools/respell.py [--table] [FOLDER]      once, at the top, after port.py; --table prints old and new and writes nothing

A name turns if a file of specs/ or proofs/ declares it at its top, in a module or as a field of a record. Types, records and modules keep their camel case,
and functions of src/ keep their names: in a .rt file only clauses and ghost items are read. In .md files code spans turn.
A dash stays between two parts that are each a definition of this repository or of the library, in a name of at most three; every other dash becomes _.
A lemma that would then have the name of something else that its readers see gets _lem.
"""

import glob
import os
import re
import sys

WORD = re.compile(r"[^\s(){}.;,@\"«»\[\]|`]+")
DECLARED = re.compile(r"^(\s*)(abbrev pub |unfoldable pub |abbrev |unfoldable |pub )?(record |data )?([^\s(){}.;,@\"«»:]+)\s*(?:\(.*\)\s*|\{.*\}\s*)?:\s")
# the library's functions, by which a dash stays
LIBRARY = set(
    "length take drop append replicate get_or set sets suc zero add sub mul div mod rem map filter cond not nil cons reverse eqb ltb leb max min pow".split()
)
# lemmas that port.py itself spelled like a definition that their readers see, by file
LEMMAS = {
    "run_in": ["start_runs/proofs/Runs"],
    "width_room": ["text_views/proofs/Pieces", "text_views/proofs/put_width/Proof"],
    "lines_at": ["words_agree/proofs/ByRuns"],
    "first_entry": ["words/proofs/MoveLayout", "words/proofs/Under"],
    "too_long": ["words_markers/proofs/Seating", "words_markers/proofs/Seated", "marker_seats/proofs/seat/Proof"],
    "in_order": ["words_markers/proofs/Seating", "words_markers/proofs/Seated", "marker_seats/proofs/seat_both/Proof"],
}
QUIET = re.compile(r'"(?:[^"\\\n]|\\.)*"|(?<![^\s(){}.;,])--[^\n]*')
SPAN = re.compile(r"`([^`\n]+)`")
CLAUSE = re.compile(r"(?:requires|ensures)\s*\*?\s*(?:\w+\s*)?\{|ghost\s*(?:\w+\s*(?::\s*|=\s*))?\{")


def sources(top):
    for kind in ("specs", "proofs"):
        yield from sorted(glob.glob(os.path.join(top, "crates", "*", kind, "*.antt")))


def names_of(top):
    """Each declared name, and those that are definitions or records."""
    names, words = set(), set()
    for path in sources(top):
        for line in open(path, encoding="utf-8").read().split("\n"):
            if line.lstrip().startswith("--"):
                continue
            m = DECLARED.match(line)
            if not m:
                continue
            name = m.group(4)
            names.add(name)
            if (m.group(2) and ("abbrev" in m.group(2) or "unfoldable" in m.group(2))) or m.group(3):
                words.add(name)
    return names, words


def snake(part):
    part = part.replace("getD", "get_or")
    if part[:1].isupper() or not re.search(r"[a-z0-9][A-Z]", part):
        return part
    return re.sub(r"(?<=[a-z0-9])([A-Z])", lambda m: "_" + m.group(1), part).lower()


def respelt(name, words):
    parts = name.split("-")
    if "" in parts:
        return name
    new = snake(parts[0])
    for before, part in zip(parts, parts[1:]):
        both = len(parts) <= 3 and all(x in words or x in LIBRARY for x in (before, part))
        new += ("-" if both else "_") + snake(part)
    return new


def settled(name, words):
    """respelt, until nothing more turns."""
    while respelt(name, words) != name:
        name = respelt(name, words)
    return name


def seen_beside(top, turned):
    """For each name that turns, the other words of the files that have it."""
    beside = {}
    for path in glob.glob(os.path.join(top, "crates", "*", "**", "*"), recursive=True):
        if os.path.splitext(path)[1] in (".antt", ".rt"):
            text = QUIET.sub(" ", open(path, encoding="utf-8").read())
            text = re.sub(r"^use [^\s{;]+", " ", text, flags=re.M)
            words = set(WORD.findall(text))
            for name in words & turned.keys():
                beside.setdefault(name, set()).update(words)
    return beside


def table(top):
    names, words = names_of(top)
    turned = {n: settled(n, words) for n in names if settled(n, words) != n}
    beside = seen_beside(top, turned)
    news = {}
    for old, new in turned.items():
        news.setdefault(new, []).append(old)
    for old, new in list(turned.items()):
        if "-" in old and (len(news[new]) > 1 and any("-" not in o for o in news[new]) or new in names or new in beside.get(old, ())):
            turned[old] = new + "_lem"
    return turned, names


def antt(text, turn):
    """Code of antt: whole words turn; in a comment only those of code spans."""
    out, at = [], 0
    for m in QUIET.finditer(text):
        out.append(WORD.sub(turn, text[at : m.start()]))
        quiet = m.group(0)
        out.append(SPAN.sub(lambda s: "`" + WORD.sub(turn, s.group(1)) + "`", quiet) if quiet.startswith("--") else quiet)
        at = m.end()
    out.append(WORD.sub(turn, text[at:]))
    return "".join(out)


def rt(text, turn):
    """A source: ghost use items, clauses and ghost members turn."""
    spans = [(m.start(), m.end()) for m in re.finditer(r"ghost\s+use\b[^;]*;", text)]
    for m in CLAUSE.finditer(text):
        depth, i = 1, m.end()
        while depth and i < len(text):
            depth += {"{": 1, "}": -1}.get(text[i], 0)
            i += 1
        spans.append((m.end(), i - 1))
    out, at = [], 0
    for a, b in sorted(spans):
        out.append(text[at:a])
        out.append(WORD.sub(turn, text[a:b]))
        at = b
    out.append(text[at:])
    return "".join(out)


def main(args):
    show = "--table" in args
    rest = [a for a in args if a != "--table"]
    top = rest[0] if rest else "."
    turned, names = table(top)
    if show:
        for old in sorted(turned):
            print(old + "\t" + turned[old])
        return
    for name, places in LEMMAS.items():
        for place in places:
            path = os.path.join(top, "crates", place + ".antt")
            text = open(path, encoding="utf-8").read()
            open(path, "w", encoding="utf-8").write(antt(text, lambda m: name + "_lem" if m.group(0) == name else m.group(0)))
    turn = lambda m: turned.get(m.group(0), m.group(0))
    for folder, dirs, files in os.walk(top):
        dirs[:] = sorted(d for d in dirs if d not in (".git", "out", "target", "must-fail", "slow", "bench", "tools"))
        for name in sorted(files):
            path = os.path.join(folder, name)
            kind = os.path.splitext(name)[1]
            if kind not in (".antt", ".rt", ".md") or os.path.islink(path):
                continue
            text = open(path, encoding="utf-8").read()
            if kind == ".antt":
                new = antt(text, turn)
            elif kind == ".rt":
                new = rt(text, turn)
            else:
                new = SPAN.sub(lambda s: "`" + WORD.sub(turn, s.group(1)) + "`", text)
            if new != text:
                open(path, "w", encoding="utf-8").write(new)


if __name__ == "__main__":
    main(sys.argv[1:])
