#!/usr/bin/env python3
"""Brings the repository's own definitions, lemmas and record fields to today's spelling: words in snake case.

usage: tools/respell.py [FOLDER]     once, after port.py; a second run finds nothing to turn

    bestPlan, order-count, digits-none  ->  best_plan, order_count, digits_none

What specs/ and proofs/ declare is turned in all proof files, in the clauses of src/, and, between backquotes, in the pages.
Functions, types, constructors in capitals, modules, names of the library and names that Rattle makes stay. A lemma that would
have the name of a definition ends in `_lem`. It stops, and writes nothing, where two names would still fall together.
"""
import collections
import glob
import re
import sys

W = r"[^\s(){}.;,@\"«»\[\]\\:|⟦⟧`]+"
TOKEN = re.compile(r"--(?=\s|$)[^\n]*|\"(?:[^\"\\]|\\.)*\"|«[^»]*»|" + W)
WORD = re.compile(W)
HEAD = r"(?:(?:abbrev|unfoldable|pub|opaque|private)\s+)*"
DECLARED = re.compile(r"^\s*" + HEAD + r"(" + W + r")\s+:(?:\s+(\S+)|$)")
LIBRARY = re.compile(r"^\s*(?:pub )?use (?!Rattle\.(?!std\.))\S+?\.\{([^}]*)\}", re.M)
CLAUSE = re.compile(r"\b(?:requires|ensures)\b\*?\s*(?:\w+\s*)?\{")

# Names of the library that the repository has too: they stay.
STAY = {"map-append", "and-false", "or-false"}
# Names that would fall together with one that means something else.
OTHERS = {
    "page-printed": "page_prints",
    "no-pick": "no_picks",
    "windowCount": "count_of_windows",
    "quantityAt": "held_quantity_at",
    "fits_in": "fits_in_lem",
    "first_walk": "first_walk_lem",
    "same_point": "same_point_lem",
    "front_kept": "front_kept_lem",
    "first_past": "first_past_lem",
    "one_more": "one_more_lem",
    "taken_here": "taken_here_lem",
}


def read(path):
    with open(path, encoding="utf-8", newline="") as f:
        return f.read()


def snake(name):
    return re.sub(r"(?<=[a-z0-9])[A-Z]", lambda m: "_" + m[0].lower(), name).replace("-", "_")


def old(name):
    return bool(re.match(r"[a-z]", name)) and ("-" in name or bool(re.search(r"[a-z0-9][A-Z]", name)))


def declared(texts):
    """The names that the files declare, but those of goals in the proofs of functions."""
    out = set()
    for text in texts.values():
        for line in text.split("\n"):
            m = DECLARED.match(line)
            if m and not line.lstrip().startswith("--") and not (m[2] or "").startswith(("tie.", "goal.")):
                out.add(m[1])
            if line.startswith(("abbrev ", "pub ")) and m and m[1].startswith(("invariant-", "decreases-")):
                out.discard(m[1])
    return out


def table(texts):
    names = declared(texts)
    library = {n.split(" as ")[0].strip() for t in texts.values() for m in LIBRARY.finditer(t) for n in m[1].split(",")}
    turn = {n for n in names if old(n) and n not in STAY and n not in library}
    taken = {n for n in names if n not in turn} | library
    out = {n: w for n, w in OTHERS.items() if n in names}
    camel = {n for n in turn if "-" not in n and n not in out}
    for n in sorted(camel):
        out[n] = snake(n)
    used = set(out.values()) | (taken - set(out))
    for n in sorted(turn - camel - set(out)):
        out[n] = snake(n) if snake(n) not in used else snake(n) + "_lem"
    return out, taken


def turned(text, names):
    def one(m):
        word = m[0]
        if word.startswith(("--", '"', "«")):
            return re.sub(WORD, lambda w: names.get(w[0], w[0]), word) if word.startswith("--") else word
        if word in OTHERS and "_" in word and text[m.end() : m.end() + 1] == ".":
            return word
        if text[m.start() - 4 : m.start()] == "tie.":
            return word
        return names.get(word, word)

    return TOKEN.sub(one, text)


def clauses(text, names):
    """The text of a source file with the names turned in its clauses, its `ghost use` items and its comments."""
    def spans():
        for m in re.finditer(r"^\s*ghost use [^;]*;", text, re.M):
            yield m.start(), m.end()
        for m in CLAUSE.finditer(text):
            deep, i = 1, m.end()
            while deep and i < len(text):
                deep += (text[i] == "{") - (text[i] == "}")
                i += 1
            yield m.end(), i
        for m in re.finditer(r"//[^\n]*", text):
            yield m.start(), m.end()

    out, at = [], 0
    for lo, hi in sorted(spans()):
        if lo < at:
            continue
        out += [text[at:lo], turned(text[lo:hi], names)]
        at = hi
    return "".join(out + [text[at:]])


def page(text, names):
    return re.sub(r"`[^`\n]+`", lambda m: re.sub(WORD, lambda w: names.get(w[0], w[0]), m[0]), text)


def main(top):
    texts = {p: read(p) for d in ("specs", "proofs") for p in glob.glob(f"{top}/crates/*/{d}/**/*.antt", recursive=True)}
    names, taken = table(texts)
    together = collections.defaultdict(list)
    for n, w in names.items():
        together[w].append(n)
    bad = [(w, ns) for w, ns in together.items() if len(ns) > 1]
    if bad:
        print("\n".join(f"fall together: {w}: {', '.join(ns)}" for w, ns in bad))
        return 1
    done = 0
    sources = {p: read(p) for p in glob.glob(f"{top}/crates/*/src/**/*.rt", recursive=True)}
    pages = {p: read(p) for p in [f"{top}/README.md", *glob.glob(f"{top}/docs/*.md"), *glob.glob(f"{top}/docs/changes/*.md"), *glob.glob(f"{top}/tests/*.md")]}
    for all_of, how in ((texts, turned), (sources, clauses), (pages, page)):
        for path, text in all_of.items():
            new = how(text, names)
            if new != text:
                done += 1
                with open(path, "w", encoding="utf-8", newline="") as f:
                    f.write(new)
    print(f"{len(names)} names, {done} files")
    return 0


if __name__ == "__main__":
    raise SystemExit(main(sys.argv[1] if len(sys.argv) > 1 else "."))
