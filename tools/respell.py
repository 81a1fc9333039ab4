#!/usr/bin/env python3
"""Brings the repository's own names in specs/ and proofs/ to today's spelling.

usage: python3 tools/respell.py        at the top of the repository, once, after the kit's port.py

Functions, lemmas, fields and variables become snake case: withMark is with_mark, all-kept is all_kept. A dash stays where it joins a name of
specs/ to an operation of the library, as in sum-append. Types and facts keep their capitals. Names of the libraries stay, but for the four
in APART, and so do names that the prover makes. In src/ and in the must-fail edits camel-case names alone turn, wherever they stand; in
README.md and docs/ all of them, between backticks. Names that would fall together are said, and nothing is written then.
"""

import os
import re

NAME = re.compile(r"[A-Za-z0-9_'?ℕℤμ∞₀₁₂≤<≡+·-]+")
SIGNATURE = re.compile(r"^\s*(?:(?:pub|unfoldable|abbrev)\s+)*([^\s(){}\[\];,\"]+)(?:\s+\{ℓ[^}]*\})?\s+:\s")
DECLARED = re.compile(r"^\s*(?:(?:pub|unfoldable|abbrev)\s+)*(?:record|data|module)\s+([^\s(){}]+)")

# Operations of the library on lists and numbers. A dash joins their names to others'.
LIBRARY = set("append take drop length map set sets get_or replicate suc".split())

# Names that the rules below do not turn, and lemmas that would fall together with what they are about.
APART = {"Dec·and": "dec_and", "Dec·not": "dec_not", "List·getD-append": "list_get_or-append", "getD-table": "get_or-table"}
LEMMAS = """all-behind fed-at from_last head-field held_after judged-all lower-differences lower-sums margin-with monitor-view no-ceiling
no-most read-records rendered-into report-into send-on sent-all sent-from strict-from sum-of too_many upper-differences upper-sums""".split()
APART |= {name: name.replace("-", "_") + "_lem" for name in LEMMAS}

# Names that a definition and a function of src/ share, since the one is what the other computes; and `goes_on` and `at_first`, which no
# module has twice.
SHARED = set("""at_first closing_answer cut_off goes_on leading_passes margin_between mark_word most_field opening_for range_number
reading_answer refusal_line rendering_number smallest_of_five stand_ins strict_ceiling strict_least""".split())


def files(root, endings):
    for folder, dirs, names in os.walk(os.path.join(root, "crates")):
        dirs[:] = sorted(d for d in dirs if d != "out")
        for name in sorted(names):
            if name.endswith(endings):
                yield os.path.join(folder, name)


def read(path):
    with open(path, encoding="utf-8", newline="") as f:
        return f.read()


def write(path, text):
    if text != read(path):
        with open(path, "w", encoding="utf-8", newline="") as f:
            f.write(text)


def pages(root):
    yield os.path.join(root, "README.md")
    for folder, _, names in os.walk(os.path.join(root, "docs")):
        for name in sorted(names):
            if name.endswith(".md"):
                yield os.path.join(folder, name)


def is_lemma_file(path):
    """A file of specs/ or right in proofs/: one that no function's proof is."""
    return os.path.basename(os.path.dirname(path)) in ("specs", "proofs")


def snake(word):
    return re.sub(r"(?<=[a-z0-9'])([A-Z])", lambda m: "_" + m.group(1).lower(), word)


def respelt(name, words, facts):
    """The name in today's spelling."""
    if name in APART:
        return APART[name]
    if not re.match(r"[a-zμ≤<]", name):
        return name
    name = snake(name)
    parts = name.split("-")
    if "".join(p[:1].upper() + p[1:] for p in parts) in facts:
        return "_".join(parts)
    made = parts[0]
    for before, part in zip(parts, parts[1:]):
        both = {before, part} <= words and {before, part} & LIBRARY
        made += ("-" if both else "_") + part
    return made


def main():
    root = "."
    antt = list(files(root, ".antt"))
    own, words, facts, tokens = set(), set(LIBRARY), set(), set()
    for path in antt:
        text = re.sub(r"--(?: .*|$)", "", read(path), flags=re.M)
        tokens |= set(NAME.findall(text))
        for line in text.splitlines():
            m = SIGNATURE.match(line) or DECLARED.match(line)
            if not m:
                continue
            name = m.group(1)
            if re.match(r"[A-Z]", name):
                facts.add(name)
            if is_lemma_file(path):
                own.add(name)
                if "/specs/" in path and "-" not in name:
                    words.add(snake(name))
    camel = {t for t in tokens if re.match(r"[a-z]", t) and re.search(r"[a-z0-9'][A-Z]", t) and "-" not in t}
    turned = {}
    for name in sorted(own | camel | set(APART)):
        to = respelt(name, words, facts)
        if to != name:
            turned[name] = to
    bad = 0
    back = {}
    for name, to in turned.items():
        if to in back:
            print(f"fall together: {name} and {back[to]} are {to}")
            bad += 1
        back[to] = name
        if to in tokens and to not in turned and to not in SHARED:
            print(f"taken already: {name} is {to}")
            bad += 1
    if bad:
        return 1

    # Edits and pages still have the names that the kit's script turned.
    turned |= {"pairOf": "pair_of", "closedIn": "closed_in"}
    camel |= {"pairOf", "closedIn"}

    def turn(m):
        return turned.get(m.group(0), m.group(0))

    def turn_camel(m):
        return turned[m.group(0)] if m.group(0) in camel else m.group(0)

    def turn_quoted(m):
        return NAME.sub(turn, m.group(0))

    for path in antt:
        write(path, NAME.sub(turn, read(path)))
    for path in files(root, (".rt", ".edit")):
        write(path, NAME.sub(turn_camel, read(path)))
    for path in pages(root):
        write(path, re.sub(r"`[^`\n]+`", turn_quoted, read(path)))
    print(f"{len(turned)} names")
    return 0


if __name__ == "__main__":
    raise SystemExit(main())
