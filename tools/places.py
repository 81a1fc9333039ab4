#!/usr/bin/env python3
"""Lists the places in src/ that docs/DESIGN-PASS.md counts, point by point:  python3 tools/places.py [POINT..]  (from the top of a checkout)"""
import collections
import glob
import re
import sys

FILES = sorted(glob.glob("crates/*/src/**/*.rt", recursive=True))
TEXT = {f: open(f).read() for f in FILES}
# Comments out, with as many lines left.
CODE = {f: "\n".join(re.sub(r"//.*", "", line) for line in t.split("\n")) for f, t in TEXT.items()}
FUNCTION = re.compile(r"\bfn\s+([a-z_0-9]+)\s*(?:<[^({]*>)?\s*\(")


def block(text, at, open_with="{", close_with="}"):
    """The end of the brackets that begin at or after a place."""
    at = text.index(open_with, at)
    depth = 0
    while True:
        depth += (text[at] == open_with) - (text[at] == close_with)
        at += 1
        if depth == 0:
            return at


def functions():
    """File, line, name, parameters, result and body of each function that has a body."""
    for file, code in CODE.items():
        for m in FUNCTION.finditer(code):
            end = block(code, m.end() - 1, "(", ")")
            at = end
            result = re.match(r"\s*->\s*([^\n{]*)", code[at:])
            if result:
                at += result.end()
            while clause := re.match(r"\s*(requires|ensures)\*?(\s+[a-z_0-9]+)?\s*\{", code[at:]):
                at = block(code, at + clause.end() - 1)
            body = re.match(r"\s*(where[^{]*)?\{", code[at:])
            if body:
                start = at + body.end() - 1
                yield (file, code[: m.start()].count("\n") + 1, m.group(1), code[m.end() : end - 1],
                       result.group(1).strip() if result else "", code[start : block(code, start)])


def lines(pattern):
    for file, code in CODE.items():
        for number, line in enumerate(code.split("\n"), 1):
            if re.search(pattern, line):
                yield f"{file}:{number}: {line.strip()}"


def fields():
    """File, line, name and fields of each struct and of each variant with named fields."""
    for file, code in CODE.items():
        for m in re.finditer(r"\b(?:struct ([A-Z]\w*)(?:<[^>]*>)?|([A-Z]\w*)) \{\n?((?:[^{}]|\{[^{}]*\})*)\}", code):
            names = re.findall(r"(?:^|[,{\n])\s*(?:pub(?:\([a-z]+\))? )?([a-z_]+): ([^,\n]+)", m.group(3))
            if m.group(1) or re.match(r"^\s*$", code[code.rfind("\n", 0, m.start()) + 1 : m.start()]):
                yield file, code[: m.start()].count("\n") + 1, m.group(1) or m.group(2), names


def enums():
    return list(lines(r"^\s*(pub |pub\(crate\) )?enum "))


def flagged():
    own = {e.split("enum ")[1].split(" ")[0].split("<")[0] for e in enums()}
    for file, line, name, names in fields():
        kinds = [k.strip() for _, k in names]
        if len(kinds) > 1 and any(k == "bool" or k in own for k in kinds):
            yield f"{file}:{line}: {name} {{ {', '.join(n for n, _ in names)} }}"
    for file, line, name, parameters, _, _ in functions():
        if re.search(r"\b(capped|passes): bool", parameters) or re.search(r"\bunlimited: (bool|u32)", parameters) and "upper" in parameters:
            yield f"{file}:{line}: fn {name}"


def numbers():
    yield from lines(r"const (NO_|UNNAMED|BAD_STATE|MINUS_|REFUS)\w*: ")
    for file, line, name, parameters, result, body in functions():
        arms = re.findall(r"=> (?:return )?(?:[A-Z_]+ \+ )?(?:Ok\()?(\d[\d_]*|numbers::show(?:_two)?\(rt, \d+[^)]*\))", body)
        if len(arms) > 1 and re.search(r"[A-Z]\w+(::[A-Z]\w+)? ?(\{[^}]*\}|\([^)]*\))? =>", body):
            yield f"{file}:{line}: fn {name}, a number for each case"
        elif re.fullmatch(r"u32|u64", result) and re.search(r"return (BAD_STATE|\d+|number);", body):
            yield f"{file}:{line}: fn {name} -> {result}, a refusal as a number"


def twins():
    """Functions alike but for names, types and constants, of 25 tokens or more or of one name; and types alike but for their names."""
    groups = collections.defaultdict(list)
    for file, line, name, parameters, result, body in functions():
        text = f"({parameters}) {result} {body}"
        tokens = re.findall(r"[A-Za-z_][A-Za-z_0-9]*|\d[\d_]*|b?'[^']*'|b?\"[^\"]*\"|\S", text)
        seen = {}
        plain = []
        for token in tokens:
            if re.match(r"(if|else|while|for|in|let|mut|return|match|loop|break|true|false|self|as)$", token):
                plain.append(token)
            elif re.match(r"[A-Za-z_]", token):
                plain.append("n%d" % seen.setdefault(token, len(seen)))
            elif re.match(r"\d|b?['\"]", token):
                plain.append("0")
            else:
                plain.append(token)
        if "extern" not in file and len(tokens) >= 18:
            groups[" ".join(plain)].append(f"{file}:{line}: fn {name}")
    for members in groups.values():
        if len(members) > 1:
            yield from members


def loops():
    return lines(r"^\s*(while|loop)\b|= loop \{|'\w+: (while|loop)")


BY_HAND = r"(smaller|larger|difference|smaller_float|unlifted|is_header|copy|copy_bytes|fill|array_of|figures_shown|mark_word|mark_bit|mark_of|most_or_none|is_passed|is_sent|without_ceilings|opening_for|opening_without|shown|ceilings|\w+_(number|mark|horizon|code|answer)|show_(opening|verdict|range|sending))"


def by_hand():
    for file, line, name, _, _, _ in functions():
        if re.fullmatch(BY_HAND, name):
            yield f"{file}:{line}: fn {name}"


def travelling():
    for file, line, name, parameters, _, _ in functions():
        names = set(re.findall(r"\b([a-z_]+):", parameters))
        pairs = [("upper", "lower"), ("out", "at"), ("capped", "most"), ("horizon", "held"), ("leasts", "mosts"), ("closed_upper", "closed_lower")]
        if any(set(p) <= names for p in pairs):
            yield f"{file}:{line}: fn {name}({', '.join(re.findall(r'([a-z_]+):', parameters))})"


def beside():
    for file, line, name, names in fields():
        names = {n for n, _ in names}
        if {"length", "bytes"} <= names or {"held", "ticks"} <= names or {"leasts", "mosts"} <= names:
            yield f"{file}:{line}: {name} {{ {', '.join(sorted(names))} }}"
    for file, line, name, parameters, _, _ in functions():
        names = set(re.findall(r"\b([a-z_]+):", parameters))
        if {"leasts", "mosts"} <= names or {"out", "at"} <= names or {"list", "held"} <= names or {"ticks", "held"} <= names:
            yield f"{file}:{line}: fn {name}"


def switches():
    return lines(r"\bfn\(|match (step|kind|stage|phase)\b|dyn ")


def proofs():
    for file in sorted(glob.glob("crates/*/proofs/**/Proof.antt", recursive=True)):
        yield file


POINTS = {
    "1-enums": enums, "1-flags": flagged, "1-numbers": numbers, "2": twins, "3": loops, "4": by_hand, "5": travelling, "6": beside, "7": switches,
    "8": proofs,
}

for point in sys.argv[1:] or POINTS:
    found = list(dict.fromkeys(POINTS[point]()))
    print(f"point {point}: {len(found)}")
    if sys.argv[1:]:
        print("\n".join("  " + place for place in found))
