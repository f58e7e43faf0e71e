#!/usr/bin/env python3
"""Counts, in src/ of every crate, the places that docs/DESIGN-PASS.md speaks of: python3 tools/design_places.py [--list POINT] [TOP]."""
import collections
import glob
import itertools
import re
import sys

OWN_RESULTS = re.compile(r"^(?:pub )?enum (\w+)")
NUMBERED = re.compile(r"\b(?:Refused|Wrong|Fault)\(\d+\)")
LOOP = re.compile(r"^\s*(?:'\w+: )?while ")
BY_HAND = re.compile(r"^\s*(?:pub )?fn ((?:same|equal|differs|copy|clone|convert|print|show|write_line)\w*|\w+_code|\w+_number)\b")
BUFFER = re.compile(r"let mut \w+ = \[0u(?:8|32); ")
SWITCH = re.compile(r"^\s*match \w*(?:manner|kind|mode|which)\w* \{")
ANSWER = re.compile(r"^(?:pub )?[\w-]+ : goal\.", re.M)
FN = re.compile(r"^( *)(?:#\[[^\n]*\]\n *)?(?:pub )?(?:extern \"C\" )?fn (\w+)(?:<[^>]*>)?\(([^)]*)\)([^{;]*(?:\{[^\n]*\}\n[^{;]*)*)\n?\1\{\n(.*?)\n\1\}", re.M | re.S)


def functions(top):
    for path in sorted(glob.glob(f"{top}/crates/*/src/**/*.rt", recursive=True)):
        text = open(path).read()
        for m in FN.finditer(text):
            parameters = [p.strip() for p in m[3].replace("\n", " ").split(",") if p.strip()]
            yield path, m[2], parameters, m[4], m[5]


def lines(top, pattern):
    for path in sorted(glob.glob(f"{top}/crates/*/src/**/*.rt", recursive=True)):
        for number, line in enumerate(open(path), 1):
            if pattern.search(line):
                yield f"{path[len(top) + 1:]}:{number}: {line.strip()}"


def shape(body):
    """The body with its names and numbers by their first place, so that twins read alike."""
    seen = {}
    words = re.findall(r"[A-Za-z_]\w*|\d+|[^\s\w]", re.sub(r"//[^\n]*", "", body))
    keep = {"let", "mut", "if", "else", "while", "for", "in", "return", "match", "as", "true", "false"}
    return " ".join(w if not re.match(r"\w", w) or w in keep else seen.setdefault(w, f"${len(seen)}") for w in words), len(words)


def twins(top):
    groups = collections.defaultdict(list)
    for path, name, _, _, body in functions(top):
        form, size = shape(body)
        if size >= 12:
            groups[form].append(f"{path[len(top) + 1:]}: {name}")
    return [f"{' = '.join(g)}" for g in groups.values() if len(g) > 1]


def facts(top):
    found = collections.defaultdict(list)
    for path, name, _, clauses, _ in functions(top):
        for clause in re.findall(r"requires(?: \w+)? \{ (.*) \}", clauses):
            for fact in clause.split(" × "):
                found[fact.strip("() ")].append(name)
    return [f"{len(names)} {fact}" for fact, names in sorted(found.items(), key=lambda it: -len(it[1])) if len(names) > 2]


def together(top):
    found = collections.Counter()
    for _, _, parameters, _, _ in functions(top):
        kept = [p for p in parameters if re.search(r"&", p)]
        for three in itertools.combinations(kept, 3):
            found[three] += 1
    return [f"{n} {', '.join(t)}" for t, n in found.most_common() if n > 2]


def answers(top):
    for path in sorted(glob.glob(f"{top}/crates/*/proofs/**/Answers.antt", recursive=True)):
        for m in ANSWER.finditer(open(path).read()):
            yield f"{path[len(top) + 1:]}: {m[0]}"


POINTS = {
    "1 own enums": lambda top: list(lines(top, OWN_RESULTS)),
    "1 refusals by number": lambda top: list(lines(top, NUMBERED)),
    "2 twins": twins,
    "3 hand loops": lambda top: list(lines(top, LOOP)),
    "4 by hand": lambda top: list(lines(top, BY_HAND)),
    "5 repeated facts": facts,
    "5 parameters together": together,
    "6 buffers": lambda top: list(lines(top, BUFFER)),
    "7 switches": lambda top: list(lines(top, SWITCH)),
    "8 answers": lambda top: list(answers(top)),
}


def main():
    words = sys.argv[1:]
    listed = words[words.index("--list") + 1] if "--list" in words else None
    rest = [w for i, w in enumerate(words) if w != "--list" and (i == 0 or words[i - 1] != "--list")]
    top = rest[0] if rest else "."
    for point, count in POINTS.items():
        found = count(top)
        print(f"{point}: {len(found)}")
        if listed and point.startswith(listed):
            for it in found:
                print(f"    {it}")


if __name__ == "__main__":
    main()
