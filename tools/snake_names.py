#!/usr/bin/env python3
"""Brings this repository's own definitions and lemmas to today's spelling: snake case for what is no type and no module, a dash only between two
names (`length-take`), a plain word behind `_` (`sets_more`), a lemma that would have a function's name with `_lem`.

usage: snake_names.py [--list]      at the top of a repository that port.py has just turned

Functions of src/, exported names, strings, inputs and outputs keep their names. In a Proof.antt, which walks the code by names that the checker
made, only what the file imports is turned, and fields behind a clause or a result.
"""
import collections
import glob
import re
import sys

TOKEN = re.compile(r'--[^\n]*|//[^\n]*|"(?:[^"\\]|\\.)*"|[^\s(){}.;,@"«»]+')
HEAD = re.compile(
    r"(?m)^( *)((?:pub |abbrev |unfoldable )*)([^\s(){}.;,@\"«»:]+)((?: \{[^{}\n]*\})*) :(?= |$)"
)
RECORD = re.compile(r"(?m)^( *)(?:pub )?(data|record) (\S+)")
# Fields and constructors whose new name a function has.
BY_HAND = {
    "all-answered": "every_answer",
    "first-moves": "first_moving",
    "second-moves": "second_moving",
    "is-unsettled": "is_unsettled_case",
    "is_same": "is_same_case",
    "free_names": "names_free",
    "of-first": "from_first",
    "of-second": "from_second",
    "own-names": "named_own",
}
OPERATOR = re.compile(r"^[^\w']+$")
# Words of the library that a lemma's name may join.
LIBRARY = set(
    "length take drop set sets map append front replicate min max cond eqb leb ltb sum filter concat get_or All cons mem reverse zip position".split()
)


def read(path):
    with open(path, encoding="utf-8") as it:
        return it.read()


def texts():
    for part in ("specs", "proofs"):
        yield from sorted(glob.glob(f"crates/*/{part}/**/*.antt", recursive=True))


def is_walk(path):
    return path.endswith("/Proof.antt")


def in_snake_case(word):
    word = re.sub(r"(?<=[a-z0-9])[A-Z]", lambda it: "_" + it[0].lower(), word)
    return word


def is_type_like(word):
    return word[:1].isupper()


def declared():
    """Returns each declared name with its kinds: 'field', 'constructor', 'function', 'lemma', 'type'."""
    kinds = collections.defaultdict(set)
    for path in texts():
        if is_walk(path):
            continue
        text = read(path)
        blocks = []
        for it in RECORD.finditer(text):
            kinds[it[3]].add("type")
            end = re.compile(r"\n(?! {%d} |\n|\s*--)" % len(it[1])).search(text, it.end())
            blocks.append((it.end(), end.start() if end else len(text), it[2]))
        for it in HEAD.finditer(text):
            block = next((b for b in blocks if b[0] <= it.start() < b[1]), None)
            if block:
                kinds[it[3]].add("field" if block[2] == "record" else "constructor")
            else:
                marked = "abbrev" in it[2] or "unfoldable" in it[2] or "/specs/" in path
                kinds[it[3]].add("function" if marked else "lemma")
    return kinds


def turned_names(kinds):
    names = {it for it, of in kinds.items() if of & {"function", "type", "constructor"}} | LIBRARY
    names |= {in_snake_case(it) for it in names}

    def joined(name, plain):
        parts = name.split("-")
        if "" in parts:
            return name
        turned = [it if is_type_like(it) else in_snake_case(it) for it in parts]
        out = turned[0]
        for left, right in zip(turned, turned[1:]):
            is_name = lambda it: it in names or OPERATOR.match(it) or is_type_like(it)
            out += ("-" if not plain and is_name(left) and is_name(right) else "_") + right
        return out

    table = {}
    for name, of in kinds.items():
        if OPERATOR.match(name) or is_type_like(name) and "-" not in name:
            continue
        new = joined(name, bool(of & {"field", "constructor"}))
        if new != name:
            table[name] = new
    table.update({old: new for old, new in BY_HAND.items() if old in kinds})
    # Names that fall together: the function keeps the name, and a lemma gets `_lem`.
    by_new = collections.defaultdict(set)
    for name in kinds:
        by_new[table.get(name, name)].add(name)
    for new, olds in sorted(by_new.items()):
        rank = lambda it: (kinds[it] == {"lemma"}, "-" in it, it)
        for n, old in enumerate(sorted(olds, key=rank)[1:]):
            if kinds[old] != {"lemma"}:
                print("left: by hand:", new, old, kinds[old], file=sys.stderr)
            table[old] = new + "_lem" + ("" if n == 0 else str(n + 1))
    return table, {new: olds for new, olds in by_new.items() if len(olds) > 1}


def turned_comment(text, table):
    each = lambda it: table.get(it[0], it[0])
    text = re.sub(r"`[^`\n]*`", lambda it: re.sub(r"[^\s(){}.;,`]+", each, it[0]), text)
    return re.sub(r"(?<![\w-])[a-z]+[a-z0-9]*[A-Z]\w*(?![\w-])", each, text)


def turned(text, table):
    paths = [it.span(1) for it in re.finditer(r"(?m)^\s*(?:ghost |pub )*use ([^\s{;]+)", text)]
    inside = set(at for a, b in paths for at in range(a, b))

    def one(it):
        if it.start() in inside:
            return it[0]
        if it[0].startswith(("--", "//")):
            return turned_comment(it[0], table)
        return it[0] if it[0].startswith('"') else table.get(it[0], it[0])

    return TOKEN.sub(one, text)


# What stands before a field in a walk where the field is no step of the walk.
BEHIND = re.compile(r"\.(ensures|requires|invariant|args|result|now|last|last-\w+|entry|exit|old|new|\d+|ranges|\w+)\.$")
STEPS = re.compile(r"(?:^|[\s(,.])(?:c\d*|before|w|after)\.$")


def turned_walk(text, table):
    imported = set()
    for it in re.finditer(r"(?m)^use (\S+?)\.\{([^}]*)\}", text):
        if re.search(r"\.(Tie|Lts|Goals|Given|Statement|Code)\b", it[1]):
            continue
        for name in it[2].split(","):
            imported.update(name.strip().split(" as "))

    def one(it):
        word = it[0]
        if word.startswith(("--", '"')):
            return turned_comment(word, table) if word.startswith("--") else word
        before = text[max(0, it.start() - 40) : it.start()]
        if before.endswith("."):
            if STEPS.search(before) or re.search(r"(?:^|[\s(,])(tie|lts|goal|f-lts)\.$", before) or "-" not in word:
                return word
            return word.replace("-", "_") if re.fullmatch(r"[\w'-]+", word) else word
        return table.get(word, word) if word in imported else word

    return TOKEN.sub(one, text)


def clauses(text, table):
    """Turns names in `ghost use` lines and in clauses of a source."""
    lines, depth, inside = [], 0, False
    for line in text.split("\n"):
        if line.startswith("ghost use") or re.match(r" *ghost use", line):
            inside = True
        is_clause = inside or re.match(r" *(requires|ensures|ghost \w+:)", line) or depth
        if is_clause:
            line = turned(line, table)
            if not inside:
                depth += line.count("{") - line.count("}")
            if line.rstrip().endswith(";"):
                inside = False
        elif "//" in line:
            at = line.index("//")
            line = line[:at] + turned_comment(line[at:], table)
        lines.append(line)
    return "\n".join(lines)


def main():
    kinds = declared()
    table, together = turned_names(kinds)
    of_clauses = {old: new for old, new in table.items() if kinds[old] != {"lemma"}}
    if "--list" in sys.argv:
        for old, new in sorted(table.items()):
            print(old, new)
        for new, olds in sorted(together.items()):
            print("together:", new, *sorted(olds), file=sys.stderr)
        return
    for path in texts():
        text = read(path)
        new = turned_walk(text, table) if is_walk(path) else turned(text, table)
        if new != text:
            open(path, "w", encoding="utf-8").write(new)
    for path in sorted(glob.glob("crates/*/src/**/*.rt", recursive=True)):
        text = read(path)
        new = clauses(text, of_clauses)
        if new != text:
            open(path, "w", encoding="utf-8").write(new)


main()
