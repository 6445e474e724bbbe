#!/usr/bin/env python3
"""Respells this repository's own definitions and lemmas as today's Rattle spells names: snake case, a dash only between two names, a prime as '.

usage: python3 tools/respell.py     once, at the top, after the toolchain's port.py

It goes by text: each name that a file of specs/ or proofs/ declares or binds is turned wherever it stands as a whole word in the crates' .antt
files, in the ghost lines and clauses of .rt files, in must-fail edits, and between back quotes in the pages. Functions of src/, exported C names,
modules, types and strings keep their names. Where two names of one file would fall together, the lemma's ends in `_lem`.
"""

import os
import re

PART = r"[A-Za-z_][\w'′?!]*"
WORD = re.compile(rf"(?<![\w'′?!-]){PART}(?:-[\w'′?!]+)*(?![\w'′?!]|-\w)")
DECLARED = re.compile(rf"(?m)^[ \t]*((?:(?:pattern|unfoldable|abbrev|pub|axiom)\s+)*)({PART}(?:-[\w'′?!]+)*)(?:\s*\{{[^}}\n]*\}})?\s*:(?=\s)")
BOUND = re.compile(rf"\blet\s+({PART}(?:-[\w'′?!]+)*)|λ\s+((?:{PART}(?:-[\w'′?!]+)*\s*)+)\.|[({{]((?:{PART}(?:-[\w'′?!]+)*\s+)+):(?=\s)")
# Words of the library and of arithmetic that stand for a definition of their own in a lemma's name.
NAMES = set(
    "length take drop set sets get_or append replicate sum map filter concat reverse cons nil suc zero min max add sub mul div mod eq ne le lt leb ltb eqb mem cond not and or if listed member occurrences".split()
)
# A part of the library's older names that lemmas here begin with.
PARTS = {"getD": "get_or"}
# Parameters that the pages and the library name by one letter and a prime, and words of antt.
KEPT = {"λ", "ℕ"}
# Functions of src/, which files of proofs/ name in paths.
SOURCE = set()
# Fields of records, which stand behind a dot and so beside a definition of their name.
FIELDS = {"no_room", "same_bytes"}


def snake(part):
    """One part of a name in snake case; a type's name, which begins with a capital, stays."""
    if part in PARTS:
        return PARTS[part]
    if not re.match(r"_*[a-z]", part) or not re.search(r"[A-Z]", part):
        return part
    return re.sub(r"(?<=[a-z0-9?'])([A-Z])", lambda m: "_" + m.group(1), part).lower()


def respelled(name, definitions):
    parts = [snake(p) for p in name.replace("′", "'").split("-")]
    is_name = lambda x: x in definitions or x in NAMES or not x[:1].islower()
    out = parts[0]
    for before, part in zip(parts, parts[1:]):
        out += ("-" if is_name(before) and is_name(part) else "_") + part
    return out


def files(endings):
    for folder, dirs, names in os.walk("crates"):
        dirs[:] = sorted(d for d in dirs if d != "out")
        for n in sorted(names):
            if n.endswith(endings):
                yield os.path.join(folder, n)


def read(path):
    with open(path, encoding="utf-8") as f:
        return f.read()


def bare(text):
    return re.sub(r"(?m)--[^\n]*$", "", text)


def is_walk(path):
    return "/proofs/" in path and os.path.basename(path) in ("Proof.antt", "Invariants.antt", "Answers.antt")


def table_of(texts):
    """The new name of each own name that changes."""
    own, definitions, walked = set(), set(), set()
    for path, text in texts.items():
        to = walked if is_walk(path) else own
        for m in DECLARED.finditer(bare(text)):
            to.add(m.group(2))
            if "unfoldable" in m.group(1) or "abbrev" in m.group(1):
                definitions.add(m.group(2))
        for m in BOUND.finditer(bare(text)):
            for g in m.groups():
                to.update((g or "").split())
    definitions = {snake(n) for n in definitions if "-" not in n}
    table = {n: respelled(n, definitions) for n in own}
    table |= {n: respelled(n, definitions) for n in walked - own if "-" not in n}
    table |= {"andThen": "and_then", "notEmpty": "not_empty", "xA": "x_a"}
    table = {a: b for a, b in table.items() if a != b and a not in KEPT}
    # names that would fall together in a file
    uses = {}
    for path, text in texts.items():
        if path.endswith(".antt"):
            for w in set(WORD.findall(re.sub(r"\w+\.(?=\w)|(?<=\w)\.\w+", " ", bare(text)) if is_walk(path) else bare(text))):
                if w in own or w in table:
                    uses.setdefault(w, set()).add(path)
    groups = {}
    for n in uses:
        groups.setdefault(table.get(n, n), []).append(n)
    taken = set(groups)
    for new, olds in sorted(groups.items()):
        if len(olds) < 2:
            continue
        shared = [p for p in set().union(*(uses[o] for o in olds)) if sum(p in uses[o] for o in olds) > 1]
        if not shared:
            continue
        first = sorted(olds, key=lambda o: ("-" in o, not re.search("[A-Z]", o), snake(o) not in definitions))[0]
        for o in olds:
            if o != first and o not in FIELDS:
                other = new + "_lem"
                assert other not in taken, other
                table[o] = other
                print("together:", olds, "in", len(shared), "files;", o, "->", other)
    return table


def turned(text, table, dashed=True):
    def one(m):
        w = m.group(0)
        if w not in table or ("-" in w and not dashed):
            return w
        # a function's name in a path or a field of a generated record stays
        path = text[m.start() - 1 : m.start()] == "." or text[m.end() : m.end() + 1] == "."
        return w if path and table[w].endswith("_lem") and w in SOURCE else table[w]

    return WORD.sub(one, text)


def turn_antt(text, table):
    out = []
    for line in text.split("\n"):
        code, mark, comment = line.partition("--") if line.lstrip().startswith("--") or " --" in line else (line, "", "")
        out.append(turned(code, table) + mark + turned(comment, table, False))
    return "\n".join(out)


def turn_rt(text, table):
    """The ghost lines and the clauses; Rust code has no name that the table turns but in these."""
    out, depth = [], 0
    for line in text.split("\n"):
        s = line.strip()
        if depth == 0 and re.match(r"(requires|ensures|ghost)\b", s):
            depth = 1
        if depth:
            out.append(turned(line, table))
            depth = 0 if line.rstrip().endswith(("}", ";")) and line.count("{") - line.count("}") <= 0 or re.match(r"(requires|ensures).*\}$", s) else 1
            continue
        code, mark, comment = line.partition("//")
        out.append(code + mark + turned(comment, {k: v for k, v in table.items() if re.search("[A-Z]", k)}, False))
    return "\n".join(out)


def turn_page(text, table):
    return re.sub(r"`[^`\n]*`", lambda m: turned(m.group(0), table), text)


def main():
    texts = {p: read(p) for p in files((".antt", ".rt", ".edit"))}
    for path, text in texts.items():
        if path.endswith(".rt"):
            SOURCE.update(re.findall(r"\bfn (\w+)", text))
    table = table_of(texts)
    for path, text in texts.items():
        if path.endswith(".antt"):
            new = turn_antt(text, table)
        elif path.endswith(".rt"):
            new = turn_rt(text, table)
        else:
            new = "\n".join(turned(l, {k: v for k, v in table.items() if "-" in k or re.search("[A-Z]", k)}) if re.match(r"(old|new):", l) else l for l in text.split("\n"))
        if new != text:
            with open(path, "w", encoding="utf-8") as f:
                f.write(new)
    pages = ["README.md"] + [os.path.join(d, n) for d in ("docs", "docs/requests") for n in sorted(os.listdir(d)) if n.endswith(".md")]
    spelled = {k: v for k, v in table.items() if "-" in k or re.search("[A-Z]", k)}
    for path in pages:
        text = read(path)
        new = turn_page(text, spelled)
        if new != text:
            with open(path, "w", encoding="utf-8") as f:
                f.write(new)
    print(len(table), "names turned")


if __name__ == "__main__":
    main()
