#!/usr/bin/env python3
"""Respells the repository's own definitions, fields and lemmas in snake case, as the kit's style has it.

usage: tools/respell.py            at the top of a checkout, once, behind the kit's port.py: rewrites files in place
       tools/respell.py --list     prints each name with its new spelling, and the names that stay as they are because two would fall together

A definition, a field or a part of a lemma's name in camel case goes to snake case: slotAfter, slot_after. A dash in a lemma's name stays
where it joins names of definitions or of the library, as in length-append, and is an underscore where a part is a plain word, and in every
field and constructor; a lemma that
would have a definition's name ends in _lem. Types, constructors, modules, functions of src/, exported names, strings, inputs and outputs keep
their names. Edits in must-fail/ are respelled too.
"""
import glob
import os
import re
import sys

TOP = os.path.dirname(os.path.dirname(os.path.abspath(__file__)))
NAME = r"[A-Za-z_][\w'\-]*"
SIGNATURE = re.compile(r"^(\s*)((?:abbrev|unfoldable|mutual|private)\s+)*(?:pub\s+)?((?:" + NAME + r")(?:\s+" + NAME + r")*)(?:\s+\{[^}]*\})?\s+:(?=\s|$)")
TOKEN = re.compile(r"(?<![\w'\-])" + NAME)
# names of the library that lemmas of the repository join with a dash
LIBRARY = set("length append take drop set get_or replicate map reverse ltb leb eqb mul add sub pow suc zero false true pick".split())
# names whose plain respelling is another's
CHOSEN = {
    "atRest": "is_at_rest",
    "firstBody": "bodies_start",
    "goesOn": "goes_on",
    "inOrder": "in_order",
    "isName": "is_name_word",
    "keptStore": "store_kept",
    "lastFits": "last_one_fits",
    "lastLine": "last_line",
    "refusedPost": "refused_post",
    "rowsInside": "rows_inside_rule",
    "stepWords": "step_words",
}
# names of the library too
FOREIGN = {"not-false"}
# words that are no names
RESERVED = set("data record deriving module where use mod pub package open as unfoldable abbrev axiom unfold unfolding ruleset mutual infix infixl infixr elim let in do Type coe fcoe".split())


def files(*patterns):
    found = []
    for pattern in patterns:
        found += glob.glob(os.path.join(TOP, "crates", "*", pattern), recursive=True)
    return sorted(f for f in set(found) if "/out/" not in f)


def function_proof(path):
    return os.path.basename(path) in ("Proof.antt", "Answers.antt", "Invariants.antt")


def snake(name):
    return re.sub(r"(?<=[a-z0-9'])([A-Z])", lambda m: "_" + m.group(1).lower(), name)


def declared():
    """The names that specs/ and proofs/ declare: all, those of specs/, and fields and constructors."""
    every, specs, fields = set(), set(), set()
    for path in files("specs/**/*.antt", "proofs/**/*.antt"):
        if function_proof(path):
            continue
        inside = False
        for line in open(path, encoding="utf-8"):
            if line.strip() and not line.startswith((" ", "--")):
                inside = bool(re.match(r"(pub )?(data|record) ", line))
            m = SIGNATURE.match(line)
            if not m or line.lstrip().startswith("--"):
                continue
            for name in m.group(3).split():
                if name in RESERVED or name in ("pub", "abbrev") or name in FOREIGN:
                    continue
                every.add(name)
                if "/specs/" in path:
                    specs.add(name)
                if m.group(1) and inside:
                    fields.add(name)
    return every, specs, fields


def respelt(name, words):
    parts = [snake(p) for p in name.split("-")]
    if len(parts) > 1 and all(p in words for p in parts):
        return "-".join(parts)
    return "_".join(parts)


def table():
    every, specs, fields = declared()
    words = {snake(n) for n in specs if "-" not in n} | LIBRARY
    taken = {n for n in every if snake(n) == n and "-" not in n}
    for path in files("specs/**/*.antt", "proofs/**/*.antt"):
        if function_proof(path):
            continue
        for line in open(path, encoding="utf-8"):
            if not line.lstrip().startswith(("--", "use ")):
                taken |= {m.group(0) for m in TOKEN.finditer(line) if not (m.start() and line[m.start() - 1] == ".")}
    new, stays = {}, {}
    for name in sorted(every, key=lambda n: ("-" in n, n)):
        if name[0].isupper() and "-" not in name:
            continue
        if name in CHOSEN:
            new[name] = CHOSEN[name]
            continue
        to = respelt(name, words)
        if to != name and to in taken and "-" in name:
            to += "_lem"
        if name in fields and "-" in to and to.replace("-", "_") not in taken:
            to = to.replace("-", "_")
        if to == name:
            continue
        if to in taken:
            stays[name] = to
            continue
        taken.add(to)
        new[name] = to
    return new, stays


def rename(text, new, dotted):
    """Each token of the text that is an old name, but for those behind a dot that are no fields."""

    def one(m):
        name = m.group(0)
        if name not in new:
            return name
        if dotted is not None and m.start() and text[m.start() - 1] == "." and name not in dotted:
            return name
        return new[name]

    return TOKEN.sub(one, text)


def rename_source(text, new):
    """Clauses and comments of a source file; its strings stay."""
    out, at = [], 0
    for m in re.finditer(r'b?"(?:[^"\\\n]|\\.)*"|b?\'(?:[^\'\\\n]|\\.)\'', text):
        out += [rename(text[at : m.start()], new, None), m.group(0)]
        at = m.end()
    return "".join(out + [rename(text[at:], new, None)])


def main():
    new, stays = table()
    if "--list" in sys.argv[1:]:
        for name, to in sorted(new.items()):
            print(name, to)
        for name, to in sorted(stays.items()):
            print("# falls together:", name, to)
        return
    _, _, fields = declared()
    changed = 0
    for path in files("specs/**/*.antt", "proofs/**/*.antt", "src/**/*.rt", "must-fail/*.edit"):
        old = open(path, encoding="utf-8").read()
        if path.endswith(".rt"):
            text = rename_source(old, new)
        else:
            text = rename(old, new, fields if function_proof(path) else None)
        if text != old:
            open(path, "w", encoding="utf-8").write(text)
            changed += 1
    print(f"{len(new)} names, {changed} files, {len(stays)} fall together")


if __name__ == "__main__":
    main()
