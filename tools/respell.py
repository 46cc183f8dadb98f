#!/usr/bin/env python3
"""Respells the repository's own definitions and lemmas: words in snake case, as the library has them.

A definition, a field or a constructor becomes one word in snake case (`allEhv` all_ehv, `shares-add-up` shares_add_up).
A lemma keeps the dashes that join the names in it (`length-rowsIn` length-rows_in). Types and modules keep their names.
Run once, at the top of the repository: python3 tools/respell.py
"""
import collections
import glob
import re
import sys

TOKEN = re.compile(r"[A-Za-z_][A-Za-z0-9_'\-₀-₉]*")
KNOWN = {"sumZ": "int_sum", "getD": "get_or", "natAbs": "unsigned_abs"}
DECLARED = re.compile(r"^(\s*)(abbrev pub |abbrev |unfoldable pub |unfoldable |pub )?([^\s:(){}«»,]+)((?: \([^)]*\)| \{[^}]*\})*) :(?: |$)")


def snake(word):
    if word in KNOWN:
        return KNOWN[word]
    return re.sub(r"(?<=[a-z0-9])([A-Z])", lambda m: "_" + m.group(1).lower(), word)


def respelled(name, is_lemma):
    if name[:1].isupper():
        return name
    parts = [snake(p) for p in name.split("-")]
    return ("-" if is_lemma else "_").join(parts)


def main():
    files = sorted(glob.glob("crates/*/specs/*.antt") + glob.glob("crates/*/proofs/**/*.antt", recursive=True))
    names = {}
    for path in files:
        is_inside = False
        for line in open(path, encoding="utf-8"):
            if line[:1].strip():
                is_inside = False
            if re.match(r"\s*(pub )?(data|record) ", line):
                is_inside = True
                continue
            m = DECLARED.match(line)
            if not m:
                continue
            indent, mark, name = m.group(1), (m.group(2) or "").strip(), m.group(3)
            if indent and not is_inside and not mark:
                continue
            is_lemma = (not indent or not is_inside) and mark in ("", "pub")
            if "/proofs/" in path and path.endswith(("/Answers.antt", "/Invariants.antt", "/Proof.antt")) and not indent and mark:
                continue
            new = respelled(name, is_lemma)
            if name in names and names[name] != new:
                new = respelled(name, False)
            names[name] = new
    changed = {old: new for old, new in names.items() if old != new and TOKEN.fullmatch(old)}
    used = collections.Counter()
    texts = {}
    for path in files + sorted(glob.glob("crates/*/src/**/*.rt", recursive=True)):
        texts[path] = open(path, encoding="utf-8").read()
        used.update(set(TOKEN.findall(texts[path])))
    for old, new in sorted(changed.items()):
        if used[new]:
            print(f"falls together: {old} and {new}", file=sys.stderr)
    for path, text in texts.items():
        # `.sum-is` and its like are the check's own names of steps
        new = TOKEN.sub(lambda m: m.group(0) if path.endswith("/Answers.antt") and text[:m.start()].endswith(".") and m.group(0).endswith("-is") else changed.get(m.group(0), m.group(0)), text)
        if new != text:
            open(path, "w", encoding="utf-8").write(new)
    print(f"{len(changed)} names respelled")


main()
