#!/usr/bin/env python3
"""Brings the repository's own names in specs/, proofs/ and clauses from camel case to snake case.

usage: python3 tools/snake_names.py            at the top: rewrites .antt, .rt and .edit files in place
       python3 tools/snake_names.py --falls    only lists the names that would fall together

Types, facts and modules begin with a capital and keep it. Text in quotes, numerals and names of the library stay.
"""
import glob
import re
import sys

LIBRARY = {"cases_Bool"}
WORD = re.compile(r"(?<![\w'\\])[a-z][a-z0-9_]*[A-Z][\w']*(?![\w'])")
SPECIAL = {"getD": "get_or"}


def files():
    names = glob.glob("crates/**/*", recursive=True)
    return sorted(f for f in names if f.endswith((".antt", ".rt", ".edit")) and "/out/" not in f)


def snake(word):
    if word in LIBRARY:
        return word
    if word in SPECIAL:
        return SPECIAL[word]
    return re.sub(r"(?<=[a-z0-9])([A-Z])", lambda m: "_" + m.group(1).lower(), word)


def turn(name, text):
    if name.endswith(".antt"):
        return WORD.sub(lambda m: snake(m.group(0)), text)
    parts = re.split(r'("(?:[^"\\]|\\.)*")', text)
    return "".join(p if i % 2 else WORD.sub(lambda m: snake(m.group(0)), p) for i, p in enumerate(parts))


def falls(texts):
    """Names that stand in the texts already under the spelling that another name would get."""
    plain = re.compile(r"[A-Za-z_][\w']*")
    there, made = {}, {}
    for name, text in texts.items():
        for w in set(plain.findall(text)):
            there.setdefault(w, set()).add(name)
        for w in set(WORD.findall(text)):
            if snake(w) != w:
                made.setdefault(snake(w), set()).add(w)
    for new, old in sorted(made.items()):
        if len(old) > 1 or new in there:
            print(f"{new}: from {', '.join(sorted(old))}; stands in {', '.join(sorted(there.get(new, [])))}")


def main():
    texts = {f: open(f, encoding="utf-8").read() for f in files()}
    if "--falls" in sys.argv:
        return falls(texts)
    for name, text in texts.items():
        new = turn(name, text)
        if new != text:
            open(name, "w", encoding="utf-8").write(new)


main()
