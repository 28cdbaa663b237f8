#!/usr/bin/env python3
"""Respells the repository's own definitions and lemmas: words in snake case, as `endFrom` to `end_from`.

usage: python3 tools/respell.py            in the repository, once, after the kit's own scripts

A word of a definition, a lemma, a constructor of antt or a bound variable is turned wherever it stands in
crates/*/specs, crates/*/proofs and crates/*/src. Types and modules keep their capitals. Text in quotes and the names of
functions, structs and variants of src/ are in that spelling already, so nothing of src/ but its clauses changes.
"""

import glob
import re

# A word that begins with a small letter and has a capital inside.
WORD = re.compile(r"(?<![\w'])[a-z](?:[\w']*?[a-z0-9])?[A-Z][\w']*")
QUOTED = re.compile(r'"(?:[^"\\]|\\.)*"')


def snake(word):
    word = word.replace("getD", "get_or")
    return re.sub(r"([a-z0-9])([A-Z])", lambda m: m.group(1) + "_" + m.group(2).lower(), word)


def respell(text):
    """The text with each word turned, and what stands in quotes as it was."""
    parts, at = [], 0
    for quoted in QUOTED.finditer(text):
        parts += [WORD.sub(lambda m: snake(m.group(0)), text[at:quoted.start()]), quoted.group(0)]
        at = quoted.end()
    parts.append(WORD.sub(lambda m: snake(m.group(0)), text[at:]))
    return "".join(parts)


def main():
    turned = 0
    for pattern in ("specs/**/*.antt", "proofs/**/*.antt", "src/**/*.rt"):
        for path in sorted(glob.glob("crates/*/" + pattern, recursive=True)):
            with open(path, encoding="utf-8") as f:
                old = f.read()
            new = respell(old)
            if new != old:
                with open(path, "w", encoding="utf-8") as f:
                    f.write(new)
                turned += 1
    print(f"respelled {turned} files")


if __name__ == "__main__":
    main()
