#!/usr/bin/env python3
"""Brings the repository's own names in specs/, proofs/, clauses and must-fail edits to snake case.

A word is turned where it begins with a small letter and a capital follows a small letter or a digit in it, as in `sectorOf` or
`orElse-some`; a name of several words joined by dashes is turned word by word. Types, modules and generated names begin with a
capital, or have an underscore before it, and stay. A prime is an apostrophe. Documents are turned too, in their code words alone.

Nine names of lemmas and fields had a dash, which the kit's script made an underscore, and would then be the names of definitions: they
get their dash back first.

usage: python3 tools/snake_names.py            at the top of the repository, once, after the kit's own script
       python3 tools/snake_names.py --look     changes nothing, and prints names that would fall together in one file
"""
import os
import re
import sys

NAME = re.compile(r"(?<![\w'])[^\W\d][\w'′₀-₉]*")
HUMP = re.compile(r"(?<=[a-z0-9])([A-Z])")
FALL = "count_at in_blocks is_free is_home no_address no_mode none_said other_block out_of_range".split()
# a step of a proof, or a module, that is named by a function of src/, keeps the function's name
DASHED = re.compile(r"(?<![\w'-])(%s)(?![\w'-]|\.(?:ensures|result|new|requires|Statement|Tie|Goals|Given)\b)" % "|".join(FALL))
CODE = re.compile(r"`[^`\n]*`")


def turned(word):
    if not re.match(r"[a-z]", word):
        return word
    return HUMP.sub(lambda hump: "_" + hump.group(1).lower(), word).replace("′", "'")


def text_of(text):
    return NAME.sub(lambda found: turned(found.group()), text)


def proof_of(text):
    lines = [line if line.lstrip().startswith("--") else DASHED.sub(lambda found: found.group().replace("_", "-"), line) for line in text.split("\n")]
    return text_of("\n".join(lines))


def files(root):
    for folder, folders, names in os.walk(os.path.join(root, "crates")):
        folders[:] = sorted(name for name in folders if name not in ("out", "data"))
        for name in sorted(names):
            if name.endswith((".antt", ".rt", ".edit")):
                yield os.path.join(folder, name), proof_of if name.endswith(".antt") else text_of
    for path in [os.path.join(root, "README.md")] + [os.path.join(root, "docs", name) for name in sorted(os.listdir(os.path.join(root, "docs"))) if name.endswith(".md")]:
        yield path, lambda text: CODE.sub(lambda code: text_of(code.group()), text)


def main(look):
    for path, turn in files("."):
        with open(path, encoding="utf-8") as file:
            text = file.read()
        if look:
            here = {found.group() for found in NAME.finditer(text)}
            for word in sorted(here):
                if turned(word) != word and turned(word) in here:
                    print(f"{path}: {word} and {turned(word)}")
            continue
        after = turn(text)
        if after != text:
            with open(path, "w", encoding="utf-8") as file:
                file.write(after)


main("--look" in sys.argv[1:])
