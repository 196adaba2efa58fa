#!/usr/bin/env python3
"""respell: brings the repository's own definitions and lemmas to the spelling of the library, words joined by _ in place of camel case.

  respell.py [FOLDER]     rewrites the .antt and .rt files, the must-fail edits and the crates' other texts below FOLDER/crates (default: this folder)

Types, constructors and modules keep their capitals, names of src/, strings and byte literals stay. A lemma whose name would fall together with a
definition's takes a dash. A second run changes nothing.
"""
import os
import re
import sys

# lemmas of proofs/ that a definition's new name would meet: they are told apart by a dash
DASHED = "by_length cut_word goes_on is_digit join_rule joined_word no_digit no_size no_step sign_text size_holds word_count".split()
# names with a capital that are no camel case of ours
KEPT = {"is_IsWord", "not_T"}
DECLARED = re.compile(r"(?m)^[ \t]*(?:abbrev |unfoldable )?(?:pub )?([a-z][\w'₀-₉-]*) :")
CAMEL = re.compile(r"(?<=[a-z0-9])[A-Z]")
WORD = re.compile(r"(?<![\w'₀-₉.-])(?<!b')[a-z][\w'₀-₉-]*")
FIELD = re.compile(r"(?<=\.)[a-z][\w'₀-₉-]*")


def snake(name):
    return CAMEL.sub(lambda m: "_" + m[0].lower(), name)


def files(top):
    for folder, dirs, names in os.walk(os.path.join(top, "crates")):
        dirs[:] = sorted(d for d in dirs if d != "out")
        for name in sorted(names):
            if name.endswith((".antt", ".rt", ".edit")):
                yield os.path.join(folder, name)


def declared(paths):
    """The names in camel case that the repository's own .antt files declare, local ones and fields too."""
    found = set()
    for path in paths:
        if path.endswith(".antt"):
            with open(path, encoding="utf-8") as f:
                text = f.read()
            found |= {n for n in DECLARED.findall(text) if CAMEL.search(n)}
            found |= {n for n in re.findall(r"\b[a-z]\w*", text) if CAMEL.search(n)}
        elif path.endswith(".rt"):
            with open(path, encoding="utf-8") as f:
                found |= {n for n in re.findall(r"\bas ([a-z]\w*)", f.read()) if CAMEL.search(n)}
    return found - KEPT


def main():
    top = sys.argv[1] if len(sys.argv) > 1 else "."
    paths = list(files(top))
    names = {n: snake(n) for n in declared(paths)}
    changed = 0
    for path in paths:
        with open(path, encoding="utf-8") as f:
            text = old = f.read()
        inside = "/proofs/" in path
        if inside and path.endswith(".antt"):
            for name in DASHED:
                text = re.sub(r"(?<![\w'₀-₉.-])%s(?![\w'₀-₉-])" % name, name.replace("_", "-"), text)

        def one(m):
            word = m[0]
            if word in KEPT:
                return word
            return "-".join(names.get(part, snake(part) if part in names else part) for part in word.split("-"))

        text = WORD.sub(one, text)
        text = FIELD.sub(one, text)
        if text != old:
            changed += 1
            with open(path, "w", encoding="utf-8") as f:
                f.write(text)
    print(f"respell: {len(names)} names, {changed} files")


main()
