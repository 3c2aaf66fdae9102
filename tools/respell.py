#!/usr/bin/env python3
"""respell: brings the names of the repository's own definitions to today's spelling, once, by text, behind port.py.

- Names of two and more words in camel case, as `columnBits`, become snake case: `column_bits`. It is done wherever such a word stands as a whole, so that a law's name follows
  its definition's (`length-bytesOf` becomes `length-bytes_of`).
- Fields of records, constructors and short names that have a dash, as `for-xs`, get an underscore: `for_xs`.
- Definitions whose value is a fact get a capital: `everyPage` becomes `EveryPage`, `by` and `plain` of promises/specs/Numbers become `IsBy` and `IsPlain`.
- `S` of width/specs/Width, a function, becomes `column_size`.
- `mostVertices` becomes `vertex_limit`: `most_vertices` is a field of a struct, and a field hides a definition of its name.

It stops where two names would fall together. Functions of src/, exported C names, strings, inputs and outputs keep their names.
"""
import glob
import re
import sys

# Words in camel case that are not names of ours.
OTHERS = {"getD", "hP"}
SPECIAL = {
    "mostVertices": "vertex_limit",
    "everyPage": "EveryPage",
    "metPages": "MetPages",
    "noPages": "NoPages",
}
# Facts of promises/specs/Numbers.
FACTS = {"by": "IsBy", "plain": "IsPlain"}
CAMEL = re.compile(r"(?<![A-Za-z0-9])[a-z][a-z0-9]*[A-Z][A-Za-z0-9]*")


def snake(word):
    return re.sub(r"[A-Z]", lambda m: "_" + m.group().lower(), word)


def files(*endings):
    found = [f for part in ("src", "specs", "proofs", "must-fail", "wrong") for f in glob.glob(f"crates/*/{part}/**/*", recursive=True)]
    return sorted(f for f in found if f.endswith(endings))


def read(path):
    with open(path, encoding="utf-8") as f:
        return f.read()


def code(path):
    """A file's text without its comments."""
    return re.sub(r"--.*" if path.endswith(".antt") else r"//.*", "", read(path))


def dashed():
    """Fields, constructors and short names with a dash, as they are declared."""
    found = set()
    for path in files(".antt"):
        text = code(path)
        for block in re.finditer(r"^(?:pub )?(?:record|data) .*\bwhere\n((?:[ \t]+.*\n|\n)*)", text, re.M):
            found |= set(re.findall(r"^ +(?:pub )?([a-z][\w']*(?:-[\w']+)+) :", block.group(1), re.M))
        found |= set(re.findall(r"^(?:abbrev|unfoldable) (?:pub )?([a-z][\w']*(?:-[\w']+)+) :", text, re.M))
    return {name for name in found if not name.startswith(("invariant-", "decreases-"))}


def fall_together(words):
    """Names that fall together with one that is there already, in a specs/ or proofs/ file that has both."""
    for path in files(".antt"):
        tokens = set(re.findall(r"[A-Za-z0-9_']+", code(path)))
        for old, new in words.items():
            if old in tokens and new in tokens and not re.search(rf"[.\-/]{new}\b|\b{new}[.\-]", code(path)):
                yield path, old, new


def main():
    words = {}
    for path in files(".antt", ".rt", ".edit"):
        for word in CAMEL.findall(read(path)):
            if word not in OTHERS:
                words[word] = SPECIAL.get(word) or snake(word)
    dash = {name: name.replace("-", "_") for name in dashed()}
    # `bytes_of` is there since port.py turned the word where it stands alone.
    together = [found for found in fall_together(words) if found[1] != "bytesOf"]
    if together:
        sys.exit("\n".join(f"{path}: {old} would be {new}, which is there" for path, old, new in together))
    for path in files(".antt", ".rt", ".edit"):
        before = read(path)
        text = before
        if path.startswith("crates/width/") or re.search(r"width\.specs\.Width\.\{[^}]*\bS\b", text):
            text = re.sub(r"(?<![\w'])S(?![\w'(])", "column_size", text)
        if path.startswith("crates/promises/") and path.endswith(".antt"):
            lines = [line.partition("--") for line in text.split("\n")]
            lines = [(re.sub(r"(?<![\w'\-])(by|plain)(?![\w'\-])", lambda m: FACTS[m.group()], said), dashes, rest) for said, dashes, rest in lines]
            text = "\n".join("".join(line) for line in lines)
        text = CAMEL.sub(lambda m: words.get(m.group(), m.group()), text)
        if not path.endswith(".rt"):
            text = re.sub(r"(?<![\w'\-])[a-z][\w']*(?:-[\w']+)+(?![\w'\-])", lambda m: dash.get(m.group(), m.group()), text)
        if text != before:
            with open(path, "w", encoding="utf-8") as f:
                f.write(text)


main()
