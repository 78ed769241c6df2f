#!/usr/bin/env python3
"""Spells this repository's own definitions and lemmas as today's Rattle does: words in snake case, types and modules as they are.

usage: port_names.py        at the top, once, on what port.py left

Turned are the names that an .antt file declares (but for the labels of a Proof.antt) and those that `as` gives, wherever they stand: in .antt and .rt files,
in must-fail edits, and between backticks in comments and pages. Where two names would fall together in one module or one file, the lemma gets `_lem`.
"""

import os
import re
import sys

NAME = r"[^\s(){}.;,@\"«»:`|]+"
DECLARED = re.compile(rf"^\s*(?:(?:abbrev|unfoldable|pub|instance)\s+)*({NAME})\s*(?:\{{[^{{}}\n]*\}}\s*)*:\s")
IMPORT = re.compile(r"^(?:ghost )?use .*", re.M)
ALIAS = re.compile(r" as ([a-z]\w*)")
WORDS = re.compile(NAME)
COMMENT = re.compile(r"(?<!\S)(?:--|//|# wrong:).*")
QUOTED = re.compile(r"`[^`\n]*`")
# Lemmas that had today's spelling already, and stand beside a definition that now gets the same.
BESIDE = ("item_in", "laid_out", "one_more", "out_of_range", "too_short")


def snake(name):
    """The spelling of today; a name that begins with a capital is a type, or begins with one, and stays."""
    if not name[0].islower():
        return name
    return re.sub(r"(?<=[a-z0-9])[A-Z]", lambda m: "_" + m[0].lower(), name).replace("-", "_")


def files(endings, *tops):
    for top in tops:
        if os.path.isfile(top):
            yield top
        for folder, inner, names in os.walk(top):
            inner[:] = sorted(d for d in inner if d not in ("out", ".git"))
            for name in sorted(names):
                if name.endswith(endings):
                    yield os.path.join(folder, name)


def read(path):
    with open(path, encoding="utf-8") as f:
        return f.read()


def gather():
    """Which files declare each name, and which files have each word outside comments."""
    declared, used = {}, {}
    for path in files((".antt", ".rt"), "crates"):
        text = read(path)
        for word in WORDS.findall(COMMENT.sub("", text)):
            used.setdefault(word, set()).add(path)
        for alias in ALIAS.findall("\n".join(IMPORT.findall(text))):
            declared.setdefault(alias, set()).add(path)
        if path.endswith(".antt") and not path.endswith("/Proof.antt"):
            for line in text.split("\n"):
                m = DECLARED.match(line)
                if m:
                    declared.setdefault(m[1], set()).add(path)
    return declared, used


def spellings(declared, used):
    """The new spelling of each name that changes, those that would fall together apart."""
    new = {name: snake(name) for name in declared if snake(name) != name}
    for name in sorted(new):
        others = [other for other in sorted(new) if other != name and new[other] == new[name] and "-" not in other]
        if "-" in name and (others or proofs(used.get(new[name], set()) & used[name])):
            new[name] += "_lem"
    return new


def proofs(paths):
    return {p for p in paths if p.endswith(".antt")}


def turned(text, new, path):
    """The text with each name respelled. Behind a dot a step of a proof has its function's name, never a lemma's."""

    def one(m):
        word, behind = m[0], m.string[m.start() - 1 : m.start()] == "."
        if word in BESIDE and path.endswith(".antt") and not behind:
            return word + "_lem"
        if word not in new:
            return word
        return snake(word) if behind and path.endswith("Proof.antt") else new[word]

    def quoted(part):
        return QUOTED.sub(lambda m: WORDS.sub(one, m[0]), part)

    if path.endswith(".md"):
        return quoted(text)
    out, at = [], 0
    for m in COMMENT.finditer(text):
        out += [WORDS.sub(one, text[at : m.start()]), quoted(m[0])]
        at = m.end()
    return "".join(out) + WORDS.sub(one, text[at:])


def main():
    declared, used = gather()
    new = spellings(declared, used)
    for name in sorted(new):
        met = proofs(used.get(new[name], set()) & used[name])
        if met:
            print(f"look: {name} -> {new[name]} meets that name in {sorted(met)}")
    changed = 0
    for path in files((".antt", ".rt", ".edit", ".md"), "crates", "docs", "README.md"):
        text = read(path)
        out = turned(text, new, path)
        if out != text:
            changed += 1
            with open(path, "w", encoding="utf-8") as f:
                f.write(out)
    print(f"{len(new)} names, {changed} files")


if __name__ == "__main__":
    sys.exit(main())
