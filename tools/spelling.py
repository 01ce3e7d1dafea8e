#!/usr/bin/env python3
"""Spells the repository's own definitions and lemmas as today's Rattle does: words in snake case.

usage: tools/spelling.py [--names FILE] [FOLDER]

FOLDER is the top of a checkout that port.py has turned; this folder if it is left out. It rewrites crates/*/{src,specs,proofs} in place.
A definition in camel case, as sameText, becomes same_text. A dash stays where it joins the names of two functions, as in length-append, and
else becomes an underscore. A lemma whose name a definition then takes gets _lem. Where a name would meet another one it stays.
--names FILE writes the old and the new names, a row each with a tab between, for documents and for edits that are kept outside the crates.
A second run changes nothing.
"""

import glob
import os
import re
import sys

WORD = r"[^\s(){}.;,@\"«»:`]+"
DECLARED = re.compile(
    r"^[ \t]*(?:(?:abbrev|unfoldable|pub|data|record|macro|instance|private)[ \t]+)*(" + WORD + r")((?:[ \t]*\{[^{}]*\})*)[ \t]*:[ \t]*(?=[^\s:])([^\n]*)",
    re.M,
)
# Functions of the library that the lemmas are named after.
HEADS = set("length append take drop map reverse get_or set cons head tail sum min max add sub mul div filter concat replicate not and or".split())


def sources(root):
    for part in ("specs", "proofs", "src"):
        for path in sorted(glob.glob(os.path.join(root, "crates", "*", part, "**", "*"), recursive=True)):
            if path.endswith((".antt", ".rt")) and os.path.isfile(path):
                yield path


def read(path):
    with open(path, encoding="utf-8") as f:
        return f.read()


def bare(text):
    return re.sub(r"--[^\n]*", "", text)


def snake(name):
    name = re.sub(r"([a-z0-9])([A-Z]+)", lambda m: m[1] + "_" + m[2].lower(), name)
    return name


def names_of(root):
    """The declared names, and those that specs/ declares; a name that only fills a goal that Rattle named is none of ours."""
    ours, specs, goals = {}, set(), set()
    for path in sources(root):
        if not path.endswith(".antt"):
            continue
        for m in DECLARED.finditer(bare(read(path))):
            name, of_type = m[1], m[3]
            if re.match(r"(tie|goal)\b", of_type) or "statement " in of_type or re.search(r"\bNeed-", of_type):
                goals.add(name)
                continue
            ours.setdefault(name, set()).add(path)
            if "/specs/" in path:
                specs.add(name)
    return ours, specs, goals


def used(root):
    """Each word that stands undotted in antt, or in a clause: what a new name could meet."""
    words = set()
    for path in sources(root):
        text = bare(read(path))
        if path.endswith(".antt"):
            text = re.sub(r"\buse [^\s{]*", "", text)
            words |= set(re.findall(r"(?<![^\s(){};,@\"«»:=])" + WORD, text))
    return words


def borrowed(root):
    """The names that some file takes from the logic's libraries."""
    names = set()
    for path in sources(root):
        for m in re.finditer(r"\buse (?:mathlib|lib|borrow|native|Prim|Rattle\.std)\b[^\s{;]*\.\{([^}]*)\}", read(path)):
            names |= set(re.split(r"[,\s]+", m[1]))
    return names


def table(root):
    ours, specs, goals = names_of(root)
    taken = used(root)
    lent = borrowed(root)
    definitions = {n for n in specs if re.fullmatch(r"[a-z][A-Za-z0-9_']*", n)}
    heads = HEADS | {snake(n) for n in definitions}
    rows = {}
    for name in sorted(ours):
        if name in goals or not re.match(r"[a-z]", name):
            continue
        if re.search(r"[a-z0-9][A-Z]", name) and "-" not in name and not re.search(r"[^A-Za-z0-9_']", name):
            rows[name] = snake(name)
    for name, new in sorted(rows.items()):
        if new in ours and new not in rows:
            rows[new] = new + "_lem"
    for name in sorted(ours):
        if name in goals or name in rows or name in lent or "-" not in name or not re.match(r"[a-z]", name):
            continue
        parts = [snake(p) if re.fullmatch(r"[a-z][A-Za-z0-9_']*", p) else p for p in name.split("-")]
        new = ("-" if all(p in heads for p in parts) else "_").join(parts)
        if new != name:
            rows[name] = new
    # what would meet another name stays
    while True:
        met = {}
        for old, new in rows.items():
            met.setdefault(new, []).append(old)
        bad = [old for new, olds in met.items() for old in olds if len(olds) > 1 or (new in taken and new not in rows)]
        bad = [old for old in bad if "-" in old]
        if not bad:
            break
        for old in bad:
            del rows[old]
    return rows


def turned(text, rows, rt):
    def word(m):
        w = m[0]
        return rows.get(w, w)

    def dashed(m):
        return word(m) if "-" in m[0] else m[0]

    if rt:
        # camel case stands in clauses and comments alone; a dash only in a comment's code spans
        text = re.sub(r"\b[a-z]\w*[A-Z]\w*\b", word, text)
        text = re.sub(r"ghost use [^;]*;|(?:requires|ensures) \w* ?\{[^\n]*", lambda m: re.sub(WORD, dashed, m[0]), text)
        return re.sub(r"`[^`\n]+`", lambda m: re.sub(WORD, dashed, m[0]), text)
    return re.sub(WORD, word, text)


def main(argv):
    out = None
    if "--names" in argv:
        at = argv.index("--names")
        out = argv[at + 1]
        del argv[at : at + 2]
    root = argv[0] if argv else "."
    rows = table(root)
    for path in sources(root):
        before = read(path)
        after = turned(before, rows, path.endswith(".rt"))
        if after != before:
            with open(path, "w", encoding="utf-8") as f:
                f.write(after)
    if out:
        with open(out, "w", encoding="utf-8") as f:
            f.writelines(f"{a}\t{b}\n" for a, b in sorted(rows.items()))
    print(f"{len(rows)} names")
    return 0


if __name__ == "__main__":
    sys.exit(main(sys.argv[1:]))
