#!/usr/bin/env python3
"""Brings the repository's own definitions and lemmas to today's spelling: words in snake case, types in camel case.

usage: python3 tools/respell.py        at the top of the repository, once, after the kit's own script

A name is the repository's own where a file of specs/, or a file of lemmas in proofs/, defines it: a definition, a lemma, a case
or a field. The names that the check makes for goals and steps (`loop-rest-preserved`) and the library's names keep their hyphens.
"""

import glob
import re
import sys

# Types whose plain respelling is the name of a struct that stands in the same file of src/.
BY_HAND = {
    "Branch-number": "IsBranchNumber",
    "Stock-row": "IsStockRow",
    "Text-line": "IsTextLine",
}
TOKEN = re.compile(r"[^\s(){}\[\];,.:\"«»|λ→×]+")
DEFINES = re.compile(r"^\s*(?:(?:abbrev|pub|data|record|unfoldable|open)\s+)*([^\s(){};,.:]+)\s[^=]*?:\s")


def own_files():
    for kind in ("specs", "proofs"):
        for path in sorted(glob.glob(f"crates/*/{kind}/**/*.antt", recursive=True)):
            if not path.endswith(("/Answers.antt", "/Invariants.antt", "/Proof.antt")):
                yield path


def respelled(name):
    parts = name.split("-")
    if name[0].isupper():
        return "".join(part[:1].upper() + part[1:] for part in parts)
    return "_".join(parts)


def names():
    """The repository's own names with hyphens, and what they are now."""
    found = {}
    for path in own_files():
        for line in open(path, encoding="utf-8"):
            m = DEFINES.match(line)
            if m and not line.lstrip().startswith(("use ", "--", "mod ", "pub mod ")):
                name = m[1]
                if "-" in name.strip("-") and re.fullmatch(r"[A-Za-z0-9_'-]+", name):
                    found[name] = BY_HAND.get(name) or respelled(name)
    return found


def main():
    to = names()
    files = glob.glob("crates/*/specs/**/*.antt", recursive=True) + glob.glob("crates/*/proofs/**/*.antt", recursive=True)
    files += glob.glob("crates/*/src/**/*.rt", recursive=True)
    texts = {path: open(path, encoding="utf-8").read() for path in sorted(files)}
    there = {token for text in texts.values() for token in TOKEN.findall(text)}
    clash = sorted(f"{old} -> {new}" for old, new in to.items() if new in there)
    if clash or len(set(to.values())) != len(to):
        print("names that fall together: " + ", ".join(clash or ["two of them"]))
        return 1
    for path, text in texts.items():
        turned = TOKEN.sub(lambda m: to.get(m[0], m[0]), text)
        if turned != text:
            open(path, "w", encoding="utf-8").write(turned)
    for old, new in sorted(to.items()):
        print(f"{old} -> {new}")
    return 0


if __name__ == "__main__":
    sys.exit(main())
