#!/usr/bin/env python3
"""Spells the repository's own definitions and lemmas as today's Rattle does: words in snake case, types and modules in camel case.

usage: python3 tools/respell.py [--check]     at the top of the repository, once, after port.py

A name is the repository's own if a file of specs/ or proofs/ declares it. Names of the kit that a file imports stay, and so do functions of
src/, strings, inputs and outputs. --check lists names that would fall together in a file, and writes nothing.
"""
import collections
import glob
import re
import sys

DECLARED = re.compile(r"^\s*(?:(?:pub|abbrev|unfoldable)\s+)*([^\s:(){}\[\].,;]+)\s+:\s")
TOKEN = re.compile(r'"(?:\\.|[^"\\])*"|(?:--|//).*|[^\s(){}\[\].,;"]+')
IMPORT = re.compile(r"^\s*(?:pub |ghost )*use\s+([\w.◌'-]+?)\.?\{(.*?)\}", re.M | re.S)


def files():
    for folder in ("specs", "proofs", "src"):
        for kind in ("antt", "rt"):
            yield from glob.glob(f"crates/*/{folder}/**/*.{kind}", recursive=True)


def snake(name):
    if not re.match(r"[a-z]", name) or not re.search(r"[A-Z-]", name) or re.search(r"(^|-)[A-Z]", name):
        return name
    name = re.sub(r"([a-z0-9])([A-Z])", lambda m: m[1] + "_" + m[2].lower(), name)
    return re.sub(r"([A-Z])", lambda m: "_" + m[1].lower(), name).replace("-", "_")


def spellings(texts):
    """The new name of each own name. Where a lemma's would be a definition's or one of the kit's, the lemma's ends in `_lem`."""
    specs, own, kit = set(), set(), set()
    for path, text in texts.items():
        if path.endswith(".antt") and not path.endswith("/Proof.antt"):
            found = {m[1] for m in map(DECLARED.match, text.split("\n")) if m}
            own |= found
            specs |= found if "/specs/" in path else set()
        for module, names in IMPORT.findall(text):
            if not module.startswith("Rattle.") or module.startswith("Rattle.std."):
                kit.update(n.strip() for n in names.split(","))
    own -= kit
    taken = collections.Counter(snake(n) for n in own if "-" not in n)
    made = {}
    for name in own:
        lemma = name not in specs or "-" in name
        falls = taken[snake(name)] > (0 if "-" in name else 1) or snake(name) in kit and snake(name) != name
        made[name] = snake(name) + "_lem" if lemma and falls else snake(name)
    return {old: new for old, new in made.items() if new != old}


def respelled(path, text, made):
    lemma_too = path.endswith(".antt")

    def turned(token, field):
        new = made.get(token, token)
        # a plain name that became a lemma's is a function's name in code and as a field
        return token if new == token + "_lem" and (field or not lemma_too) else new

    def word(m):
        token = m[0]
        if token.startswith(("--", "//")):
            return re.sub(r"`([^`\s]+)`", lambda b: "`" + turned(b[1], False) + "`", token)
        field = text[m.start() - 1 : m.start()] == "."
        return token if token.startswith('"') else turned(token, field)

    return TOKEN.sub(word, text)


def together(texts, made):
    for path, text in sorted(texts.items()):
        tokens = {m[0] for m in TOKEN.finditer(text) if not m[0].startswith(("--", "//", '"'))}
        by_new = collections.defaultdict(set)
        for t in tokens:
            by_new[made.get(t, t)].add(t)
        for new, old in sorted(by_new.items()):
            if len(old) > 1:
                yield path, new, sorted(old)


def main():
    texts = {p: open(p, encoding="utf-8").read() for p in sorted(set(files()))}
    made = spellings(texts)
    if "--check" in sys.argv:
        for path, new, old in together(texts, made):
            print(path, new, *old)
        return
    for path, text in texts.items():
        turned = respelled(path, text, made)
        if turned != text:
            with open(path, "w", encoding="utf-8") as f:
                f.write(turned)


main()
