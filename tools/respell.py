#!/usr/bin/env python3
"""Respells the repository's own names to today's rules: words in snake case, a dash only between two names.

usage: python3 tools/respell.py [--list]      at the top, once, right after port.py; --list prints old and new names, and changes nothing

What is respelled are definitions, lemmas, fields and locals of specs/ and proofs/, in .antt and .rt files, must-fail edits and pages. What the
check makes of a function (a goal, a step) keeps its own spelling, and so do the functions of src/, exported names, strings and numbers.
A lemma that would get a definition's name gets `_lem`.
"""
import collections
import glob
import re
import sys

TOKEN = re.compile(r"[^\s(){}\[\].;,λ⌜⌝\"`:!?&]+")
DECLARED = re.compile(r"^(?:unfoldable |abbrev |pub |private |  pub )*([^\s:(){}λ]+) :( .*)?$")
# Words of the library that stand first or last in a lemma's name.
LIBRARY = {"length", "take", "drop", "map", "reverse", "append", "tabulate", "replicate", "set"}


# What port.py took for names that the check makes.
GARBLED = [("field_own", "own_at"), ("entry_IsPlace", "entry_place"), ("last_Line", "last_line")]


def snake(word):
    return re.sub(r"(?<=[a-z0-9])([A-Z])", lambda m: "_" + m.group(1).lower(), word)


def is_camel(word):
    return bool(re.match(r"[a-z]\w*$", word)) and bool(re.search(r"[a-z0-9][A-Z]", word))


def is_symbol(word):
    return not re.match(r"\w+$", word)


def files(pattern):
    return sorted(glob.glob(f"crates/*/{pattern}/**/*.antt", recursive=True))


def code(line):
    return "" if line.startswith("--") else line.split(" -- ")[0]


def names():
    """The definitions by name, the lemmas by name, and every word of the proof files."""
    defined, lemmas, words = set(), set(), set()
    for path in files("specs") + files("proofs"):
        walk = path.endswith("/Proof.antt")
        for line in open(path, encoding="utf-8").read().split("\n"):
            words.update(TOKEN.findall(code(line)))
            found = DECLARED.match(code(line))
            if found and not walk:
                (defined if "/specs/" in path else lemmas).add(found.group(1))
    return defined, lemmas, words


def mapping():
    defined, lemmas, words = names()
    turned = {w: snake(w) for w in words if is_camel(w)}
    taken = {turned.get(w, w) for w in defined}
    camels = set(turned.values())
    for word in lemmas - defined:
        new = turned.get(word, word)
        if "-" in word:
            parts = word.split("-")
            joins = all(p in defined or p in LIBRARY or is_symbol(p) for p in parts) and not re.match(r"[a-z]+$", parts[0]) or parts[0] in LIBRARY
            new = ("-" if joins else "_").join(turned.get(p, p) for p in parts)
            new = re.sub(r"([≼≤∷])_(?=matrix)", r"\1-", new)
        if new in taken or not is_camel(word) and new in camels:
            new += "_lem"
        if new != word:
            turned[word] = new
    return turned


def respelled(text, turned, dashes):
    """The text with each word turned; dashed words only where dashes says so."""
    def one(m):
        word = m.group(0)
        if turned.get(word, "").endswith("_lem") and text[m.start() - 1:m.start()] == ".":
            return word
        return turned.get(word, word) if dashes or is_camel(word) else word
    return TOKEN.sub(one, text)


def turn(path, turned):
    text = open(path, encoding="utf-8").read()
    for garbled, name in GARBLED:
        text = text.replace(garbled, name)
    if path.endswith(".antt"):
        out = []
        for line in text.split("\n"):
            body = code(line)
            # A path names folders after functions of src/: only what stands in its braces is ours.
            head = re.match(r"\s*(?:pub )?use [^{]*", body)
            at = head.end() if head else 0
            at = body.index(" as ") if head and " as " in head.group(0) else at
            out.append(body[:at] + respelled(body[at:], turned, True) + respelled(line[len(body):], turned, False))
        new = "\n".join(out)
    elif path.endswith((".rt", ".edit")):
        new = respelled(text, turned, False)
    else:
        new = re.sub(r"`[^`\n]+`", lambda m: respelled(m.group(0), turned, not re.search(r"[ /.]", m.group(0))), text)
    if new != text:
        open(path, "w", encoding="utf-8").write(new)
        return 1
    return 0


def main():
    # A first pass mends what was garbled and turns most; names that it makes camel are turned by the next.
    turned = mapping()
    back = collections.defaultdict(set)
    for a, b in turned.items():
        back[b].add(a)
    for b, olds in sorted(back.items()):
        if len(olds) > 1:
            print("together:", b, sorted(olds))
    if "--list" in sys.argv:
        for a, b in sorted(turned.items()):
            print(a, b)
        return
    paths = files("specs") + files("proofs") + glob.glob("crates/*/src/**/*.rt", recursive=True) + glob.glob("crates/*/must-fail/*.edit")
    paths += ["README.md"] + glob.glob("docs/*.md") + glob.glob("bench/*.md") + glob.glob("examples/*.md")
    for _ in range(3):
        turned = mapping()
        print(sum(turn(p, turned) for p in sorted(paths)), "files")


if __name__ == "__main__":
    main()
