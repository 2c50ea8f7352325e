#!/usr/bin/env python3
"""Spells this repository's own definitions and lemmas as Rattle does: words in snake case, and a dash only between two names.

usage: respell.py [--list]     at the top of the repository, once, after port.py

Turned are names that files of specs/ and lemma files of proofs/ (those right in proofs/) declare or bind: a capital within a word that begins small
becomes '_' and the small letter (maxEdges, max_edges); a dash stays where the names of two definitions meet (decode-encode) and else becomes '_'
(and-no-right, and_no_right). One that would meet another name of the repository, of its Rust text or of an import takes '_lem' behind it.
Strings, Rust items, files and folders keep their names. Each crate is laid out anew. --list prints old and new, and writes nothing.
"""

import glob
import os
import re
import subprocess
import sys

NAME = re.compile(r"[^\s(){}\[\].;,@\"«»:|]+")
DECLARED = re.compile(r"(?m)^[ ]*((?:pub |abbrev |unfoldable |private )*)([^\s(){};:,.]+(?: [^\s(){};:,.]+)*)((?: \{[^{}\n]*\})*) :(?=\s)")
MADE = re.compile(r"(?m)^[ ]*(?:pub )?(?:data|record) (\S+)")
USE = re.compile(r"(?m)^[ ]*(?:ghost )?use ([^\s{;]+?)\.?(?:\{([^}]*)\})?(?: as (\S+?))?;?$")
OWN = re.compile(r"^[A-Za-z][\w'-]*$")
STRING = re.compile(r'b?"(?:[^"\\]|\\.)*"')
# What a definition of the library is called, where a lemma's name joins it to another.
LIBRARY = set("length take drop map cond get_or get set sets replicate suc pos neg max min add mul sub le lt leb ltb eqb mod div pow append cons nil not and or of_z to_z".split())

# Lemmas, spelled as today already, that leave their name to a definition.
GIVING_WAY = set("a_at at_a at_one far_at goes_on is_free kept_of next_place stays_dead".split())
# A parameter of a function has the name that this would get.
CHOSEN = {"hasBest": "has_incumbent"}


def read(path):
    with open(path, encoding="utf-8") as file:
        return file.read()


def texts():
    pure = sorted(p for p in glob.glob("crates/*/specs/**/*.antt", recursive=True))
    lemmas = sorted(p for p in glob.glob("crates/*/proofs/*.antt"))
    walks = sorted(p for p in glob.glob("crates/*/proofs/*/**/*.antt", recursive=True))
    code = sorted(glob.glob("crates/*/src/**/*.rt", recursive=True))
    edits = sorted(glob.glob("crates/*/must-fail/*.edit"))
    return pure, lemmas, walks, code, edits


def small(word):
    """A word that begins small, in snake case; one that begins with a capital is a fact's name and stays."""
    if word[:1].isupper():
        return word
    return re.sub(r"(?<=[a-z0-9])[A-Z]+", lambda m: "_" + m[0].lower(), word)


def joined(name, words, definitions):
    """The words with a dash between names of definitions and '_' elsewhere, in as few names as there can be, but in two at least."""
    if words[0][:1].isupper():
        return words[0] + "-" + "_".join(words[1:])
    best = {0: []}
    for end in range(1, len(words) + 1):
        for begin in range(end):
            part = "_".join(words[begin:end])
            if begin in best and part in definitions and (begin, end) != (0, len(words)):
                way = best[begin] + [part]
                if end not in best or len(way) < len(best[end]):
                    best[end] = way
    return "-".join(best[len(words)]) if len(words) in best else "_".join(words)


def mapping():
    pure, lemmas, walks, code, _ = texts()
    brought, own, definitions, there = set(), set(), set(), set()
    for path in pure + lemmas + walks + code:
        text = read(path)
        for where, names, alias in USE.findall(text):
            names = [n.strip().split(" as ") for n in names.split(",") if n.strip()]
            if re.match(r"Rattle\.(std|core)|mathlib|Prim|native|lib\.|borrow|mir|pretty", where):
                brought.update(n[0] for n in names)
        if path.endswith(".rt"):
            text = STRING.sub("", re.sub(r"//.*", "", text))
            text = re.sub(r"(?m)^ *(pub(\(crate\))? )?use [^;]*;", "", re.sub(r"(?m)^ghost use .*", "", text))
            text = re.sub(r"\b(fn \w+|\w+\(|\w+::|\.\w+|\w+: )", " ", text)
            there.update(re.findall(r"\w+", text))
            continue
        text = re.sub(r"--.*", "", text)
        there.update(NAME.findall(re.sub(r"(?<=[^\s])\.[^\s(){}.;,]+", " ", text)))
    for path in pure + lemmas:
        text = re.sub(r"--.*", "", read(path))
        own.update(n for n in NAME.findall("\n".join(l for l in text.split("\n") if not l.startswith("use "))))
        for how, names, _ in DECLARED.findall(text):
            if "abbrev" in how or "unfoldable" in how:
                definitions.update(names.split())
        definitions.update(MADE.findall(text))
    new = dict(CHOSEN)
    new.update((name, name + "_lem") for name in GIVING_WAY)
    own = {n for n in own - set(new) if OWN.match(n) and n not in brought}
    known = {small(d) for d in definitions if "-" not in d} | LIBRARY
    for name in sorted(own):
        if not re.search(r"[a-z0-9][A-Z]|-", name) or (name[0].isupper() and "-" not in name):
            continue
        words = [small(w) for w in name.split("-")]
        to = joined(name, words, known) if len(words) > 1 else words[0]
        if name in definitions:
            to = "_".join(words)
        if to != name:
            new[name] = to
    kept = (there | brought) - set(new)
    taken = {new[n]: n for n in list(CHOSEN) + list(GIVING_WAY)}
    for name in sorted(set(new) - set(taken.values()), key=lambda n: (n not in definitions, "-" in n, n)):
        to = new[name]
        while to in kept or to in taken:
            to += "_lem"
        taken[to] = name
        new[name] = to
    return new


def turn(text, new, comment, fields=None):
    def put(match):
        # in the proof of a function a name behind a dot is mostly one that Rattle makes, and stays
        if fields is not None and match.string[match.start() - 1:match.start()] == "." and match[0] not in fields:
            return match[0]
        return new.get(match[0], match[0])

    def part(piece):
        # a name in a comment may have a mark of the sentence behind it
        return re.sub(r"[\w'-]*\w'*", put, piece)

    lines = []
    for line in text.split("\n"):
        at = line.find(comment)
        if at < 0:
            lines.append(NAME.sub(put, line))
        else:
            lines.append(NAME.sub(put, line[:at]) + part(line[at:]))
    return "\n".join(lines)


def main():
    new = mapping()
    if "--list" in sys.argv:
        for name, to in sorted(new.items()):
            print(name, to)
        return
    pure, lemmas, walks, code, edits = texts()
    fields = set(re.findall(r"\.([^\s(){}\[\].;,@\"«»:|]+)", "\n".join(re.sub(r"--.*", "", read(path)) for path in pure)))
    in_code = {old: to for old, to in new.items() if old not in GIVING_WAY}
    for path in pure + lemmas + walks + code + edits:
        text = read(path)
        if path.endswith(".antt"):
            turned = turn(text, new, "--", fields if path in walks else None)
        elif path.endswith(".rt"):
            pieces, last = [], 0
            for string in STRING.finditer(text):
                pieces += [turn(text[last:string.start()], in_code, "//"), string[0]]
                last = string.end()
            turned = "".join(pieces) + turn(text[last:], in_code, "//")
        else:
            turned = turn(text, in_code, "#")
        if turned != text:
            with open(path, "w", encoding="utf-8") as file:
                file.write(turned)
    for crate in sorted(glob.glob("crates/*/")):
        subprocess.run(["rt", "fmt"], cwd=crate, stdout=subprocess.DEVNULL, check=True)


if __name__ == "__main__":
    main()
