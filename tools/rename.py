#!/usr/bin/env python3
"""Brings the repository's own definitions and lemmas to the spelling of today's Rattle: words in snake case, a dash only between two
names. Run once, at the top of the repository, right after the kit's port.py; docs/PORT.md says of which commit.

usage: tools/rename.py [--list]     with --list it prints old and new names and changes nothing

Names are collected from specs/ and from the lemma files of proofs/. Functions of src/, types, modules, constants, goals and their
names in the proof of a function keep their spelling. It stops where two names would fall together.
"""
import collections
import os
import re
import sys

TOKEN = re.compile(r"[A-Za-z_][\w'-]*")
DECLARED = re.compile(r"^\s*((?:(?:abbrev|unfoldable|pub)\s+)*)([^\s(){};,.=]+(?: [^\s(){};,.=]+)*)\s*:(?:\s|$)")
# The words by which std names an operation or a constructor; a dash stands between two of them, or one of them and a definition.
WORDS = set("append zero suc cons nil none true false and or not xor add sub mul div mod pow length take drop map set get_or replicate reverse cond".split())


def snake(word):
    return re.sub(r"(?<=[a-z0-9])(?=[A-Z])", "_", word).lower() if re.match("[a-z]", word) else word


def files(kinds):
    for folder, dirs, names in os.walk("."):
        dirs[:] = sorted(d for d in dirs if d not in ("out", "target", ".git", "tools"))
        for name in sorted(names):
            if name.endswith(kinds):
                yield os.path.join(folder, name)


def is_shared(path):
    """A file of specs/, or a lemma file: one that stands in no folder of a function's own proof."""
    parts = path.split(os.sep)
    if "specs" in parts:
        return True
    if "proofs" not in parts:
        return False
    folder = os.path.dirname(path)
    return not os.path.exists(os.path.join(folder, "Proof.antt")) and "Proof" not in parts[:-1]


def declared():
    definitions, lemmas = set(), set()
    for path in files(".antt"):
        if not is_shared(path):
            continue
        for line in open(path, encoding="utf-8"):
            m = DECLARED.match(line)
            if not m:
                continue
            words = m.group(1).split()
            for name in m.group(2).split():
                if not re.match("[a-z]", name):
                    continue
                (definitions if "abbrev" in words or "unfoldable" in words else lemmas).add(name)
    return definitions, lemmas


def joined(name, known):
    """The parts of a name, each in snake case, with dashes only where each part is a name."""
    parts = [snake(p) for p in name.split("-")]
    chunks, i = [], 0
    while i < len(parts):
        for j in range(len(parts), i, -1):
            word = "_".join(parts[i:j])
            if word in known:
                chunks.append((word, True))
                i = j
                break
        else:
            chunks.append((parts[i], False))
            i += 1
    return ("-" if all(is_name for _, is_name in chunks) else "_").join(word for word, _ in chunks)


def renaming():
    definitions, lemmas = declared()
    names = {d: snake(d) for d in definitions if snake(d) != d and "-" not in d}
    known = WORDS | {names.get(d, d) for d in definitions if "-" not in d}
    for name in sorted((lemmas | {d for d in definitions if "-" in d}) - set(names)):
        new = joined(name, known)
        if new in known and (new != name or name not in definitions | WORDS):
            new += "_lem"
        if new != name:
            names[name] = new
    return names, definitions | lemmas


def imported(text):
    """The names that a file takes from a library that is not of this repository."""
    own = {name for name in os.listdir("crates")}
    names = set()
    for m in re.finditer(r"(?ms)^(?:ghost )?use ([\w.+·]+)\.\{(.*?)\}", text):
        parts = m.group(1).split(".")
        if parts[0] != "Rattle" or len(parts) < 2 or parts[1] not in own:
            names |= set(TOKEN.findall(m.group(2)))
    return names


def together(names, all_names):
    """Names that would fall together with another one of the repository, or with a word that the same file has already."""
    bad = []
    back = collections.defaultdict(list)
    for old, new in names.items():
        back[new].append(old)
    bad += [f"{' and '.join(olds)} -> {new}" for new, olds in back.items() if len(olds) > 1]
    bad += [f"{old} -> {new}, which is a name already" for old, new in names.items() if new in all_names and new not in names]
    for path in files(".antt"):
        text = open(path, encoding="utf-8").read()
        words = set(TOKEN.findall(re.sub(r"(?m)^use Rattle\.[\w.+]*|--.*", "use", text)))
        bad += [f"{path}: {old} -> {new}, which stands in the file" for old, new in names.items() if old in words and new in words and new not in names]
    return bad


def main():
    names, all_names = renaming()
    bad = together(names, all_names)
    if "--list" in sys.argv:
        print("\n".join(f"{old} {new}" for old, new in sorted(names.items())))
        print("\n".join(bad), file=sys.stderr)
        return
    if bad:
        sys.exit("names fall together:\n" + "\n".join(bad))
    for path in files((".antt", ".rt", ".edit", ".md")):
        text = open(path, encoding="utf-8").read()
        keep = imported(text)
        put = lambda m: m.group(0) if m.group(0) in keep else names.get(m.group(0), m.group(0))
        new = re.sub(r"`[^`\n]*`", lambda m: TOKEN.sub(put, m.group(0)), text) if path.endswith(".md") else TOKEN.sub(put, text)
        if new != text:
            open(path, "w", encoding="utf-8").write(new)


main()
