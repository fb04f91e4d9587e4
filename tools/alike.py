#!/usr/bin/env python3
"""Lists functions and types of src/ that are alike: the same once names and numbers are left out.

    tools/alike.py [LEAST]

A function's body, or a type's fields, is read as its keywords and signs, with each name as N and each literal as 0. Groups of two and
more are printed, of at least LEAST signs (25 where none is given), and how many places they are.
"""
import collections
import glob
import os
import re
import sys

KEYWORDS = set("as break const continue else enum false fn for if impl in let loop match mut pub ref return self Self struct true "
               "while where u8 u16 u32 u64 usize bool".split())
TYPES = {"u8", "u16", "u32", "u64", "usize", "bool"}
TOKEN = re.compile(r"//[^\n]*|b?\"(?:\\.|[^\"\\])*\"|b?'(?:\\.|[^'\\])'|[A-Za-z_][A-Za-z_0-9]*|0x[0-9A-Fa-f_]+|[0-9][0-9_]*[a-z0-9]*|::|->|=>|\.\.=?|[<>=!&|^+*/%-]=?|\S")
HEAD = re.compile(r"^[ ]*(?:pub(?:\([a-z]+\))? )?(?:extern \"C\" )?(fn|struct|enum) ([A-Za-z_0-9]+)", re.M)


def block(text, start):
    """The braces from `start` on, whole."""
    depth = 0
    for i in range(start, len(text)):
        depth += {"{": 1, "}": -1}.get(text[i], 0)
        if depth == 0:
            return text[start:i + 1]
    return ""


def body(text, at):
    """The body of the item whose head ends at `at`: the first brace that ends a line and is none of a clause. A declaration has none."""
    for m in re.compile(r"[^\n]*\n").finditer(text, at):
        line = m.group().rstrip()
        if line.endswith(";"):
            return ""
        if line.endswith("{") and not re.match(r"\s*(requires|ensures|ghost)", line):
            return block(text, m.start() + len(line) - 1)
    return ""


def shape(code):
    out = []
    for t in TOKEN.findall(code):
        if t.startswith("//"):
            continue
        if t in TYPES:
            out.append("T")
        elif t in KEYWORDS or not (t[0].isalnum() or t[0] in "_\"'"):
            out.append(t)
        else:
            out.append("0" if t[0].isdigit() or t[0] in "\"'" or t[:2] in ("b'", 'b"') else "N")
    return tuple(out)


def main():
    least = int(sys.argv[1]) if len(sys.argv) > 1 else 25
    root = os.path.dirname(os.path.dirname(os.path.abspath(__file__)))
    groups = collections.defaultdict(list)
    for path in sorted(glob.glob(root + "/crates/*/src/**/*.rt", recursive=True)):
        text = open(path, encoding="utf-8").read()
        for m in HEAD.finditer(text):
            s = shape(body(text, m.end()))
            if len(s) >= least:
                line = text.count("\n", 0, m.start()) + 1
                groups[s].append("%s:%d %s" % (os.path.relpath(path, root), line, m.group(2)))
    places = 0
    for s, where in sorted(groups.items(), key=lambda g: -len(g[1]) * len(g[0])):
        if len(where) > 1:
            places += len(where)
            print("%d alike, %d signs each" % (len(where), len(s)))
            for w in where:
                print("    " + w)
    print("%d places" % places)


main()
