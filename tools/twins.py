#!/usr/bin/env python3
"""Lists functions of crates/*/src whose bodies have one shape: alike but for names, strings and numbers.

Run it at the top of the repository. A group is a place to look, and no verdict. Tests are left out, and so are bodies of fewer than 12 tokens."""
import collections
import glob
import re

HEAD = re.compile(r"^( *)(pub(\(crate\))? )?(final )?fn ([a-z_0-9]+)", re.M)
TOKEN = re.compile(r"b?'(?:\\.|[^'])'|b?\"(?:\\.|[^\"])*\"|[A-Za-z_][A-Za-z_0-9]*|\d[\d_]*|[^\sA-Za-z_\d]")
KEPT = {"if", "else", "match", "for", "in", "while", "let", "return", "Some", "None", "Ok", "Err", "true", "false", "mut"}

groups = collections.defaultdict(list)
for path in sorted(glob.glob("crates/*/src/*.rt")):
    if path.endswith("_tests.rt"):
        continue
    text = re.sub(r"//.*", "", open(path, encoding="utf-8").read())
    for head in HEAD.finditer(text):
        indent = head.group(1)
        end = text.find("\n" + indent + "}", head.start())
        start = text.find("\n" + indent + "{\n", head.start())
        if start < 0 or start > end:
            start = text.find("{\n", head.start())
        if start < 0 or end < start:
            continue
        shape = tuple(t if t in KEPT or not re.match(r"[A-Za-z_\d'\"]", t) else "x" for t in TOKEN.findall(text[start:end]))
        if len(shape) >= 12:
            groups[shape].append(f"{path} {head.group(5)}")

found = sorted((g for g in groups.values() if len(g) > 1), key=len, reverse=True)
print(f"{len(found)} groups, {sum(map(len, found))} functions")
for group in found:
    print(" ~ ".join(group))
