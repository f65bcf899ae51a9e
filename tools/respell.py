#!/usr/bin/env python3
"""Brings the repository's own definitions, lemmas and fields to today's spelling: words in snake case, types in camel case.

usage: python3 tools/respell.py      at the top of the repository, once, after port.py

Own names are those that files of specs/ and proofs/ declare, but for the answers and invariants that Rattle names. A name that would fall together
with another one gets the ending _lem where it is a lemma, and else the name in CHOSEN.
"""

import os
import re

# By hand: a dash that only parts two definitions of one name, and names that the library has.
CHOSEN = {
    "first-fit": "first_fit_named",
    "inOrder": "in_order",
}
WORD = r"[^\s(){}.,;:\"`\[\]@]+"
DECLARED = re.compile(r"^(\s*)(?:pub )?(?:abbrev |unfoldable )?(?:pub )?(?:data |record )?(" + WORD + r")(?: : |(?: .*)? : Type)")
CONSTRUCTOR = re.compile(r"^\s+(?:pub )?(" + WORD + r") : ")
OWN = re.compile(r"[a-z][A-Z]|-|′")


def files(*endings):
    for top in ("crates",):
        for folder, dirs, names in os.walk(top):
            dirs[:] = sorted(d for d in dirs if d != "out")
            for name in sorted(names):
                if name.endswith(endings):
                    yield os.path.join(folder, name)


def snake(name):
    name = name.replace("′", "'")
    if name[:1].isupper() and "-" not in name:
        return name
    name = re.sub(r"([a-z0-9])([A-Z])", lambda m: m.group(1) + "_" + m.group(2).lower(), name) if not name[:1].isupper() else name
    return name.replace("-", "_")


def declared():
    """Own names with where they stand, and those of them that are fields or constructors."""
    found, fields = {}, set()
    for path in files(".antt"):
        generated = path.endswith(("/Answers.antt", "/Invariants.antt"))
        with open(path, encoding="utf-8") as f:
            lines = f.read().split("\n")
        inside = False
        for line in lines:
            if line.startswith("--") or line.startswith("use "):
                for alias in re.findall(r" as (" + WORD + ")", line) if line.startswith("use ") else []:
                    if OWN.search(alias):
                        found.setdefault(alias, set()).add(path)
                continue
            if line and not line[0].isspace():
                inside = bool(re.match(r"(pub )?(record|data) ", line))
            m = DECLARED.match(line)
            if not m or " = " in line.split(" : ")[0] or line.lstrip().startswith(("let ", "(", "in ", "λ")):
                continue
            indent, name = m.group(1), m.group(2)
            if len(indent) > 4 or (generated and " : goal." in line):
                continue
            if name[0] in "λ|=→":
                continue
            found.setdefault(name, set()).add(path)
            if inside and indent:
                fields.add(name)
    return found, fields


def tokens(text):
    return re.split(r"(" + WORD + ")", text)


def turn(code, names, fields):
    """Renames in one line of code. After a dot only fields and what a path names change, and never a step of the checked function."""
    out, parts = [], re.split(r"(" + WORD + r"|\.)", code)
    path = []
    for i, part in enumerate(parts):
        if i % 2 == 0:
            if part:
                path = []
            out.append(part)
            continue
        if part == ".":
            path.append(".")
            out.append(part)
            continue
        new = names.get(part)
        if new and path:
            heads = [p for p in path if p != "."]
            if heads[:1] == ["Rattle"] or (len(heads) == 1 and heads[0] not in ("c", "w", "l", "goal", "u", "v") and heads[0] in ALIASES):
                pass
            elif part in fields and not (len(heads) == 1 and heads[0] in ("c", "w", "l")) and heads[0] != "goal":
                pass
            else:
                new = None
        out.append(new or part)
        path.append(part)
    return "".join(out)


ALIASES = set()


def main():
    found, fields = declared()
    for path in files(".antt", ".rt"):
        with open(path, encoding="utf-8") as f:
            for line in f:
                if line.startswith(("use ", "ghost use ", "    ghost use ")):
                    here = re.findall(r" as (" + WORD + ")", line)
                    ALIASES.update(here)
                    for alias in here:
                        if path.endswith(".rt") and OWN.search(alias):
                            found.setdefault(alias, set()).add(path)
    names = {}
    taken = {n for n in found if not OWN.search(n)}
    for name in sorted(found, key=lambda n: ("-" in n, n)):
        if not OWN.search(name):
            continue
        new = CHOSEN.get(name) or snake(name)
        if new == name:
            continue
        if name not in CHOSEN and new in taken or new in names.values():
            print("falls together:", name, "->", new, sorted(found[name]))
            new = new + "_lem"
        names[name] = new
    for path in files(".antt"):
        with open(path, encoding="utf-8") as f:
            text = f.read()
        lines = []
        for line in text.split("\n"):
            code, mark, rest = line.partition("--")
            if mark and not (code == "" or code.endswith(" ")):
                code, mark, rest = line, "", ""
            rest = re.sub(WORD, lambda m: names[m.group(0)] if m.group(0) in names and "-" not in m.group(0) else m.group(0), rest)
            lines.append(turn(code, names, fields) + mark + rest)
        write(path, text, "\n".join(lines))
    for path in files(".rt"):
        with open(path, encoding="utf-8") as f:
            text = f.read()
        lines, deep = [], 0
        for line in text.split("\n"):
            head = line.strip()
            clause = head.startswith(("ghost ", "requires", "ensures", "#[tactic", "#![tactic")) or deep > 0
            if clause and not head.startswith("//"):
                deep = max(0, deep + line.count("{") - line.count("}"))
                line = turn(line, names, fields)
            lines.append(line)
        write(path, text, "\n".join(lines))
    for folder in ("docs", "."):
        for name in sorted(os.listdir(folder)):
            if name.endswith(".md"):
                path = os.path.join(folder, name)
                with open(path, encoding="utf-8") as f:
                    text = f.read()
                write(path, text, re.sub(r"`([^`\n]+)`", lambda m: "`" + names.get(m.group(1), m.group(1)) + "`", text))


def write(path, old, new):
    if old != new:
        with open(path, "w", encoding="utf-8") as f:
            f.write(new)


main()
