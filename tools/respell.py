#!/usr/bin/env python3
"""Brings this repository's own names in specs/ and proofs/ to today's spelling: snake case for definitions, lemmas, fields and constructors.

usage: tools/respell.py [--table]

Run once, at the top, on what the toolchain's port.py left. A word in camel case becomes snake case (rollOf, roll_of). A dash stays
where it joins the names of two functions (length-drop) and becomes `_` elsewhere (on-sheet, on_sheet). Types, modules, names of src/, names
that the library gives and names that the checker makes stay. It rewrites .rt and .antt files below crates/, the lines of must-fail edits,
and code spans of pages. Names that fall together are printed, and nothing is written. --table prints the table and writes nothing.
"""
import os
import re
import sys

TOP = os.path.dirname(os.path.dirname(os.path.realpath(__file__)))
WORD = re.compile(r"[^\s(){}.;,@\"«»`\[\]|:]+")
MARKS = r"(?:abbrev|unfoldable|pub|data|record|ruleset|open)"
ITEM = re.compile(rf"\s*((?:{MARKS} )*)([^\s(){{}}.;,@\"«»:=]+) *((?::|=|\()(?:.*))$")
CASES = re.compile(r"  (?:\| )?([a-z][^\s(){}.;,@\"«»:=]*) *:\s")
# functions of the library that names of lemmas speak of
LIBRARY = set("length take drop map filter sum set sets get get_or pos negsuc suc zero mod mul add sub div min max cond eqb ltb leb not and or fits bits nil cons append reverse nat_abs neg mag".split())


def files(*endings):
    for folder, dirs, names in os.walk(os.path.join(TOP, "crates")):
        dirs[:] = sorted(d for d in dirs if d != "out")
        for name in sorted(names):
            if name.endswith(endings):
                yield os.path.join(folder, name)


def read(path):
    with open(path, encoding="utf-8") as f:
        return f.read()


def declared():
    """The names that antt files declare, the functions among them, and those that come from elsewhere."""
    names, functions, foreign, real = {}, set(LIBRARY), set(), set()
    for path in files(".antt", ".rt"):
        text = read(path)
        for path_of, items in re.findall(r"use ([\w.◌·]+)\.\{([^}]*)\}", text):
            own = path_of.startswith("Rattle.") and os.path.isdir(os.path.join(TOP, "crates", path_of.split(".")[1]))
            if not own or ".declared." in path_of:
                foreign.update(w.split(" as ")[0].strip() for w in items.split(","))
        if path.endswith((".rt", "/Proof.antt")):
            continue
        for line in text.split("\n"):
            if line.lstrip().startswith("--"):
                continue
            m = ITEM.match(line)
            if m and (m[3].startswith(":") or "record" in m[1] or "data" in m[1] or "ruleset" in m[1]):
                names.setdefault(m[2], path)
                if ("abbrev" in m[1] or "unfoldable" in m[1]) and m[2][0].islower():
                    functions.update((m[2], snake(m[2])))
                    real.add(m[2])
    return names, functions, foreign, real


def snake(word):
    if word[0].isupper():
        return word
    return re.sub(r"(?<=[a-z0-9])([A-Z])", lambda m: "_" + m[1].lower(), word)


def respelled(name, functions, field):
    parts = [snake(p) if p and p[0].islower() and not re.search(r"-", p) else p for p in name.split("-")]
    if not all(parts):
        return name
    joins = not field and len(parts) == 2 and functions.issuperset(parts)
    return ("-" if joins else "_").join(parts)


def fields():
    found = set()
    for path in files(".antt"):
        inside = False
        for line in read(path).split("\n"):
            if re.match(r"\s*(pub )?(record|data) .*where$", line):
                inside = True
            elif not line.strip():
                inside = False
            elif inside and (m := re.match(r"\s+(?:pub )?([^\s(){}.;,@\"«»:=]+) *: ", line)):
                found.add(m[1])
    return found


def main():
    names, functions, foreign, real = declared()
    inner = fields()
    table = {}
    for name in names:
        if name in foreign or re.match(r"[A-Z][A-Za-z0-9]*$", name) or name.startswith("◌"):
            continue
        new = respelled(name, functions, name in inner)
        if new != name:
            table[name] = new
    # a lemma that would have a function's name ends in _lem; a field may have it
    taken = {}
    for name in sorted(names, key=lambda n: (n in inner, n not in real, "-" in n)):
        new = table.get(name, name)
        if name not in inner and new in taken:
            new += "_lem"
            table[name] = new
        if name not in inner:
            taken[new] = name
    back, clash = {}, []
    for old, new in sorted(table.items()):
        if old not in inner and new not in inner and (new in names and new not in table or new in foreign or back.setdefault(new, old) != old):
            clash.append(f"{old} -> {new} ({names[old]}; there is {new in names and names[new] or new in foreign and 'the library' or back[new]})")
    if "--table" in sys.argv:
        print("\n".join(f"{o}\t{n}" for o, n in sorted(table.items())))
    if clash:
        print("these fall together:\n" + "\n".join(clash), file=sys.stderr)
        raise SystemExit(1)
    if "--table" in sys.argv:
        return
    turn = lambda m: table.get(m[0], m[0])
    for path in files(".antt", ".rt", ".edit"):
        text = read(path)
        new = text
        if path.endswith(".edit"):
            new = re.sub(r"(?m)^(?:old|new):.*$", lambda m: WORD.sub(turn, m[0]), text)
        elif path.endswith("Proof.antt"):
            # names behind a dot are mostly the checker's
            new = re.sub(r"(?<![\w.'\])])" + WORD.pattern, turn, text)
            new = re.sub(r"(?<=\.)" + WORD.pattern, lambda m: table[m[0]] if m[0] in inner and m[0] in table else m[0], new)
        else:
            new = WORD.sub(turn, text)
        if new != text:
            with open(path, "w", encoding="utf-8") as f:
                f.write(new)
    for folder, dirs, found in os.walk(TOP):
        dirs[:] = [d for d in dirs if d not in ("crates", ".git", "target", "build", "out")]
        for name in found:
            if name.endswith((".md", ".edit")):
                path = os.path.join(folder, name)
                text = read(path)
                new = re.sub(r"`[^`\n]+`", lambda m: WORD.sub(turn, m[0]), text) if name.endswith(".md") else re.sub(r"(?m)^(?:old|new):.*$", lambda m: WORD.sub(turn, m[0]), text)
                if new != text:
                    with open(path, "w", encoding="utf-8") as f:
                        f.write(new)


main()
