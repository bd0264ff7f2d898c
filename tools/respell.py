#!/usr/bin/env python3
"""Brings the repository's own definitions and lemmas to the spelling of today's Rattle, after port.py.

usage: python3 tools/respell.py [--list]     at the top of the repository; --list prints the names and changes nothing

Types are in camel case, also those that an abbrev names; fields, constructors and definitions of specs/ in snake case.
A dash stays where it joins the parts of a lemma's name. Names in src/ that are Rust's stay.
"""
import collections
import os
import re
import sys

TOKEN = re.compile(r"[^\s(){};,.\"⌜⌝@λ:`\[\]]+")
NAME = r"[^\s:(){}.,;\"]+"


def files():
    for folder, dirs, names in os.walk("crates"):
        dirs[:] = sorted(d for d in dirs if d != "out")
        for f in sorted(names):
            if f.endswith((".antt", ".rt", ".edit")):
                yield os.path.join(folder, f)


def declared(path):
    """The names that a file of antt declares, as (name, sort, whether it is a type)."""
    text = open(path, encoding="utf-8").read()
    lines = text.split("\n")
    inside = None
    for i, line in enumerate(lines):
        m = re.match(r"^(\s*)(?:unfoldable |abbrev )?(?:pub )?(record|data) (" + NAME + ")", line)
        if m:
            yield m.group(3), "type", True
            inside = m.group(2)
            continue
        m = re.match(r"^(\s*)(?:unfoldable |abbrev |pub )*(" + NAME + r"(?: " + NAME + r")*) :(?: (.*))?$", line)
        if not m or line.lstrip().startswith(("--", "use ", "where", "module")):
            if line and not line[0].isspace():
                inside = None
            continue
        if not m.group(1):
            inside = None
        whole = m.group(3) or ""
        j = i + 1
        while j < len(lines) and lines[j].lstrip().startswith(("→", "×", "≡")):
            whole += " " + lines[j].strip()
            j += 1
        is_type = whole.split("→")[-1].strip() == "Type 0" and inside is None
        sort = "constructor" if inside == "data" else "field" if inside == "record" else "definition"
        for name in m.group(2).split():
            yield name, sort, is_type


def snake(part):
    return re.sub(r"(?<=[a-z0-9])([A-Z])", lambda m: "_" + m.group(1), part).lower()


def camel(name):
    return "".join(p[:1].upper() + p[1:] for p in re.split(r"[-_]", name))


def respelled(name, sorts, in_specs):
    if not re.match(r"^[A-Za-z][A-Za-z0-9'_-]*$", name):
        return name
    if "type" in sorts or re.match(r"^[A-Z]\w*-", name):
        return camel(name)
    parts = [p if re.match(r"^[A-Z]", p) and len(p) > 1 else snake(p) for p in name.split("-")]
    whole = sorts & {"field", "constructor"} or in_specs
    return ("_" if whole else "-").join(parts)


def rust_names():
    found = set()
    for path in files():
        if path.endswith(".rt"):
            found |= set(re.findall(r"[a-z_][a-z0-9_]*", open(path, encoding="utf-8").read()))
    return found


def table():
    """Each name that changes, with its new spelling. Where a definition would meet another name, that one keeps or gets
    a dash; a field that has the name of something in src/ keeps its dash, since proofs name steps of the code so. After
    a dot a dashed name is such a step, and stays."""
    sorts = collections.defaultdict(set)
    specs = set()
    for path in files():
        if path.endswith(".antt"):
            for name, sort, is_type in declared(path):
                sorts[name].add("type" if is_type else sort)
                if "/specs/" in path:
                    specs.add(name)
    new = {n: respelled(n, s, n in specs) for n, s in sorts.items()}
    rust = rust_names()
    camels = {m for n, m in new.items() if n != m and "-" not in n and not re.match("[A-Z]", n)}
    taken = camels | set(sorts)
    for n, m in new.items():
        if "-" in n and "_" in m and "-" not in m and (m in taken | (rust if sorts[n] & {"field"} else set()) or sum(k == m for k in new.values()) > 1):
            new[n] = "-".join(snake(p) for p in n.split("-"))
    for n in sorts:
        if new[n] == n and n in camels and "_" in n:
            new[n] = n.replace("_", "-")
    return {n: m for n, m in new.items() if n != m}, sorts


def main():
    all_names, sorts = table()
    names = all_names
    both = [f"{n} -> {m}" for n, m in sorted(names.items()) if m in sorts]
    twice = collections.Counter(names.values())
    fall = [m for m, k in twice.items() if k > 1]
    if "--list" in sys.argv:
        for n, m in sorted(names.items()):
            print(n, m, *sorted(sorts[n]))
        print("already there:", *both, sep="\n  ")
        print("fall together:", *fall, sep="\n  ")
        return
    for path in files():
        text = open(path, encoding="utf-8").read()
        if not path.endswith(".antt"):
            names = {n: m for n, m in all_names.items() if not re.match("^[a-z0-9_]*$", n)}
        else:
            names = all_names

        def turn(m):
            name = m.group(0)
            of_code = "-" in name and not sorts[name] & {"field"} and text[m.start() - 1 : m.start()] == "."
            return name if of_code else names.get(name, name)

        turned = TOKEN.sub(turn, text)
        if turned != text:
            open(path, "w", encoding="utf-8").write(turned)


main()
