#!/usr/bin/env python3
"""Brings the repository's own definitions and lemmas to the spelling of today's Rattle.

usage: python3 tools/respell.py [--list]      at the top of the repository, once, behind the kit's port.py

Words are in snake case, types and facts in upper camel case. In the name of a lemma a dash stays behind the
name of a function that it speaks of, and becomes an underscore elsewhere. Functions, fields and constants of src/
and what Rattle makes of them keep their names. --list prints old and new name and changes nothing.
"""

import glob
import re
import sys

TOKEN = re.compile(r"[A-Za-z_\u03b1-\u03c9][\w'\u2032\u2081-\u2089\u2264\u2261\u2262+*-]*")
HEAD = re.compile(r"^(\s*)((?:abbrev |unfoldable |pub )*)([^\s:(){}.,«»]+) : (.*)$")
TYPE = re.compile(r"^\s*(?:abbrev |unfoldable |pub )*(?:record|data)\s+([^\s:(){}]+)")
USE = re.compile(r"^\s*(?:ghost )?use ((?:Rattle\.std|Rattle\.core|native|Prim|lib|mathlib|borrow|denote|Lib|logic)[\w.]*)\.\{([^}]*)\}", re.M)
# functions of the library that names of lemmas begin with
LIBRARY = "any all cond count_by drop eqb get_or leb length ltb map min ones replicate set sum sum_by take".split()

# lemmas that would have their function's name
LEMMAS = {name: name.replace("-", "_") + "_lem" for name in "in-turn table_fits to-all to_one distinct-pairs number_fits with-rota".split()}


def files(kinds):
    found = []
    for kind in kinds:
        found += glob.glob("crates/*/" + kind, recursive=True)
    return sorted(found)


def text(path):
    with open(path, encoding="utf-8") as f:
        return f.read()


def snake(word):
    word = re.sub(r"(?<=[a-z0-9])([A-Z])", lambda m: "_" + m.group(1).lower(), word)
    return word


def definitions():
    """Each name that specs/ and proofs/ define: whether it is a fact or type, a function, or a lemma; and whether it is a field."""
    kinds, fields = {}, set()
    for path in files(["specs/**/*.antt", "proofs/**/*.antt"]):
        inside = None
        for line in text(path).splitlines():
            indent = len(line) - len(line.lstrip())
            if inside is not None and line.strip() and indent <= inside:
                inside = None
            named = TYPE.match(line)
            if named:
                kinds.setdefault(named.group(1), "type")
                inside = indent if line.rstrip().endswith("where") else None
                continue
            head = HEAD.match(line)
            if not head or head.group(4).startswith("goal.") or head.group(3) in ("let", "use", "ghost", "--"):
                continue
            name, says = head.group(3), head.group(4)
            if inside is not None:
                fields.add(name)
                kinds.setdefault(name, "function")
            elif re.search(r"(^|→ |\) )Type 0$", says):
                kinds[name] = "type"
            elif "/specs/" in path or "abbrev" in head.group(2) or "unfoldable" in head.group(2):
                kinds[name] = "function"
            else:
                kinds.setdefault(name, "lemma")
    return kinds, fields


def respelled(name, kind, functions):
    if name in LEMMAS:
        return LEMMAS[name]
    if kind == "type" or name[0].isupper():
        return "".join(part[:1].upper() + part[1:] for part in name.split("-"))
    parts = [snake(part) for part in name.split("-")]
    if kind == "lemma" and len(parts) > 1 and parts[0] in functions:
        return parts[0] + "-" + "_".join(parts[1:])
    return "_".join(parts)


def renaming():
    kinds, fields = definitions()
    functions = {snake(n) for n, k in kinds.items() if k == "function" and "-" not in n and n not in fields} | set(LIBRARY)
    foreign = set()
    for path in files(["specs/**/*.antt", "proofs/**/*.antt", "src/**/*.rt"]):
        for use in USE.finditer(text(path)):
            foreign |= {part.split(" as ")[0].strip() for part in use.group(2).split(",")}
    names, taken = {}, {}
    for name, kind in kinds.items():
        new = respelled(name, kind, functions)
        taken.setdefault(new, []).append(name)
        if new != name:
            names[name] = new
    clashes = [f"{' and '.join(olds)} fall together as {new}" for new, olds in taken.items() if len(olds) > 1]
    clashes += [f"{old} would be the library's {new}" for old, new in names.items() if new in foreign]
    clashes += [f"{old} is also a name of the library" for old in names if old in foreign]
    return names, fields, {name for name in names if kinds[name] == "lemma"}, clashes


def renamed(line, names, fields):
    def one(found):
        word = found.group(0)
        behind_dot = found.start() > 0 and line[found.start() - 1] == "."
        if word not in names or (behind_dot and word not in fields):
            return word
        return names[word]

    return TOKEN.sub(one, line)


def main(arguments):
    names, fields, lemmas, clashes = renaming()
    if arguments == ["--list"]:
        for old, new in sorted(names.items()):
            print(f"{old}  {new}" + ("  (field)" if old in fields else ""))
        print("\n".join(clashes))
        return 0
    if clashes:
        print("\n".join(clashes))
        return 1
    for path in files(["specs/**/*.antt", "proofs/**/*.antt", "src/**/*.rt"]):
        before = text(path)
        seen = {old: new for old, new in names.items() if path.endswith(".antt") or old not in lemmas}
        after = renamed(before, seen, fields)
        if after != before:
            with open(path, "w", encoding="utf-8") as f:
                f.write(after)
    return 0


if __name__ == "__main__":
    raise SystemExit(main(sys.argv[1:]))
