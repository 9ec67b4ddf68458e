#!/usr/bin/env python3
"""Lists the places in the crates' sources that docs/DESIGN-PASS.md counts, point by point.

    python3 tools/places.py          how many lines each search finds
    python3 tools/places.py 3        the lines that the searches of point 3 find

Run it at the top of the repository. A line is a place to be read: docs/DESIGN-PASS.md says which are counted.
"""
import collections
import glob
import re
import sys

SEARCHES = {
    "1 enums": r"^\s*(pub(\(\w+\))? )?enum \w+",
    "1 numbers for kinds": r"\b(kind|phase|timer|register|vouch|step|lead)\b: u(8|16|32)\b",
    "1 kinds by number": r"\.number\(\)|from_number|\bkind: \d|=> \(\d|=> \d,$|\b(timer|register) == \d|\b(step|lead) (==|<|>=|=) ",
    "1 flags": r"\b\w+: bool\b",
    "1 zero for none": r"(\.(view|back|due|spread|decided|proposal|offer|value|locked\.view|prepared\.view)|value) (==|!=|>) 0\b",
    "3 loops": r"^\s*(for|while|loop)\b",
    "3 counters": r"\+= 1;|\.enumerate\(\)|\b\d*\.\.\w",
    "4 equality by cases": r"=> (true|false),|=> true$|let \w+::\w+ = .* else",
    "4 conversions": r"\bas u(8|16|32|64|size)\b|fn (number|of|from_number|name|word|\w+_of)\b",
    "4 printing": r"\bfn (fmt|write\w*|push|line)\b|b'0' \+",
    "4 constants that say every field": r"^const \w+: [A-Z]\w+ = \w+ \{",
    "6 arrays and lists": r"\[[\w:]+; [\w]+\]|Vec<",
    "7 calls by case": r"\bdyn\b|\bfn\(|match (record\.kind|order|timer|tag|self)\b",
}


def sources():
    return sorted(glob.glob("crates/*/src/**/*.rt", recursive=True))


def search(pattern):
    for path in sources():
        for number, line in enumerate(open(path, encoding="utf-8"), 1):
            if not line.lstrip().startswith("//") and re.search(pattern, line):
                yield f"{path}:{number}: {line.strip()[:150]}"


def functions():
    """Each function with the names of its parameters and its clauses."""
    for path in sources():
        head, start = None, 0
        for number, line in enumerate(open(path, encoding="utf-8"), 1):
            line = line.strip()
            found = re.match(r"(pub(\(\w+\))? )?fn (\w+)", line)
            if found:
                name, head, start, clauses = found.group(3), "", number, []
            if head is None:
                continue
            if line.startswith(("ensures", "requires")):
                clauses.append(line)
            elif not line.startswith("//"):
                head += line
                if line.endswith(("{", "{}", ";")):
                    head = re.sub(r"^[^(]*<[^(]*>\(", "(", head)
                    yield f"{path}:{start} {name}", re.findall(r"[(,] *(?:mut )?(\w+):", head), clauses
                    head = None


def same_contract():
    groups = collections.defaultdict(list)
    for place, _, clauses in functions():
        if clauses:
            groups[tuple(re.sub(r"^(\w+) \w+ \{", r"\1 {", clause) for clause in clauses)].append(place)
    for places in groups.values():
        if len(places) > 1:
            yield " = ".join(places)


def repeated_premises():
    groups = collections.defaultdict(list)
    for place, _, clauses in functions():
        for clause in clauses:
            if clause.startswith("requires"):
                groups[re.sub(r"^requires (\w+ )?", "", clause)].append(place)
    for clause, places in groups.items():
        if len(places) > 1:
            yield f"{len(places)} x {clause}  ({'; '.join(places)})"


def together():
    groups = collections.defaultdict(set)
    for place, names, _ in functions():
        for first in range(len(names) - 1):
            for last in range(first + 3, len(names) + 1):
                groups[tuple(names[first:last])].add(place)
    for names, places in sorted(groups.items()):
        longer = any(len(more) > len(names) and places <= found and set(names) < set(more) for more, found in groups.items())
        if len(places) >= 3 and not longer:
            yield f"{len(places)} x ({', '.join(names)})"


LISTS = {
    "2 functions with one contract": same_contract,
    "5 premises of several functions": repeated_premises,
    "5 parameters of three functions": together,
}


def main():
    wanted = sys.argv[1:]
    for title, pattern in SEARCHES.items():
        report(title, list(search(pattern)), wanted)
    for title, lists in LISTS.items():
        report(title, list(lists()), wanted)


def report(title, found, wanted):
    if not wanted:
        print(f"{len(found):4} {title}")
    elif title[0] in wanted:
        print(f"== {title}: {len(found)}")
        print("\n".join(found))


main()
