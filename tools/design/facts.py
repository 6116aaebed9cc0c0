#!/usr/bin/env python3
"""Facts and parameters that functions of src/ share.

Prints each fact that stands in the `requires` of two functions or more, and each pair of parameters that three
functions or more take together, with the functions. Run at the top of a checkout.
"""
import collections
import glob
import re

FUNCTION = re.compile(r"\bfn\s+(\w+)")
CLAUSE = re.compile(r"^\s*(requires|ensures\*?)\s*(?:\w+\s*)?\{(.*)$")


def heads(path):
    """The name, the parameter list and the clauses of each function of a file."""
    lines = open(path).read().split("\n")
    at = 0
    while at < len(lines):
        found = FUNCTION.search(lines[at])
        if not found or lines[at].lstrip().startswith("//"):
            at += 1
            continue
        head = lines[at][found.end():]
        depth = head.count("(") - head.count(")")
        while depth > 0:
            at += 1
            head += " " + lines[at].strip()
            depth += lines[at].count("(") - lines[at].count(")")
        clauses = []
        at += 1
        while at < len(lines) and (clause := CLAUSE.match(lines[at])):
            text = clause.group(2)
            depth = 1 + text.count("{") - text.count("}")
            while depth > 0:
                at += 1
                text += " " + lines[at].strip()
                depth += lines[at].count("{") - lines[at].count("}")
            clauses.append((clause.group(1), re.sub(r"\s+", " ", text.rstrip("};, ").strip())))
            at += 1
        yield found.group(1), head, clauses


def parameters(head):
    inside = re.sub(r"<[^<>()]*>", "", head)
    inside = inside[inside.find("(") + 1: inside.rfind(")")]
    names = []
    for part in inside.split(","):
        part = part.strip()
        if part in ("self", "&self", "&mut self"):
            names.append("self")
        elif ":" in part:
            names.append(part.split(":")[0].strip())
    return names


def main():
    facts, pairs = collections.defaultdict(list), collections.defaultdict(list)
    for path in sorted(glob.glob("crates/*/src/**/*.rt", recursive=True)):
        crate = path.split("/")[1]
        if crate in ("checks", "pawqeri"):
            continue
        for name, head, clauses in heads(path):
            where = f"{crate}:{name}"
            for kind, fact in clauses:
                if kind == "requires":
                    facts[fact].append(where)
            names = parameters(head)
            for i, first in enumerate(names):
                for second in names[i + 1:]:
                    pairs[(first, second)].append(where)
    for fact, places in sorted(facts.items(), key=lambda f: -len(f[1])):
        if len(places) >= 2:
            print(f"{len(places)} require {{ {fact} }}: {', '.join(places)}")
    for (first, second), places in sorted(pairs.items(), key=lambda p: -len(p[1])):
        if len(places) >= 3:
            print(f"{len(places)} take {first}, {second}: {', '.join(places)}")


main()
