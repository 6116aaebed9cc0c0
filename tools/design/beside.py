#!/usr/bin/env python3
"""Old beside new: what changed in what is promised, between two checkouts of this repository.

usage: beside.py OLD NEW

Prints, as Markdown, every type, public signature, clause, ghost member of an impl and definition that changed, went or
came, crate by crate. `port.py contracts COMMIT` of the kit compares functions and definitions by itself.
"""
import glob
import re
import sys

CRATES = [
    "refusal", "field", "field256", "linear", "reduction", "cell", "index", "complex", "maps", "tensor", "lists",
    "reader", "report", "forms", "job",
]


def squeeze(text):
    text = re.sub(r"\n\s*(//|--)[^\n]*", "\n", "\n" + text)
    return re.sub(r"\s+", " ", text).strip()


def types(top, crate):
    """Each public struct, enum, trait and constant of a crate, by kind and name."""
    found = {}
    for path in sorted(glob.glob(f"{top}/crates/{crate}/src/**/*.rt", recursive=True)):
        text = open(path).read()
        for head in re.finditer(r"^((?:#\[[^\n]*\]\n)*)pub (struct|enum|const|trait) (\w+)", text, re.M):
            start = head.start()
            rest = text[head.end():]
            if head.group(2) == "const" or re.match(r"(<[^{;]*>)?\s*;", rest):
                end = head.end() + rest.index(";") + 1
            else:
                end = head.end() + rest.index("\n}") + 2
            found[f"{head.group(2)} {head.group(3)}"] = squeeze(text[start:end])
    return found


def impls(top, crate):
    """Each conversion, Display, Model and Clone of a crate that is written by hand, with its ghost members."""
    found = {}
    for path in sorted(glob.glob(f"{top}/crates/{crate}/src/**/*.rt", recursive=True)):
        text = open(path).read()
        for head in re.finditer(r"^impl(<[^\n{]*?>)? ([^\n{]* for [^\n{]*?)\s*(where[^{]*)?\{", text, re.M):
            body = text[head.end():text.index("\n}", head.end())] + "\n"
            ghosts = re.findall(r"ghost (\w+) = (\{.*?\});\n", body, re.S)
            found[squeeze(f"impl{head.group(1) or ''} {head.group(2)}")] = squeeze(
                " ".join(f"{name} = {value};" for name, value in ghosts if name != "use"))
    return found


def definitions(top, crate):
    """Each definition of a crate's specs/, by name: it ends at a blank line, or where another one begins."""
    found = {}
    begins = re.compile(r"( *)(abbrev|unfoldable|pub record|pub data)\b(?: pub)? (\S+)")
    for path in sorted(glob.glob(f"{top}/crates/{crate}/specs/*.antt")):
        name, indent, lines = None, "", []
        for line in open(path).read().split("\n") + [""]:
            head = begins.match(line)
            if name and (not line.strip() or head or line.startswith(indent + "--")):
                found[name] = squeeze("\n".join(lines))
                name = None
            if head:
                name, indent, lines = head.group(3), head.group(1), []
            if name:
                lines.append(line)
    return found


def without_parameters(line):
    """The head of an impl or a trait without what stands in angle brackets."""
    depth, kept = 0, []
    for c in line:
        depth += (c == "<") - (c == ">")
        if depth == 0 and c != ">":
            kept.append(c)
    return re.sub(r"^impl ", "", "".join(kept)).strip()


def signatures(top, crate):
    """Each public function, and each method of a trait, with its clauses."""
    found = {}
    for path in sorted(glob.glob(f"{top}/crates/{crate}/src/**/*.rt", recursive=True)):
        owner = ""
        lines = open(path).read().split("\n")
        at = 0
        while at < len(lines):
            line = lines[at]
            if re.match(r"(impl|pub trait|trait)\b", line):
                owner = without_parameters(line.rstrip("{ ").replace("pub trait ", "trait "))
            elif re.match(r"}", line):
                owner = ""
            head = re.match(r"\s*(pub )?fn (\w+)", line)
            if head and (head.group(1) or (owner.startswith("trait") and line.startswith("    "))):
                text = line
                depth = line.count("(") - line.count(")")
                while depth > 0:
                    at += 1
                    text += " " + lines[at].strip()
                    depth += lines[at].count("(") - lines[at].count(")")
                at += 1
                while at < len(lines) and not re.match(r"\s*\{|\s*$|    \}", lines[at]) and not text.endswith(("{", ";")):
                    text += " " + lines[at].strip()
                    at += 1
                text = squeeze(text).rstrip("{ ")
                found[f"{owner + '::' if owner else ''}{head.group(2)}"] = text
            at += 1
    return found


def shown(name, text):
    if name.startswith("impl"):
        return f"{name} {{ {text} }}"
    return f"{name.rsplit('::', 1)[0]}: {text}" if "::" in name else text


def listed(title, old, new):
    rows = []
    for name in sorted(set(old) | set(new)):
        if old.get(name) != new.get(name):
            rows.append((name, old.get(name), new.get(name)))
    if not rows:
        return
    print(f"\n{title}\n")
    for name, before, after in rows:
        if before is None:
            print(f"- new: `{shown(name, after)}`")
        elif after is None:
            print(f"- gone: `{shown(name, before)}`")
        else:
            print(f"- old: `{shown(name, before)}`")
            print(f"  new: `{shown(name, after)}`")


def main():
    old, new = sys.argv[1], sys.argv[2]
    for crate in CRATES:
        parts = [
            ("Types, traits and constants", types(old, crate), types(new, crate)),
            ("Public functions and methods of traits, with their clauses", signatures(old, crate), signatures(new, crate)),
            ("Impls written by hand, with their ghost members", impls(old, crate), impls(new, crate)),
            ("Definitions", definitions(old, crate), definitions(new, crate)),
        ]
        if all(before == after for _, before, after in parts):
            continue
        print(f"\n### {crate}")
        for title, before, after in parts:
            listed(title, before, after)


main()
