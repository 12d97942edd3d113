#!/usr/bin/env python3
"""Compares the rows and the points of docs/PROVED.md with the sources. It names each that speaks of what isn't there: status 1 if there is
one.

A row names functions, types or the fields of the contract of `gate` in its first column, a point before its first colon, with their crates
in parentheses. Each is in such a crate, and a function has a contract. `verify_..` is all whose names begin so. Then a row names
clauses: a row in its second column, a point before a second colon. Each is the name of a clause, or a name in one, of one of these
functions, and each function has one of these. What follows is prose, which nobody but a reader compares."""
import pathlib
import re
import sys

TOP = pathlib.Path(__file__).resolve().parent.parent
NAME = re.compile(r"`(?:\w+::)?(\w+?(?:_\.\.)?)`")


def declared():
    """Of each function, type and trait: its crates, and what has its clauses."""
    found = {}
    for file in sorted(TOP.glob("crates/*/src/**/*.rt")):
        crate = file.relative_to(TOP).parts[1]
        text = re.sub(r"^ *//.*\n", "", file.read_text(encoding="utf-8"), flags=re.M)
        for it in re.finditer(r"(?<!ghost )\bfn (\w+)", text):
            stop, depth = it.end(), 0
            while depth or not (text[stop] == ";" or text[stop] == "{" and not re.search(r"\b(ensures|requires)\b[^{}]*$", text[:stop])):
                depth += {"{": 1, "(": 1, "[": 1, "}": -1, ")": -1, "]": -1}.get(text[stop], 0)
                stop += 1
            found.setdefault(it[1], []).append((crate, text[it.end():stop]))
        for name in re.findall(r"\b(?:struct|enum|trait) (\w+)", text):
            found.setdefault(name, []).append((crate, f"ensures {text}"))
    for file, record in (("cose_gate/specs/Gate.antt", "Gates"), ("cose_gate_core/specs/GateRun.antt", "Ran")):
        text = (TOP / "crates" / file).read_text(encoding="utf-8")
        for name in re.findall(r"^  pub (\w+)", text[text.index(f"\npub record {record} "):], re.M):
            found.setdefault(name, []).append(("cose_gate", "ensures"))
    return found


def rows():
    """The rows: page, names, crates, clauses."""
    text = (TOP / "docs/PROVED.md").read_text(encoding="utf-8")
    table = re.search(r"^## The calls that most use$.*?^\|---.*?\n(.*?)\n\n", text, re.M | re.S)[1]
    for row in table.split("\n"):
        names, clauses = row.split("|")[1:3]
        yield "docs/PROVED.md", NAME.findall(names), [], NAME.findall(clauses)
    for point in re.findall(r"^- (.*(?:\n  .*)*)", text[text.index("\n## The gate"):text.index("\n## What the proofs don't say")], re.M):
        names, *more = re.split(r":\s+", point)
        crates = [name for group in re.findall(r"\(([^)]*)\)", names) for name in NAME.findall(group)]
        clauses = NAME.findall(more[0]) if len(more) > 1 and re.fullmatch(r"(`\w+`[,\s]*)+", more[0]) else []
        yield "docs/PROVED.md", [name for name in NAME.findall(names) if name not in crates], crates, clauses


def main():
    found, wrong = declared(), []
    for page, names, crates, clauses in rows():
        contracts = {}
        for name in names:
            alike = [it for it in found if it.startswith(name[:-2])] if name.endswith("_..") else [name]
            contracts[name] = " ".join(text for it in alike for crate, text in found.get(it, []) if not crates or crate in crates)
            if "ensures" not in contracts[name]:
                wrong.append(f"{page}: {name} isn't in {', '.join(crates) or 'a crate'}, or has no contract")
            elif clauses and not any(re.search(rf"\b{clause}\b", contracts[name]) for clause in clauses):
                wrong.append(f"{page}: {name} has none of the clauses {', '.join(clauses)}")
        wrong += [f"{page}: {', '.join(names)}: no clause {clause}" for clause in clauses
                  if not any(re.search(rf"\b{clause}\b", text) for text in contracts.values())]
    print("\n".join(wrong), end="\n" if wrong else "")
    return bool(wrong)


if __name__ == "__main__":
    sys.exit(main())
