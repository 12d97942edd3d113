#!/usr/bin/env python3
"""Compares each block of Rattle in crates/*/CALLING.md, docs/PORTING.md and docs/TOKENS.md with the crate callers, the example programs and
some tests. It names each part that differs: status 1 if there is one.

A part is the lines between two blank lines, such as a function. Its lines have to follow one another in one source file, so that none is left
out; margins and blank lines don't count. Of imports each has to be in a source, and a block that begins with its `//!` lines or imports has
to have those of its source file whose names it uses and no others, and the items of that file that it uses."""
import pathlib
import re
import sys

TOP = pathlib.Path(__file__).resolve().parent.parent
PAGES = ["crates/*/CALLING.md", "crates/*/MESSAGES.md", "docs/PORTING.md", "docs/TOKENS.md"]
SOURCES = ["crates/callers/src/*.rt", "crates/ciborium/src/laws.rt", "crates/example_*/src/*.rt", "crates/cose_gate_tests/src/program/*.rt",
           "crates/coset_tests/src/together/*.rt", "crates/cbor_tests/src/typed/*.rt"]


def files(patterns):
    return [file for pattern in patterns for file in sorted(TOP.glob(pattern))]


def lines(text):
    """The lines of a string, without margins and blank lines."""
    return [line.strip() for line in text.split("\n") if line.strip()]


def is_in(part, source):
    """Whether the lines of a part follow one another in a source."""
    return any(source[at:at + len(part)] == part for at in range(len(source) - len(part) + 1))


IMPORT = re.compile(r"^(?:pub )?(?:ghost )?use ([^;]+);\n?", re.M)


def imports(text):
    """The imports at the head of a source: each with the names that it brings in."""
    found = []
    for it in IMPORT.finditer(text):
        path = re.sub(r"\s+", " ", it[1]).strip()
        group = re.search(r"\{(.*)\}$", path)
        names = [name.split(" as ")[-1].split("::")[-1].strip() for name in (group[1] if group else path).split(",")]
        names = [re.split(r"::|\.", path[:group.start() - 1].rstrip(":."))[-1] if name == "self" else name for name in names]
        found.append((lines(it[0]), [name.split(".")[-1] for name in names if name]))
    return found


ITEM = re.compile(r"^(?:pub(?:\(\w+\))? )?(?:const |unsafe )?(?:fn|struct|enum|trait|type|const|static) (\w+)", re.M)


def items(text):
    """The names of the items of a file: what begins a line."""
    return {it[1] for it in ITEM.finditer(text)}


def code(text):
    """A source without its comments."""
    return re.sub(r"//.*", "", text)


def uses(name, body):
    """Whether a source uses a name, or an operator such as ◌++◌."""
    if re.fullmatch(r"\w+", name):
        return re.search(rf"(?<!\w){name}(?!\w)", body) is not None
    return all(sign in body for sign in name.split("◌") if sign)


def main():
    sources = {file: lines(file.read_text(encoding="utf-8")) for file in files(SOURCES)}
    status = 0
    for page in files(PAGES):
        for block in re.findall(r"^```rust\n(.*?)^```$", page.read_text(encoding="utf-8"), re.M | re.S):
            rest = re.sub(r"^//!.*\n", "", IMPORT.sub("", block), flags=re.M)
            parts = [part for part in map(lines, re.split(r"\n\s*\n", rest)) if part]
            head = [lines(it[0]) for it in re.finditer(rf"{IMPORT.pattern}|^//!.*\n", block, re.M)]
            for part in head + parts:
                if not any(is_in(part, source) for source in sources.values()):
                    print(f"{page.relative_to(TOP)} quotes what is so in no source:\n  " + "\n  ".join(part))
                    status = 1
            if not re.match(r"//!|(ghost )?use ", block):
                continue
            for file, source in sources.items():
                if not all(is_in(part, source) for part in parts):
                    continue
                text = file.read_text(encoding="utf-8")
                for name in sorted(items(text) - items(block)):
                    if uses(name, code(rest)):
                        print(f"{page.relative_to(TOP)} quotes {file.relative_to(TOP)} without {name}, which it uses")
                        status = 1
                for statement, names in imports(block):
                    # The clauses that an impl inherits use names too.
                    if statement[0].startswith("ghost") and re.search(r"^impl ", block, re.M):
                        continue
                    if not any(uses(name, rest) for name in names):
                        print(f"{page.relative_to(TOP)} quotes {file.relative_to(TOP)} with a line that it doesn't need:\n  "
                              + "\n  ".join(statement))
                        status = 1
                for statement, names in imports(text):
                    if statement not in head and any(uses(name, rest) for name in names):
                        print(f"{page.relative_to(TOP)} quotes {file.relative_to(TOP)} without a line that it needs:\n  "
                              + "\n  ".join(statement))
                        status = 1
    return status


if __name__ == "__main__":
    sys.exit(main())
