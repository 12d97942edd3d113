#!/usr/bin/env python3
"""signatures.py CRATE [NAME..]: prints the public calls of a crate that has a CALLING.md, each with its clauses as they are in the source: the
free functions, the types' own methods and the traits that it passes on from the crates named below; before a type's methods its public fields
or its cases. With NAME, of a function or a type, only these. Implementations of traits and laws are left out."""
import pathlib
import re
import sys

CRATES = pathlib.Path(__file__).resolve().parent.parent / "crates"

# Of each crate: those below whose public items it passes on.
PAGES = {
    "ciborium_ll": ["ciborium_ll"],
    "ciborium": ["ciborium", "ciborium_value", "ciborium_traits", "ciborium_typed"],
    "coset_base": ["coset_labels", "coset_headers", "coset_base"],
    "coset": ["coset_signed", "coset_maced", "coset_encrypted", "coset_recipients", "coset_keys",
              "coset_claims", "coset_kdf"],
    "cose_gate": ["cose_gate", "cose_gate_core", "cose_gate_program",
                  "cose_gate_records", "cose_hmac"],
}


def passed_on(crate):
    """The names that a crate's public modules declare or pass on by pub use, and its public modules."""
    names, modules = set(), set()
    source = CRATES / crate / "src"
    root = (source / "lib.rt").read_text(encoding="utf-8")
    modules.update(set(re.findall(r"^pub mod (\w+);", root, re.M)) - {"laws"})
    for file in [source / "lib.rt", *[source / f"{it}.rt" for it in modules]]:
        text = file.read_text(encoding="utf-8")
        names.update(re.findall(r"^pub (?:struct|enum|trait) (\w+)", text, re.M))
        for group in re.findall(r"^pub use ([^;]+);", text, re.M):
            names.update(re.findall(r"\w+", group))
    return names, modules


def balanced(text, at):
    """The place after the brace that closes the one at this place."""
    depth = 0
    while True:
        depth += {"{": 1, "}": -1}.get(text[at], 0)
        at += 1
        if depth == 0:
            return at


def function(text, at):
    """The signature that begins at this place, and its clauses, each on one line."""
    stop, depth = at, 0
    while depth or not (text[stop] in "{;" or re.match(r"(requires|ensures)\b", text[stop:])):
        depth += {"(": 1, ")": -1, "[": 1, "]": -1}.get(text[stop], 0)
        stop += 1
    head = re.sub(r"\s+", " ", text[at:stop]).strip()
    head = re.sub(r",? \)", ")", re.sub(r"\( ", "(", head))
    clauses = []
    while found := re.match(r"(requires|ensures)\b[^{]*", text[stop:]):
        close = balanced(text, stop + found.end())
        clause = re.sub(r"\s+", " ", text[stop:close])
        parts = re.fullmatch(r"(requires|ensures)\s*([^{]*?)\s*\{\s*(.*?)\s*\}", clause)
        clauses.append(parts.groups())
        stop = re.compile(r"\s*").match(text, close).end()
    return head, clauses


def blocks(text):
    """The functions of a source: the trait, or the head of the type's own methods, that each is in, and where it begins."""
    head = ""
    for line in re.finditer(r"^.*$", text, re.M):
        if re.match(r"impl\b|pub (unsafe )?trait\b", line[0]):
            head = re.sub(r"\s+", " ", text[line.start():text.index("{", line.start())]).strip().removeprefix("pub ")
        elif line[0] == "}":
            head = ""
        elif found := re.match(r"(    )?(pub )?fn \w+", line[0]):
            is_public = found[2] or head.startswith("trait")
            if is_public and bool(found[1]) == bool(head) and " for " not in head:
                yield head, line.start() + len(found[1] or "") + len(found[2] or "")


def types(text):
    """The public structs and enums of a source: of each its name, and its head with its public fields or its cases."""
    for it in re.finditer(r"^pub (struct|enum) (\w+)([^;{(]*)(;|\(.*?\);|\{.*?^\})", text, re.M | re.S):
        inside = re.sub(r"#\[.*?\]|^ *ghost [^;]*;", "", it[4], flags=re.M | re.S)
        if it[1] == "struct" and inside[0] == "{":
            fields = re.findall(r"^    pub ([^\n]*),$", inside, re.M)
            inside = "{ " + ", ".join(fields + ["..."] * (len(fields) < len(re.findall(r"^    (?:pub(?:\(\w+\))? )?\w+:", inside, re.M)))) + " }"
        elif it[1] == "struct" and "pub" not in inside:
            inside = ""
        yield it[2], re.sub(r"\s+", " ", f"{it[1]} {it[2]}{it[3].rstrip()} {inside.rstrip(';')}").replace(", }", " }").strip()


def owner_of(head):
    """The name of the trait or type in a head."""
    return re.search(r"\w+", re.sub(r"^(trait|impl(<[^{]*?>)?) (?=\w)", "", head))[0] if head else ""


def signatures(page, wanted):
    """The lines of a crate's calls; of all, if none is wanted by its name."""
    names, _ = passed_on(page)
    shapes = {}
    root = (CRATES / page / "src/lib.rt").read_text(encoding="utf-8")
    found, below = {}, set()
    for crate in PAGES[page]:
        _, modules = passed_on(crate)
        # (of a crate below its modules are there if it is passed on as a whole, or they by name)
        if crate != page and not re.search(rf"^pub use {crate}( as \w+)?;", root, re.M):
            modules &= names
        for file in sorted((CRATES / crate / "src").rglob("*.rt")):
            if "laws" in file.parts or file.stem == "laws":
                continue
            text = re.sub(r"^ *//.*\n", "", file.read_text(encoding="utf-8"), flags=re.M)
            shapes.update((name, shape) for name, shape in types(text) if name in names)
            for head, at in blocks(text):
                one, clauses = function(text, at)
                name = owner_of(head) or re.match(r"fn (\w+)", one)[1]
                # (if two crates have a function of one name, the crate's own passes on the upper one)
                if name in names - (below if not head else set()) or not head and file.stem in modules:
                    found.setdefault(head, []).append((one, clauses))
        below.update(re.match(r"fn (\w+)", it[0])[1] for it in found.get("", []))
    out = []
    for name in shapes.keys() - {owner_of(head) for head in found}:
        found[f"impl {name}"] = []
    for head, methods in sorted(found.items(), key=lambda it: (owner_of(it[0]), it[0])):
        if (shape := shapes.pop(owner_of(head), None)) and (not wanted or owner_of(head) in wanted):
            out.append(shape)
        shown = [it for it in methods if not wanted or wanted & {owner_of(head), re.match(r"fn (\w+)", it[0])[1]}]
        margin = "  " if head else ""
        if head and shown:
            out.append(head)
        for one, clauses in shown:
            out.append(margin + one)
            out += [f"{margin}  {kind}{clause and ' '}{clause}: {body}" for kind, clause, body in clauses]
    return out


def main(page="", *wanted):
    if page not in PAGES:
        print(f"usage: scripts/signatures.py CRATE [NAME..], and CRATE is one of {', '.join(PAGES)}", file=sys.stderr)
        return 2
    lines = signatures(page, set(wanted))
    print("\n".join(lines))
    return 0 if lines else 1


if __name__ == "__main__":
    sys.exit(main(*sys.argv[1:]))
