#!/usr/bin/env python3
"""Lists the definitions that public contracts reach: those of crates/*/specs that a reader has to believe. Other definitions serve private
functions and proofs, which the checker compares with the public clauses, so nothing rests on what they say. Lemmas are left out too.

  scripts/specs-to-read.py                        each file, the lowest first, with how many of its definitions are reached, and the names if it
                                                  is a part of them
  scripts/specs-to-read.py DOOR..                 those that the clauses of these calls, types, traits or crates reach, as gate, cose_gate::gate,
                                                  Label::cmp_canonical, Label or coset_keys; of a program's crate, as cose_sift, also those
                                                  of the calls that it imports from crates here
  scripts/specs-to-read.py --into FILE [DOOR..]   writes the clauses of the doors, if there are any, and the definitions into a file
  scripts/specs-to-read.py --unread               the files of which no definition is reached

A public clause is one of a function, method, trait or impl that a crate makes public; of a program, one of what its `main` uses, or of any
function of it that is named as a door. What a clause or a definition names is followed by its imports, from file to file. Names are
compared, and not resolved as the checker does, so it may list a few definitions too many."""
import pathlib
import re
import sys

ROOT = pathlib.Path(__file__).resolve().parent.parent
CRATES = ROOT / "crates"
# Code of users of the libraries: what they say of themselves is no promise of a library.
LEFT_OUT = {"callers", *(it.name for it in CRATES.glob("example_*"))}
WORD = re.compile(r"[^\W\d][\w']*(?:\.[^\W\d][\w']*)*")
HEAD = re.compile(r"(?:abbrev|unfoldable|pub|data|record|mutual|syntax)\b|[^\W\d][\w'-]* : ")
DEFINED = re.compile(r"(?:abbrev|unfoldable|(?:pub )?(?:data|record|syntax))\b|mutual\n\s+(?:pub )?(?:data|record)\b")


def without_comments(text, mark):
    return re.sub(rf"^\s*{mark}.*$", "", text, flags=re.M)


def imported(text, ghost):
    """What the imports of a source bring in: of each name the paths that it may stand for, and of each module that has a name of its own."""
    names, modules = {}, {}
    lead = r"^\s*(?:ghost use|pub ghost use) " if ghost else r"^(?:pub )?use "
    for path in re.findall(lead + r"Rattle\.([^;\n]+);?$", text, re.M):
        if group := re.fullmatch(r"([\w.]+)\.\{(.*)\}", path):
            for it in group[2].split(","):
                one, _, other = it.strip().partition(" as ")
                names.setdefault(other or one, set()).add((group[1], one))
        else:
            one, _, other = path.partition(" as ")
            modules.setdefault(other or one.split(".")[-1], set()).add(one)
    return names, modules


def blocks_of(text):
    """The definitions of a file, each with the comment above it."""
    found, comment, inside = [], [], False
    for line in text.split("\n"):
        if re.match(r"module .*where$", line):
            inside, comment = True, []
            continue
        if inside and line and not line.startswith(" "):
            inside = False
        line = line[2:] if inside else line
        if line.startswith("--"):
            comment.append(line)
        elif re.match(r"(?:pub )?(?:use|mod) ", line):
            comment = []
        elif HEAD.match(line):
            found.append(comment + [line])
            comment = []
        elif line.startswith(" ") and found:
            found[-1] += comment + [line]
            comment = []
        elif not line:
            # A comment that a blank line follows tells of the file, or of what comes next.
            comment = []
            if found:
                found[-1].append("")
        elif found:
            found[-1] += comment + [line]
            comment = []
    return ["\n".join(it).strip("\n") for it in found]


def names_of(block):
    """The names that a definition gives: not those of a record's fields, which come with its type."""
    found = []
    field = None
    for line in block.split("\n"):
        depth = len(line) - len(line.lstrip())
        if field is not None and depth > field:
            continue
        field = None
        if named := re.match(r"\s*(?:abbrev |unfoldable )?(?:pub )?(data |record |ghost )?([^\W\d][\w' -]*?)(?: [({].*)? :", line):
            found += named[2].split()
            field = depth if named[1] == "record " else None
    return found


class Spec:
    """A file of definitions."""

    def __init__(self, file):
        self.file = file
        text = file.read_text(encoding="utf-8")
        self.names, self.modules = imported(text, False)
        self.blocks, self.at = [], {}
        for block in blocks_of(text):
            code = without_comments(block, "--").strip("\n")
            if DEFINED.match(code):
                for name in names_of(code):
                    self.at.setdefault(name, []).append(len(self.blocks))
                self.blocks.append((block, code))

    def below(self):
        """The paths of the files that this one imports."""
        return {path for paths in [*self.names.values()] for path, _ in paths} | {path for paths in self.modules.values() for path in paths}


def read_specs():
    """Each file of definitions by its crate and name, and what each crate passes on under a name."""
    specs, passed = {}, {}
    for folder in sorted(CRATES.glob("*/specs")):
        crate = folder.parent.name
        for file in sorted(folder.glob("*.antt")):
            if file.stem == "Lib":
                _, modules = imported(file.read_text(encoding="utf-8"), False)
                passed[crate] = {name: next(iter(paths)) for name, paths in modules.items()}
            else:
                specs[crate, file.stem] = Spec(file)
    return specs, passed


def found_at(path, specs, passed):
    """The file of definitions at a path, or none if it is of std or of the code's own types."""
    crate, _, rest = path.partition(".specs")
    parts = [part for part in rest.split(".") if part]
    if not parts:
        return None
    if (crate, parts[0]) in specs:
        return crate, parts[0]
    if parts[0] in passed.get(crate, {}):
        return found_at(".".join([passed[crate][parts[0]]] + parts[1:]), specs, passed)
    return None


def lowest_first(specs, passed):
    """The files, each after those that it imports."""
    order, seen = [], set()

    def put(key):
        if key in seen:
            return
        seen.add(key)
        for below in sorted({found_at(path, specs, passed) for path in specs[key].below()} - {None, key}):
            put(below)
        order.append(key)

    lines = [it.split("#")[0].partition(":") for it in (ROOT / "crates.txt").read_text(encoding="utf-8").split("\n") if ":" in it.split("#")[0]]
    deps = {head.split()[0]: rest.split() for head, _, rest in lines}
    height = {}

    def high(crate):
        if crate not in height:
            height[crate] = 1 + max([high(it) for it in deps.get(crate, [])], default=0)
        return height[crate]

    for key in sorted(specs, key=lambda it: (high(it[0]), it)):
        put(key)
    return order


def balanced(text, at):
    """The place after the brace that closes the one at this place."""
    depth = 0
    while at < len(text):
        depth += {"{": 1, "}": -1}.get(text[at], 0)
        at += 1
        if depth == 0:
            break
    return at


def public_names(crate, is_named):
    """The names that a crate passes on, and its public modules: of a program the names that it uses, and if doors are named all modules."""
    source = CRATES / crate / "src"
    if not (source / "lib.rt").exists():
        text = (source / "main.rt").read_text(encoding="utf-8")
        used = re.findall(r"^use crate::([^;]+);", text, re.M)
        return {name for path in used for name in re.findall(r"\w+", path)}, set(re.findall(r"^mod (\w+);", text, re.M) if is_named else [])
    modules = set(re.findall(r"^pub mod (\w+);", (source / "lib.rt").read_text(encoding="utf-8"), re.M))
    names = set()
    for file in [source / "lib.rt", *(it for name in modules for it in (source / f"{name}.rt", source / name / "mod.rt") if it.exists())]:
        for path in re.findall(r"^pub use ([^;]+);", file.read_text(encoding="utf-8"), re.M):
            names.update(re.findall(r"\w+", path))
    return names, modules


def owner_of(head):
    """Of the head of an impl the type, and the trait if there is one."""
    while (bare := re.sub(r"<[^<>]*>", "", head)) != head:
        head = bare
    words = re.findall(r"\w+", head.partition(" where ")[0])[1:]
    at = words.index("for") if "for" in words else 0
    return [*words[at + 1:at + 2], words[at - 1]] if at else words[:1]


def public_clauses(crate, is_named):
    """Each public clause and ghost member of a crate, with the names of its door and all of its source."""
    exported, modules = public_names(crate, is_named)
    for file in sorted((CRATES / crate / "src").rglob("*.rt")):
        text = without_comments(file.read_text(encoding="utf-8"), "//")
        is_open = file.stem in modules or file.stem in ("lib", "laws") or "laws" in file.parts
        for item in re.finditer(r"^(?:pub )?(?:unsafe )?(?:extern \"C\" )?(fn|impl|trait)\b[^{;]*", text, re.M):
            end = balanced(text, text.index("{", item.start())) if "{" in text[item.start():] else item.end()
            kind, head = item[1], item[0]
            if kind == "fn":
                name = re.search(r"fn (\w+)", head)[1]
                if head.startswith("pub ") and (is_open or name in exported or "extern" in head):
                    yield from (([name], it, text) for it in clauses_of(text, item.start()))
            elif kind == "trait":
                name = re.search(r"trait (\w+)", head)[1]
                if head.startswith("pub ") and (is_open or name in exported):
                    yield [name], text[item.start():end], text
            elif is_open or exported.intersection(re.findall(r"\w+", head)):
                body, owner = text[item.start():end], owner_of(head)
                of_trait = re.search(r"\bfor\b", head)
                if of_trait:
                    yield from ((owner, body[it.end():balanced(body, it.end())], text) for it in re.finditer(r"^    ghost \w+ = (?=\{)", body, re.M))
                for it in re.finditer(r"^    fn (\w+)" if of_trait else r"^    pub fn (\w+)", body, re.M):
                    yield from (([*owner, it[1], f"{owner[0]}::{it[1]}"], clause, text) for clause in clauses_of(body, it.start()))


def clauses_of(text, at):
    """The clauses of the function at this place."""
    head = re.compile(r"\b(requires|ensures)\b|[{;]").search(text, at)
    found = []
    while head and head[1]:
        open_at = text.index("{", head.end())
        close = balanced(text, open_at)
        found.append(text[open_at:close])
        head = re.compile(r"\s*(?:\b(requires|ensures)\b|[{;])").match(text, close)
    return found


def called_by(program):
    """The calls that a program's sources import from crates here; none if the name isn't that of a program."""
    source = CRATES / program / "src"
    if not (source / "main.rt").exists():
        return set()
    text = "\n".join(without_comments(file.read_text(encoding="utf-8"), "//") for file in sorted(source.rglob("*.rt")))
    paths = [path.partition("::") for path in re.findall(r"^use ([^;]+);", text, re.M)]
    return {name for crate, _, names in paths if (CRATES / crate).exists() for name in re.findall(r"(?<!\w)[a-z_]\w*(?!\w|::)", names)}


def main(arguments):
    into = arguments[1] if arguments[:1] == ["--into"] else None
    doors = arguments[2:] if into else [it for it in arguments if it != "--unread"]
    imported_by = {name: door for door in doors for name in called_by(door)}
    specs, passed = read_specs()
    reached, due, begun = set(), [], {}

    def add(path, name):
        key = found_at(path, specs, passed)
        if key:
            for block in specs[key].at.get(name, []):
                if (key, block) not in reached:
                    reached.add((key, block))
                    due.append((key, block))

    def follow(text, names, modules, own=None):
        for word in set(WORD.findall(text)):
            front, _, back = word.partition(".")
            if own and front in specs[own].at:
                add(f"{own[0]}.specs.{own[1]}", front)
            for path, one in names.get(front, ()):
                add(path, one)
            for path in modules.get(front, ()):
                add(path, back.split(".")[0])

    for folder in sorted(CRATES.glob("*/src")):
        crate = folder.parent.name
        if crate in LEFT_OUT or not (folder / "lib.rt").exists() and not crate.startswith("cose_"):
            continue
        for own, clause, text in public_clauses(crate, bool(doors)):
            of_program = [imported_by[name] for name in own if name in imported_by]
            if mine := [it for it in doors if it == crate or it in own or it in (f"{crate}::{name}" for name in own)] + of_program:
                begun.setdefault((mine[0], crate), []).append(clause)
            if mine or not doors:
                follow(clause, *imported(text, True))
    if missing := set(doors) - {door for door, _ in begun}:
        sys.exit("no public clauses: " + ", ".join(sorted(missing)))
    while due:
        key, block = due.pop()
        follow(specs[key].blocks[block][1], specs[key].names, specs[key].modules, key)

    lines, text = 0, [f"-- {door}, of {crate}\n" + "\n".join("-- " + it for clause in clauses for it in clause.split("\n")) + "\n"
                      for (door, crate), clauses in begun.items()]
    for key in lowest_first(specs, passed):
        spec = specs[key]
        mine = [block for block in range(len(spec.blocks)) if (key, block) in reached]
        if key[0] in LEFT_OUT or not spec.blocks:
            continue
        file = spec.file.relative_to(ROOT)
        if arguments == ["--unread"]:
            if not mine:
                print(f"{file}: {len(spec.blocks)} definitions")
        elif mine:
            lines += sum(len([it for it in spec.blocks[block][1].split("\n") if it.strip()]) for block in mine)
            some = "" if len(mine) == len(spec.blocks) else ": " + ", ".join(names_of(spec.blocks[block][1])[0] for block in mine)
            text.append(f"-- {file}\n\n" + "\n\n".join(spec.blocks[block][0] for block in mine) + "\n")
            if not into:
                print(f"{file}: {len(mine)} of {len(spec.blocks)}{some}")
    if into:
        pathlib.Path(into).write_text("\n".join(text), encoding="utf-8")
    if arguments != ["--unread"]:
        print(f"{lines} lines")


if __name__ == "__main__":
    main(sys.argv[1:])
