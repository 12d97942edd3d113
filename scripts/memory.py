#!/usr/bin/env python3
"""memory.py [CRATES]: out of memory is said only if memory ran out.

No contract can say that: the allocator of Rattle has no state that a clause could name, and any body can write `AllocError`. So this reads
the sources. Each place that makes such an error has to follow one: a pattern that names it, a `From`, or an `Err` of a call of std that has
no other. Each other place is in memory.allowed, with its file, its function, and the condition at which it is reached, which somebody has
read. One more, one fewer, or another condition is status 1. It doesn't see who asks for more memory than there is. Tests are left out."""
import collections
import pathlib
import re
import sys

HERE = pathlib.Path(__file__).resolve().parent
TOP = pathlib.Path(sys.argv[1]) if len(sys.argv) > 1 else HERE.parent / "crates"
ALLOWED = collections.Counter(line for line in (HERE / "memory.allowed").read_text().splitlines() if line and line[0] != "#")
NOT_SHIPPED = r"tests?$|test_tools|^conformance_|^example_|^bench$|^callers$"
# An error of that kind, and a call of a function that makes one whenever it is called.
MAKERS = [name for line in ALLOWED for name in re.findall(r": fn (\w+)\(", line)]
KIND = r"(?:(?:\w+::)*(?:Memory|OutOfMemory)\b(?!\()|\bAlloc(?:Error|Failed)\b|\.(?:%s)\(\))" % "|".join(MAKERS or ["-"])
# Calls of std whose only fault it is.
ALLOCATES = r"\b(push|extend_from_slice|insert|resize|reserve|reserve_exact|with_capacity|from_str|Box::new)\("
BEGINS = r"(\} else )?(if|let|match|while|('\w+: )?for|return|(pub(\(crate\))? )?fn)\b|.*\bmatch "


def indent_of(line):
    return len(line) - len(line.lstrip())


def blank(pattern, text):
    """Leaves out what fits, and keeps the line numbers."""
    return re.sub(pattern, lambda found: "\n" * found.group(0).count("\n"), text)


def code_of(path):
    """The lines of code: no tests, contracts, ghosts, comments and enums."""
    text = re.sub(r"(?s)#\[cfg\(test\)\]\nmod tests.*", "", path.read_text())
    text = blank(r"(?s)\b(ensures|requires)\b[^{}\n]*\{(?:[^{}]|\{[^{}]*\})*\}", text)
    text = blank(r"//.*|ghost .*", text)
    return blank(r"(?s)\benum \w+[^{]*\{.*?\n\}", text).split("\n")


def header(lines, n, before):
    """The lines that lead here: an arm, those before it and their `match`, or all of the innermost `if`, `let .. else`, loop or `fn`."""
    k, indent = n, indent_of(lines[n])
    if "=>" in before:
        said = [before]
    else:
        while not lines[k].strip() or indent_of(lines[k]) >= indent:
            k -= 1
        said, indent = [lines[k]], indent_of(lines[k])
    parts = "=>" in said[0] or said[0].strip().startswith("}")
    while not re.match(BEGINS, said[0].strip()):
        k -= 1
        if lines[k].strip() and (not parts or indent_of(lines[k]) <= indent and lines[k].strip()[0] not in "})"):
            said.insert(0, lines[k])
    return [line.strip() for line in said]


def condition(lines, n, before):
    if "ok_or" in before:
        return before.strip()
    return " ".join(re.sub(r" =>(?!.* match ).*", " =>", line) for line in header(lines, n, before)).removesuffix("{").strip()


def takes(lines, n, before):
    """Whether such an error is taken at this place."""
    last = header(lines, n, before)[-1]
    if re.match("fn from", last) or "=>" in last and re.search(KIND, last.split("=>")[0]):
        return bool(re.search(KIND, last.split("=>")[0].split("->")[0]))
    said = condition(lines, n, before)
    refused = re.match(r"Err\(\w+\) =>", last) or re.match(r"let Ok\(.* else$|if (?!.*(\|\||&&)).*\.is_err\(\)$", said)
    return bool(refused and re.search(ALLOCATES, said))


def is_made(before, after):
    """Whether the error is made here: this is no pattern, no type and no comparison."""
    if re.match(r"[)\s|\w:,_]*(if .*)?=>|\)* \||\s*=", after):
        return False
    typed = re.search(r"->|<[^=]*,\s*$|: &?$|matches!|==|impl |for $|From<$|type |\bfn ", before)
    return not (typed and "=>" not in before and "Err(" not in before or re.search(r"== (Err|Some)\($|== $", before))


found, places = collections.Counter(), 0
for path in sorted(TOP.glob("*/src/**/*.rt")):
    file = path.relative_to(TOP)
    if re.search(NOT_SHIPPED, file.parts[0]):
        continue
    lines, function = code_of(path), ""
    for n, line in enumerate(lines):
        function = (re.findall(r"\bfn (\w+)", line) or [function])[-1]
        if re.match(r"\s*(pub |use )", line) and "fn" not in line:
            continue
        for made in re.finditer(KIND, line):
            before = line[:made.start()]
            if not is_made(before, line[made.end():]):
                continue
            places += 1
            if not takes(lines, n, before):
                entry = f"{file} {function}: {condition(lines, n, before)}"
                found[entry] += 1
                if found[entry] > ALLOWED[entry]:
                    print(f"{TOP.name}/{file}:{n + 1}: says memory, and takes no error: {entry.split(' ', 1)[1]}")
gone = ALLOWED - found
for entry in gone:
    print(f"memory.allowed: no longer there: {entry}")
print(f"{places} places say memory, {sum(found.values())} of them take no error", file=sys.stderr)
sys.exit(bool(gone or found - ALLOWED))
