#!/usr/bin/env python3
"""words.py [--all]: searches the pages for the words of the list below. It names each hit for which no use there is a reason, with what to
write instead: status 1 if there is one, or a use without a hit. With --all it prints each hit with its reason.

It reads prose: of pages what is no code, of other files the comments. A use is found by what is beside the word, or in which page it is. So
it can't tell a condition from a place, or an encoding from a text string, if the same words are beside it: read what --all prints. A page
that says a word of TERMS says at the first place what it is, and has it in italics there."""
import pathlib
import re
import sys

TOP = pathlib.Path(__file__).resolve().parent.parent
PAGES = ["*.md", "docs/*.md", "docs/*.1", "crates/*/README.md", "crates/*/CALLING.md", "crates/*/MESSAGES.md", "include/*.h", "cose-*", "scripts/*", "tools/*"] + \
        ["examples/**/*." + kind for kind in ("md", "sh", "py", "c", "go", "rs")]
# Each word, what to write instead, and its uses that stay: the reason, and what a line has then, with its page's name in front.
WORDS = {
    "where": ("if, when", [
        ("a place", r"(say|says|find|finds|knows|of|from|to|place|is|was|and|folder,|in `|\(|\| |`:) ?where\b"
                    r"|where (everything|your crate|its head)|`, where a copy"),
        ("what a name in a table may be", r"where KIND is"),
    ]),
    "behind": ("after, inside, in its tag", []),
    "words?": ("argument", [("of a language", r"in words|the words that")]),
    "rooms?": ("buffer, memory", []),
    "(shortest|torn|canonical|encoded) texts?": ("encoding, output", []),
    "texts?": ("encoding, output", [
        ("of an error", r"texts? of (errors?|faults?|refusals|an error|its fault)|(error|fault|reader|its own|`)('s)? (own )?text"
                        r"|those texts|has (a )?texts?( \(|,| and)|(its|without its) texts?|texts in `|that `.* put into"),
        ("lines or a file of them", r"lines? of text|as text|is text|text has no|text or as|(claims|day\)), text, CBOR|JSON text"),
        ("what RFC 2104 calls so", r"cose_hmac"),
        ("a text string", r"(^README|ciborium|cbor_diag|coset_labels|cose_show|conformance_c|example_library|DECI|DEFI|DIFF|SCALE|TIMES"
                          r"|PORT|CHANGELOG|capped|TOKENS|tools/|docs/cose-(key|make|sift|verify)).*\btexts?\b"),
    ]),
    "told": ("said, given, asked, noted", []),
    "stands?|stood": ("is, are", [("stands for something", r"stands? for|stands?$")]),
    "answer(s|ed|ing)?": ("returns", [
        ("of a judge", r"judge|/cose_gate|/example_judge|answer is yes|/cose_show|last answer|its answer, how|with its answer"),
        ("of a row", r"/conformance_|\brows?\b|expected answer|take the answer|answers that are due"),
        ("of a goal, as Rattle calls it", r"a goal|the answers of|an answer$"),
        ("the struct of the library", r"answer says|library's answers"),
    ]),
    "memory (is|was|may be) refused|refused? memory|refuses memory|memory refused": ("out of memory", []),
    "devices? (that )?fails?|failing devices?|failed devices?": ("input or output fails", []),
    "pass(ed|es)? over": ("ignored", []),
    "(minutes|seconds) of (a )?processor": ("CPU minutes", []),
}
TERMS = ["judge", "question"]
TERM_PAGES = ["*.md", "docs/*.md", "crates/cose_gate/*.md"]


def prose(file):
    """The lines of a file, numbered, with nothing in place of what is no prose."""
    text = file.read_text(encoding="utf-8")
    blank = lambda it: "`" + "\n" * it[0].count("\n")
    if file.suffix == ".md":
        text = re.sub(r"^ *```.*?^ *```$|^    .*?$|`[^`]*`", blank, text, flags=re.M | re.S)
    elif file.suffix != ".1":
        comments = r'""".*?"""|^\s*#(?!define|include).*?$' if file.suffix in ("", ".py", ".sh") else r"/\*.*?\*/|//.*?$"
        kept = {n for it in re.finditer(comments, text, re.M | re.S)
                for n in range(text.count("\n", 0, it.start()), text.count("\n", 0, it.end()) + 1)}
        text = "\n".join(re.sub(r"`[^`]*`", "`", line) if n in kept else "" for n, line in enumerate(text.split("\n")))
    return enumerate(text.split("\n"), 1)


bad, used = 0, set()
files = {file for pattern in PAGES for file in TOP.glob(pattern) if file.is_file() and "target" not in file.parts}
for file in sorted(files - {pathlib.Path(__file__).resolve()}):
    for number, line in prose(file):
        hit = f"{file.relative_to(TOP)}: {line.strip()}"
        for word, (instead, uses) in WORDS.items():
            if re.search(rf"\b({word})\b", line, re.I):
                reason = next((reason for reason, use in uses if re.search(use, hit, re.I)), None)
                used.add((word, reason))
                bad += reason is None
                if reason is None or "--all" in sys.argv:
                    print(f"{file.relative_to(TOP)}:{number}: {reason or 'WRITE ' + instead}: {line.strip()[:150]}")
for word, reason in [(word, reason) for word, (_, uses) in WORDS.items() for reason, _ in uses if (word, reason) not in used]:
    bad += 1
    print(f"no hit of {word} is {reason}: take it off the list")
for file in [file for pattern in TERM_PAGES for file in sorted(TOP.glob(pattern))]:
    for term in TERMS:
        first = next(((number, line) for number, line in prose(file) if re.search(rf"\b{term}s?\b", line, re.I)), None)
        if first and not re.search(rf"\*{term}s?\*", first[1], re.I):
            bad += 1
            print(f"{file.relative_to(TOP)}:{first[0]}: SAY what a *{term}* is: {first[1].strip()[:150]}")
sys.exit(bad > 0)
