#!/usr/bin/env python3
"""Compares what is said in several places: the names of refusals, the statuses of the program and the library, the limits, and what C sees of
the library. It names each place that says otherwise: status 1 if there is one."""
import pathlib
import re
import sys

TOP = pathlib.Path(__file__).resolve().parent.parent
status = 0


def text(file):
    return (TOP / file).read_text(encoding="utf-8")


def found(file, pattern):
    """What the groups of a pattern match in a file, in order."""
    return re.findall(pattern, text(file), re.M | re.S)


def same(what, wanted, file, said):
    global status
    if wanted != said:
        print(f"{file}: {what} {said}, and not {wanted}")
        status = 1


def refusals():
    report = "crates/cose_gate_core/src/report.rt"
    variants = found(report, r"^    (\w+)(?:\(\w+\))?,$")[:8]
    order = re.findall(r"`(\w+)`", re.search(r"tested in the order (.*?)\.", text(report), re.S)[1])
    same("the refusals are", sorted(variants), report, sorted(order))
    same("the names of refusals are", sorted(order), report, sorted(found(report, r'^            Refusal::\w+(?:\(_\))? => "(\w+)"')))
    of_stream = found("crates/cose_stream/src/telling.rt", r'^        StreamRefusal::\w+ => "refused: (\w+)\\n"')
    same("the refusals are", order + [name for name in of_stream if name not in order], "docs/cose-gate.1",
         found("docs/cose-gate.1", r"^\.TP\n\.B ([A-Z]\w+)$"))


def statuses():
    header = "include/cose_gate.h"
    listed = re.search(r"^/\* The statuses: .*?^enum cose_gate_status \{(.*?)^\};", text(header), re.M | re.S)[1]
    same("the statuses are", ["0", "1", "2", "3", "4", "5"], header, re.findall(r"^  COSE_GATE_\w+ = (\d)", listed, re.M))
    same("the errors have the statuses", ["1", "2", "3", "4", "5"], "examples/python/cose_gate/gate.py",
         found("examples/python/cose_gate/gate.py", r"^    status = (\d)$"))
    same("the statuses are", ["0 | 1", "2", "3", "_"], "examples/rust/src/lib.rs",
         re.findall(r"^            (\S.*?) => \w+\(", re.search(r"match answer\.status \{.*?\n        \}", text("examples/rust/src/lib.rs"), re.S)[0], re.M))
    for name in ["gate", "ask", "pass"]:
        same("the statuses are", ["0", "1", "2", "3", "4"], f"docs/cose-{name}.1", found(f"docs/cose-{name}.1", r"^\.B (\d)$"))


def faults():
    """The numbers of the faults of the streaming check."""
    exported = [(re.sub(r"\B([A-Z])", r"_\1", name).upper(), number)
                for name, number in found("crates/cose_gate_c/src/streaming.rt", r"^        StreamFault::(\w+)(?:\(_\))? => (\d),$")]
    listed = re.search(r"^enum cose_gate_fault \{\n  COSE_GATE_NO_FAULT = 0,(.*?)^\};", text("include/cose_gate.h"), re.M | re.S)[1]
    same("the faults are", exported, "include/cose_gate.h", re.findall(r"^  COSE_GATE_(\w+) = (\d)", listed, re.M))


def limits():
    nesting = found("crates/ciborium/src/de.rt", r"RECURSION_LIMIT: usize = (\d+);")
    layers = found("crates/coset_labels/src/limits.rt", r"^const LAYERS: usize = (\d+);")
    for file, of_nesting, of_layers in [
        ("include/cose_gate.h", r"define COSE_GATE_NESTING (\d+)", r"define COSE_GATE_LAYERS (\d+)"),
        ("examples/rust/src/lib.rs", r"^const NESTING: usize = (\d+);", r"^const LAYERS: usize = (\d+);"),
        ("examples/python/cose_gate/gate.py", r"^NESTING, LAYERS = (\d+),", r"^NESTING, LAYERS = \d+, (\d+)"),
    ]:
        same("the limits are", nesting + layers, file, found(file, of_nesting) + found(file, of_layers))
    bounds = found("crates/coset_labels/src/limits.rt", r"nesting < (\d+) \|\| nesting > (\d+) \|\| layers < (\d+) \|\| layers > (\d+)")
    same("the bounds of the limits are", bounds, "include/cose_gate.h",
         found("include/cose_gate.h", r"`nesting` is (\d+) to (\d+) and `layers` (\d+) to (\d+)"))


def abi():
    """The header declares what a call returns, and its parameters, as the library exports them, in the same order."""
    header = "include/cose_gate.h"
    c_types = {"u32": "uint32_t", "usize": "size_t", "bool": "bool", "&TokenChoice<'_>": "const cose_gate_token_terms *"}

    def fields_of(exported, file, declared):
        """The names of the fields of a struct, which the header declares with the same types."""
        struct = re.search(rf"#\[repr\(C\)\].*?pub struct {exported} \{{(.*?)\n\}}", text(file), re.S)[1]
        fields = [(c_types[of], name) for name, of in re.findall(r"^    pub (\w+): (\w+),$", struct, re.M)]
        said = re.search(rf"typedef struct {declared} \{{(.*?)\n\}} {declared};", text(header), re.S)[1]
        same(f"the fields of {declared} are", fields, header, re.findall(r"^  (\w+) (\w+);", said, re.M))
        return [name for _, name in fields]

    fields_of("StreamAnswer", "crates/cose_gate_c/src/streaming.rt", "cose_gate_stream_answer")
    fields_of("StreamQuestion", "crates/cose_gate_c/src/stream_asking.rt", "cose_gate_stream_question")
    lent = {"&'a [u8]": "cose_gate_text {}", "&'a [i64]": "const int64_t *{0}; size_t {0}_length",
            "&'a [Text<'a>]": "const cose_gate_text *{0}; size_t {0}_length", "i64": "int64_t {}", "bool": "bool {}"}
    choice = re.search(r"pub struct TokenChoice<'a> \{(.*?)\n\}", text("crates/cose_gate_c/src/tokens.rt"), re.S)[1]
    said = re.search(r"typedef struct cose_gate_token_terms \{(.*?)\n\}", text(header), re.S)[1]
    same("the fields of cose_gate_token_terms are", [lent[of].format(name) for name, of in re.findall(r"^    pub (\w+): (.*),$", choice, re.M)],
         header, re.findall(r"^  (.*?);$", re.sub(r"\s*/\*.*?\*/", "", said).replace(";\n  size_t", "; size_t"), re.M))
    names = fields_of("Answer", "crates/cose_gate_records/src/answer.rt", "cose_gate_answer")
    rust = "examples/rust/src/lib.rs"
    fields = re.search(r"^struct Answer \{(.*?)\n\}", text(rust), re.M | re.S)[1]
    same("the fields of an answer are", names, rust, re.findall(r"^    (\w+): ", fields, re.M))
    python = "examples/python/cose_gate/gate.py"
    same("the fields of an answer are", names, python, re.findall(r'\("(\w+)",', found(python, r"_fields_ = (.*?)$")[0]))
    for exported, declared in [("Answer", "cose_gate_answer"), ("StreamAnswer", "cose_gate_stream_answer"),
                               ("StreamQuestion", "cose_gate_stream_question")]:
        calls = found("crates/cose_gate_c/src/lib.rt", rf'extern "C" fn (\w+)\(([^{{]*?)\n?\) -> {exported}$')
        same("the calls are", [name for name, _ in calls], header, found(header, rf"^{declared} (\w+)\("))
        for name, parameters in calls:
            wanted = []
            for one, of in re.findall(r"(\w+): (&mut \[u8\]|&\[u8\]|&TokenChoice<'_>|usize|bool)(?:,|$)", parameters):
                if of.endswith("[u8]"):
                    wanted += [("uint8_t *" if "mut" in of else "const uint8_t *", one), ("size_t", f"{one}_length")]
                else:
                    wanted.append((c_types[of], one))
            call = found(header, rf"^{declared} {name}\((.*?)\);")[0]
            same(f"the arguments of {name} are", wanted, header,
                 [(of.strip(), one) for of, one in re.findall(r"((?:const )?uint8_t \*|const cose_gate_token_terms \*|size_t |bool )(\w+)", call)])


def versions():
    newest = re.search(r"^## (\S+)$", text("CHANGELOG.md"), re.M)[1]
    same("the version is", [newest], "README.md", found("README.md", r"\bVersion (\d+\.\d+)\b"))
    same("the version is", newest + "\n", "VERSION", text("VERSION"))
    for name, file in [("gate", "cose_gate_cli/src/main.rt"), ("ask", "cose_ask_cli/src/main.rt"), ("pass", "cose_pass_cli/src/main.rt"),
                       ("sift", "cose_sift/src/main.rt"),
                       ("show", "cose_show_core/src/words.rt")]:
        same("--version says", [f"cose-{name} {newest}"], f"crates/{file}", found(f"crates/{file}", r'^const VERSION: &str = "(.*?)\\n";$'))


refusals()
statuses()
faults()
limits()
abi()
versions()
sys.exit(status)
