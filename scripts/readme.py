#!/usr/bin/env python3
"""readme.py: runs the commands of README.md, those after `$`, one block after the other, in a folder of its own, and compares what each
prints with the lines after it. The programs are those in PATH, cose-verify, cose-key and cose-make those of tools/. What begins with `bash`
is left out: after-ci.sh runs it. Status 1 if anything else is printed."""
import os
import pathlib
import re
import subprocess
import sys
import tempfile

TOP = pathlib.Path(__file__).resolve().parent.parent
bad = count = 0
os.environ["PATH"] = f"{TOP / 'tools'}:{os.environ['PATH']}"
with tempfile.TemporaryDirectory() as folder:
    for block in re.findall(r"^(?:    .*\n)+", (TOP / "README.md").read_text(encoding="utf-8"), re.M):
        for command, lines in re.findall(r"^    \$ (.*)\n((?:    (?!\$ ).*\n)*)", block, re.M):
            if not command.startswith("bash "):
                said = subprocess.run(["bash", "-c", command], cwd=folder, stdout=subprocess.PIPE, stderr=subprocess.STDOUT, text=True).stdout
                wanted = re.sub(r"^    ", "", lines, flags=re.M)
                count += 1
                if said != wanted:
                    bad = 1
                    print(f"README.md: {command}\nprints\n{said}and not\n{wanted}", end="")
print(f"{count} commands")
sys.exit(bad or not count)
