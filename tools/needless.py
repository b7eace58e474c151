#!/usr/bin/env python3
"""Removes the answers of a crate that the check finds alone.

usage: needless.py CRATE        at the top of the repository

Takes all files Answers.antt of the crate away, asks `rt check --allow-holes` which goals stay open, and puts back the answers of those. A
file that answers a goal under a name that the check does not give stays whole. Check the crate afterwards, and drop the imports that
nothing uses any more (`rt tidy`).
"""
import os
import pathlib
import re
import subprocess
import sys

crate = pathlib.Path("crates") / sys.argv[1]
before = {f: f.read_text() for f in sorted(crate.glob("proofs/**/Answers.antt"))}
for f in before:
    f.unlink()
try:
    ran = subprocess.run(["rt", "check", "--allow-holes"], cwd=crate, capture_output=True, text=True)
finally:
    for f, text in before.items():
        f.write_text(text)
said = ran.stdout + ran.stderr
if f"crate {crate.name}: modules" not in said:
    sys.exit(f"the check did not get through: {said[-2000:]}")

open_goals = {}
for m in re.finditer(r"expected answers in \./(proofs/\S+?/Answers\.antt); `search` did not prove (.*)", said):
    open_goals.setdefault(crate / m.group(1), set()).update(re.findall(r"`([^`]+)`", m.group(2)))

ANSWER = re.compile(r"^(?:abbrev )?pub (\S+) : goal\.", re.M)
total = gone = 0
for f, text in before.items():
    names = ANSWER.findall(text)
    wanted = open_goals.get(f, set())
    total += len(names)
    if wanted - set(names) or set(names) <= wanted:
        continue
    blocks = re.split(r"\n\n+", text.rstrip("\n"))
    kept = [b for b in blocks if len(ANSWER.findall(b)) != 1 or ANSWER.findall(b)[0] in wanted]
    gone += len(blocks) - len(kept)
    if any(ANSWER.search(b) for b in kept):
        f.write_text("\n\n".join(kept) + "\n")
        continue
    f.unlink()
    if not os.listdir(f.parent):
        f.parent.rmdir()
print(f"{crate.name}: {gone} of {total} answers gone")
