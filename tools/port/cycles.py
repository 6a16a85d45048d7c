#!/usr/bin/env python3
"""Turns the answers of a cycle's old Proof.antt into an Answers.antt: those that have a name. The measure, the invariants and what had no name are written by hand.

usage: tools/port/cycles.py NAMES CRATE OLD CYCLE        (OLD: the old file; CYCLE: as +follow_under; the folder proofs/CYCLE gets the answers)
"""
import json
import os
import re
import sys

sys.argv, words = sys.argv[:1] + ["/dev/null", "."], sys.argv[1:]
HERE = os.path.dirname(os.path.realpath(__file__))
source = open(os.path.join(HERE, "answers.py"), encoding="utf-8").read().rsplit("\nconvert(", 1)[0]
exec(compile(source, "answers.py", "exec"))
names, crate_dir, old, cycle = words
crate = os.path.basename(os.path.abspath(crate_dir))
listed = json.load(open(os.path.join(names, "names.json"), encoding="utf-8"))
LENT.update(sources(os.path.join(os.path.abspath(crate_dir), "..", "..")))
import glob

SOURCE[0] = "\n".join(open(p, encoding="utf-8").read() for p in glob.glob(os.path.join(crate_dir, "src", "*.rt")))
of = {}
for module, it in listed.items():
    found = re.match(r"Rattle-%s-proofs\.%s\.Lts-(.*)$" % (crate, re.escape(cycle)), module)
    if found:
        of[alike(found[1])] = Function(crate, cycle, it)
head, uses, rest = blocks(open(old, encoding="utf-8").read())
out = []
for block in rest:
    found = re.match(r"(?:--[^\n]*\n)*(%s) : \(t : ℕ\) → (%s)-lts\.Need-(%s)(.*?)\n(?=((?:unfolding [^\n]*\n)?)\1\b)" % (WORD, WORD, WORD), block, re.S)
    if not found:
        if "lts" not in block and "kinds" not in block and "abbrev" not in block:
            out.append(block)
        continue
    f = of[alike(found[2])]
    goal = f.goal(found[3])
    if goal is None:
        print("left: no goal", found[2], found[3], list(f.needs))
        goal = "UNKNOWN-" + found[3]
    stem = f.of.get("stem") or ""
    body = block[found.end() :]
    unfolding = found[5]
    body = body[len(unfolding) :]
    params, definition = re.match(r"%s\s+(.*?)=(.*)$" % re.escape(found[1]), body, re.S).groups()
    more = [p for p in params.split()[2:] if p != "κs"]
    out.append(f"pub {stem}{goal} : goal.{stem}{goal}\n{unfolding}{stem}{goal} t c ={' λ ' + ' '.join(more) + '.' if more else ''}{f.turned(definition)}")
uses = [u for u in uses if not re.search(r"\.(Statement|Tie|Reads|Kinds|Lts[\w-]*)\b|PlainCycle|Fn\.Kinds|\{statement\}", u) and "Author.Rules" not in u]
with open(os.path.join(crate_dir, "proofs", cycle, "Answers.antt"), "w", encoding="utf-8") as it:
    it.write("\n".join(head + uses + ["use borrow.Author.Rules.{rules}", f"use Rattle.{crate}.proofs.{cycle}.Goals as goal"]) + "\n\n" + "\n\n".join(out) + "\n")
