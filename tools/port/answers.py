#!/usr/bin/env python3
"""Turns the old Proof.antt files of a crate into Invariants.antt and Answers.antt.

usage: tools/port/answers.py NAMES CRATE [FUNCTION..]

NAMES is the folder that 'rt check --generated NAMES --old-names' wrote in the crate's folder CRATE. An answer that the check finds itself is left out.
What it can't turn (cycles, a helper that names the walk's own types) is printed and left.
"""
import glob
import json
import os
import re
import sys

WORD = r"[^\s(){}.;,@\"«»\[\]\\]+"
LENT = {}
SOURCE = [""]
TRIVIAL = {"search rules", "omega arith", "tt"}
alike = lambda s: re.sub(r"[-_]", "", s).lower()


def groups(text):
    """The arguments of an application: words, each with its fields, and groups in brackets."""
    out, i = [], 0
    while i < len(text):
        if text[i].isspace():
            i += 1
            continue
        j, depth = i, 0
        while j < len(text) and (depth or not text[j].isspace()):
            depth += (text[j] in "([{") - (text[j] in ")]}")
            j += 1
            if depth == 0 and text[j - 1] in ")]}" and text[j : j + 1] != ".":
                break
        out.append(text[i:j])
        i = j
    return out


class Function:
    def __init__(self, crate, path, of):
        self.crate, self.path, self.of = crate, path, of
        self.source = SOURCE[0]
        self.steps = {}
        for place in of["places"]:
            old, new = place[2]
            if old and alike(old) not in self.steps:
                self.steps[alike(old)] = new
        self.fields = {}
        for old, new in of["args"]:
            self.fields[old.replace(" ", "")] = new.replace(" ", "")
        # what a match bound, told and knew: a path below an old step is a field of the arm
        self.arms = {}
        for place, arm in zip(of["places"], of["arms"]):
            for name, step, path in arm[2] if arm else []:
                self.arms.setdefault((alike(step), ".".join(path)), f"{arm[0]}.{name}")
                old = place[2][0]
                if alike(step) == re.sub(r"\d+$", "", alike(old)):
                    self.arms.setdefault((alike(old), ".".join(path)), f"{arm[0]}.{name}")
        self.needs = of["needs"]
        self.lent = {}
        for place in of["places"]:
            if place[3]:
                self.lent[place[2][1]] = LENT.get(place[3], [])
        self.loops = {a: (b, vars, changed) for ((a, b), vars), changed in zip(of["loops"], of["changed"])}

    def goal(self, need):
        """The goal that the old walk asked for under this name; port.py wrote Rattle's own words before some."""
        whole = [need, re.sub(r"^(overflow|nonzero)[-_]", "", need)]
        return next((new for it in whole for old, new in self.needs if alike(old) == alike(it)), None)

    def path_of(self, name):
        return "Rattle." + self.crate + ".proofs." + self.path + "." + name

    def turned(self, body):
        """A body over the walk's chain of states, as one over the goal's record c."""
        body = re.sub(r"(?:\.before)+(?![\w-])", "", body)
        body = re.sub(r"\.inv(?![\w-])", ".invariant", body)
        body = re.sub(r"(\.if\d+)\.left(?![\w-])", r"\1.false", body)
        body = re.sub(r"(\.if\d+)\.taken(?![\w-])", r"\1.true", body)
        body = re.sub(r"\.pre(?![\w-])", ".requires", body)
        body = body.replace(".well-formed", ".well_formed").replace(".type-inv", ".type_inv")
        # names for states
        while True:
            found = re.search(r"let (%s) = c in\s*" % WORD, body)
            if not found:
                break
            name = found[1]
            body = body[: found.start()] + body[found.end() :]
            body = re.sub(r"(?<![^\s(){}.;,\[\]])%s(?![^\s(){}.;,\[\]])" % re.escape(name), "c", body)
        for old, new in sorted(self.fields.items(), key=lambda it: -len(it[0])):
            body = re.sub(re.escape(old) + r"(?![\w-])", new, body)

        def field(found):
            word = found[1]
            return "." + self.steps.get(alike(word), word)

        # what a call left behind a &mut, and that a slice kept its length: by position before, by the parameter's name now
        for step, lent in self.lent.items():
            heads = {"c." + step} | {m[1] for m in re.finditer(r"let (%s) = c\.%s in" % (WORD, re.escape(step)), body)}
            heads |= {m[1] for m in re.finditer(r"let (%s) = c\.(%s) in" % (WORD, WORD), body) if alike(m[2]) == alike(step) or self.steps.get(alike(m[2])) == step}
            heads |= {m[0] for m in re.finditer(r"(?<=[\s(\[,;])c\.%s" % WORD, body) if self.steps.get(alike(m[0][2:].split(".")[0])) == step}
            for head in sorted(heads, key=lambda it: -len(it)):
                def one(found):
                    kind = {"last": "new", "kept": "auto"}.get(found[1], found[1])
                    deep = found[2].strip(".").split(".")
                    n = len(deep) - 1 if deep[-1] == "0" else len(deep)
                    if all(it == "1" for it in deep[:-1]) and n < len(lent):
                        return f"{head}.{kind}.{lent[n]}"
                    return found[0]

                body = re.sub(r"(?<![\w.-])%s\.(new|auto)((?:\.1)*\.[01])(?![\w-])" % re.escape(head), one, body)

        def arm(found):
            step, path = found[1], found[2]
            parts = path.strip(".").split(".")
            for n in range(len(parts), 0, -1):
                to = self.arms.get((alike(step), ".".join(parts[:n])))
                if to and re.match(r"given$|keys\d+$", parts[0]):
                    return "." + to + "".join("." + it for it in parts[n:])
            return found[0]

        body = re.sub(r"(?<=[\s(\[,;]c)\.(%s)((?:\.[\w-]+)+)" % WORD, arm, " " + body)[1:]
        # a step is a field of c itself, or of a name that stands for one
        body = re.sub(r"(?<=[\s(\[,;]c)\.(%s)" % WORD, field, " " + body)[1:]
        # the test of `if !x` says of the variable or the call x itself what it is; of a field it says `not x`
        def plain(found):
            name = found[2][len("if-not-") :]
            return found[0] if re.search(r"!%s\.\w" % re.escape(name.split("-")[0]), self.source) else found[1]

        body = re.sub(r"\(not-(?:true|false) _ (c\.(if-not-%s)\.(?:true|false))\)" % WORD, plain, body)
        return re.sub(r"(?<![\w-])not-(?:true|false) _ (c\.(if-not-%s)\.(?:true|false))" % WORD, plain, body)


def sources(root):
    """The parameters of each function that are lent for writing, by the function's path."""
    out = {}
    for path in glob.glob(os.path.join(root, "crates", "*", "src", "*.rt")):
        crate = path.split(os.sep)[-3]
        module = os.path.basename(path)[:-3]
        with open(path, encoding="utf-8") as it:
            text = it.read()
        for found in re.finditer(r"fn (\w+)\((.*?)\)(?: ->|\s*\n)", text, re.S):
            names = re.findall(r"(\w+): &mut", found[2])
            out[crate + "::" + ("" if module in ("lib", "main") else module + "::") + found[1]] = names
    return out


def blocks(text):
    head, uses, rest = [], [], []
    lines = text.split("\n")
    i = 0
    while i < len(lines) and (lines[i].startswith("--") or lines[i].startswith("use ") or not lines[i].strip()):
        if lines[i].startswith("use "):
            uses.append(lines[i])
        elif lines[i].startswith("--") and not uses:
            head.append(lines[i])
        elif lines[i].startswith("--"):
            break
        i += 1
    return head, uses, [b for b in re.split(r"\n\n+", "\n".join(lines[i:]).strip("\n")) if b.strip()]


def convert(names, crate_dir, only):
    with open(os.path.join(names, "names.json"), encoding="utf-8") as it:
        listed = json.load(it)
    crate = os.path.basename(os.path.abspath(crate_dir))
    SOURCE[0] = "\n".join(open(p, encoding="utf-8").read() for p in glob.glob(os.path.join(crate_dir, "src", "*.rt")))
    LENT.update(sources(os.path.join(os.path.abspath(crate_dir), "..", "..")))
    prefix = f"Rattle-{crate}-proofs."
    left = []
    for module, of in sorted(listed.items()):
        if not module.startswith(prefix) or not module.endswith(".Lts"):
            continue
        path = module[len(prefix) : -len(".Lts")]
        folder = os.path.join(crate_dir, "proofs", *path.split("."))
        old = os.path.join(folder, "Proof.antt")
        if only and path not in only or not os.path.exists(old):
            continue
        with open(old, encoding="utf-8") as it:
            text = it.read()
        f = Function(crate, path, of)
        head, uses, rest = blocks(text)
        invariants, answers, order, named, odd = [], [], [], {}, []
        for block in rest:
            lines = block.split("\n")
            while lines and lines[0].startswith("--"):
                lines = lines[1:]
            first = "\n".join(lines)
            found = re.match(r"(?:abbrev )?(?:pub )?(?:abbrev )?(%s) : (.*?)\n((?:unfolding [^\n]*\n(?: +[^\n=]*\n)*)?)(?=\1\b)" % WORD, first, re.S)
            if not found:
                odd.append(block)
                continue
            name, type_, unfolding = found[1], found[2], found[3]
            body = first[found.end() :]
            kind = re.match(r"tie\.(invariant|decreases)-(%s)$" % WORD, type_.strip())
            need = re.match(r"tie\.Need-(%s)" % WORD, type_.strip())
            if kind:
                loop = next((v for k, v in f.loops.items() if alike(k) == alike(kind[2])), None)
                if not loop:
                    left.append(f"{path}: no loop {kind[2]}")
                    continue
                new, variables, changed = loop
                params, definition = re.match(r"%s\s+(.*?)=(.*)$" % re.escape(name), body, re.S).groups()
                params = params.split()
                whole = [v for v in variables]
                want = whole + [v for v, c in zip(variables, changed) if c]
                if len(params) != len(want):
                    # a table's length, which the old walk kept beside the variables
                    spare = [p for p in params if re.fullmatch(r"t\d+", p) and p not in want]
                    if len(params) - len(spare) == len(want):
                        for p in spare:
                            if re.search(r"(?<![\w-])%s(?![\w-])" % p, definition):
                                left.append(f"{path}: {name} speaks of {p}")
                        params = [p for p in params if p not in spare]
                if len(params) != len(want):
                    left.append(f"{path}: {name} has {len(params)} parameters, and {len(want)} are known: {params} {want}")
                    continue
                put = {}
                for at, p in enumerate(params):
                    if at < len(whole):
                        put[p] = ("l.initial." if changed[at] else "l.") + whole[at]
                    else:
                        put[p] = "l." + want[at]
                definition = re.sub(r"(?<![^\s(){},;\[\]])(%s)" % WORD, lambda m: put.get(m[1], m[1]), definition)
                if kind[1] == "invariant" and definition.strip() == "Unit":
                    continue
                out = f"abbrev pub {kind[1]}-{new} : goal.{kind[1]}-{new}\n{unfolding}{kind[1]}-{new} l ={definition}"
                invariants.append(out)
                named[name] = None
            elif need:
                goal = f.goal(need[1])
                named[name] = (need[1], goal)
                if not goal:
                    left.append(f"{path}: no goal {need[1]}")
                    goal = "UNKNOWN-" + need[1]
                params, definition = re.match(r"%s\s+(.*?)=(.*)$" % re.escape(name), body, re.S).groups()
                definition = f.turned(definition)
                more = [p for p in params.split()[1:] if p != "κs"]
                answers.append((name, goal, unfolding, (" λ " + " ".join(more) + "." if more else "") + definition))
            elif "statement" in type_ or name.endswith("spec"):
                spec = re.search(r"tie\.spec(.*)$", body, re.S)
                if spec:
                    inner = spec[1].rstrip()
                    # the bracket that closes 'tie.close (tie.spec ..)'
                    depth = 0
                    for at, ch in enumerate(inner):
                        depth += (ch in "([{") - (ch in ")]}")
                        if depth < 0:
                            inner = inner[:at]
                            break
                    order = groups(inner)
                else:
                    left.append(f"{path}: no tie.spec")
            else:
                if "tie." in block or ".Lts" in block:
                    left.append(f"{path}: a helper names the walk: {name}")
                odd.append(block)
        order = [a for a in order if named.get(a, 1) is not None]
        anonymous = []
        if len(order) == len(f.needs):
            for a, (o, n) in zip(order, f.needs):
                if a in named:
                    if named[a] and named[a][1] != n:
                        left.append(f"{path}: {a} stands where {o} is asked")
                    continue
                anonymous.append((a, n))
        elif order:
            left.append(f"{path}: {len(order)} answers, and {len(f.needs)} goals: {[n for _, n in f.needs]}")
            # between two that are named the order says which is meant
            at = 0
            for a in order:
                if a in named and named[a]:
                    at = next((k + 1 for k, (o, n) in enumerate(f.needs) if alike(o) == alike(named[a][0])), at)
                else:
                    anonymous.append((a, f.needs[at][1] if at < len(f.needs) else "UNKNOWN"))
                    at += 1
        extra = []
        for a, goal in anonymous:
            found = re.match(r"\(λ ([^.]*)\. (.*)\)$", a, re.S)
            if not found:
                if a not in ("()",):
                    left.append(f"{path}: {goal} = {a}")
                continue
            body = " ".join(found[2].split()) if len(found[2]) < 120 else found[2]
            if body.strip() in TRIVIAL:
                continue
            more = [p for p in found[1].split()[1:] if p != "κs"]
            extra.append((None, goal, "", (" λ " + " ".join(more) + "." if more else "") + " " + f.turned(body)))
        uses = [u for u in uses if not re.search(r"\.(Statement|Tie)\b", u) and "Author.Rules" not in u]
        whole = answers + extra
        if invariants:
            with open(os.path.join(folder, "Invariants.antt"), "w", encoding="utf-8") as out:
                out.write("\n".join(head) + "\n" + "\n".join(uses + [f"use {f.path_of('Given')} as goal"]) + "\n\n" + "\n\n".join(invariants) + "\n")
        if whole:
            text = "\n".join([] if invariants else head)
            body = "\n\n".join(odd + [f"pub {g} : goal.{g}\n{u}{g} c ={d}" for _, g, u, d in whole])
            if "rules" in re.findall(WORD, body):
                uses.append("use borrow.Author.Rules.{rules}")
            with open(os.path.join(folder, "Answers.antt"), "w", encoding="utf-8") as out:
                out.write((text + "\n" if text else "") + "\n".join(uses + [f"use {f.path_of('Goals')} as goal"]) + "\n\n" + body + "\n")
        elif odd:
            left.append(f"{path}: helpers with no answer: {[o.split(' ')[0] for o in odd]}")
        os.rename(old, old + ".old")
    for it in left:
        print("left: " + crate + ": " + it)


convert(sys.argv[1], sys.argv[2], sys.argv[3:])
