#!/usr/bin/env python3
"""Respells the repository's own definitions, lemmas, fields and constructors in snake case, once, right after the port.

usage: python3 tools/respell.py [ROOT]

Words of a name are joined by `_`. A dash stays between the two names of a lemma such as `sum-append`, where each is a name of its own.
Names of src/, strings, comments (but for names in backticks), inputs and outputs are left alone. It prints names that fall together.
"""
import collections
import os
import re
import sys

ROOT = sys.argv[1] if len(sys.argv) > 1 else "."
WORD = r"[^\s(){}.;,@\"«»\[\]\\]+"
SIG = re.compile(r"^(\s*)((?:unfoldable |abbrev |pub )*)(" + WORD + r")\s+:(?: (.*))?$")
HEAD = re.compile(r"^\s*(?:pub )?(record|data)\s+(" + WORD + r").* : Type")
LISTS = set("length take drop append cons map reverse sum set replicate get_or filter concat zero suc".split())


def files(*endings):
    for folder, dirs, names in os.walk(os.path.join(ROOT, "crates")):
        dirs[:] = sorted(d for d in dirs if d != "out")
        for n in sorted(names):
            if n.endswith(endings):
                yield os.path.join(folder, n)


def read(p):
    with open(p, encoding="utf-8", newline="") as f:
        return f.read()


def declared():
    kinds = collections.OrderedDict()
    for p in files(".antt"):
        context = None
        for l in read(p).split("\n"):
            h = HEAD.match(l)
            m = SIG.match(l)
            if h:
                kinds.setdefault(h.group(2), set()).add("type")
                context = "part"
            elif re.match(r"\s*(abbrev mutual|mutual|(pub )?module\b)", l):
                context = "part"
            elif m and not l.strip().startswith("--"):
                indent, marks, name, of = m.groups(default="")
                if marks.startswith(("abbrev", "unfoldable")) or "abbrev" in marks or not indent and "/specs/" in p:
                    kinds.setdefault(name, set()).add("word")
                if not indent:
                    context = None
                    goal = of.split(" ")[0].startswith(("tie.", "goal."))
                    kinds.setdefault(name, set()).add("goal" if goal else "own")
                elif context:
                    goal = of.split(" ")[0].startswith(("tie.", "goal."))
                    kinds.setdefault(name, set()).add("goal" if goal else "own")
    return {n for n, k in kinds.items() if k & {"own", "type"}}, {n for n, k in kinds.items() if "word" in k}


def imported():
    """Names that some file takes from the kit."""
    found = set()
    for p in files(".antt"):
        for m in re.finditer(r"(?m)^use ([^\s{]+)\.\{([^}]*)\}", read(p)):
            parts = m.group(1).split(".")
            if parts[0] != "Rattle" or not os.path.isdir(os.path.join(ROOT, "crates", parts[1])):
                found |= {x.split(" as ")[0].strip() for x in m.group(2).split(",")}
    return found


def snake(name):
    name = re.sub(r"(?<=[a-z0-9])([A-Z])", lambda m: "_" + m.group(1).lower(), name) if re.match(r"[a-z]", name) else name
    return re.sub(r"(?<=[\w'])-(?=\w)", "_", name)


def main():
    own, words = declared()
    kit = imported()
    turned = {}
    for n in sorted(own):
        parts = n.split("-")
        if n in kit or len(parts) == 2 and n not in words and parts[1] in LISTS and parts[0] in own | LISTS:
            continue
        s = snake(n)
        if s != n:
            turned[n] = s
    for old, new in list(turned.items()):
        if new in own or new in kit or list(turned.values()).count(new) > 1:
            print(f"falls together, and stays: {old} -> {new}")
            del turned[old]
    token = re.compile(r"`[^`\n]*`|(?P<c>--[^\n]*|//[^\n]*)|(?P<s>\"(?:[^\"\\\n]|\\.)*\")|(?P<w>" + WORD.replace("+", "") + r"+)")

    # In answers and invariants a step's name, right behind `c.` or the like, is Rattle's own.
    made = re.compile(r"(?:^|[\s(])(?:c|l|v|w|goal|goal\.at)\.$")

    def turn(text, answers):
        def one(m):
            t = m.group(0)
            if answers and made.search(text, max(0, m.start() - 12), m.start()):
                return t
            if m.group("s"):
                return t
            if m.group("c"):
                return re.sub(r"`([^`\n]*)`", lambda b: "`" + re.sub(WORD, lambda w: turned.get(w.group(0), w.group(0)), b.group(1)) + "`", t)
            if m.group("w"):
                return turned.get(t, t)
            return t

        return token.sub(one, text)

    def aliased(text, path):
        """Names that a use line gives, within their own file."""
        given = {}
        for line in re.findall(r"(?:ghost )?use [^;\n{]*\{[^}]*\}", text):
            for was, name in re.findall(r"(" + WORD + r") as (" + WORD + r")", line):
                s = snake(name[0].lower() + name[1:] if "-" in name and was[0].islower() else name)
                if s != name:
                    given[name] = s
        words = set(re.findall(WORD, text))
        for name, s in sorted(given.items()):
            if s in words:
                print(f"falls together in {path}: {name} -> {s}")
                continue
            text = re.sub(r"(?<![^\s(){}.;,@\"«»\[\]\\])" + re.escape(name) + r"(?![^\s(){}.;,@\"«»\[\]\\])", s, text)
        return text

    for p in files(".antt", ".rt", ".edit"):
        old = read(p)
        new = turn(old, p.endswith(("Answers.antt", "Invariants.antt")))
        new = aliased(new, p)
        if new != old:
            with open(p, "w", encoding="utf-8", newline="") as f:
                f.write(new)
    print(f"{len(turned)} names respelled")


main()
