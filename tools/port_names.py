#!/usr/bin/env python3
"""Turns this repository's own names to today's spelling, once, behind the kit's port.py.

usage: python3 tools/port_names.py [--dry]     at the top of the checkout, after port.py

The kit's port.py respells the library's names and some of ours. This turns the rest: definitions and lemmas that the files of specs/ and
proofs/ declare. camelCase becomes snake_case. A dash in a lemma's name stays where it joins names that are declared (as in `length-drop`),
and becomes an underscore between plain words; a lemma that would have a definition's name gets `_lem`. Functions of src/, exported C names, strings, inputs and outputs keep their names. Names are
turned in specs/, proofs/, the clauses of src/, the must-fail edits and, between backquotes, the pages and comments; what docs/landings says
of earlier landings stays as it was written. It prints each name that it turned, and stops where two names would fall together in a file.
"""
import glob
import re
import sys

TOKEN = re.compile(r"[^\s(){}\[\],;.:«»\"`]+")
NAME = re.compile(r"^[^\W\d][\w'⇒-]*$")
DECLARED = re.compile(r"^((?:unfoldable |abbrev |pub )*)(record |data |ruleset )?([^\s:(){}|=]+) ?:", re.M)
INNER = re.compile(r"^[ \t]+(?:pub )?([^\s:(){},;]+) :(?= )", re.M)
# What Rattle asks for by name: goals, invariants and measures.
ASKED = re.compile(r"^(returns|invariant|decreases|loop\d*|overflow|bounds|cast|add|sub|mul|div|rem|shl|shr|and|or|enum-known|array|part)-|-requires(-\d+)?$")
# Plain words that are definitions' names too: what a law of a call says of it.
PLAIN = {"only", "free", "known", "agrees", "refuses", "room", "strange", "answers", "steps"}
# Words of the library that a dash may join to ours.
LIBRARY = set("length set sets take drop append map replicate zip reverse get_or getD".split())


def stripped(path, text):
    return re.sub(r"--.*" if path.endswith(".antt") else r"//.*", "", text)


def snake(name):
    return re.sub(r"([a-z0-9])([A-Z])", lambda m: m.group(1) + "_" + m.group(2).lower(), name)


def joined(parts, known):
    """The parts of a name with dashes, parted where both sides are declared names; or none."""
    if not parts:
        return []
    for n in range(len(parts), 0, -1):
        if "_".join(parts[:n]) in known:
            rest = joined(parts[n:], known)
            if rest is not None:
                return ["_".join(parts[:n])] + rest
    return None


def main():
    dry = "--dry" in sys.argv[1:]
    antt = sorted(glob.glob("crates/*/specs/**/*.antt", recursive=True) + glob.glob("crates/*/proofs/**/*.antt", recursive=True))
    code = sorted(glob.glob("crates/*/src/**/*.rt", recursive=True))
    edits = sorted(glob.glob("crates/*/must-fail/*.edit"))
    pages = ["README.md", "CONTRIBUTING.md"] + sorted(glob.glob("docs/*.md")) + sorted(glob.glob("witness/**/*.md", recursive=True))
    text = {p: open(p, encoding="utf-8").read() for p in antt + code + edits + pages}
    declared, functions = set(), set()
    for p in antt:
        body = stripped(p, text[p])
        declared |= {m.group(3) for m in DECLARED.finditer(body)} | {m.group(1) for m in INNER.finditer(body)}
    for p in code:
        functions |= set(re.findall(r"\bfn ([a-z_0-9]+)", text[p]))
    defined = {snake(n) for p in antt if "/specs/" in p for n in (m.group(3) for m in DECLARED.finditer(stripped(p, text[p]))) if "-" not in n}
    cased = {snake(n) for n in declared if re.match(r"^[a-z]", n) and snake(n) != n and "-" not in n}
    known = defined | functions | LIBRARY
    turned = {}
    for n in sorted(declared):
        if not NAME.match(n) or ASKED.search(n):
            continue
        new = n
        if "-" in n:
            parts = [snake(w) for w in n.split("-")]
            kept = joined(parts, known)
            if n.endswith("-spec") and "_".join(parts[:-1]) in functions:
                new = "_".join(parts)
            elif kept is not None and len(kept) > 1 and parts[-1] not in PLAIN:
                new = "-".join(kept)
            else:
                tail = ["-⇒"] if parts[-1] == "⇒" else []
                new = "_".join(parts[:-1] if tail else parts) + "".join(tail)
            if new in defined or new in cased:
                new += "_lem"
        elif re.match(r"^[a-z]", n):
            new = snake(n)
        if new != n:
            turned[n] = new
    for n in [n for n in declared if n not in turned and n in {turned[c] for c in turned if "-" not in c}]:
        if any(re.search(rf"(?m)^pub {n} :", text[p]) for p in antt if "/proofs/" in p):
            turned[n] = n + "_lem"
    clash = []
    for p in antt + code:
        words = set(TOKEN.findall(stripped(p, text[p])))
        for w in words & turned.keys():
            if turned[w] in words and turned[w] in declared:
                clash.append(f"{p}: {w} and {turned[w]}")
    for a in turned:
        for b in turned:
            if a < b and turned[a] == turned[b]:
                clash.append(f"{a} and {b} both become {turned[a]}")
    for c in clash:
        print("clash: " + c)

    def turn(s):
        return TOKEN.sub(lambda m: turned.get(m.group(0), m.group(0)), s)

    def quoted(s):
        return re.sub(r"`[^`\n]+`", lambda m: re.sub(r"[\w'⇒-]+", lambda w: turned.get(w.group(0), w.group(0)), m.group(0)), s)

    for n in sorted(turned):
        print(f"{n} -> {turned[n]}")
    if dry or clash:
        return 1 if clash else 0
    for p in antt + code + edits:
        mark = "--" if p.endswith(".antt") else "//" if p.endswith(".rt") else "# "
        out = []
        for line in text[p].split("\n"):
            at = line.find(mark)
            if p.endswith(".edit"):
                at = 0 if line.startswith("#") else -1
                if at < 0 and re.match(r"(old|new): ", line):
                    # a projection is written tight
                    line = re.sub(r"(?<=[\w)′']) \.(?=[a-z0-9])", ".", line).replace("′", "'")
            body, rest = (line, "") if at < 0 else (line[:at], line[at:])
            out.append(turn(body) + quoted(rest))
        open(p, "w", encoding="utf-8").write("\n".join(out))
    for p in pages:
        open(p, "w", encoding="utf-8").write(quoted(text[p]))
    return 0


if __name__ == "__main__":
    raise SystemExit(main())
