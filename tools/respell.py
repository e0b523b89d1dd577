#!/usr/bin/env python3
"""Brings the repository's own definitions and lemmas to the spelling of today's Rattle: words in snake case.

usage: tools/respell.py        at the top, once, right after the kit's port script

Rows of respell.tsv: old, new, and where a third part stands, the files that declare the name, beside which those that import it from them turn too.
What turns: in .antt files the code and the code spans of comments; in .rt files `ghost use` items, clauses and the code spans of comments; in .md files
code spans, and in comments a name with a capital inside also where it stands bare. A name that a file takes from the kit stays there, and so does a step of the code behind a dot that is no field of a record here.
Names bound within a file (by let, a lambda, parameters, `as`) that have a dash or a capital inside turn by the same rule in that file.
"""
import glob
import os
import re

HERE = os.path.dirname(os.path.realpath(__file__))
WORD = re.compile(r"[^\s(){}\[\].;,@\"«»:`]+")
MADE = re.compile(r"^(Need|After|Then|Else|At|In|Lts|Claims|invariant|decreases)-")
ROWS = [line.rstrip("\n").split("\t") for line in open(os.path.join(HERE, "respell.tsv"), encoding="utf-8")]
TABLE = {r[0]: r[1] for r in ROWS if len(r) == 2}
SCOPED = [(r[0], r[1], r[2].split()) for r in ROWS if len(r) == 3]


def snake(n):
    return re.sub(r"([a-z0-9₀-₉])([A-Z])", lambda k: k.group(1) + "_" + k.group(2).lower(), n).replace("-", "_")


def odd(n):
    return not n[0].isupper() and not MADE.match(n) and bool(re.search(r"\w-\w|[a-z0-9₀-₉][A-Z]", n))


def module_of(path):
    p = path.split("/")
    return "Rattle." + ".".join([p[1], p[2]] + p[3:])[: -len(".antt")]


def fields(files):
    found = set()
    for f in files:
        inside = False
        for l in open(f, encoding="utf-8"):
            if l.strip() and not l[0].isspace():
                inside = bool(re.match(r"(pub )?record\b", l))
            m = re.match(r"\s+(?:pub )?(\S+) :", l)
            if inside and m:
                found.add(m.group(1))
    return found


def bound(text):
    names = set()
    for m in re.finditer(r"\blet ([^\s(){}:=]+)|λ ([^.]*)\.|[({]([^(){}:;=λ→]+) :|\bas ([^\s,}]+)", text):
        for part in (g for g in m.groups() if g):
            names.update(w for w in WORD.findall(part) if odd(w))
    return names


def turn_words(text, table, own_fields):
    def word(m):
        w = m.group(0)
        behind = m.start() > 0 and text[m.start() - 1] == "."
        if w not in table:
            return w
        path = re.search(r"[\w.+·-]*\.$", text[: m.start()])
        if behind and not (path and path.group(0).startswith("Rattle.")) and w not in own_fields:
            return w
        return table[w]

    return WORD.sub(word, text)


def spans(text, table, own_fields):
    text = re.sub(r"`[^`\n]+`", lambda m: turn_words(m.group(0), table, own_fields), text)
    return re.sub(r"\b[a-z]+[0-9a-z]*[A-Z]\w*", lambda m: table.get(m.group(0), m.group(0)), text)


def antt(text, table, own_fields):
    out = []
    for l in text.split("\n"):
        code, dash, comment = (l, "", "") if "--" not in l else l.partition("--")
        if dash and code and not code[-1].isspace():
            code, dash, comment = l, "", ""
        out.append(turn_words(code, table, own_fields) + dash + spans(comment, table, own_fields))
    return "\n".join(out)


def rust(text, table, own_fields):
    out = []
    depth = 0
    for l in text.split("\n"):
        head = re.match(r"\s*(requires|ensures|ghost)\b", l)
        if depth or re.match(r"\s*ghost use\b", l) or head:
            if depth or head and not re.match(r"\s*ghost use\b", l):
                depth += l.count("{") - l.count("}")
            l = turn_words(l, table, own_fields)
        elif "//" in l:
            code, slashes, comment = l.partition("//")
            l = code + slashes + spans(comment, table, own_fields)
        out.append(l)
    return "\n".join(out)


def table_of(path, text, ours):
    kit = set()
    for m in re.finditer(r"^(?:ghost )?use ([^\s{]+?)\.?\{([^}]*)\}", text, re.M):
        if not (m.group(1).startswith("Rattle.") and m.group(1).split(".")[1] in ours):
            kit.update(i.strip().split(" as ")[-1] for i in m.group(2).split(","))
    table = {k: v for k, v in TABLE.items() if k not in kit}
    if path.endswith(".rt"):
        table.update({w: snake(w) for w in re.findall(r"\bas (\w+)\}?[,};]", text) if odd(w) and "ghost use" in text})
    if path.endswith(".antt"):
        table.update({w: snake(w) for w in bound(text) if w not in table and w not in kit})
    for old, new, where in SCOPED:
        if path in where or any(module_of(f) + ".{" in text and re.search(re.escape(module_of(f)) + r"\.\{[^}]*(?<![\w'-])" + re.escape(old) + r"(?![\w'-])", text) for f in where):
            table[old] = new
    return table


def main():
    ours = {os.path.basename(c) for c in glob.glob("crates/*")}
    files = sorted(f for e in ("antt", "rt") for f in glob.glob(f"crates/*/**/*.{e}", recursive=True) if "/out/" not in f)
    own_fields = fields([f for f in files if f.endswith(".antt")])
    for f in files + sorted(glob.glob("*.md") + glob.glob("docs/*.md")):
        text = open(f, encoding="utf-8").read()
        if f.endswith(".md"):
            new = spans(text, TABLE, own_fields)
        else:
            new = (antt if f.endswith(".antt") else rust)(text, table_of(f, text, ours), own_fields)
        if new != text:
            open(f, "w", encoding="utf-8").write(new)


if __name__ == "__main__":
    main()
