#!/usr/bin/env python3
"""Gives the repository's own names in specs/ and proofs/ the spelling of today's Rattle.

usage: tools/respell.py            in the repository, once: rewrites crates/*/{src,specs,proofs}
       tools/respell.py --list     prints the names, old and new, and changes nothing

A definition, a field, a constructor or a local name is in snake case (type-of: type_of); what begins with a capital is in upper camel case
(Is-word: IsWord). In a lemma's name a dash stands between two names of definitions, and else '_' (card-ty is card_ty; subst-card-ty: subst-card_ty).
Names of goals, of the library and of what Rattle makes are left alone."""

import glob
import re
import sys

TOKEN = re.compile(r"[A-Za-z0-9_'μκλ₀-₉\u0370-\u03ff]+(?:-[A-Za-z0-9_'₀-₉\u0370-\u03ff]+)+")
HEAD = re.compile(r"^(?:abbrev +|unfoldable +|pub +|data +|record +|ruleset +|mutual +)*([^\s:(){}]+)(?= |$)")
SIGNATURE = re.compile(r"^(?:abbrev +|unfoldable +|pub +)*([A-Za-z][^\s:(){}]*) :(?= |$)")
MADE = re.compile(r"^(?:abbrev +|unfoldable +|pub +)*([^\s:(){}]+) : (?:goal|given|need)\.")
# words of the library that lemmas are named after
LIBRARY = {"length", "map", "append", "take", "drop", "set", "reverse", "filter", "concat", "get_or", "sum", "max", "min"}


def files():
    for kind in ("specs", "proofs"):
        yield from sorted(glob.glob("crates/*/%s/**/*.antt" % kind, recursive=True))


def own_names():
    """The names that the files define: of specs/, of proofs/, and those that only answer a goal."""
    specs, proofs, made = set(), set(), set()
    for p in files():
        for line in open(p, encoding="utf-8"):
            if m := MADE.match(line):
                made.add(m[1])
                continue
            m = SIGNATURE.match(line.rstrip("\n")) or re.match(r"^(?:pub +)?(?:data|record) +([^\s:(){}]+)", line)
            m = m or re.match(r"^ +(?:pub )?([A-Za-z][^\s:(){}]*)(?: [^:=]*)? :(?= |$)", line)
            if m:
                (specs if "/specs/" in p else proofs).add(m[1])
    return specs, proofs, made


def camel(name):
    return "".join(w[:1].upper() + w[1:] for w in name.split("-"))


def lemma(name, known):
    words, parts, i = name.split("-"), [], 0
    while i < len(words):
        for j in range(len(words), i, -1):
            if "_".join(words[i:j]) in known:
                parts.append(("_".join(words[i:j]), True))
                i = j
                break
        else:
            parts.append((words[i], False))
            i += 1
    out = parts[0][0]
    for (_, before), (part, after) in zip(parts, parts[1:]):
        out += ("-" if before and after else "_") + part
    return out


def table():
    specs, proofs, made = own_names()
    known = {s.replace("-", "_") for s in specs if s[:1].islower() and len(s) > 2} | LIBRARY
    new = {}
    for n in specs | proofs:
        if "-" not in n or n in made:
            continue
        if n[0].isupper():
            new[n] = camel(n)
        elif n in specs:
            new[n] = n.replace("-", "_")
        else:
            new[n] = lemma(n, known)
    return {a: b for a, b in new.items() if a != b}


def local(text, p, new, made):
    """The names that are bound in one file alone, as variables, old and new."""
    text = "\n".join(l for l in text.split("\n") if not l.startswith("--"))
    taken = set(made) | set(new) | set(new.values())
    for m in re.finditer(r"^use [^{\n]*\{([^}]*)\}", text, re.M):
        taken |= {w for x in m[1].split(",") for w in x.split()}
    out = {}
    for m in TOKEN.finditer(text):
        w = m[0]
        if w in taken or w == "S-expressions" or text[m.start() - 1 : m.start()] == "." or any(c.isupper() for c in w[1:]) or w.split("-")[-1].isdigit():
            continue
        out[w] = w.replace("-", "_")[:1].lower() + w.replace("-", "_")[1:]
    return out


def main():
    new = table()
    specs, proofs, made = own_names()
    kept = {n for n in specs | proofs if "-" in n and n not in new}
    if "--list" in sys.argv:
        for a in sorted(new):
            print(a, new[a])
        return
    texts = list(files()) + sorted(glob.glob("crates/*/src/**/*.rt", recursive=True))
    for p in texts:
        t = open(p, encoding="utf-8").read()
        names = dict(local(t, p, new, made | kept), **new) if p.endswith(".antt") and not p.endswith(("Answers.antt", "Invariants.antt")) else new
        u = TOKEN.sub(lambda m: names.get(m[0], m[0]), t)
        u = re.sub(r"«([a-z]\w*_\w*)»", r"\1", u)
        if u != t:
            open(p, "w", encoding="utf-8").write(u)


main()
