#!/usr/bin/env python3
"""Brings this repository's own names in specs/ and proofs/ to the spelling of Rattle's library.

usage: python3 tools/respell.py [--dry]        at the top, once, after the kit's port.py

Functions, lemmas and fields of specs/ and proofs/ are in snake case, types in upper camel case. A name is changed only where the
repository declares it and no file takes it from a library. In src/ it changes the names that clauses and imports cite; names of
Rattle's own (functions, types, fields of src/) hold no dash and no capital inside, so none of them is touched. Edits of must-fail/
are turned alike. Modules Contracts become Promises, since Rattle makes a module contracts beside them. In clauses `was x` and `is x`
of the crate notation become x.old and x.new, or x.now of a place that is lent to read. A name that would fall together with another one of a file that has both is printed, and left.
"""
import collections
import os
import re
import sys

FIELDS = {"max-steps-per-case", "total-steps", "runs-left", "original-events", "deletion-minimal", "max-cases", "at-most"}
NAME = r"[^\s(){}\[\],;.:@\"`«»]+"
TOKEN = re.compile(r"[^\s(){}\[\],;.:@\"`«»]+")
MODULES = re.compile(r"^(\s*(?:pub )?mod )", re.M)


def files(ends):
    for folder, dirs, names in os.walk("crates"):
        dirs[:] = sorted(d for d in dirs if d != "out")
        for n in sorted(names):
            if n.endswith(ends):
                yield os.path.join(folder, n)


def bare(text):
    return re.sub(r'"[^"\n]*"', '""', re.sub(r"(?m)(?<!\S)--.*$|(?<!\S)//.*$", "", text))


def snake(n):
    n = n.replace("′", "'").replace("-", "_")
    n = re.sub(r"(?<=[a-z0-9])([A-Z])(?=[a-z])", lambda m: "_" + m.group(1).lower(), n)
    n = re.sub(r"(?<=[a-z0-9_])_?([A-Z])(?![a-z])", lambda m: "_" + m.group(1).lower(), n)
    return n


def camel(n):
    return "".join(p[:1].upper() + p[1:] for p in n.replace("′", "'").split("-"))


def declared():
    own, theirs = collections.defaultdict(set), set()
    for p in files(".antt"):
        s = bare(open(p, encoding="utf-8").read())
        for m in re.finditer(r"^[ ]*(?:(?:unfoldable|abbrev|pub|opaque)\s+)*(" + NAME + r"(?:[ ]+" + NAME + r")*)\s+:\s", s, re.M):
            for n in m.group(1).split():
                own[n].add(p)
        for m in re.finditer(r"\b(?:record|data|ruleset)\s+(" + NAME + ")", s):
            own[m.group(1)].add(p)
        for m in re.finditer(r"^(?:pub )?use\s+(\S+?)\.\{([^}]*)\}", s, re.M):
            if not re.match(r"Rattle\.(?!std\b)", m.group(1)):
                theirs |= {n.strip().split(" as ")[0].strip() for n in m.group(2).split(",")}
    return own, theirs


def table():
    own, theirs = declared()
    to = {}
    for n in own:
        if n in theirs or not re.match(r"[^\W\d]", n) or n in ("λ",):
            continue
        new = camel(n) if n[0].isupper() else snake(n)
        if new != n:
            to[n] = new
    # a lemma that would have its definition's name gets _lem; fields of two records may share a name
    words = [set(TOKEN.findall(bare(open(p, encoding="utf-8").read()))) for p in files(".antt")]
    for n in sorted(to):
        if "-" in n and not n[0].isupper() and n not in FIELDS:
            for m in own:
                if m != n and "-" not in m and to.get(m, m) == to[n] and any(n in w and m in w for w in words):
                    print("lemma beside its definition:", n, m)
                    to[n] += "_lem"
                    break
    return to


def places(text):
    """`was x` and `is x` of each function's clauses, by how x is lent."""
    def one(m):
        head = m.group(0)
        lent = dict(re.findall(r"(\w+): &(?:'\w+ )?(mut )?", head))

        def word(w):
            x = w.group(2)
            if x not in lent:
                print("not lent:", x, "in", head.split("(")[0])
                return w.group(0)
            return x + (".now" if not lent[x] else ".old" if w.group(1) == "was" else ".new")

        sig, sep, clauses = head.partition("\n    requires")
        if not sep:
            sig, sep, clauses = head.partition("\n    ensures")
        clauses = re.sub(r"\((was|is) (\w+)\)", word, clauses)
        clauses = re.sub(r"\b(was|is) (\w+)", word, clauses)
        return sig + sep + clauses

    text = re.sub(r"(?ms)^ *(?:#\[[^\n]*\]\n)?(?:pub )?(?:unsafe )?(?:extern \"C\" )?fn .*?^ *\{$", one, text)
    return re.sub(r"ghost use Rattle\.notation\.specs\.Reference\.\{[^}]*\};\n", "", text)


def main():
    dry = "--dry" in sys.argv
    to = table()
    bad = collections.defaultdict(set)
    paths = list(files((".antt", ".rt", ".edit")))
    texts = {p: open(p, encoding="utf-8").read() for p in paths}
    for p, s in texts.items():
        words = set(TOKEN.findall(bare(s)))
        back = collections.defaultdict(set)
        for w in words:
            back[to.get(w, w)].add(w)
        for new, olds in back.items():
            if len(olds) > 1 and any(o in to for o in olds):
                bad[tuple(sorted(olds))].add(p)
    for olds, where in sorted(bad.items(), key=lambda x: -len(x[1])):
        print("falls together:", " ".join(olds), "in", len(where), sorted(where)[:3])
    if dry:
        print(len(to), "names")
        return
    for p, s in texts.items():
        quoted = re.split(r'("[^"\n]*")', s)
        new = "".join(q if k % 2 else TOKEN.sub(lambda m: to.get(m.group(0), m.group(0)), q) for k, q in enumerate(quoted))
        new = re.sub(r"(Rattle\.\w+\.specs\.)Contracts\b", r"\1Promises", new)
        if p.endswith("specs/Lib.antt"):
            new = re.sub(r"(?m)^(pub mod )Contracts$", r"\1Promises", new)
        if p.endswith(".rt"):
            new = places(new)
        if new != s:
            open(p, "w", encoding="utf-8").write(new)
    for p in paths:
        if p.endswith("specs/Contracts.antt"):
            os.rename(p, p.replace("Contracts.antt", "Promises.antt"))
    print(len(to), "names respelled")


main()
