#!/usr/bin/env python3
"""What tools/respell.py took for a lemma beside its definition, and is a definition: it gets a name of its own.

usage: python3 tools/respell_more.py        at the top, once, after tools/respell.py
"""
import os
import re

# the name that respell.py gave, the new one, the crates that have it or None for all, the places where it is a lemma
TABLE = [
    ("is_run_lem", "same_run", None, ()),
    ("in_line_lem", "queued_for", None, ()),
    ("new_run_lem", "fresh_run", None, ()),
    ("change_words_lem", "words_of_change", None, ("crates/records/",)),
    ("id_note_lem", "id_note_kind", ("reasons", "simulate_lines"), ()),
    ("source_note_lem", "source_note_kind", ("reasons", "simulate_lines"), ()),
    ("note_of_lem", "note_reason_of", ("lint_lines",), ()),
    ("kinds.id_note_lem", "kinds.id_note_kind", None, ()),
    ("kinds.source_note_lem", "kinds.source_note_kind", None, ()),
    ("run_of_lem", "meant_run", ("engine_refinement",), ()),
    ("run_of_lem", "run_over", ("cone_judge",), ()),
]


def main():
    for folder, dirs, names in os.walk("crates"):
        dirs[:] = sorted(d for d in dirs if d != "out")
        for n in sorted(names):
            if not n.endswith((".antt", ".rt", ".edit")):
                continue
            p = os.path.join(folder, n)
            old = s = open(p, encoding="utf-8").read()
            for a, b, crates, lemmas in TABLE:
                if (crates is None or p.split("/")[1] in crates) and not p.startswith(lemmas or ("?",)):
                    s = re.sub(r"(?<![\w'-])" + a + r"(?![\w'-])", b, s)
            if s != old:
                open(p, "w", encoding="utf-8").write(s)


main()
