#!/usr/bin/env python3
"""Counts, in crates/*/src, the places that docs/DESIGN-PASS.md speaks of, point by point.

    tools/design_count.py           counts alone
    tools/design_count.py -v        each place too

It reads the texts and knows nothing of their meaning: which places stay, and why, is said in the page.
"""
import collections
import glob
import re
import sys

VERBOSE = "-v" in sys.argv


def sources():
    for path in sorted(glob.glob("crates/*/src/**/*.rt", recursive=True)):
        lines = [line.split("//")[0].rstrip() for line in open(path, encoding="utf-8")]
        yield path, "\n".join(lines)


def functions(text):
    """Name, contract with signature, and body of each function."""
    for m in re.finditer(r"^( *)(?:pub(?:\(crate\))? )?fn (\w+)", text, re.M):
        end = re.compile(r"^%s\}" % m.group(1), re.M).search(text, m.end())
        if not end:
            continue
        whole = text[m.start():end.end()]
        body = re.search(r"(?:^%s\{$|\) (?:-> [^{]+)?\{$)" % m.group(1), whole, re.M)
        if body:
            yield m.group(2), whole[:body.start()], whole[body.start():], text.count("\n", 0, m.start()) + 1


def grep(pattern, flags=re.M):
    found = []
    for path, text in sources():
        for m in re.finditer(pattern, text, flags):
            line = text.count("\n", 0, m.start()) + 1
            found.append("%s:%d: %s" % (path, line, " ".join(m.group(0).split())[:100]))
    return found


def own_enums():
    """Enums of which one variant holds nothing or a refusal, and at most one other holds a value."""
    found = []
    for path, text in sources():
        for m in re.finditer(r"enum (\w+) \{\n(.*?)\n\}", text, re.S):
            inner = re.sub(r"\s*\{[^}]*\}", "(..)", m.group(2))
            variants = re.findall(r"^ {4}(\w+(?:\([^)]*\)+)?)", inner, re.M)
            refused = any(v.startswith("Refused") for v in variants)
            holding = [v for v in variants if "(" in v]
            if refused or (len(variants) == 2 and holding):
                found.append("%s: %s { %s }" % (path, m.group(1), ", ".join(variants)))
    return found


def flagged():
    """Structs with a flag, a refusal's number or a number that says how something ended, beside values."""
    found = []
    for path, text in sources():
        for m in re.finditer(r"struct (\w+) \{\n(.*?)\n\}", text, re.S):
            for f in re.findall(r"(\w+): (\w+)", m.group(2)):
                if f in [("refused", "u32"), ("refusal", "u32"), ("done", "bool"), ("found", "bool"),
                         ("stop_reason", "u32"), ("overflow", "u32")]:
                    found.append("%s: %s.%s" % (path, m.group(1), f[0]))
    return found


def twins():
    """Groups of functions that are one another but for names, numbers and types; three lines of body and more."""
    groups = collections.defaultdict(list)
    for path, text in sources():
        for name, head, body, line in functions(text):
            if body.count("\n") < 4:
                continue
            seen = {}
            def mark(m):
                return seen.setdefault(m.group(0), "n%d" % len(seen))
            head = re.sub(r"(requires|ensures).*", "", head, flags=re.S)
            shape = re.sub(r"[A-Za-z_]\w*(?:::\w+)*|\d+\w*", mark, re.sub(r"\s+|,(?=\s*[)}\]])", "", head + body))
            groups[shape].append("%s:%d: %s" % (path, line, name))
    return ["\n    ".join(g) for g in groups.values() if len(g) > 1]


def counted_loops():
    """Loops with an index that the body itself raises or lowers; a loop in a loop counts too."""
    found = []
    for path, text in sources():
        lines = text.split("\n")
        for i, line in enumerate(lines):
            m = re.match(r"^( *)while (.*) \{$", line)
            if not m:
                continue
            end = next(j for j in range(i + 1, len(lines)) if lines[j] == m.group(1) + "}")
            names = set(re.findall(r"\b(\w+) [+-]= 1;", "\n".join(lines[i + 1:end])))
            if any(re.search(r"\b%s\b" % n, m.group(2)) for n in names):
                found.append("%s:%d: while %s" % (path, i + 1, m.group(2)))
    return found


def other_loops():
    counted = {place.rsplit(": ", 1)[0] for place in counted_loops()}
    return [w for w in grep(r"^[^\n/]*\b(?:while|loop)\b[^\n]*\{$") if w.split(": ", 1)[0] not in counted]


def kinds():
    """Constants that number kinds: five or more in a file, each one more than the last."""
    found = []
    for path, text in sources():
        numbers = re.findall(r"^pub const ([A-Z_]+): u32 = (\d+);", text, re.M)
        if len(numbers) > 4 and [int(n) for _, n in numbers[:5]] == [0, 1, 2, 3, 4]:
            found += ["%s: %s" % (path, name) for name, n in numbers if int(n) < 100]
    return found


def same_clauses():
    """Facts that stand in the `requires` of three functions or more."""
    count = collections.Counter()
    for _, text in sources():
        for m in re.finditer(r"requires \{ (.*?) \}\n", text, re.S):
            for part in re.split(r" × ", " ".join(m.group(1).split())):
                count[part.strip("() ")] += 1
    return ["%d times: %s" % (n, c) for c, n in count.most_common() if n > 2]


def parameters():
    """Three parameters that stand together, name and type, in three functions or more."""
    count = collections.Counter()
    for _, text in sources():
        for m in re.finditer(r"fn \w+\((.*?)\)(?: ->|\n| \{)", text, re.S):
            names = re.findall(r"(\w+): ([^,]+?)(?:,|$)", " ".join(m.group(1).split()))
            for i in range(len(names) - 2):
                count[", ".join("%s: %s" % x for x in names[i:i + 3])] += 1
    return ["%d times: %s" % (n, c) for c, n in count.most_common() if n > 2]


def conversions():
    """Functions that only turn a kind into another: a ladder of tests, or a `match`, with a constant on each way."""
    found = []
    for path, text in sources():
        for name, _, body, line in functions(text):
            ladder = re.findall(r"if \w+ == (?:\w+::)?[\w]+ \{\n\s*return [\w:]+(?: \{|\(|;)", body)
            if len(ladder) > 1 and not re.search(r"\b(while|for|let)\b", body):
                found.append("%s:%d: %s" % (path, line, name))
    return found


POINTS = [
    ("1 own enums like Option or Result", own_enums),
    ("1 flags and numbers of refusals beside values", flagged),
    ("1 kinds as constants", kinds),
    ("1 kinds compared with a number", lambda: grep(r"\b(?:kind|mode|form|why|stop_reason|effect)\w* (?:==|!=) \d+\b")),
    ("1 refusals as numbers", lambda: grep(r"(?:Refused|Err|refus\w+)\(\d+\)|refus\w+: \d+|stop_reason: \d+")),
    ("2 groups of twins", twins),
    ("3 loops that count by hand", counted_loops),
    ("3 other while and loop", other_loops),
    ("4 conversions by a ladder of tests", conversions),
    ("4 functions that print into a lent buffer", lambda: grep(r"fn (?:put|print)\w*\(\s*out: &mut \[u8\]")),
    ("5 facts in three requires or more", same_clauses),
    ("5 three parameters together in three functions or more", parameters),
    ("6 buffers with a number beside them", lambda: grep(r"(?:\w+: &(?:mut )?\[u(?:8|32)\]), n: usize")),
    ("7 matches on what to do", lambda: grep(r"match (?:work|effect|part|piece|entry|form|kind)\w* \{")),
]

for title, count in POINTS:
    places = count()
    print("%4d  %s" % (len(places), title))
    if VERBOSE:
        for place in places:
            print("    " + place)
