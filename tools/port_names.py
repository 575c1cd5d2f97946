#!/usr/bin/env python3
"""Respells the repository's own lower camel case names (definitions, fields, constructors, lemmas) in snake case: livePosition is live_position, inTime-use is in_time-use.

usage: port_names.py [--dry]    once, at the top of the repository, right after port.py, before its commit
Takes names that an .antt file of crates/ declares, and no name of the libraries. Two lemmas whose names would fall together with a definition's new spelling
get another name first (LEMMAS). A name whose new spelling is already a word of the repository is respelled where no file has both words; else it is left and
printed as 'clash:'. Writes .antt, .rt and .edit files below crates/, and the words between backticks in README.md and docs/.
"""
import collections, glob, os, re, sys
dry = "--dry" in sys.argv
files = [p for p in glob.glob("crates/**/*", recursive=True) if "/out/" not in p and p.endswith((".antt", ".rt", ".edit"))]
pages = glob.glob("docs/**/*.md", recursive=True) + glob.glob("*.md")
TOK = re.compile(r"[^\W\d][\w']*(?:-[\w']+)*")
PART = re.compile(r"[^\W\d][\w']*")
text = {p: open(p).read() for p in files + pages}
was = dict(text)
LEMMAS = {"no_room": "recorded_few", "one_more": "one_more-read"}   # rules Plan/Ends, list Numbers: the definitions are noRoom and oneMore
LEMMA_CRATES = {"no_room": ("rules", "planner"), "one_more": ("list",)}
for a, b in LEMMAS.items():
    if any(re.search(r"(?<![\w'-])" + re.escape(b) + r"(?![\w'-])", t) for t in text.values()): sys.exit(f"{b} is a word already")
    for p in files:
        if p.endswith(".antt") and p.split("/")[1] in LEMMA_CRATES[a]:
            text[p] = re.sub(r"(?<![\w'-])" + a + r"(?![\w'-])", b, text[p])
def camel(w): return re.match(r"[a-z_]", w) and re.search(r"[a-z0-9][A-Z]", w) is not None
def snake(w):
    w = re.sub(r"([a-z0-9])([A-Z])", r"\1_\2", w)
    return re.sub(r"([A-Z])([A-Z][a-z])", r"\1_\2", w).lower()
declared = set()
for p, t in text.items():
    if not p.endswith(".antt"): continue
    for l in t.split("\n"):
        m = re.match(r"\s*(?:(?:abbrev|unfoldable|pub|record|data) )*([^\s:(){}]+)(?: [^:]*)? :(?: |$)", l)
        if m and not l.lstrip().startswith(("use ", "--")): declared.add(m.group(1))
        for m in re.finditer(r"[({,;]\s*([a-z][\w']*)(?: [a-z][\w']*)* : ", l):
            for w in m.group(0).strip("({,; ").split(" :")[0].split(): declared.add(w)
        for m in re.finditer(r"λ ([^.]*)\.", l):
            for w in re.findall(PART, m.group(1)): declared.add(w)
    for m in re.finditer(r"use [\w.+-]+ as ([\w-]+)", t): declared.add(m.group(1))
words = collections.Counter(); rustfns = set()
for p, t in text.items():
    if p in pages: continue
    words.update(PART.findall(t))
    if p.endswith(".rt"): rustfns |= set(re.findall(r"\bfn (\w+)", t))
declared |= {"outOfRoom", "inWait", "lateNow"}   # constructors, declared several in a line
parts = {x for d in declared for x in d.split("-") if camel(x) and any(y == x or x in y.split("-") for y in [d])}
own = {x for x in parts if x in declared or any(x in d.split("-") for d in declared)}
ren = {}; clash = []
taken = set(words)
whole = {p: set(TOK.findall(t)) for p, t in text.items() if p not in pages}
def apart(x, n):
    """no file has both names, whole or as parts that would make two whole names one"""
    for p, ws in whole.items():
        if x in ws and n in ws: return False
    return True
for x in sorted(own):
    n = snake(x)
    if n in taken and n not in rustfns and not apart(x, n): clash.append((x, n)); continue
    if n in rustfns and re.search(r"(?<![\w.])" + n + r"(?![\w'])\s*:", "\n".join(t for p, t in text.items() if p.endswith(".rt"))): clash.append((x, n)); continue
    ren[x] = n
two = [n for n, c in collections.Counter(ren.values()).items() if c > 1]
for n in two:
    for x in [x for x in ren if ren[x] == n]: clash.append((x, n)); del ren[x]
n = 0
pat = re.compile(r"(?<![\w'])(" + "|".join(sorted(map(re.escape, ren), key=len, reverse=True)) + r")(?![\w'])") if ren else None
# in pages also the names that port.py respelled
wholes = set().union(*whole.values())
page_word = re.compile(r"(?<![\w'./-])[a-z][\w']*(?:-[\w']+)*(?![\w'(-])")
def page_name(m):
    w = m.group(0)
    if w in ren: return ren[w]
    if "-" in w:
        w = "-".join(ren.get(x, x) for x in w.split("-"))
        return w if w in wholes or w.replace("-", "_") not in wholes else w.replace("-", "_")
    return snake(w) if camel(w) and w not in words and snake(w) in words else w
for p, t in text.items():
    if not pat: break
    if p.endswith(".rt"):   # leave Rust code alone: clauses and imports of ghost words only
        o = re.sub(r"^.*$", lambda m: pat.sub(lambda k: ren[k.group(1)], m.group(0)) if not m.group(0).lstrip().startswith("//") else m.group(0), t, flags=re.M)
    elif p in pages: o = re.sub(r"`[^`\n]*`", lambda m: page_word.sub(page_name, m.group(0)), t)
    else: o = pat.sub(lambda k: ren[k.group(1)], t)
    if o != was[p]:
        n += 1
        if not dry: open(p, "w").write(o)
print(f"{len(ren)} names in {n} files" + (" (dry)" if dry else ""))
print("names: " + ", ".join(f"{a}>{b}" for a, b in sorted(ren.items())))
print("clash: " + ", ".join(f"{a}>{b}" for a, b in clash))
