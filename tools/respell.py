#!/usr/bin/env python3
"""Brings the repository's own definitions, fields, constructors and lemmas to the library's spelling, after port.py.

usage: respell.py [ROOT] [--dry]      ROOT: the repository's top (default: here)

- A definition, a field or a constructor is in snake case, a fact (what answers a Type) in upper camel case.
- In a lemma's name a dash stays between two names of definitions (length-put); a plain word is added with _ (bad_byte_is).
- A lemma whose name would be that of a definition gets _lem.
Names of functions in src/, strings and file names stay. Every token of the .antt and .rt files and of the must-fail edits is
turned alike, so that no reference is lost. Names that fall together are listed and nothing is written.
"""
import collections, glob, os, re, sys

root = next((a for a in sys.argv[1:] if not a.startswith("--")), ".")
dry = "--dry" in sys.argv
os.chdir(root)

WORD = re.compile(r"[^\s(){}\[\];,.:\"`|&+*/<>=≡≤≢×→↔λ⊎∷◌!@#$%^~\\?]+")
DEF = re.compile(r"^(?P<ind> *)(?P<kw>(?:pub |abbrev |unfoldable )*)(?P<name>[^\s:(){}\[\].,;=λ→⌜]+)(?: *(?:\([^:]*:[^()]*\)|\{[^:]*:[^{}]*\}))* *:(?: |$)")
HEAD = re.compile(r"^ *(?:pub )?(?:data|record|module) +(?:pub )?(?P<name>\S+)")

def files():
    for p in sorted(glob.glob("crates/*/specs/*.antt") + glob.glob("crates/*/proofs/*.antt")):
        yield p

def snake(n):
    return re.sub(r"(?<=[a-z0-9])([A-Z])", lambda m: "_" + m.group(1).lower(), n)

def camel(n):
    return "".join(w[:1].upper() + w[1:] for w in re.split(r"[-_]", n))

defs, members, lemmas, facts = {}, {}, {}, {}
for p in files():
    t = open(p, encoding="utf-8").read().split("\n")
    block = None            # a record or data block's indentation
    for i, l in enumerate(t):
        if not l.strip() or l.lstrip().startswith("--"):
            continue
        ind = len(l) - len(l.lstrip())
        if block is not None and ind <= block:
            block = None
        h = HEAD.match(l)
        if h and re.match(r"^ *(pub )?(data|record) ", l):
            block = ind
            continue
        m = DEF.match(l)
        if not m or m.group("name") in ("use", "where", "in", "let"):
            continue
        n = m.group("name")
        if block is not None:
            if ind == block + 2:
                members.setdefault(n, set()).add(p)
            continue
        # where-bound helpers are deeper than a module's level
        if ind > 2 or (ind == 2 and not re.search(r"^module\b", "\n".join(t[:i]), re.M)):
            continue
        sig = l
        j = i + 1
        while j < len(t) and t[j].startswith(" " * (ind + 4)):
            sig += " " + t[j].strip(); j += 1
        if re.search(r"(→|:) *Type [01] *$", sig):
            facts.setdefault(n, set()).add(p)
        elif "/specs/" in p:
            defs.setdefault(n, set()).add(p)
        else:
            lemmas.setdefault(n, set()).add(p)

known = set(defs) | set(members) | set(facts)
# names of the library that lemmas are named after
known |= {"length", "take", "drop", "get", "get_or", "set", "map", "fold", "min", "max", "reverse", "append", "all", "first"}

new = {}
for n in sorted(facts):
    if n[:1].islower():
        new[n] = camel(n)
for n in sorted(set(defs) | set(members)):
    if n in new or n[:1].isupper():
        continue
    s = snake(n).replace("-", "_")
    if s != n:
        new[n] = s
spelled = lambda w: new.get(w, w)
for n in sorted(lemmas):
    if n in new or n in defs or n in members or n in facts:
        continue
    parts = n.split("-")
    out = snake(parts[0])
    for a, b in zip(parts, parts[1:]):
        out += ("-" if a in known and b in known else "_") + snake(b)
    if out != n:
        new[n] = out

# where the plain spelling would fall together with another name in one file
CHOSEN = {
    "bit-or": "bit_or_lem", "bring-up": "bring_up_is", "isAccepted": "was_accepted", "list-rule": "list_a_rule",
    "lone-dash": "lone_dash_is", "two-labels": "two_labels_is", "well-formed": "well_formed_is",
    "fresh-loader": "fresh_loader_is", "option-bytes": "option_bytes_are", "read-execute": "read_execute_is",
    "transmute-letter": "transmute_letter_is", "write-letter": "write_letter_is", 
    "fitsARecord": "fits_a_record", "notInARecord": "not_in_a_record", "asksAQuestion": "asks_a_question",
    # types and variables
    "Called-begin": "CalledBegin", "Called-feed": "CalledFeed", "Called-finish": "CalledFinish", "new-transmutes": "new_transmutes",
    "folderTransmutes": "folder_transmutes", "isFolder": "is_folder", "newTransmutes": "new_transmutes",
    "objectNumber": "object_number_of", "subjectNumber": "subject_number_of", "noNewline": "no_newlines",
}
new.update(CHOSEN)
every = set(defs) | set(members) | set(lemmas) | set(facts)
paths = sorted(glob.glob("crates/*/specs/**/*.antt", recursive=True) + glob.glob("crates/*/proofs/**/*.antt", recursive=True))
plain = {}
for p in paths:
    t = "\n".join(re.split(r"(?:^| )-- ", l)[0] for l in open(p, encoding="utf-8").read().split("\n"))
    plain[p] = {m.group(0) for m in WORD.finditer(t) if t[m.start() - 1:m.start()] != "."}
IMPORT = re.compile(r"^\s*use (Rattle\.\w+\.(?:specs|proofs)\.[\w.]+)\.\{([^}]*)\}", re.M)
module = lambda p: "Rattle." + p.split("/")[1] + "." + p.split("/")[2] + "." + p.split("/")[3][:-5]
declares = collections.defaultdict(set)
for k in (defs, members, lemmas, facts):
    for n, ps in k.items():
        for p in ps:
            declares[n].add(p)
# a lemma that is in snake case already, and whose name a definition now takes: turned where it is declared or imported, and nowhere else
local = collections.defaultdict(dict)
trouble = []
inv = collections.defaultdict(set)
for o in every:
    inv[new.get(o, o)].add(o)
for s, olds in sorted(inv.items()):
    if len(olds) < 2:
        continue
    clash = [p for p, words in plain.items() if len(olds & words) > 1]
    if not clash:
        continue
    weak = sorted(o for o in olds if not any("/specs/" in p for p in declares[o]))
    strong = sorted(o for o in olds if o not in weak)
    if len(strong) != 1:
        # a member of a record beside a definition: told apart where both stand in one file
        weak = sorted(o for o in olds if o not in defs and o not in facts and not any("/specs/" in p for p in declares[o] & set(clash)))
        strong = sorted(o for o in olds if o not in weak)
    if len(strong) > 1 or not weak:
        trouble.append((s, sorted(olds), clash))
        continue
    if not strong:
        weak = sorted(weak, key=lambda o: (o == s, o))[:-1]
    for o in weak:
        if o != s:
            new[o] = s + "_lem"
            continue
        homes = {p for p in declares[o] if "/proofs/" in p}
        for p in plain:
            imported = {m.group(1) for m in IMPORT.finditer(open(p, encoding="utf-8").read()) if o in re.split(r"[,\s]+", m.group(2))}
            if p in homes or imported & {module(h) for h in homes}:
                local[p][o] = s + "_lem"
paths = sorted(glob.glob("crates/*/specs/**/*.antt", recursive=True) + glob.glob("crates/*/proofs/**/*.antt", recursive=True) + glob.glob("crates/*/src/**/*.rt", recursive=True) + glob.glob("crates/*/must-fail/*.edit"))
texts = {p: open(p, encoding="utf-8").read() for p in paths}
for s, olds, where in trouble:
    print("falls together:", s, olds, where)
print(f"{len(new)} names are respelled: {sum(n in facts for n in new)} facts, {sum(n in defs for n in new)} definitions, {sum(n in members for n in new)} members, {sum(n in lemmas for n in new)} lemmas")
if "--list" in sys.argv:
    for o, s in sorted(new.items()):
        print(f"{o}\t{s}")
if trouble or dry:
    sys.exit(1 if trouble else 0)
n = 0
for p, t in texts.items():
    names = {**new, **local.get(p, {})}
    if p.endswith(".rt"):
        names = {o: v for o, v in new.items() if re.search(r"[-A-Z]", o)}
    here = local.get(p, {})
    # a name that this file has of the library keeps the library's spelling
    theirs = {n for m in re.finditer(r"^\s*(?:ghost )?use (?!Rattle\.)[\w.]+\.\{([^}]*)\}", t, re.M) for n in re.split(r"[,\s]+", m.group(1))}
    names = {o: v for o, v in names.items() if o not in theirs}

    mark = "//" if p.endswith(".rt") else "--"

    def turn(m):
        w = m.group(0)
        line = t[t.rfind("\n", 0, m.start()) + 1:m.start()]
        if re.search(r"(?:^|\s)" + mark + r"(?:\s|$)", line) and not re.search(r"[a-z][A-Z]", w):
            return w        # a word of a comment
        if w in here:
            # its own name only: not a field or a part of a path
            return w if t[m.start() - 1:m.start()] == "." else here[w]
        return names.get(w, w)

    u = WORD.sub(turn, t)
    if u != t:
        n += 1
        open(p, "w", encoding="utf-8").write(u)
print(f"{n} files changed; names turned in single files: " + ", ".join(sorted({o for v in local.values() for o in v})))
