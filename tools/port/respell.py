#!/usr/bin/env python3
"""Brings a ported tree's own names to today's spelling. It runs after the kit's port.py; docs/PORT.md says when it ran.

usage: respell.py TREE [--dry] [--docs]   reads and writes every .rt, .antt and must-fail/*.edit below TREE/crates, the crates'
                                          folders and crates.txt; with --docs the pages (*.md outside crates/) too; with --dry
                                          it prints the table alone. A second run changes nothing.
       respell.py TREE --back OLD         undoes the names in memory and compares with the tree OLD, as it was before the run:
                                          prints what else differs. Exit status 1 if anything does.

1. camelCase words of definitions, fields, constructors, lemmas and local names become snake_case, word by word
   (a word stands between - _ . and brackets, so `answersOf-all` is `answers_of-all`); UpperCamel stays.
2. Crates named as a library of the kit are renamed (CRATES), in folders, crates.txt, `use` lines, `NAME::` and `Rattle.NAME.`.
3. A prime is ', the middle dots of old paths are dots.

Lines COLLISION name a word that stood beside the old one that becomes it: a look at each says whether two things fell together.
"""
import collections, os, re, subprocess, sys

CRATES = {"bytes": "octets", "hex": "hex_digits", "log": "event_log"}

# names of the older library that edits still write
OLD_STD = {"bitAnd": "bit_and", "getD": "get_or", "orElse": "or_else"}

CAMEL = re.compile(r"(?<![A-Za-z0-9])([a-z][a-z0-9]*(?:[A-Z][a-z0-9]*)+)(?![A-Za-z0-9])")
IDENT = re.compile(r"[^\s(){}.,;:\"\[\]`]+")


def snake(w):
    return re.sub(r"(?<=[a-z0-9])([A-Z])", lambda m: "_" + m.group(1).lower(), w)


def files(top):
    for d, ds, fs in os.walk(os.path.join(top, "crates")):
        ds[:] = sorted(x for x in ds if x not in ("out", ".git"))
        for f in sorted(fs):
            if f.endswith((".rt", ".antt")) or (f.endswith(".edit") and os.path.basename(d) == "must-fail"):
                yield os.path.join(d, f)


def read(p):
    with open(p, encoding="utf-8") as f:
        return f.read()


def pieces(t, rt):
    """The text as pairs (text, turn): of a .rt file the string literals are left alone."""
    if not rt:
        return [(t, True)]
    out, i = [], 0
    for m in re.finditer(r'//[^\n]*|b?"(?:\\.|[^"\\])*"', t):
        if m.group(0).startswith("//"):
            continue
        out += [(t[i:m.start()], True), (m.group(0), False)]
        i = m.end()
    return out + [(t[i:], True)]


def names(t, table):
    def one(m):
        w = m.group(1)
        return table.get(w, w)
    return CAMEL.sub(one, t)


def crate_paths(t, kind, crates=None):
    """Rattle.log. and log:: and use log; -- never a variable `log`."""
    for a, b in (crates or CRATES).items():
        t = re.sub(r"\bRattle[.\u00b7]" + a + r"(?=\.)", "Rattle." + b, t)
        if kind != "antt":
            t = re.sub(r"(?<![\w:.'])" + a + r"(?=::)", b, t)
            t = re.sub(r"(?m)^(\s*(?:pub )?use )" + a + r"(?=[;:])", r"\1" + b, t)
    return t


def turn(p, t, table):
    kind = "antt" if p.endswith(".antt") else "rt" if p.endswith(".rt") else "edit"
    t = "".join(names(x, table) if y else x for x, y in pieces(t, kind == "rt"))
    t = crate_paths(t, kind)
    if kind == "edit":
        t = re.sub(r"\bRattle\u00b7", "Rattle.", t)
    return t.replace("\u2032", "'")


# Identifiers that stand in the way of a derived name: (file, old name, pattern, new), done first, and only while the old name is there.
FIRST = [
    ("crates/snapshot/proofs/RoundTrip.antt", "restoredBy", r"(?m)^(pub )?restored_by(?=[ ])", r"\1from-restored_by"),
    ("crates/snapshot/proofs/Layouts.antt", "restoredBy", r"codec\.restored_by\b", r"codec.from-restored_by"),
]


def first(top, p, t, table):
    rel = os.path.relpath(p, top)
    for f, while_there, a, b in FIRST:
        if f == rel and while_there in t:
            t = re.sub(a, b, t)
    if p.endswith(".antt") and "/proofs/" in p:
        # `let places_of = c.places_of in` would hide the definition of that name
        for m in list(re.finditer(r"(?m)^ *let ([a-z_0-9]+) = (c(?:\.[\w-]+)*\.\1) in\n", t)):
            n = m.group(1)
            if any(table[w] == n and re.search(r"\b" + w + r"\b", t) for w in table):
                t = t.replace(m.group(0), "")
                t = re.sub(r"(?<![\w.'-])" + n + r"(?=\.)", m.group(2), t)
    return t


def derive(top):
    table, seen = {}, collections.Counter()
    for p in files(top):
        for x, y in pieces(read(p), p.endswith(".rt")):
            if y:
                for m in CAMEL.finditer(x):
                    seen[m.group(1)] += 1
    for w in seen:
        table[w] = OLD_STD.get(w) or snake(w)
    return table, seen


def collisions(top, table):
    """A new identifier that stood in a file already, beside the old one that becomes it."""
    found = []
    for p in files(top):
        if p.endswith(".edit"):
            continue
        ids = set()
        for x, y in pieces(read(p), p.endswith(".rt")):
            if y:
                x = re.sub(r"(?m)(--|//).*$", "", x)
                ids |= set(IDENT.findall(x))
        for w in sorted(ids):
            n = names(w, table)
            if n != w and n in ids:
                found.append((p, w, n))
    back = collections.defaultdict(list)
    for w, n in table.items():
        back[n].append(w)
    for n, ws in back.items():
        if len(ws) > 1:
            found.append(("(table)", " ".join(ws), n))
    return found


def main(argv):
    top = argv[0]
    table, seen = derive(top)
    if "--back" in argv:
        raise SystemExit(back(top, argv[argv.index("--back") + 1]))
    for w in sorted(table):
        print(f"{w} -> {table[w]}  ({seen[w]})")
    bad = collisions(top, table)
    for p, w, n in bad:
        print(f"COLLISION {os.path.relpath(p, top) if p[0] == '/' else p}: {w} -> {n}")
    if "--dry" in argv:
        return
    n = 0
    for p in list(files(top)):
        t = read(p)
        u = turn(p, first(top, p, t, table), table)
        if u != t:
            n += 1
            with open(p, "w", encoding="utf-8") as f:
                f.write(u)
    for a, b in CRATES.items():
        if os.path.isdir(os.path.join(top, "crates", a)):
            subprocess.run(["git", "-C", top, "mv", "crates/" + a, "crates/" + b], check=False)
            if os.path.isdir(os.path.join(top, "crates", a)):
                # what is not committed (out/) stays behind
                subprocess.run(["rm", "-rf", os.path.join(top, "crates", a)])
    if "--docs" in argv:
        docs(top, table)
    c = os.path.join(top, "crates.txt")
    t = read(c)
    u = "\n".join(l if l.startswith("#") else " ".join(re.sub(r"^(\w+)(:?)$", lambda m: CRATES.get(m.group(1), m.group(1)) + m.group(2), w) for w in l.split(" ")) for l in t.split("\n"))
    if u != t:
        with open(c, "w") as f:
            f.write(u)
    print(f"respell: {n} files written, {len(table)} words, {len(bad)} collisions")


def docs(top, table):
    """Pages: the table's words, and paths crates/NAME/ of the crates that are renamed."""
    for d, ds, fs in os.walk(top):
        ds[:] = [x for x in ds if x not in (".git", "crates", "out", "target", "build")]
        for f in fs:
            if f.endswith(".md"):
                p = os.path.join(d, f)
                t = read(p)
                u = names(t, table)
                for a, b in CRATES.items():
                    u = re.sub(r"\bcrates/" + a + r"\b", "crates/" + b, u)
                    u = re.sub(r"\bRattle[.\u00b7]" + a + r"(?=\.)", "Rattle." + b, u)
                if u != t:
                    open(p, "w").write(u)
                    print("page:", os.path.relpath(p, top))


def back(top, old):
    """Maps the new names back and compares with the tree before: nothing but names may differ."""
    table, _ = derive(old)
    inv = collections.defaultdict(set)
    for w, n in table.items():
        inv[n].add(w)
    crates = {b: a for a, b in CRATES.items()}
    diff = 0
    for p in files(old):
        rel = os.path.relpath(p, os.path.join(old, "crates")).split(os.sep)
        rel[0] = CRATES.get(rel[0], rel[0])
        q = os.path.join(top, "crates", *rel)
        if not os.path.exists(q):
            print("gone:", q)
            diff += 1
            continue
        a, b = read(p), read(q)
        # word by word: each pair of words is equal, or the table's, or a crate's
        wa, wb = re.findall(r"[A-Za-z0-9_']+|[^A-Za-z0-9_']", a.replace("\u2032", "'")), re.findall(r"[A-Za-z0-9_']+|[^A-Za-z0-9_']", b)
        if len(wa) != len(wb):
            print("length:", q, len(wa), len(wb))
            diff += 1
            continue
        for x, y in zip(wa, wb):
            if x != y and names(x, table) != y and CRATES.get(x) != y and not (x == "\u00b7" and y == "."):
                print("differs:", q, x, y)
                diff += 1
    print(f"back: {diff} differences beside names")
    return 1 if diff else 0


if __name__ == "__main__":
    main(sys.argv[1:])
