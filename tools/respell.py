#!/usr/bin/env python3
"""Brings the names of this repository's own definitions and lemmas to snake case.

usage: python3 tools/respell.py        at the top, after the toolchain's port.py and before its changes are committed

port.py respells the names that fit a table of the library's. This does the rest: words in snake case, types and modules in camel
case. HEAD has the older spelling: a name is looked up as it stood there, file by file, since port.py can give two names one
spelling. A lemma that would have its definition's name gets `_lem`. Functions of src/, exported names, strings, inputs and
outputs keep their names. The table is written to tools/respelled.tsv: the older name, the name now.

The must-fail edits, the wrong definitions of harness/mutants.txt, README and docs/ get the names too. A second run does nothing.
"""
import collections
import os
import re
import subprocess

DEF = re.compile(
    r"^([ \t]*)((?:(?:abbrev|unfoldable|pub|data|record|private)[ \t]+)*)([^\s(){}\[\];,.λ]+)[ \t]*(?::(?![^\s])|[({][^\n]*:)", re.M
)
TOKEN = re.compile(r"[^\s(){}\[\];,.⌜⌝`\"]+")
OURS = re.compile(r"Rattle[.·]")
TYPES = {"bothArgs": "BothArgs"}


def git(*words):
    return subprocess.run(["git", *words], check=True, capture_output=True, text=True).stdout


def old_texts():
    """Every text of HEAD under crates/, by path."""
    paths = [p for p in git("ls-tree", "-r", "--name-only", "HEAD", "crates").splitlines() if p.endswith((".antt", ".rt"))]
    feed = "".join(f"HEAD:{p}\n" for p in paths)
    raw = subprocess.run(["git", "cat-file", "--batch"], input=feed.encode(), check=True, capture_output=True).stdout
    out, at = {}, 0
    for p in paths:
        end = raw.index(b"\n", at)
        size = int(raw[at:end].split()[2])
        out[p] = raw[end + 1 : end + 1 + size].decode()
        at = end + 1 + size + 1
    return out


def is_law(p):
    part = p.split("/")
    return p.endswith(".antt") and (part[2] == "specs" or (part[2] == "proofs" and len(part) == 4))


def without_comments(t):
    return re.sub(r"(--|//)[^\n]*", "", t)


def defined(t):
    return [m.group(3) for m in DEF.finditer(without_comments(t))]


def fields(t):
    """The fields of the records that a text declares."""
    out = set()
    for m in re.finditer(r"^([ \t]*)(?:pub )?record [^\n]*(?:\n(?:\1[ \t]+[^\n]*)?)*", without_comments(t), re.M):
        out.update(defined(m.group(0)))
    return out


def outside(t):
    """The names that a text imports from elsewhere than this repository's crates."""
    out = set()
    for m in re.finditer(r"^[ \t]*(?:(?:ghost|pub) )?use ([^\s;{]+?)(?:\.\{([^}]*)\}| as (\S+))?;?[ \t]*$", without_comments(t), re.M):
        if not OURS.match(m.group(1)):
            for it in (m.group(2) or m.group(3) or "").split(","):
                out.add(it.split(" as ")[-1].strip())
    return out


def snake(n):
    n = n.replace("getD", "get_or")
    return re.sub(r"(?<=[a-z0-9ℕ])([A-Z])", lambda m: "_" + m.group(1).lower(), n).replace("-", "_").replace("′", "'")


def table(old):
    names = set()
    for p, t in old.items():
        if is_law(p):
            names.update(defined(t))
    names = {n for n in names if re.match(r"[a-z]", n)}
    by = collections.defaultdict(set)
    for n in names:
        by[snake(n)].add(n)
    out = {}
    for n in sorted(names):
        to = TYPES.get(n) or snake(n)
        if "-" in n and any("-" not in m for m in by[snake(n)]):
            to += "_lem"
        if to != n:
            out[n] = to
    back = collections.defaultdict(set)
    for n in names:
        back[out.get(n, n)].add(n)
    for to, ns in sorted(back.items()):
        if len(ns) > 1:
            print(f"respell: {sorted(ns)} fall together as {to}")
    return out, names


def port_spellings(old, names):
    """What port.py made of each name: by the order of the definitions in each file of laws."""
    out = collections.defaultdict(set)
    for p, t in old.items():
        if is_law(p):
            a, b = defined(t), defined(open(p).read())
            if len(a) == len(b):
                for x, y in zip(a, b):
                    out[x].add(y)
    return {n: out[n] | {n} for n in names}


def pieces(t, comment):
    """A text in parts: (kind, part), kind one of code, comment, string."""
    return [(m.lastgroup, m.group(0)) for m in re.finditer(
        rf"(?P<comment>{comment}[^\n]*)|(?P<string>b?\"(?:\\.|[^\"\\\n])*\")|(?P<code>(?:(?!{comment}|b?\"(?:\\.|[^\"\\\n])*\").|\n)+)", t, re.S)]


def turn(t, names, comment, keep_dotted):
    def word(m):
        n = m.group(0)
        if n in names and not (keep_dotted and "-" in n and m.start() and m.string[m.start() - 1] == "." and n not in keep_dotted):
            return names[n]
        return n

    def prose(s):
        s = re.sub(r"`[^`\n]*`", lambda m: TOKEN.sub(word, m.group(0)), s)
        return TOKEN.sub(lambda m: names.get(m.group(0), m.group(0)) if re.match(r"[a-z0-9]+[A-Z]", m.group(0)) else m.group(0), s)

    return "".join(s if k == "string" else prose(s) if k == "comment" else TOKEN.sub(word, s) for k, s in pieces(t, comment))


def main():
    old = old_texts()
    names, every = table(old)
    spelled = port_spellings(old, every)
    known = set()
    for p, t in old.items():
        if is_law(p):
            known |= fields(t)
    for p, t in old.items():
        if not os.path.exists(p):
            print(f"respell: {p} is gone")
            continue
        said = set(TOKEN.findall(t))
        skip = outside(t)
        if not is_law(p):
            # what Rattle makes has Rattle's name
            skip |= set(re.findall(r"^[ \t]*(?:(?:abbrev|pub)[ \t]+)*([^\s(){}\[\];,.λ]+)[ \t]*:[ \t]*(?:tie|goal|\{M)\b", t, re.M))
        here = {}
        for n in every & said - skip:
            for s in spelled[n]:
                to = names.get(n, n)
                if here.setdefault(s, to) != to:
                    print(f"respell: {p}: {s} is both {here[s]} and {to}")
        here = {s: to for s, to in here.items() if s != to}
        now = open(p).read()
        # the names that an import gives
        for m in re.finditer(r"^[ \t]*(?:(?:ghost|pub) )?use [^;]*?(?=^\S|\n\n|;)", now, re.M):
            for n in re.findall(r" as ([a-z][^\s,;{}()]*)", m.group(0)):
                if snake(n) != n:
                    here[n] = snake(n)
        new = turn(now, here, "--" if p.endswith(".antt") else "//", known | {snake(k) for k in known} | {""})
        if new != now:
            open(p, "w").write(new)
    # what is not code: the names as they stood at HEAD
    for p in git("ls-files", "README.md", "docs", "harness", "crates/*/must-fail/*").splitlines():
        if not p.endswith((".md", ".txt", ".edit", ".rs")):
            continue
        t = open(p).read()
        if p.endswith((".md", ".rs")):
            new = re.sub(r"`[^`\n]*`", lambda m: TOKEN.sub(lambda w: names.get(w.group(0), w.group(0)), m.group(0)), t)
            new = TOKEN.sub(lambda m: names.get(m.group(0), m.group(0)) if re.match(r"[a-z0-9]+[A-Z]", m.group(0)) else m.group(0), new)
        else:
            new = "".join(
                TOKEN.sub(lambda w: names.get(w.group(0), w.group(0)), l) if re.match(r"(old|new): ", l) else l for l in t.splitlines(keepends=True)
            )
        if new != t:
            open(p, "w").write(new)
    with open("tools/respelled.tsv", "w") as f:
        for n, to in sorted(names.items()):
            f.write(f"{n}\t{to}\n")


main()
