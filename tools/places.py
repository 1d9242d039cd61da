#!/usr/bin/env python3
"""Counts in src/ the places where an older form may stand, one kind a line; with a kind's name it lists them.

    tools/places.py [TREE] [KIND]

A place is where the source has the form, whether or not a better one exists: docs/DESIGN-PASS.md says which were changed and
why the others stay.
"""
import collections
import glob
import re
import sys


def sources(tree):
    for path in sorted(glob.glob(tree + "/crates/*/src/**/*.rt", recursive=True)):
        text = open(path).read()
        yield path[len(tree) + 1:], re.sub(r"//[^\n]*", lambda m: " " * len(m.group(0)), text)


def line_of(text, at):
    return text.count("\n", 0, at) + 1


def functions(text):
    """Each function: its name, its parameters as written, the clauses before its body, its body's start."""
    for m in re.finditer(r"\bfn (\w+)(?:<[^>]*>)?\(([^)]*)\)", text):
        yield m.start(), m.group(1), m.group(2)


def enums(text):
    for m in re.finditer(r"\benum (\w+) \{(.*?)\n\}", text, re.S):
        yield m.start(), m.group(1), [v.strip() for v in m.group(2).strip().rstrip(",").split(",\n") if v.strip()]


def places(tree):
    found = collections.defaultdict(list)
    signatures = collections.defaultdict(list)
    facts = collections.defaultdict(set)
    for path, text in sources(tree):
        def add(kind, at, what):
            found[kind].append("%s:%d: %s" % (path, line_of(text, at), what))
        for at, name, variants in enums(text):
            empty = [v for v in variants if re.match(r"(None|Nothing|End|Bad|Over|Unreadable|Refused)\b", v)]
            if empty:
                add("1a enums with a case for none or for a refusal", at, "%s: %s" % (name, ", ".join(empty)))
        for m in re.finditer(r"struct (\w+)(?:<[^>]*>)? \{(.*?)\n\}", text, re.S):
            fields = re.findall(r"(\w+): ([^,\n]+)", m.group(2))
            for f, t in fields:
                if re.fullmatch(r"(shown|alone|comes|some|is_\w+|has_\w+|found)", f) and t in ("bool", "usize", "u64"):
                    add("1b flags with a value beside them", m.start(), "%s.%s" % (m.group(1), f))
                if re.fullmatch(r"(kind|number|rule|cause|code)", f) and t in ("u64", "usize", "u8"):
                    add("1c numbers for kinds, causes or rules", m.start(), "%s.%s: %s" % (m.group(1), f, t))
        for m in re.finditer(r"\bkind: u64|\bword: u8|\bsign: u8|-> isize|\bgot: isize|fn rule_met\([^)]*\) -> u64", text):
            add("1c numbers for kinds, causes or rules", m.start(), m.group(0))
        for m in re.finditer(r"(?:Answer::Refused|Shifted::Refused|Err)\((\w+)\) => (?:(?:Answer|Shifted|Back)::Refused|Err)\(\1\)", text):
            add("1d arms that hand an error on", m.start(), m.group(0))
        for m in re.finditer(r"\b(while (?!let)[^{]+|loop )\{", text):
            add("3a while and loop", m.start(), m.group(1).strip())
        for m in re.finditer(r"\bfor \w+ in [^{]*\.\.[^{]*\{", text):
            add("3b for over a range of indices", m.start(), m.group(0).rstrip(" {"))
        for m in re.finditer(r"\bfn (wide|low|signed|tell\w*|number|value|one_if|column_of|stands_before|agrees|joined|longer|less|is_size|size|said|how|count)\(", text):
            add("4 equality, order, conversion and printing by hand", m.start(), m.group(1))
        for at, name, params in functions(text):
            names = re.findall(r"(\w+): ", params)
            for trio in (("c", "m", "layer"), ("c", "at", "layer"), ("p", "q", "u"), ("table", "layer", "line", "out"), ("table", "layer"),
                         ("mr", "r", "mw", "w"), ("mx", "x", "my", "y"), ("c", "at", "file")):
                if all(t in names for t in trio):
                    signatures[trio].append("%s:%d: %s" % (path, line_of(text, at), name))
        for m in re.finditer(r"requires \w* ?\{([^{}]*)\}", text):
            for fact in re.findall(r"Held c m layer\.\w+|Ready c m layer\.\w+ keys\.\w+|counts\.lines < 9223372036854775808|counts\.rows ≤ most_base|at \+ \(c \+ 2\) ≤ length layer\.\w+|InForm c \(length K\) m \w+\.now", m.group(1)):
                facts[re.sub(r"\.(now|old)", "", fact)].add("%s:%d" % (path, line_of(text, m.start())))
        for m in re.finditer(r"\[(?:u64|u8); (?:65|512|1536|2560|3072|4096|204800|16384|8192|5121)\]", text):
            add("6a buffers of fixed size", m.start(), m.group(0))
        for m in re.finditer(r"let mid = ", text):
            add("6b searches in order by hand", m.start(), "halving")
        for m in re.finditer(r"match word \{|match kind \{", text):
            add("7 switches on which step to run", m.start(), m.group(0))
    for trio, where in signatures.items():
        if len(where) >= 3:
            for w in where:
                found["5a parameters that travel together"].append("%s (%s)" % (w, ", ".join(trio)))
    for fact, where in facts.items():
        if len(where) >= 3:
            for w in sorted(where):
                found["5b facts in three contracts or more"].append("%s %s" % (w, fact))
    return found


def main():
    args = sys.argv[1:]
    tree = args.pop(0).rstrip("/") if args and "/" in args[0] or args and args[0] == "." else "."
    found = places(tree)
    if args:
        for kind in sorted(found):
            if kind.startswith(args[0]):
                print("\n".join(found[kind]))
        return
    for kind in sorted(found):
        print("%4d  %s" % (len(found[kind]), kind))


main()
