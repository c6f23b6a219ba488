#!/usr/bin/env python3
"""Turns the names of this repository's own definitions, fields, constructors and lemmas to one spelling.

usage: python3 tools/respell.py [--list]      at the top of the repository; --list prints old and new, and changes nothing

A function, a field, a constructor and a lemma go in snake case, a fact (a definition whose value is a type) in upper camel
case. In a lemma's name the dashes stay where they join the names of functions alone, and else become `_`. Functions of src/,
strings and files keep their names. Where a new name stands already in a file that has the old one, `_of` goes behind a
definition and `_lem` behind a lemma.
"""

import glob
import re
import sys

WORD = r"A-Za-z0-9_'\u2032\u2080-\u2089\u0370-\u03ff\-"
TOKEN = re.compile(r"(?<![" + WORD + r"])[A-Za-z\u03b1-\u03c9][" + WORD + r"]*")
TOP = re.compile(r"^(?:(?:abbrev|unfoldable) )?(?:pub )?([^\s:(){}]+) :(?!:)(.*)$")
INSIDE = re.compile(r"^ +(?:abbrev )?(?:pub )?([a-z][" + WORD + r"]*(?: [a-z][" + WORD + r"]*)*) :(?!:)(.*)$")
# Words that stand in a library's names of lemmas as names of functions.
OF_THE_LIBRARY = set(
    "length append take drop set get_or map zero suc cons nil eqb ltb leb cond lt le eq true false add mul sub div mod reverse".split()
)


def texts(pattern):
    return sorted(p for p in glob.glob(pattern, recursive=True) if "/out/" not in p)


def snake(name):
    name = re.sub(r"(?<=[a-z0-9])([A-Z]+)(?=[A-Z][a-z])", lambda m: "_" + m.group(1).lower() + "_", name)
    name = re.sub(r"(?<=[a-z0-9])([A-Z]+)", lambda m: "_" + m.group(1).lower(), name)
    return re.sub(r"__+", "_", name)


def read(path):
    with open(path, encoding="utf-8") as f:
        return f.read()


def declared(antt):
    """Each name that a file declares: whether it is a member, and whether it is a lemma or a fact."""
    found = {}
    for path in antt:
        own = "/specs/" in path
        for line in read(path).split("\n"):
            m = TOP.match(line)
            if m and "tie." not in m.group(2):
                name = m.group(1)
                fact = own and re.search(r"Type \d\s*$", m.group(2)) is not None
                found.setdefault(name, set()).add("fact" if fact and not name[0].isupper() else "top")
                continue
            m = INSIDE.match(line)
            if m:
                for name in m.group(1).split(" "):
                    found.setdefault(name, set()).add("member")
            if line.startswith("use "):
                for name in re.findall(r" as ([a-z][" + WORD + r"]*)(?=[,}])", line):
                    found.setdefault(name, set()).add("top")
    return found


def renamed(antt):
    found = declared(antt)
    of_specs = {snake(m.group(1)) for p in antt if "/specs/" in p for m in [TOP.match(l) for l in read(p).split("\n")] if m and "-" not in m.group(1)}
    functions = of_specs | OF_THE_LIBRARY
    new = {}
    for name, kinds in sorted(found.items()):
        if not re.match(r"^[a-z][" + WORD + r"]*$", name):
            continue
        if "fact" in kinds:
            to = "".join(p[:1].upper() + p[1:] for p in re.split(r"[-_]", name))
        else:
            parts = [snake(p) for p in name.split("-")]
            to = ("-" if all(p in functions for p in parts) else "_").join(parts)
        if to != name:
            new[name] = to
    return found, new


def main(argv):
    antt = texts("crates/*/specs/**/*.antt") + texts("crates/*/proofs/**/*.antt")
    rt = texts("crates/*/src/**/*.rt")
    found, new = renamed(antt)
    inside = {p: free_words(p) for p in antt + rt}
    lemmas = {n for p in antt if "/proofs/" in p for n in declared([p])} | {n for n in new if "-" in n}
    lemmas -= {n for p in antt if "/specs/" in p for n in declared([p]) if "-" not in n}
    clashes, same = {}, {}
    for old, to in new.items():
        same.setdefault(to, set()).add(old)
    for p, words in inside.items():
        for old in words & set(new):
            if new[old] in words or (old in lemmas and (same[new[old]] - {old}) & words):
                clashes.setdefault(old, []).append(p)
    for old in clashes:
        new[old] += "_lem" if old in lemmas else "_of"
    if "--list" in argv:
        for old, to in sorted(new.items()):
            print(old, to, "clashed " + clashes[old][0] if old in clashes else "")
        return 0
    for p in antt + rt + texts("crates/*/must-fail/*.edit"):
        was = read(p)
        now = turn_code(was, new, found) if p.endswith(".antt") else turn_source(was, new)
        if now != was:
            with open(p, "w", encoding="utf-8") as f:
                f.write(now)
    for p in texts("*.md") + texts("docs/*.md"):
        was = read(p)
        now = re.sub(r"`[^`\n]*`", lambda m: TOKEN.sub(lambda t: new.get(t.group(0), t.group(0)), m.group(0)), was)
        if now != was:
            with open(p, "w", encoding="utf-8") as f:
                f.write(now)
    return 0


def free_words(path):
    """The words of a file that a name of its own could be taken for: in source those of clauses, and parameters."""
    text = read(path)
    if path.endswith(".rt"):
        clauses = [l for l in text.split("\n") if re.match(r"\s*(ghost|requires|ensures)\b", l)]
        bound = re.findall(r"(?<![\w:])([a-z]\w*): ", text)
        return set(re.findall(r"(?<![\w.'-])[A-Za-z][\w'-]*", "\n".join(clauses))) | set(bound)
    text = "\n".join(l.split("--")[0] if l.lstrip().startswith("--") else l for l in text.split("\n"))
    return {m.group(0) for m in TOKEN.finditer(text) if text[m.start() - 1 : m.start()] != "."} | set(re.findall(r"(?<=[A-Z])\w*\.([\w'-]+)", text))


def turn_code(text, new, found):
    def one(m):
        word = m.group(0)
        if word not in new:
            return word
        before = text[max(0, m.start() - 200) : m.start()]
        if before.endswith(".") and "member" not in found[word]:
            head = re.search(r"([" + WORD + r"]+)\.$", before)
            if not head or not head.group(1)[0].isupper():
                return word
        return new[word]

    return TOKEN.sub(one, text)


def turn_source(text, new):
    """In source: names with a capital inside anywhere but in strings, and names with a dash in lines of ghost items and clauses."""

    def line(it):
        dashes = re.match(r"\s*(ghost|requires|ensures)\b", it) is not None

        def one(m):
            word = m.group(0)
            if "-" in word and not dashes:
                return word
            if "-" not in word and word == word.lower():
                return word
            return new.get(word, word)

        parts = re.split(r'("(?:[^"\\]|\\.)*")', it)
        return "".join(p if i % 2 else TOKEN.sub(one, p) for i, p in enumerate(parts))

    return "\n".join(line(it) for it in text.split("\n"))


if __name__ == "__main__":
    raise SystemExit(main(sys.argv[1:]))
