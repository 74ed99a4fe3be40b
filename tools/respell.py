#!/usr/bin/env python3
"""Turns the names of this repository's own definitions, lemmas and fields to today's spelling, once, behind the kit's port.py.

usage: tools/respell.py            at the top of the repository; files are rewritten in place

A word is in snake case: `recordLength` is `record_length`. A dash stays where it joins two names, as in `length-list_of`, and
elsewhere a plain word is joined by an underscore, as in `leaf_above`. Types keep their capitals. Functions of src/, exported
names, strings, inputs and outputs are not touched: in a .rt file only `ghost use` lines, clauses and words in backticks of
comments are. Must-fail edits are turned by the same words, and by those that the library has for its own.
"""
import glob
import re
import sys

WORD = re.compile(r"(?<![\w'-])[A-Za-z][\w']*(?:-[\w']+)*(?![\w'-])")
HEAD = re.compile(r"^((?:(?:abbrev|unfoldable|pub)\s+)*)(data |record )?([^\s:(){}=]+(?:\s+[^\s:(){}=]+)*)\s*(?:\([^)]*\)\s*|\{[^}]*\}\s*)*:\s")
FIELD = re.compile(r"^  (?:pub )?([^\s:(){}=]+(?:\s+[^\s:(){}=]+)*)\s*:\s")
MARKS = {"abbrev", "unfoldable", "pub", "data", "record"}

# names that have to be others: a tactic's, and those that would fall together with another
OTHERS = {
    "ground": "ground_level",
    "excess-at": "excess_at_lem",
    "record-length": "record_length_lem",
    "stand-in-from": "stand_in_from_lem",
    "one_more": "one_more_lem",
    "ownFirst": "own_first_of",
    "right-rank": "right_ranked",
    "stand-in": "standing_in",
    "hand-out": "handed_out",
}

# a fact, and so spelled as one; a field has the same name, and keeps it
FACT = re.compile(r"(?<![\w.'-])(?<!pub )strange(?![\w'-])(?! +[=:])|(?<=^abbrev pub )strange(?= : List)|^strange(?= t n i =)")

# what the library calls its own today, for the texts that port.py leaves
LIBRARY = {"getD": "get_or", "mul-comm": "mul_comm"}


def snake(word):
    return re.sub(r"(?<=[a-z0-9])([A-Z])", lambda m: "_" + m.group(1).lower(), word)


def names():
    """The names that this repository declares, those of function proofs' own goals left out."""
    found = set()
    for path in glob.glob("crates/*/specs/*.antt") + glob.glob("crates/*/proofs/**/*.antt", recursive=True):
        for line in open(path, encoding="utf-8"):
            if line.startswith(("--", "use ")) or ": tie." in line:
                continue
            m = HEAD.match(line) or FIELD.match(line)
            if m:
                found |= {n for n in m.group(m.lastindex).split() if n not in MARKS}
    return found


def spelled(name, known):
    if name in OTHERS:
        return OTHERS[name]
    if name[0].isupper() and "-" not in name:
        return name
    parts = [p if p[:1].isupper() else snake(p) for p in name.split("-")]
    out = parts[0]
    for left, right in zip(parts, parts[1:]):
        out += ("-" if left in known and right in known else "_") + right
    return out


def table():
    mine = names()
    known = {snake(n) for n in mine if "-" not in n and len(n) > 1} | {"length", "append", "take", "drop", "replicate", "get_or"}
    known -= {"all", "at", "end", "first", "last", "low", "high", "none", "some", "same", "in", "is", "to", "up", "own", "here", "left", "right", "some", "three", "four", "five", "seven", "nine", "twelve", "fourteen", "again", "before", "after", "behind", "under", "through", "with", "few", "long", "half", "every", "above", "below", "closed", "done", "ahead", "said", "told", "seen", "read", "reads", "says", "stands", "stays", "starts", "ends", "goes", "going", "holds", "lies", "fits", "part", "parts", "place", "places", "next", "once", "new", "old"}
    turned = {n: spelled(n, known) for n in mine}
    back = {}
    for n, t in sorted(turned.items()):
        back.setdefault(t, []).append(n)
    for t, ns in back.items():
        if len(ns) > 1:
            print(f"fall together: {', '.join(ns)}: {t}", file=sys.stderr)
    return {n: t for n, t in turned.items() if n != t}


def words(text, turned):
    return WORD.sub(lambda m: turned.get(m.group(0), m.group(0)), text)


def ticked(text, turned):
    return re.sub(r"`[^`\n]*`", lambda m: words(m.group(0), turned), text)


def antt(text, turned):
    out = []
    for line in text.splitlines(keepends=True):
        code, dash, comment = line.partition("--") if re.match(r"\s*--", line) else (line, "", "")
        out.append(words(FACT.sub("IsStrange", code), turned) + dash + ticked(FACT.sub("IsStrange", comment), turned))
    return "".join(out)


def rattle(text, turned):
    out = []
    for line in text.splitlines(keepends=True):
        if re.match(r"\s*//", line):
            out.append(ticked(line, turned))
        elif re.match(r"\s*(ghost use|requires|ensures)\b", line):
            out.append(words(line, turned))
        else:
            out.append(line)
    return "".join(out)


def today(word, turned):
    """A word of an edit, which port.py leaves: this repository's own, the library's, or one that port.py turns elsewhere."""
    if word in turned:
        return turned[word]
    if word in LIBRARY:
        return LIBRARY[word]
    return snake(word) if word[0].islower() and "-" not in word else word


def edit(text, turned):
    """An edit's texts, as the files read that they are for."""
    out, name = [], ""
    for line in text.splitlines(keepends=True):
        m = re.match(r"(file|old|new):(.*)", line, re.S)
        if m and m.group(1) == "file":
            name = m.group(2).strip()
        if m and m.group(1) != "file" and (name.endswith(".antt") or re.search(r"\b(requires|ensures)\b", line)):
            line = m.group(1) + ":" + WORD.sub(lambda w: today(w.group(0), turned), m.group(2))
        elif line.startswith("#"):
            line = ticked(line, turned)
        out.append(line)
    return "".join(out)


def main():
    turned = table()
    for pattern, turn in (("crates/*/specs/**/*.antt", antt), ("crates/*/proofs/**/*.antt", antt), ("crates/*/src/**/*.rt", rattle), ("crates/*/must-fail/*.edit", edit)):
        for path in sorted(glob.glob(pattern, recursive=True)):
            with open(path, encoding="utf-8") as f:
                was = f.read()
            now = turn(was, turned)
            if now != was:
                with open(path, "w", encoding="utf-8") as f:
                    f.write(now)
    for n, t in sorted(turned.items()):
        print(n, t)


if __name__ == "__main__":
    main()
