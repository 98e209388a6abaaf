#!/usr/bin/env python3
"""Counts in src/ of all crates, at a revision or in the work tree, the places that docs/DESIGN-PASS.md speaks of.

    tools/count_places.py [--list] [REVISION]
"""
import re
import subprocess
import sys

OWN = r"^(pub |pub\(crate\) )?enum \w+"
HANDED_ON = r"^\s*(None|_|Err\(\w+\)|Some\((\w+)\)|Ok\((\w+)\)) => (None|Ok\(\2\)|Err\(.*\)|unreachable!?\(\)|true|false|0|\d+|Value::\w+|\2|\3|Ok\(\3\)),?$"
REFUSING_BOOL = r"fn (add|put|push)\w*(<[^>]*>)?\(.*-> bool"
NUMBER_KIND = r"arity == 0|arity: 0,|0 < \w+\.arity|\w+ as u8 ==|mark(\.value)? [/%] 2"
RANGE_LOOP = r"^\s*('\w+: )?for \w+ in (\(?)[\w.()]+( \+ [\w.()]+)?\.\."
WHILE_LOOP = r"^\s*('\w+: )?while "
GUARDED = r"^\s*(if|return) .*\w\[\w[\w.]*\]|^\s*if [\w.]+ (<|>=) [\w.]+\.len\(\) \{"
BY_HAND = r"fn (same\w*|is_open|is_so|is_word|is_of|told|decided|told_of|value_word|kind_word|fault_of|refused|number|openness|certainty|mark_of|same_row|equal\w*|smaller|greater)\("
LENGTHS = r"^\s*(pub(\(crate\))? )?(count|len|nodes|next|places|sorts|held|values|set): (usize|\[.*\]|TupleSet|Vec<.*>),$"
POINTER = r": fn\(|\bdyn \w|\[fn\("


def files(revision):
    """The sources as (path, lines)."""
    if revision:
        names = subprocess.run(["git", "ls-tree", "-r", "--name-only", revision, "crates"], capture_output=True, text=True, check=True).stdout
    else:
        names = subprocess.run(["git", "ls-files", "-co", "--exclude-standard", "crates"], capture_output=True, text=True, check=True).stdout
    for name in sorted(set(names.split("\n"))):
        if re.search(r"/src/.*\.rt$", name) and "/examples/" not in name:
            if revision:
                text = subprocess.run(["git", "show", f"{revision}:{name}"], capture_output=True, text=True, check=True).stdout
            else:
                try:
                    text = open(name).read()
                except FileNotFoundError:
                    continue
            yield name, text.split("\n")


def lines_like(sources, pattern):
    """The lines that fit a pattern, but for contracts."""
    for name, lines in sources:
        for at, line in enumerate(lines, 1):
            if re.search(pattern, line) and not re.match(r"\s*(ensures|requires|ghost|//)", line):
                yield f"{name}:{at}: {line.strip()}"


def functions(sources):
    """Each function as (place, parameters, requires)."""
    for name, lines in sources:
        text = "\n".join(lines)
        for found in re.finditer(r"\bfn (\w+)(<(?:[^()]|\([^()]*\))*?>)?\(((?:[^()]|\([^()]*\))*)\)", text):
            depth, parameters = 0, 1 if found[3].strip() else 0
            for sign in found[3].rstrip().rstrip(","):
                depth += sign in "<([{"
                depth -= sign in ">)]}"
                parameters += sign == "," and depth == 0
            requires = []
            for line in text[found.end() :].split("\n")[1:]:
                if not re.match(r"\s*(requires|ensures|where|[A-Z]\w*:)", line):
                    break
                requires += re.findall(r"^\s*requires(?: \w+)? \{ (.*) \}", line)
            yield f"{name}:{text.count(chr(10), 0, found.start()) + 1}: fn {found[1]}", parameters, requires


def facts(sources):
    """The facts that three functions or more of a file's crate ask for."""
    asked = {}
    for place, _, requires in functions(sources):
        for fact in requires:
            asked.setdefault((place.split("/")[1], fact.strip()), []).append(place)
    for (crate, fact), places in sorted(asked.items()):
        if len(places) >= 3:
            yield f"{crate}: {len(places)} functions ask for {fact}"


def main():
    words = [word for word in sys.argv[1:] if word != "--list"]
    sources = list(files(words[0] if words else None))
    counts = [
        ("1 own enums, to be read for the shape of Option and Result", list(lines_like(sources, OWN))),
        ("1 arms that hand a Result or an Option on", list(lines_like(sources, HANDED_ON))),
        ("1 functions that refuse by a bool", list(lines_like(sources, REFUSING_BOOL))),
        ("1 numbers for kinds", list(lines_like(sources, NUMBER_KIND))),
        ("3 loops over a range", list(lines_like(sources, RANGE_LOOP))),
        ("3 loops under a condition", list(lines_like(sources, WHILE_LOOP))),
        ("3 elements taken after a test of the length", list(lines_like(sources, GUARDED))),
        ("4 equality, conversion and words by hand, by name", list(lines_like(sources, BY_HAND))),
        ("5 functions of five parameters or more", [f"{place} ({n})" for place, n, _ in functions(sources) if n >= 5]),
        ("5 facts that three functions or more ask for", list(facts(sources))),
        ("6 fields that stand beside another's length or values", list(lines_like(sources, LENGTHS))),
        ("7 tables of functions, function pointers, dyn", list(lines_like(sources, POINTER))),
    ]
    for title, places in counts:
        print(f"{len(places):4}  {title}")
        if "--list" in sys.argv:
            for place in places:
                print(f"          {place}")


main()
