"""Brings the names of definitions, lemmas and locals in specs/, proofs/ and clauses to one spelling: words in snake case, types in camel case.

usage: respell.py [--list]     at the top of the repository; --list writes what it would rename, and which names fall together.

Names that the toolchain makes (goals, what stands after a dot of a goal's parameter) stay, and so do functions, fields and strings of src/."""

import collections
import glob
import re
import sys

NAME = re.compile(r"[^\W\d][\w'′]*(?:-[\w'′]+)*")
# Names that would fall together with another name of their file, and what they are called in its place.
APART = {
    "atomsMore": "further_atoms",
    "no-formula": "none_is_no_formula",
    "compared-value": "compared_value_is",
    "tested-value": "tested_value_is",
    "fixed-known": "fixed_once_known",
    "expr-tree": "expr_tree_is",
    "formula-tree": "formula_tree_is",
    "of-kind": "is_of_kind",
    "size-of": "size_is",
    "nothing-known": "nothing_is_known",
}


def spelled(name):
    if name in APART:
        return APART[name]
    if name[0].isupper():
        return "".join(part[:1].upper() + part[1:] for part in re.split(r"[-_]", name)) if "-" in name else name
    name = name.replace("-", "_").replace("′", "'")
    return re.sub(r"(?<=[a-z0-9])[A-Z]", lambda m: "_" + m[0].lower(), name)


def is_old(name):
    return spelled(name) != name


def pieces(text, comment):
    """The text cut into (is_code, piece): comments and strings are no code."""
    pattern = re.compile(r'"(?:\\.|[^"\\\n])*"|' + comment + r"[^\n]*")
    at = 0
    for m in pattern.finditer(text):
        yield True, text[at : m.start()]
        yield False, m[0]
        at = m.end()
    yield True, text[at:]


def code_of(text, comment):
    return "".join(p if code else re.sub(r"[^\n]", " ", p) for code, p in pieces(text, comment))


def read(path):
    with open(path, encoding="utf-8") as f:
        return f.read()


def antt_files():
    return sorted(glob.glob("crates/*/specs/*.antt") + glob.glob("crates/*/proofs/**/*.antt", recursive=True))


def declared_in(code):
    """The names that a file declares: definitions, lemmas, records, fields, constructors and what it brings in under another name."""
    names = set()
    for line in code.split("\n"):
        m = re.match(r"\s*(?:(?:abbrev|unfoldable|mutual|pub)\s+)*(?:(?:record|data)\s+)?(%s)(?=\s*:|\s.*\s:\s)" % NAME.pattern, line)
        if m:
            names.add(m[1])
        names.update(re.findall(r"\bas (%s)" % NAME.pattern, line))
    return names


def own_crates():
    with open("crates.txt", encoding="utf-8") as f:
        return set(re.findall(r"^(\w+)(?: \w+)*:", f.read(), re.M))


def kept_in(code):
    """The names that others made: goals, and what a file brings in from a library of the toolchain."""
    names = set(re.findall(r"\bgoal\.(%s)" % NAME.pattern, code))
    own = own_crates()
    for crate, items in re.findall(r"\buse Rattle\.(\w+)[^{\n;]*\{([^}]*)\}", code):
        if crate not in own:
            names.update(item.split(" as ")[0].strip() for item in items.split(","))
    return names


def turn(text, comment, keep, declared):
    """Respells the names of a text that the repository declares, but for those to keep."""
    out = []
    for code, piece in pieces(text, comment):
        if code:

            def one(m):
                return spelled(m[0]) if m[0] in declared and m[0] not in keep else m[0]

            piece = NAME.sub(one, piece)
        out.append(piece)
    return "".join(out)


def main():
    listing = "--list" in sys.argv
    files = antt_files()
    codes = {f: code_of(read(f), "--") for f in files}
    names = {n for f in files for n in declared_in(codes[f]) - kept_in(codes[f]) if is_old(n)}
    sources = sorted(glob.glob("crates/*/src/**/*.rt", recursive=True))
    for f in files:
        keep = kept_in(codes[f])
        text = read(f)
        new = turn(text, "--", keep, names)
        report(f, codes[f], keep, names) if listing else write(f, text, new)
    for f in sources:
        for m in re.findall(r"\bas (%s)" % NAME.pattern, read(f)):
            if is_old(m) and not m[0].isupper():
                names.add(m)
    # An attribute names a lemma with _ for each hyphen.
    every = {n for f in files for n in declared_in(codes[f])}
    flat = {n.replace("-", "_"): spelled(n) for n in names if n.replace("-", "_") not in every}
    for f in sources + sorted(glob.glob("crates/*/must-fail/*.edit")):
        text = read(f)
        comment = "//" if f.endswith(".rt") else "\0"
        new = "".join(turn_source(p, names, flat) if code else p for code, p in pieces(text, comment))
        report_source(f, code_of(text, comment), names) if listing else write(f, text, new)


def turn_source(piece, names, flat):
    def one(m):
        n = m[0]
        if n in names:
            return spelled(n)
        cited = re.search(r"\bcrate::(?:proofs|specs)::\w+::$", piece[: m.start()])
        return flat.get(n, n) if cited else n

    return NAME.sub(one, piece)


def report(f, code, keep, declared):
    seen = collections.defaultdict(set)
    for m in NAME.finditer(code):
        n = m[0]
        seen[spelled(n) if n in declared and n not in keep else n].add(n)
    for new, olds in sorted(seen.items()):
        if len(olds) > 1:
            print(f"{f}: fall together as {new}: {', '.join(sorted(olds))}")


def report_source(f, code, names):
    words = set(NAME.findall(code))
    for n in sorted(words & names):
        if spelled(n) in words:
            print(f"{f}: {n} becomes {spelled(n)}, which stands there too")


def write(f, text, new):
    if new != text:
        with open(f, "w", encoding="utf-8") as out:
            out.write(new)


if __name__ == "__main__":
    main()
