#!/usr/bin/env python3
"""Brings the repository's own definitions and lemmas to snake case: firstNo becomes first_no, below-no becomes below_no.

    python3 tools/snake_names.py          # in the repository's root, once, after the toolchain's port.py

It renames what specs/ and the lemma files of proofs/ declare, wherever that is cited: .antt and .rt files (in comments
only between backquotes), must-fail edits, and the pages' backquoted words. Functions of src/, exported names, types and
modules, strings, inputs and outputs keep their names. Where a law's name would be that of a definition, the law keeps its dash.
"""
import collections
import pathlib
import re
import sys

WORD = r"[^\s(){}\[\],;.:\"«»`@|\\]+"
DECLARED = re.compile(r"(?m)^( *)(?:(?:abbrev|unfoldable|open) +)?(?:pub +)?(" + WORD + r") : ")
# Laws that port.py put into snake case, and whose names would be those of a definition of the same file.
BACK = {"by_itself": "by-itself", "in_place_of": "in-place-of", "one_number": "one-number", "part_no": "part-no", "read_answer": "read-answer"}
GIVEN = {"Proof.antt", "Invariants.antt", "Answers.antt"}


def lemma_file(path):
    """Whether a file of specs/ or proofs/ is one of definitions or lemmas, and not a function's own proof."""
    return path.suffix == ".antt" and path.name not in GIVEN


def snake(name):
    if not re.match(r"[a-z]", name):
        return name
    if not (re.search(r"-", name) or re.search(r"[a-z0-9][A-Z]", name)):
        return name
    if re.search(r"[^\w\-'₀-₉′]", name):
        return name
    return re.sub(r"_+", "_", re.sub(r"(?<=[a-z0-9])([A-Z])", r"_\1", name).lower().replace("-", "_"))


def code_and_comments(text, mark):
    """The pieces of a text, each with whether it is a comment."""
    for line in text.split("\n"):
        at = None
        for found in re.finditer(re.escape(mark), line):
            before = line[: found.start()]
            if before.count('"') % 2 == 0 and (not before or before[-1] in " \t"):
                at = found.start()
                break
        yield (line, "") if at is None else (line[:at], line[at:])


def renamed(text, mark, names):
    def word(found):
        return names.get(found.group(), found.group())

    def code(piece):
        return re.sub(WORD, word, piece)

    def comment(piece):
        return re.sub(r"`[^`]*`", lambda found: code(found.group()), piece)

    if mark is None:
        return comment(text)
    return "\n".join(code(a) + comment(b) for a, b in code_and_comments(text, mark))


def of_the_library(paths):
    """The names that the files bring in from elsewhere."""
    own = {path.name for path in pathlib.Path("crates").iterdir()}
    found = set()
    for path in paths:
        for module, names in re.findall(r"(?m)^(?:ghost |pub )*use ([^\s{;]+)\{([^}]*)\}", path.read_text()):
            parts = module.split(".")
            if parts[0] != "Rattle" or parts[1] not in own:
                found.update(re.split(r"[,\s]+", names))
    return found


def main():
    crates = pathlib.Path("crates")
    rt = [p for p in sorted(crates.rglob("*.rt")) if "out" not in p.parts]
    antt = [p for p in sorted(crates.rglob("*.antt")) if "out" not in p.parts]
    declared = collections.defaultdict(set)
    for path in antt:
        if lemma_file(path):
            for found in DECLARED.finditer(path.read_text()):
                declared[found.group(2)].add(str(path))
    for path in antt + rt:
        for found in re.finditer(r"(?<=[\w'-]) as ([a-z]" + WORD[:-1] + r"*)(?=[,}])", path.read_text()):
            declared[found.group(1)].add(str(path))
    names = {old: snake(old) for old in declared if snake(old) != old}
    cased = {new for old, new in names.items() if "-" not in old}
    names = {old: new for old, new in names.items() if "-" not in old or new not in cased and new not in declared}
    taken = of_the_library(antt + rt)
    names = {old: new for old, new in names.items() if old not in taken}
    names.update(BACK)
    if "--list" in sys.argv:
        for old, new in sorted(names.items()):
            print(old, new)
        return
    for path in antt + rt:
        text = path.read_text()
        own = {}
        if path.suffix == ".antt" and not lemma_file(path):
            own = {found.group(2) for found in DECLARED.finditer(text)}
        these = {old: new for old, new in names.items() if old not in own}
        new = renamed(text, "--" if path.suffix == ".antt" else "//", these)
        if new != text:
            path.write_text(new)
    for path in sorted(crates.rglob("must-fail/*.edit")):
        lines = []
        for line in path.read_text().split("\n"):
            head, colon, rest = line.partition(":")
            if head in ("old", "new"):
                rest = re.sub(WORD, lambda found: names.get(found.group(), found.group()), rest)
            lines.append(head + colon + rest)
        path.write_text("\n".join(lines))
    for path in [pathlib.Path("README.md"), *sorted(pathlib.Path("docs").glob("*.md")), *sorted(pathlib.Path("package").rglob("README.md"))]:
        text = path.read_text()
        new = renamed(text, None, names)
        if new != text:
            path.write_text(new)


main()
