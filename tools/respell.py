#!/usr/bin/env python3
"""Spells the names that specs/ and proofs/ of this repository declare as today's Rattle does: words in snake case.

usage: respell.py [--check]     at the top of the repository, after port.py; --check writes nothing and lists the rows

A name that begins in lower case and has a capital or a dash inside gets underscores: countsA is counts_a, gap-passed is
gap_passed, opcode-0A is opcode_0a. Types, facts and modules keep their names, and so do functions of src/, exported
names, strings, inputs and outputs. A name is turned wherever it stands as a whole word: in .antt files, in clauses, ghost
items and comments of .rt files, and in edits. A lemma that would fall together with a definition gets _lem behind its
name. A name that a file brings in from a library stays there.
"""

import collections
import os
import re
import sys

WORD = re.compile(r"[^\s(){}.;,@\"«»`\[\]]+")
DECLARED = re.compile(r"^ *(?:(?:abbrev|unfoldable|pub|ruleset) +)*([^\s(){}.;,@\"«»:]+)(?: \{[^{}\n]*\})*(?: +:(?= |$))")
USE = re.compile(r"^(?:pub )?(?:ghost )?use ([^\s;{]+?)\.\{([^}]*)\}")
STRING = re.compile(r'"(?:[^"\\\n]|\\.)*"')
# Lemmas that port.py spelled as a definition now is.
LEMMAS = {"byte_put": "byte_put_lem", "host_called": "host_called_lem"}
# Words of the papers in comments, which are spelled like a lemma.
ENGLISH = ("shift-register", "under-run")
COMMENT = re.compile(r"\s*(?:--|//)")
# Definitions that port.py respelled, which edits have as they were.
TURNED = (
    "addressOf afterCall allOf answerOf anyOf atB atEntry atExit atStart bitOf bitsOf byteAt byteOf bytesOf callOf countA"
    " countOf dataOf endOf entryOf firstOf flagsOf gapOf highOf inTurn isRegister isStore isWritten jumpTo lentOf linesOf"
    " loadOf lowByte machineOf modeOf movedTo nextOf noOperand numberOf operandAt pageOf pairOf passA passedBy placeOf"
    " plainOf putAll putAt putOf readAll readOf readOnly readsOf resultBy runFrom runOf saidOf startAt startOf stepOf"
    " storesOf sumAt sumOf testOf totalOf upTo valueOf wholeOf withC withI wordOf"
).split()
OF_A_FUNCTION = ("Proof.antt", "Answers.antt", "Invariants.antt")


def files(kinds):
    for folder, folders, names in os.walk("crates"):
        folders[:] = sorted(it for it in folders if it != "out")
        for name in sorted(names):
            if name.endswith(kinds):
                yield os.path.join(folder, name)


def read(path):
    with open(path, encoding="utf-8") as it:
        return it.read()


def snake(name):
    name = re.sub(r"-([0-9A-F]{2})$", lambda it: "_" + it[1].lower(), name)
    name = re.sub(r"([a-z0-9])([A-Z])", r"\1_\2", name)
    return re.sub(r"([A-Z])([A-Z][a-z])", r"\1_\2", name).replace("-", "_").lower()


def table():
    """The rows old to new of every declared name, and behind each file the names that it brings in from a library."""
    declared = set()
    brought = collections.defaultdict(set)
    for path in files((".antt",)):
        for line in read(path).splitlines():
            use = USE.match(line)
            if use and not use[1].startswith("Rattle."):
                brought[path].update(it.strip().split(" as ")[-1] for it in use[2].split(","))
            found = DECLARED.match(line)
            if found and os.path.basename(path) not in OF_A_FUNCTION:
                declared.add(found[1])
    rows = {it: snake(it) for it in declared if it[0].islower() and snake(it) != it}
    definitions = {new for old, new in rows.items() if "-" not in old}
    rows = {old: new + "_lem" if "-" in old and new in definitions else new for old, new in rows.items()}
    return rows, brought


def turned(text, rows):
    def line(it):
        own = {k: v for k, v in rows.items() if k not in ENGLISH} if COMMENT.match(it) else rows
        return WORD.sub(lambda word: own.get(word[0], word[0]), it)

    return "\n".join(map(line, text.split("\n")))


def turned_source(text, rows):
    parts, at = [], 0
    for string in STRING.finditer(text):
        parts += [turned(text[at : string.start()], rows), string[0]]
        at = string.end()
    return "".join(parts + [turned(text[at:], rows)])


def main():
    rows, brought = table()
    if "--check" in sys.argv[1:]:
        for old, new in sorted(rows.items()):
            print(f"{old}\t{new}")
        return
    changed = 0
    for path in files((".antt", ".rt", ".edit")):
        text = read(path)
        own = {old: new for old, new in rows.items() if old not in brought[path]}
        if path.endswith(".antt"):
            own.update(LEMMAS)
        if path.endswith(".edit"):
            own.update({it: snake(it) for it in TURNED})
        new = turned_source(text, own) if path.endswith(".rt") else turned(text, own)
        if new != text:
            with open(path, "w", encoding="utf-8") as it:
                it.write(new)
            changed += 1
    print(f"{len(rows)} names turned in {changed} files")


if __name__ == "__main__":
    main()
