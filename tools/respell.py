#!/usr/bin/env python3
"""tools/respell.py: gives the repository's own definitions and lemmas the spelling of the kit that crates.txt is proved with.

It was run once, after the kit's port.py, at the top of the repository. Words are in snake case: `isAbove` is `is_above` and `act-is` is
`act_is`; a name with a capital in front keeps its capitals and loses its dashes: `Inv-loop` is `InvLoop`. A lemma that would get the
name of a definition gets `_lem` behind it. Names that the kit makes (`invariant-loop`, `loop-test`) or exports stay, and so do the
names of Rust items, exported C names and strings. Edits that must fail follow, and pages name definitions as they are now. `--list`
prints the names and changes nothing.
"""

import collections
import os
import re
import sys

TOKEN = re.compile(r"[^\s(){}\[\];,.\"|@`]+")
NAME = r"[^\s(){}\[\];,.\"|@`:=]+"
MADE = re.compile(
    r"^(invariant-.*|decreases-.*|loop\d*-.*|returns-.*|After-.*|Need-.*|Lts-.*|calls-.*|enum-told\d*|shared-slice-known\d*"
    r"|turn-\d+|[a-z]-\d+|[ij]-end|Group-of|Span-of|not-nil|not-false|c-entry)$"
)
DECLARED = re.compile(rf"^\s*(?:(?:pub|abbrev|unfoldable|let|in)\s+)*({NAME}(?:\s+{NAME})*)\s*:\s")
HEAD = re.compile(rf"^\s*(?:(?:pub|abbrev)\s+)*(?:ruleset|data|record)\s+(?:pub\s+)?({NAME})")
BOUND = re.compile(rf"[({{]({NAME}(?:\s+{NAME})*)\s*:\s")
LIKE = re.compile(rf"(?:\bas|\blet|[λ])\s+({NAME}(?:\s+{NAME})*)")


# Lemmas that port.py gave the name that a definition gets here, by file.
LEMMAS = {
    "crates/roundtrip/proofs/AsRows.antt": ["step_row", "cell_row", "code_shape"],
    "crates/roundtrip/proofs/WrittenAgain.antt": ["step_row", "cell_row"],
    "crates/integrity/proofs/ByMachine.antt": ["turn_by"],
}


def code_of(text):
    """The lines of an .antt file without their comments."""
    return "\n".join(re.sub(r"(^|(?<=\s))--(?=\s|$).*", "", line) for line in text.split("\n"))


def sources(top):
    for folder, folders, files in os.walk(os.path.join(top, "crates")):
        folders[:] = [name for name in folders if name != "out"]
        yield from (os.path.join(folder, name) for name in files if name.endswith((".antt", ".rt")))


def pages(top):
    """The edits that must fail, and the pages that name definitions."""
    for folder, folders, files in os.walk(os.path.join(top, "crates")):
        folders[:] = [name for name in folders if name != "out"]
        yield from (os.path.join(folder, name) for name in files if name.endswith(".edit"))
    yield os.path.join(top, "README.md")
    yield from (os.path.join(top, "docs", name) for name in os.listdir(os.path.join(top, "docs")) if name.endswith(".md"))


def of_the_kit(module):
    parts = module.split(".")
    return parts[0] != "Rattle" or parts[1] in ("std", "io", "core", "os", "libc")


def read_names(top):
    """The words of the proofs, those of them that are declared here, those that the kit exports, and the words of the sources."""
    words, declared, kit, rust = set(), set(), set(), set()
    for path in sources(top):
        text = open(path, encoding="utf-8").read()
        code = code_of(text) if path.endswith(".antt") else text
        for module, names in re.findall(r"use ([\w·.+\-]+)\.\{([^}]*)\}", code):
            if of_the_kit(module):
                kit |= {name.strip().split(" as ")[0] for name in names.split(",")}
        if path.endswith(".rt"):
            rust |= set(re.findall(r"[A-Za-z_]\w*", code))
            continue
        words |= set(TOKEN.findall(code))
        for line in code.split("\n"):
            for pattern in (DECLARED, HEAD):
                found = pattern.match(line)
                if found:
                    declared |= set(found.group(1).split())
            for pattern in (BOUND, LIKE):
                for found in pattern.finditer(line):
                    declared |= set(found.group(1).split())
    return words, declared, kit, rust


def snake(word):
    return re.sub(r"(?<=[a-z0-9₀'])([A-Z])", lambda found: "_" + found.group(1).lower(), word).replace("-", "_")


def spelling(word):
    if word[0].isupper():
        return "".join(part[:1].upper() + part[1:] for part in word.split("-"))
    return snake(word)


def turned(top):
    """What each name becomes."""
    words, declared, kit, rust = read_names(top)
    camel = {word for word in words if re.match(r"[a-z]", word) and re.search(r"[a-z0-9][A-Z]", word)} - kit
    calls = {word for word in words if "-" in word and re.sub(r"\d+$", "", snake(word)) in rust}
    dashed = {word for word in words if "-" in word and re.match(r"[A-Za-zμ]", word) and (word in declared or word in calls)} - kit
    dashed = {word for word in dashed if not MADE.match(word)}
    names = {word: snake(word) for word in camel}
    taken = set(names.values()) | {word for word in declared if "-" not in word and word not in camel}
    for word in sorted(dashed - camel):
        new = spelling(word)
        if new in taken and not (word in calls and word not in declared):
            new += "_lem"
        names[word] = new
    return names


def main():
    top = os.getcwd()
    names = turned(top)
    together = collections.defaultdict(list)
    for word, new in names.items():
        together[new].append(word)
    calls = read_names(top)[3]
    for new, words in sorted(together.items()):
        if len([word for word in words if not ("-" in word and new in calls)]) > 1:
            sys.exit(f"{new} would be all of {words}")
    if "--list" in sys.argv:
        for word, new in sorted(names.items()):
            print(word, new)
        return
    for path in sources(top):
        own = {word: word + "_lem" for word in LEMMAS.get(os.path.relpath(path, top), [])} | names
        text = open(path, encoding="utf-8").read()
        parts = re.split(r'("(?:[^"\\\n]|\\.)*")', text)
        new = "".join(part if at % 2 else TOKEN.sub(lambda found: own.get(found.group(), found.group()), part) for at, part in enumerate(parts))
        if new != text:
            open(path, "w", encoding="utf-8").write(new)
    camel = {word: new for word, new in names.items() if "-" not in word}
    for path in pages(top):
        text = open(path, encoding="utf-8").read()
        table = camel if path.endswith(".md") else names
        new = TOKEN.sub(lambda found: table.get(found.group(), found.group()), text)
        if new != text:
            open(path, "w", encoding="utf-8").write(new)


if __name__ == "__main__":
    main()
