#!/usr/bin/env python3
"""Respells this repository's own definitions, lemmas, fields and clause names, once, after the script port.py of the toolchain.

usage: python3 tools/respell.py      at the top of the repository

Names in snake case in place of dashes, facts in camel case, and names from the source as they stand there. What a name was made of by
Rattle (goals and steps in proofs/F/) keeps its dashes, and so do the lemmas of std. Prints names that fall together.
"""
import os
import re
import sys

# where the plain rule would meet another name
CHOSEN = {
    "All-formed": "AllFormed",
    "one-deeper": "deeper_fault",
    "bit-and": "bit_of_and",
    "bit-or": "bit_of_or",
}
TOKEN = re.compile(r"[A-Za-z_](?:[A-Za-z0-9_'+]|-(?=[A-Za-z0-9]))*")
SIGNATURE = re.compile(r"^\s*(?:(?:abbrev|unfoldable|pub)\s+)*([^\s(){}\[\]:,;]+)\s*:(?!:)")
TYPE = re.compile(r"^\s*(?:pub\s+)?(?:data|record)\s+(?:pub\s+)?([^\s(){}\[\]:,;]+)")
SOURCE = re.compile(r"\b(?:ensures\*?|requires\*?|fn)\s+([a-z][a-z0-9_]*)|\bghost\s+([a-z][a-z0-9_]*)\s*:")


def texts(ends):
    for folder, dirs, files in os.walk("crates"):
        dirs[:] = sorted(d for d in dirs if d not in ("out", ".git"))
        for name in sorted(files):
            if name.endswith(ends):
                yield os.path.join(folder, name)


def read(path):
    with open(path, encoding="utf-8") as f:
        return f.read()


def is_shared(path):
    """A file of specs/, or a lemma file right in proofs/, as against the proof of one function."""
    return os.path.basename(os.path.dirname(path)) in ("specs", "proofs")


def spelling(name):
    if name in CHOSEN:
        return CHOSEN[name]
    if name[0].isupper():
        return "".join(part[0].upper() + part[1:] for part in name.split("-"))
    return name.replace("-", "_")


def main():
    own, source, all_names = set(), set(), {}
    for path in texts((".antt",)):
        if not is_shared(path):
            continue
        for line in read(path).split("\n"):
            if re.match(r"\s*(use|mod|pub mod|--|let)\b", line):
                continue
            for found in (SIGNATURE.match(line), TYPE.match(line)):
                if found:
                    all_names.setdefault(found.group(1), set()).add(path)
    own = {name for name in all_names if "-" in name and TOKEN.fullmatch(name)}
    for path in texts((".rt",)):
        for found in SOURCE.finditer(read(path)):
            name = found.group(1) or found.group(2)
            if "_" in name:
                source.add(name)
    turn = {name: spelling(name) for name in own}
    for name in source:
        dashed = name.replace("_", "-")
        if dashed not in turn:
            turn[dashed] = name
    turn.update({name: new for name, new in CHOSEN.items()})
    for name in sorted(own):
        for path in sorted(all_names[name]):
            new = turn[name]
            if path in all_names.get(new, ()):
                print(f"fall together in {path}: {name} and {new}", file=sys.stderr)
            if re.search(r"(?<![A-Za-z0-9_.'-])" + re.escape(new) + r"(?![A-Za-z0-9_'-])", read(path)):
                print(f"look: {path} has {new} beside {name}", file=sys.stderr)
    def word(found):
        return turn.get(found.group(0), found.group(0))

    def antt_line(line):
        code, dashes, comment = (line, "", "") if " -- " not in line and not line.lstrip().startswith("--") else line.partition("--")
        return TOKEN.sub(word, code) + dashes + comment

    def source_line(line):
        if not re.search(r"\b(ghost|ensures|requires)\b", line):
            return line
        line = re.sub("\u00ab([^\u00ab\u00bb]*)\u00bb", lambda found: turn.get(found.group(1), spelling(found.group(1))), line)
        return TOKEN.sub(word, line)

    for ends, turned in ((".antt", antt_line), (".rt", source_line)):
        for path in texts((ends,)):
            old = read(path)
            new = "\n".join(turned(line) for line in old.split("\n"))
            if new != old:
                with open(path, "w", encoding="utf-8") as f:
                    f.write(new)


main()
