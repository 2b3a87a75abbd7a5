#!/usr/bin/env python3
"""Gives the repository's own words of specs/ and proofs/ the spelling of today's Rattle: snake case.

usage: tools/port/snake_names.py [TOP]     after port.py, once, in the checkout TOP (the current folder)

port.py turns the library's words and leaves the definitions, lemmas and variables of the repository. A word
that begins with a small letter and has a capital inside is turned here, in .antt files, in the clauses of .rt
files and in must-fail edits: `headerBytes` becomes `header_bytes`. Strings, code and names of types stay.
Where the turned word would meet a lemma of the same file, that lemma gets `_lem` after its name.
"""

import os
import re
import sys

WORD = re.compile(r"(?<![\w'\\])[a-z][a-z0-9']*[A-Z][\w']*")
# of the library, which has them in this spelling
FOREIGN = set("toZ ofZ".split())
# lemmas that would meet a turned definition in a file that cites both
LEMMAS = {
    "locator/proofs/AtField.antt": {"read_as": "read_as_lem", "write_as": "write_as_lem"},
    "laws/proofs/AtLocator.antt": {"read_as": "read_as_lem", "write_as": "write_as_lem"},
    "laws/proofs/Entries.antt": {"no_bytes :": "no_bytes_lem :", "no_bytes b r is =": "no_bytes_lem b r is =", "no_bytes i reason e b r": "no_bytes_lem i reason e b r"},
}


def turned(word):
    return re.sub(r"(?<=[a-z0-9'])([A-Z])", lambda m: "_" + m.group(1).lower(), word)


def snake(text):
    def one(m):
        w = m.group(0)
        if w in FOREIGN or re.match(r"[a-z0-9']+_[A-Z]", w):
            return w
        return turned(w)

    # a text between quotation marks stays
    parts = re.split(r'("(?:[^"\\]|\\.)*")', text)
    return "".join(p if i % 2 else WORD.sub(one, p) for i, p in enumerate(parts))


def clauses(text):
    """The lines of a .rt file that clauses and imports of clauses fill."""
    out, depth = [], 0
    for line in text.split("\n"):
        s = line.strip()
        opens = depth == 0 and re.match(r"(requires|ensures|ghost|decreases)\b.*\{", s)
        if opens or depth > 0:
            depth += line.count("{") - line.count("}")
            depth = max(depth, 0)
            out.append(snake(line))
        else:
            out.append(line)
    return "\n".join(out)


def lemmas(path, text):
    for end, names in LEMMAS.items():
        if path.endswith(end):
            for old, new in names.items():
                text = re.sub(r"(?<![\w'.-])" + re.escape(old) + r"(?![\w'-])", new, text)
    return text


def main():
    top = sys.argv[1] if len(sys.argv) > 1 else "."
    merged = []
    for folder, _, files in os.walk(os.path.join(top, "crates")):
        for f in sorted(files):
            path = os.path.join(folder, f)
            if f.endswith((".antt", ".rt", ".edit")):
                with open(path, encoding="utf-8") as it:
                    old = it.read()
            if f.endswith(".antt"):
                new = lemmas(path, old)
                words = set(re.findall(r"(?<![\w'.-])[a-z_][\w']*(?![\w'-])", new))
                merged += [(path, w) for w in set(WORD.findall(new)) if w not in FOREIGN and turned(w) in words and turned(w) != w]
                new = snake(new)
            elif f.endswith(".rt"):
                new = clauses(old)
            elif f.endswith(".edit"):
                new = snake(old) if re.search(r"^file: (specs|proofs)/", old, re.M) else old
            else:
                continue
            if new != old:
                with open(path, "w", encoding="utf-8") as it:
                    it.write(new)
    for path, w in merged:
        print(f"look: {path}: {w} and {turned(w)}")


if __name__ == "__main__":
    main()
