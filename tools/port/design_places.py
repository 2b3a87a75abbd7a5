#!/usr/bin/env python3
"""Lists the places in crates/*/src that docs/DESIGN-PASS.md counts, point by point.

    tools/port/design_places.py [COMMIT]      of the files as they stand, or of a commit

What a script can see is found here: the shape of an enum, a loop, a signature. Where a place stays on purpose the page says why.
"""
import collections, re, subprocess, sys

def files():
    if len(sys.argv) > 1:
        at = sys.argv[1]
        names = subprocess.run(["git", "ls-tree", "-r", "--name-only", at, "crates"], capture_output=True, text=True, check=True).stdout.split()
        return {n: subprocess.run(["git", "show", f"{at}:{n}"], capture_output=True, text=True, check=True).stdout
                for n in names if re.fullmatch(r"crates/\w+/(src/\w+\.rt|proofs/.*\.antt)", n)}
    names = subprocess.run(["git", "ls-files", "-co", "--exclude-standard", "crates"], capture_output=True, text=True, check=True).stdout.split()
    out = {}
    for n in names:
        if re.fullmatch(r"crates/\w+/(src/\w+\.rt|proofs/.*\.antt)", n):
            try:
                out[n] = open(n, encoding="utf-8").read()
            except FileNotFoundError:
                pass
    return out

ALL = files()
SRC = {n: t for n, t in sorted(ALL.items()) if n.endswith(".rt")}
found = collections.defaultdict(list)

def note(point, name, text, at, what):
    found[point].append(f"{name}:{text[:at].count(chr(10)) + 1}: {what}")

# 1: a variant that stands for nothing or for done, or one that holds a refusal
LACK = re.compile(r"^(None|Number\(u64\)|Absent|Full|End|Done|Fits|Failed(\(.*\))?|Refused\(.*\)|Accepted)$")
# 1: numbers for kinds: a function that gives whole numbers for the cases of an enum, or a code of its own
for n, t in SRC.items():
    for m in re.finditer(r"^ *(?:pub )?enum (\w+)(?:<[^>]*>)? \{\n(.*?)^ *\}", t, re.S | re.M):
        cases = [re.sub(r" = \d+$", "", c.strip().rstrip(",")) for c in m[2].split("\n") if c.strip() and not c.strip().startswith("//")]
        if len(cases) <= 5 and any(LACK.match(c) for c in cases):
            note("1 own Option or Result", n, t, m.start(), m[1])
    for m in re.finditer(r"fn (\w+)\([^{]*\) -> (?:u8|u64)[^{]*(?:\{[^{}]*\}[^{}]*)*?\{\s*match [^{]*\{((?:\s*[\w:]+(?:\([^)]*\))? => (?:\{ )?\d+[,\s}]*)+)", t):
        if len(re.findall(r"=> (?:\{ )?\d+", m[2])) >= 3:
            note("1 numbers for cases", n, t, m.start(), m[1])

# 2: bodies alike but for numbers, types and names of constants
def normal(body):
    body = re.sub(r"//[^\n]*", "", body)
    body = re.sub(r"\b[A-Z]\w*(?:::[A-Z]\w*)*", "T", body)
    body = re.sub(r"\b\d[\d_]*\b", "N", body)
    body = re.sub(r"\bu(?:8|16|32|64)\b", "u", body)
    return re.sub(r"\s+", " ", body)
bodies = collections.defaultdict(list)
for n, t in SRC.items():
    for m in re.finditer(r"^( *)(?:pub(?:\([\w]+\))? )?(?:extern \"C\" )?fn (\w+)((?:(?!\n\n).)*?)(?:^\1| )\{\n(.*?)^\1\}", t, re.S | re.M):
        if "#[test]" in t[max(0, m.start() - 40):m.start()]:
            continue
        key = normal(m[4])
        if len(m[4].strip()) > 0:
            bodies[(key, len(re.findall(r"\w+:", m[3].split("ensures")[0])))].append((n, t, m.start(), m[2]))
for key, group in bodies.items():
    if len(group) > 1:
        for n, t, at, name in group:
            note("2 twins", n, t, at, f"{name}, one of {len(group)}")

# 3: loops that count by hand
for n, t in SRC.items():
    for m in re.finditer(r"^ *while (.*) \{", t, re.M):
        note("3 loops", n, t, m.start(), m[1])
    for m in re.finditer(r"^( *)for (\w+) in 0\.\.([\w.():&]+?) \{\n(.*?)^\1\}\n", t, re.S | re.M):
        if re.search(r"\[" + m[2] + r"\b[^\]]*\]", m[4]):
            note("3 loops", n, t, m.start(), f"for {m[2]} over indices of a slice")
        elif re.search(r"(?<!_)block\([^()]*\b" + m[2] + r"\)", m[4]):
            note("3 loops", n, t, m.start(), f"for {m[2]} over the blocks of a sheet, by index")

# 4: comparison, order, copying, conversion and printing by hand
for n, t in SRC.items():
    for m in re.finditer(r"fn (\w+)\(self, other: [\w<>]+\) -> bool", t):
        note("4 by hand", n, t, m.start(), f"{m[1]} compares")
    for m in re.finditer(r"fn (\w+)\([^)]*: bool\) -> (?:u8|u64|usize)[^}]*?\}?\s*\{\s*if \w+ \{ 1 \} else \{ 0 \}", t):
        note("4 by hand", n, t, m.start(), f"{m[1]} makes a number of a bool")
    for m in re.finditer(r"^ +(\w+\[[^\]]*\]) = (\w+\[[^\]]*\]);", t, re.M):
        note("4 by hand", n, t, m.start(), f"copies {m[2]}")
    for m in re.finditer(r"^ +(?:buf|b)\[[^\]]*\] = 0;", t, re.M):
        note("4 by hand", n, t, m.start(), "clears")
    for m in re.finditer(r"if \w+ < \w+ \{ (\w+) \} else \{ (\w+) \}", t):
        note("4 by hand", n, t, m.start(), "the lesser of two")
    for m in re.finditer(r"^ *(?:pub )?fn (\w+)\((?:(?!^ *(?:pub )?fn ).)*?\b(?:256|16777216|4294967296) \* (?:\(|of_four|octets)", t, re.S | re.M):
        note("4 by hand", n, t, m.start(), f"{m[1]} puts a number together from its bytes")

# 5: two or more parameters that travel together through three functions or more
pairs = collections.defaultdict(set)
for n, t in SRC.items():
    for m in re.finditer(r"fn (\w+)(?:<[^>]*>)?\(([^)]*)\)", t):
        params = [p.strip() for p in m[2].replace("\n", " ").split(",") if ":" in p]
        for a in range(len(params)):
            for b in range(a + 1, len(params)):
                pairs[(params[a], params[b])].add((n, m[1]))
for (a, b), fns in sorted(pairs.items()):
    if len(fns) >= 3 and "refusal" not in b and not a.startswith(("s:", "b:", "rt:", "facts:", "sheet:")):
        found["5 together"].append(f"{a}; {b}: {', '.join(sorted({x[1] for x in fns}))}")

# 6: a buffer with a length beside it, a table of nodes by index
for n, t in SRC.items():
    for m in re.finditer(r"struct (\w+)\(\[u8; \d+\], usize\)|bytes: \[u8; \d+\],\n *pub len: usize", t):
        note("6 buffers", n, t, m.start(), m[1] or "bytes and len")
    for m in re.finditer(r"fn (\w+)\([^)]*\[Node; 32\]", t):
        note("6 buffers", n, t, m.start(), f"{m[1]} walks a table of nodes")

# 7
for n, t in SRC.items():
    for m in re.finditer(r"\bfn\(|dyn |match step", t):
        note("7 switches", n, t, m.start(), "")

for point in sorted(found):
    print(f"## {point}: {len(found[point])}")
    for line in found[point]:
        print("  " + line)
proofs = [n for n in ALL if n.endswith("/Answers.antt")]
answers = sum(len(re.findall(r"^pub [\w'-]+ : goal\.", ALL[n], re.M)) for n in proofs)
print(f"## 8 proofs of functions: {len(proofs)} files of answers with {answers} answers, "
      f"{sum(n.endswith('/Invariants.antt') for n in ALL)} of invariants, "
      f"{sum(t.count(chr(10)) for n, t in ALL.items() if n.endswith('.antt'))} lines of proofs")
