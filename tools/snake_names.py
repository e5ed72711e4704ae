#!/usr/bin/env python3
"""Brings the repository's own definitions and lemmas to snake case, and its types to camel case, in crates/.

Run once at the top, after the kit's port.py. Names that a file imports from the library keep their spelling, and so do the names that
Rattle generates. Strings are left alone; comments, clauses, specs, proofs and the texts of edits are turned.
"""
import collections, glob, os, re, sys

TOKEN = re.compile(r"[^\s(){}\[\];,.@\"λ:⌜⌝`|→←∀=<>+*/^&]+")
DASHED = re.compile(r"[^\W_]['₀-₉]*-\w|_-\w|\w-\w|'-\w")
USE = re.compile(r"^\s*(?:pub |ghost )*use ([\w.·]+)\.\{([^}]*)\}", re.M)
# Laws of octets that would take the name of the library's function they speak of.
LAWS = {"bit-or": "bit_of_or", "bit-and": "bit_of_and", "bit-xor": "bit_of_xor"}
TYPES = {"Some-so": "SomeSo", "Accepted-before": "AcceptedBefore", "Is-item": "IsItem", "Rest-is": "RestIs", "Value-then": "ValueThen", "Same-rows": "SameRows", "Some-number": "SomeNumber"}


def own(module):
    return module.startswith("Rattle.") and module.split(".")[1] not in ("std", "core")


def code(text):
    text = re.sub(r'"(?:[^"\\]|\\.)*"', '""', text)
    return "\n".join("" if re.match(r"\s*--", l) else re.sub(r"(^|\s)--(\s.*|$)", "", l) for l in text.split("\n"))


def imported(text):
    """The dashed names that a file takes from the library, and those that it takes from this repository."""
    theirs, ours = set(), set()
    for m in USE.finditer(text):
        for n in m.group(2).split(","):
            n = n.strip().split(" as ")[0].strip()
            if DASHED.search(n):
                (ours if own(m.group(1)) else theirs).add(n)
    return theirs, ours


def turned(name):
    return TYPES.get(name) or LAWS.get(name) or name.replace("-", "_")


def is_answer(path):
    """What proves one function, in a folder below proofs/."""
    return os.path.basename(path) in ("Proof.antt", "Answers.antt", "Invariants.antt") and re.match(r"crates/\w+/proofs/.+/", path) is not None


def respell(text, change):
    parts = re.split(r'("(?:[^"\\\n]|\\.)*")', text)
    for i in range(0, len(parts), 2):
        parts[i] = TOKEN.sub(lambda m: turned(m.group(0)) if change(m.group(0)) else m.group(0), parts[i])
    return "".join(parts)


def main():
    files = sorted(glob.glob("crates/*/**/*.antt", recursive=True))
    sources = sorted(glob.glob("crates/*/src/**/*.rt", recursive=True))
    edits = sorted(glob.glob("crates/*/**/*.edit", recursive=True))
    names, library = set(), set()
    for f in files:
        text = code(open(f, encoding="utf-8").read())
        theirs, ours = imported(text)
        library |= theirs
        names |= ours
        if not is_answer(f):
            rest = USE.sub("", text)
            names |= {w for w in TOKEN.findall(rest) if DASHED.search(w) and w not in theirs and not w.startswith(("Need-", "--"))}
    for f in sources:
        text = open(f, encoding="utf-8").read()
        for m in USE.finditer(text):
            if own(m.group(1)):
                names |= {n.strip() for n in m.group(2).split(",") if DASHED.search(n.strip())}
    clash = collections.defaultdict(set)
    for n in names:
        clash[turned(n)].add(n)
    said = [v for v in clash.values() if len(v) > 1]
    # Two names meet only where one file says both; a function of src/ and the definition that it equals may share a name.
    for f in files:
        text = re.sub(r"^(\s*(?:pub |ghost )*use )[\w.·]+", r"\1", code(open(f, encoding="utf-8").read()), flags=re.M)
        said_here, theirs = set(TOKEN.findall(text)), imported(text)[0]
        said += [(f, n) for n in names if n in said_here and n not in theirs and turned(n) in said_here]
    if said:
        print("fall together:", said)
        return 1
    for f in files + sources + edits:
        text = open(f, encoding="utf-8").read()
        theirs = imported(code(text))[0] if f.endswith(".antt") else library
        new = respell(text, lambda w: w in names and w not in theirs).replace("Memᴰ.not_nil", "Memᴰ.not-nil")
        if new != text:
            open(f, "w", encoding="utf-8").write(new)
    print(len(names), "names turned")
    return 0


sys.exit(main())
