"""believe.py: what a reader must believe, and how much it is.

The definitions that an exported contract (crates/ifc/src/lib.rt) or a statement of Main or Details reaches stand in crates/CRATE/specs/*.antt;
forms that only contracts between our crates cite stand in crates/CRATE/specs/Inner/. This test fails if a reader's file brings in an
inner one, if one is reached from neither, or if docs/STATEMENTS.md, "Reading order", does not have each with its count of lines: those
that are neither empty nor a comment nor a use line. The table of inner forms of docs/DECISIONS.md has every inner file, each with a law
that exists. Crates that neither ifc nor promises uses, directly or through others by crates.txt, are left out until one of the two does:
groundwork that no caller meets yet, and what tests alone use."""
import glob
import os
import re
import sys

os.chdir(os.path.join(os.path.dirname(os.path.abspath(__file__)), ".."))
USE = re.compile(r"^(?:ghost )?use Rattle\.(\w+)\.\w+\.((?:Inner\.)?\w+)", re.M)
PAGES = ["crates/promises/proofs/Main.antt", "crates/promises/proofs/Details.antt"]
wrong = []


def read(path):
    return open(path, encoding="utf-8").read()


def reader(path):
    """A file of definitions to believe: not a list of modules, not worked examples that only the prover computes."""
    return os.path.basename(path) not in ("Lib.antt", "Inner.antt", "Examples.antt", "Bare.antt")


def brought(path):
    """The specs files that a file brings in; a struct or enum of the code is its own definition."""
    return {f"crates/{c}/specs/{m.replace('.', '/')}.antt" for c, m in USE.findall(read(path)) if m != "declared"}


def lines(path):
    return sum(1 for line in read(path).split("\n") if line.strip() and not re.match(r"\s*--|use ", line))


def reached(roots):
    found, left = set(), set(roots)
    while left:
        path = left.pop()
        found.add(path)
        left |= {p for p in brought(path) if os.path.exists(p)} - found
    return found


def used(roots):
    """The crates that these use, and they themselves."""
    below = dict(line.split(":") for line in read("crates.txt").split("\n") if ":" in line and not line.startswith("#"))
    found, left = set(), set(roots)
    while left:
        crate = left.pop()
        found.add(crate)
        left |= set(below.get(crate, "").split()) - found
    return found


def counted(pattern):
    """The files of the crates that ifc or promises uses."""
    return {p for p in glob.glob(pattern) if p.split("/")[1] in CRATES}


CRATES = used(["ifc", "promises"])
files = {p for p in counted("crates/*/specs/*.antt") if reader(p)}
for path in sorted(files | set(PAGES)):
    for inner in sorted(p for p in brought(path) if "/specs/Inner/" in p):
        wrong.append(f"{path} brings in {inner}")
exported = {p for p in reached(["crates/ifc/src/lib.rt"]) if "/specs/" in p}
statements = {p for page in PAGES for p in brought(page) if p in files}
stated = reached(statements) - exported
for path in sorted(files - exported - stated):
    wrong.append(f"{path} is reached from no exported contract and no statement: it belongs in specs/Inner")

table = re.findall(r"^\| `(crates/\S+)` \| (\d+) \|", read("docs/STATEMENTS.md"), re.M)
for path, count in table:
    if path not in files or int(count) != lines(path):
        wrong.append(f"docs/STATEMENTS.md says {count} lines of {path}: {lines(path) if path in files else 'no such file to believe'}")
for place, (path, _) in enumerate(table):
    for later in sorted(brought(path) & {p for p, _ in table[place + 1:]} if path in files else []):
        wrong.append(f"docs/STATEMENTS.md, reading order: {path} stands before {later}, which it brings in")
for path in sorted(files - {path for path, _ in table}):
    wrong.append(f"docs/STATEMENTS.md, reading order, lacks {path} ({lines(path)} lines)")


def named(cell):
    """(crate, name) of a cell such as: octets `A`, `B.c`; pattern `D`"""
    crate = None
    for name, word in re.findall(r"`([^`]*)`|(\w+)", cell):
        crate = word or crate
        if name:
            yield crate, name


inner = counted("crates/*/specs/Inner/*.antt")
listed = set()
for row in re.findall(r"^\| (.+) \|$", read("docs/DECISIONS.md").split("| Inner |")[1].split("\n\n")[0], re.M):
    forms, _, laws = row.split(" | ")
    listed |= {f"crates/{c}/specs/Inner/{m}.antt" for c, m in named(forms)}
    for c, law in named(laws):
        module, _, name = law.partition(".")
        path = f"crates/{c}/proofs/{module}.antt"
        if not os.path.exists(path) or name and not re.search(rf"^ *pub {re.escape(name)} ", read(path), re.M):
            wrong.append(f"docs/DECISIONS.md: the law {c} {law} does not exist")
for path in sorted(inner - listed | {p for p in listed if not os.path.exists(p)}):
    wrong.append(f"{path} and the table of inner forms in docs/DECISIONS.md: one lacks it")

for w in wrong:
    print("believe:", w)
if wrong or not table:
    sys.exit(1)
print("believe: ok, {} lines for the exported contracts, {} more for the statements".format(
    sum(map(lines, exported & files)), sum(map(lines, stated & files))))
