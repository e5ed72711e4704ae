"""statements.py: every definition, theorem, function, wrong edit and file that docs/STATEMENTS.md names exists, no cell is empty, and
where a row says "Examples" a crate of its definition has specs/Examples.antt."""
import glob
import os
import re
import sys

os.chdir(os.path.join(os.path.dirname(os.path.abspath(__file__)), ".."))
crates = set(os.listdir("crates"))
wrong = []


def text(pattern):
    return "\n".join(open(path, encoding="utf-8").read() for path in sorted(glob.glob(pattern)))


def defined(crate, folders, module, name):
    """Whether a module declares the name: it stands first on a line, or after the words that begin a declaration, before its type."""
    first = r"^ *(?:unfoldable |abbrev )?(?:pub )?(?:data |record )?" + re.escape(name) + r" (?:[({][^=\n]*)?:"
    modules = ["Main", "Details"] if module == "Main" else [module]
    return any(re.search(first, text(f"crates/{crate}/{folder}/{m}.antt"), re.M) for folder in folders for m in modules)


def function(crate, name):
    return re.search(rf"\bfn {re.escape(name)}\b", text(f"crates/{crate}/src/*.rt"))


def check(column, cell, row):
    crate, module = ("promises", "Main") if column == "Theorem" else (None, None)
    for name, word in re.findall(r"`([^`]*)`|(\w+)", cell):
        if not name:
            if word in crates:
                crate, module = word, None
            continue
        if os.path.exists(name):
            continue
        if column == "Test":
            found = "/" in name and os.path.exists("crates/{}/must-fail/{}.edit".format(*name.split("/", 1)))
        elif column == "Code":
            found = crate and function(crate, name)
        else:
            if "." in name:
                module, name = name.split(".", 1)
            folders = (["proofs"] if column == "Theorem" else []) + ["specs", "specs/Inner"]
            found = crate and module and defined(crate, folders, module, name)
        if not found:
            wrong.append(f"{column}: {crate or ''} {module or ''} {name} does not exist ({row[:60]})")


def check_examples(definition, test, row):
    """Words outside of backquotes: in the one cell crates, in the other "Examples"."""
    outside = [re.findall(r"\w+", re.sub(r"`[^`]*`", "", cell)) for cell in (definition, test)]
    named = [word for word in outside[0] if word in crates]
    if "Examples" in outside[1] and not any(os.path.exists(f"crates/{c}/specs/Examples.antt") for c in named):
        wrong.append(f"Test: no crate of {' '.join(named) or 'none'} has specs/Examples.antt ({row[:60]})")


columns = ["Sentence", "Definition", "Theorem", "Code", "Test"]
rows = 0
for line in open("docs/STATEMENTS.md", encoding="utf-8"):
    cells = [c.strip() for c in line.strip().strip("|").split(" | ")]
    if not line.startswith("| ") or cells[2] == "Theorem" or re.match(r"\| (File \||`crates/)", line):
        continue
    rows += 1
    if len(cells) != len(columns) or "" in cells:
        wrong.append(f"not five full cells ({cells[0][:60]})")
        continue
    for column, cell in list(zip(columns, cells))[1:]:
        check(column, cell, cells[0])
    check_examples(cells[1], cells[4], cells[0])
for w in wrong:
    print("statements:", w)
if wrong or rows < 50:
    sys.exit(1)
print(f"statements: ok ({rows} rows)")
