"""Prints the tables of docs/TRUST.md: the files of definitions that the clauses of `run` cite, directly or through others.

It starts at the names that stand in the clauses of `pub fn run` in crates/program_runs/src/top_call.rt, and follows the `use` lines of crates/*/specs. A file
comes after all that it cites. A second table has the types of the code that they name. Usage: docs/trust.py"""
import os, re, sys

TOP = os.path.dirname(os.path.dirname(os.path.abspath(__file__)))
RUN = "crates/program_runs/src/top_call.rt"
USE = re.compile(r"^(?:ghost )?use Rattle\.(\w+)\.specs\.([\w.]+?)(?:\.\{([^}]*)\}| as \w+)?;?$", re.M)


def text_of(name):
    with open(os.path.join(TOP, name), encoding="utf-8") as file:
        return file.read()


def file_of(crate, path):
    """The file of a module of the repository: of its definitions, or the code that declares a type. None for the library's."""
    parts = path.split(".")
    if not os.path.isdir(os.path.join(TOP, "crates", crate)):
        return None
    if parts[0] != "declared":
        return "crates/%s/specs/%s.antt" % (crate, "/".join(parts))
    for end in range(len(parts), 1, -1):
        name = "crates/%s/src/%s.rt" % (crate, "/".join(parts[1:end]))
        if os.path.exists(os.path.join(TOP, name)):
            return name
    return "crates/%s/src/lib.rt" % crate


def clauses():
    """The contract of `run`."""
    text = text_of(RUN)
    return re.search(r"^pub fn run<.*?^\{", text, re.M | re.S).group(0)


def cited(text, wanted=None):
    found = []
    for crate, path, names in USE.findall(text):
        if wanted is None or any(re.search(r"\b%s\b" % re.escape(name.strip()), wanted) for name in (names or "").split(",") if name.strip()):
            name = file_of(crate, path)
            if name and name not in found:
                found.append(name)
    return found


def comment_of(text):
    """The first sentence of a file's first comment."""
    lines = []
    for line in text.split("\n"):
        if not line.startswith("-- "):
            break
        lines.append(line[3:].strip())
    text = " ".join(lines).replace("|", "\\|")
    return text.split(". ")[0].rstrip(".") + "."


def types_in(names):
    """The types of the code that these files name, by the file that declares them."""
    found = {}
    for name in names:
        for crate, path, _ in USE.findall(text_of(name)):
            file, parts = file_of(crate, path), path.split(".")
            if file and parts[0] == "declared":
                parts = [it for it in parts if it[0].isupper() and it != "TheVariants"]
                found.setdefault(file, set()).add("its constants" if parts[0] == "TheConstants" else "`%s`" % parts[0])
    return found


def in_order(name, done, open_):
    """Depth first, what is cited before what cites it."""
    if name in done or name in open_ or not name.endswith(".antt"):
        return
    open_.add(name)
    for below in cited(text_of(name)):
        in_order(below, done, open_)
    done.append(name)


def main():
    done = []
    for name in cited(text_of(RUN), clauses()):
        in_order(name, done, set())
    print("| File | Lines | What it defines |")
    print("|---|---|---|")
    total = 0
    for name in done:
        text = text_of(name)
        lines = text.count("\n")
        total += lines
        print("| `%s` | %d | %s |" % (name[len("crates/") :], lines, comment_of(text)))
    print("| %d files | %d | |" % (len(done), total))
    print()
    print("| Code | What of it the definitions name |")
    print("|---|---|")
    for name, types in sorted(types_in(done).items()):
        print("| `%s` | %s |" % (name[len("crates/") :], ", ".join(sorted(types))))


if __name__ == "__main__":
    main()
