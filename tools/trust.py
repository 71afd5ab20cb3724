"""The table of docs/TRUST.md that says what to read, from the definitions themselves.

What is followed: every contract (the definitions that a function of src/ cites) and every statement (all of specs/ of the crates that have some), and from each definition
the ones that it is made of, through the imports. Crates of laws are read only where a contract or a statement rests on a definition there; the table names those.

  python3 -m tools.trust page    writes the table into the page
  python3 -m tools.trust check   says whether the page has it, and whether every definition of specs/ is rested on
"""
import glob
import os
import re
import sys

from tools.crates import ROOT, graph

PAGE = os.path.join(ROOT, "docs", "TRUST.md")
BESIDES = "For a program or the library, the definitions of its own crates besides: what a line, a descriptor, a log record or a word means."
START, END = "| layer | files | lines, comments and imports with them |\n", "\n## What the definitions were compared with"
RULES = ["rules", "theorem", "client", "node"]  # by what the crates' names begin with: what must be believed of the rules, and the faces
PROGRAMS = ["event", "map", "text", "lab", "status", "compare", "library", "audit"]  # besides, for a program or the library
LAYERS = RULES + PROGRAMS
LAWS = ("laws_", "model_")  # crates of laws: what they say is proved of the others; only the definitions named in the table change what a contract or statement means
STATED = ("rules_", "theorem_", "status_proof", "audit_proof", "compare_", "audit_list", "map_versions", "map_summary", "event_words", "library_")  # crates with statements in specs/

HEAD = re.compile(r"^(?:(?:abbrev|unfoldable) )?(?:pub )?(?:(?:record|data) ([^\s(){}:;]+)|([^\s(){}:;]+)(?: \{[^}]*\})? :)")
USE = re.compile(r"^(?:ghost )?use Rattle\.(\w+)\.specs\.([\w.]+?)(?:\.\{([^}]*)\}| as (\w[\w-]*));?$")
TOKEN = re.compile(r"[^\s(){}\[\],;]+")


LISTED = re.compile(r"(?m)^ *(?:ghost )?use [^;{}]*\{[^}]*\}")


def text_of(path):
    with open(path, encoding="utf-8") as f:
        return f.read()


def on_one_line(text):
    """Each list of names that lines `use` bring in, on one line."""
    return LISTED.sub(lambda m: re.sub(r"\s*\n\s*", " ", m.group(0)), text)


def imports(text):
    """The names that the lines `use` bring in: name -> (crate, module, name), and the short names of whole modules."""
    names, modules = {}, {}
    for line in on_one_line(text).split("\n"):
        m = USE.match(line)
        if not m:
            continue
        crate, module, listed, alias = m.groups()
        if module.startswith("declared"):
            continue
        if alias:
            modules[alias] = (crate, module)
        else:
            for name in filter(None, map(str.strip, listed.split(","))):
                there, _, here = name.partition(" as ")
                names[here or there] = (crate, module, there)
    return names, modules


def definitions(text):
    """The definitions of a file of specs/: name -> its lines."""
    found, name, section = {}, None, False
    for line in text.split("\n"):
        if line.startswith(("use ", "pub mod ")) or line.strip().startswith("--"):
            continue
        if line[:1].strip():  # at the margin; in a section, `module _ .. where`, definitions stand two to the right
            section = line.startswith("module ")
        m = HEAD.match(line[2:] if section and line.startswith("  ") and line[2:3].strip() else line)
        if m:
            name = m.group(1) or m.group(2)
            found.setdefault(name, [])
        if name and not line.startswith("module "):
            found[name].append(line)
    return {n: "\n".join(ls) for n, ls in found.items()}


def load():
    files = {}
    for path in sorted(glob.glob(os.path.join(ROOT, "crates", "*", "specs", "*.antt"))):
        crate, module = path.split(os.sep)[-3], os.path.basename(path)[: -len(".antt")]
        if module != "Lib":
            text = text_of(path)
            files[crate, module] = (definitions(text), *imports(text), text.count("\n"))
    return files


def cited_in(text):
    """What the lines `ghost use` of a file of src/ bring in; inside an impl they stand to the right."""
    lines = map(str.strip, on_one_line(text).split("\n"))
    return imports("\n".join(l for l in lines if l.startswith("ghost use ")))


def cited(files):
    """The definitions that contracts and statements cite."""
    roots = set()
    for path in glob.glob(os.path.join(ROOT, "crates", "*", "src", "**", "*.rt"), recursive=True):
        names, modules = cited_in(text_of(path))
        roots |= set(names.values())
        for crate, module in modules.values():
            roots |= {(crate, module, n) for n in files[crate, module][0]}
    for (crate, module), (defs, _, _, _) in files.items():
        if crate.startswith(STATED):
            roots |= {(crate, module, n) for n in defs}
    return roots


def rested_on(files):
    """All that they are made of."""
    todo, seen = sorted(cited(files)), set()
    while todo:
        key = todo.pop()
        crate, module, name = key
        if key in seen or (crate, module) not in files or name not in files[crate, module][0]:
            continue
        seen.add(key)
        defs, names, modules, _ = files[crate, module]
        for token in TOKEN.findall(defs[name]):
            first, _, last = token.partition(".")
            if token in defs:
                todo.append((crate, module, token))
            elif token in names:
                todo.append(names[token])
            elif first in modules and last:
                todo.append((*modules[first], last))
            elif first in names:
                todo.append(names[first])
            elif first in defs:
                todo.append((crate, module, first))
    return seen


def row(layer, files, seen, crates, by_name):
    cells, lines = [], 0
    for (crate, module), (defs, _, _, count) in files.items():
        if not crate.startswith(crates):
            continue
        used = [n for n in defs if (crate, module, n) in seen]
        if not used:
            continue
        if by_name:
            cells.append("%s/%s (%s)" % (crate, module, ", ".join("`%s`" % n for n in used)))
            lines += sum(defs[n].strip("\n").count("\n") + 1 for n in used)
        else:
            cells.append("%s/%s" % (crate, module))
            lines += count
    cells.sort()
    return "| %s | %s | %d |\n" % (layer, ", ".join(cells), lines)


def table(files, seen):
    rows = [START, "|---|---|---|\n"]
    rows.append(row("words of the laws", files, seen, LAWS, True))
    rows += [row(layer, files, seen, (layer,), False) for layer in RULES]
    rows += ["\n", BESIDES, "\n\n", START, "|---|---|---|\n"]
    rows += [row(layer, files, seen, (layer,), False) for layer in PROGRAMS]
    return "".join(rows)


def listed():
    unknown = [c for c in graph() if not c.startswith(LAWS + tuple(LAYERS))]
    if unknown:
        sys.exit("trust: in no layer: " + " ".join(unknown))


def main():
    if sys.argv[1:] not in (["page"], ["check"], ["idle"]):
        sys.exit(__doc__)
    listed()
    files = load()
    seen = rested_on(files)
    if sys.argv[1] == "idle":
        for (crate, module), (defs, _, _, _) in files.items():
            idle = [n for n in defs if (crate, module, n) not in seen]
            if idle and not crate.startswith(LAWS):
                print("%s/%s: %s" % (crate, module, " ".join(idle)))
        return
    page = text_of(PAGE)
    start, end = page.index(START), page.index(END)
    made = page[:start] + table(files, seen) + page[end:]
    if sys.argv[1] == "page":
        with open(PAGE, "w", encoding="utf-8") as f:
            f.write(made)
    elif made != page:
        sys.exit("trust: docs/TRUST.md has not the table that the definitions give (python3 -m tools.trust page)")


if __name__ == "__main__":
    main()
