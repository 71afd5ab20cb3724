"""What a refactoring must leave as it is: every contract, every definition and every law, by name, of two commits.

  python3 -m tools.faces BEFORE [AFTER]   what is gone, what is new and what reads otherwise, by kind; AFTER is the work tree where it is left out

Paths of crates and modules are left out of what is compared, so that a move shows nothing; a name that stands several times is compared as often as it stands.
"""
import collections
import os
import re
import subprocess
import sys
import tempfile

from tools.crates import ROOT

FUNCTION = re.compile(r'(?m)^[ \t]*(?:pub(?:\(crate\))? )?(?:extern "C" )?fn (\w+)[\s\S]*?\n[ \t]*\{\n')
CLAUSE = re.compile(r"\b(requires|ensures)(?: \w+)? \{")
NAME = re.compile(r"(?m)^\s*(?:(?:abbrev|unfoldable) )?(?:pub )?(?:(?:record|data) )?([^\s(){}:;]+)")


def plain(text):
    """Without the names of crates and modules, and without how it is laid out."""
    text = re.sub(r"(?<![\w.)'])(?:[A-Z]\w*\.(?=[A-Za-z])|[a-z_]\w*\.(?=[A-Z]))", "", text)
    return " ".join(text.split())


def clauses(text):
    """The clauses of a contract, each with its kind; one may stand on several lines."""
    for head in CLAUSE.finditer(text):
        end, depth = head.end(), 1
        while depth:
            depth += {"{": 1, "}": -1}.get(text[end], 0)
            end += 1
        yield head.group(1), text[head.end() : end - 1]


def faces(root):
    """(kind, name, text) of each."""
    for folder, _, files in os.walk(os.path.join(root, "crates")):
        for file in sorted(files):
            path = os.path.join(folder, file)
            part = os.path.relpath(path, os.path.join(root, "crates")).split(os.sep)
            if not file.endswith((".rt", ".antt")) or file in ("Lib.antt", "Proof.antt", "Invariants.antt", "Answers.antt"):
                continue
            with open(path, encoding="utf-8") as f:
                text = re.sub(r"(?m)^\s*(--|//).*$", "", f.read())
            if file.endswith(".rt"):
                for head in FUNCTION.finditer(text):
                    yield "contract", head.group(1), "; ".join("%s %s" % (k, plain(c)) for k, c in clauses(head.group(0)))
                continue
            for block in re.split(r"\n\n+", re.sub(r"(?m)^(?:pub |ghost )?use .*$", "", text)):
                found = NAME.search(block)
                if found and block.strip():
                    said = block if part[1] == "specs" else block.split("=")[0]
                    yield "definition or law", found.group(1), plain(re.sub(r"(?m)^unfolding .*$", "", said))


def of_commit(commit):
    if not commit:
        return collections.Counter(faces(ROOT))
    with tempfile.TemporaryDirectory() as folder:
        archive = subprocess.run(["git", "archive", commit, "crates"], cwd=ROOT, capture_output=True, check=True).stdout
        subprocess.run(["tar", "x", "-C", folder], input=archive, check=True)
        return collections.Counter(faces(folder))


def main():
    if len(sys.argv) not in (2, 3):
        sys.exit(__doc__)
    before, after = of_commit(sys.argv[1]), of_commit(sys.argv[2] if len(sys.argv) == 3 else "")
    for kind in ("contract", "definition or law"):
        gone = sorted((n, t) for (k, n, t), c in (before - after).items() for _ in range(c) if k == kind)
        new = sorted((n, t) for (k, n, t), c in (after - before).items() for _ in range(c) if k == kind)
        same = sum(c for (k, _, _), c in (before & after).items() if k == kind)
        names = {n for n, _ in gone} & {n for n, _ in new}
        print("%ss: %d as they were, %d read otherwise, %d gone, %d new" % (
            kind, same, sum(n in names for n, _ in gone), sum(n not in names for n, _ in gone), sum(n not in names for n, _ in new)))
        for mark, found in (("-", gone), ("+", new)):
            for n, t in found:
                print("  %s %s %s: %s" % ("otherwise" if n in names else "gone" if mark == "-" else "new", mark, n, t))


if __name__ == "__main__":
    main()
