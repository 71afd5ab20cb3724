"""Run once, after port.py: the repository's own definitions and lemmas in today's spelling, and what every crate's root file and every type has today.

usage: python3 tools/port_spelling.py ROOT

- A definition or lemma that was written isFree is is_free now, in specs/, proofs/, the clauses of src/ and the edits. Functions of src/, exported names, strings and outputs keep theirs.
- Where a lemma's name would fall together with a definition's (place_after of placeAfter), the lemma has its dash again (place-after).
- Types that own nothing derive Clone and Copy, as every value was copied before.
- A crate's root file has #![tactic(auto)].
- In edits: a field stands at its value (n .store is n.store), a hole of an operator is ◌, and the words of the library that were renamed.
"""

import glob
import os
import re
import sys

CAMEL = re.compile(r"(?<![A-Za-z0-9_'])[a-z][a-z0-9]*(?:_[a-z0-9]+)*(?:[A-Z][a-z0-9]*)+(?:_[a-z0-9]+)*(?![A-Za-z0-9_])")
# names of the library and of proofs that are made; they keep their capitals
LIBRARY = re.compile(r"_(Lawful|Tells|Makes|Meets|Line|Level)$")
DASHED = {
    "audit_proof/proofs/Exact.antt": {"place_after": "place-after"},
    "audit_proof/proofs/Turns.antt": {"check_done": "check-done", "write_done": "write-done"},
    "audit_proof/proofs/Alike.antt": {"check_done": "check-done", "write_done": "write-done"},
    "audit_proof/proofs/Own.antt": {"check_done": "check-done", "write_done": "write-done"},
    "theorem_client/proofs/Removals.antt": {"is_free": "is-free"},
    "theorem_client_exact/proofs/StateRules.antt": {"all_asked": "all-asked"},
    "theorem_node_exact/proofs/Questions.antt": {"is_normal": "is-normal"},
    "theorem_node_exact/proofs/Ties.antt": {"is_normal": "is-normal"},
    "theorem_runs/proofs/Answers.antt": {"to_last": "to-last"},
    "theorem_forgotten_instance/proofs/Sound.antt": {"all_after": "all-after", "by_hand": "by-hand", "taken_in": "taken-in"},
}
# these two are cited by several crates
EVERYWHERE = {"kept_in": "kept-in", "part_in": "part-in"}


def snake(word):
    return re.sub(r"([a-z0-9])([A-Z])", lambda m: m.group(1) + "_" + m.group(2).lower(), word)


def respelled(text):
    return CAMEL.sub(lambda m: m.group(0) if LIBRARY.search(m.group(0)) else snake(m.group(0)), text)


def words(text, table):
    for old, new in table.items():
        text = re.sub(r"(?<![\w'-])" + old + r"(?![\w'-])", new, text)
    return text


def outside_strings(text, change):
    """The parts of a source that are no string."""
    parts = re.split(r'("(?:[^"\\\n]|\\.)*")', text)
    return "".join(p if i % 2 else change(p) for i, p in enumerate(parts))


def write(path, text, new):
    if new != text:
        with open(path, "w", encoding="utf-8") as f:
            f.write(new)


def read(path):
    with open(path, encoding="utf-8") as f:
        return f.read()


def antt(root):
    for path in glob.glob(root + "/crates/*/specs/**/*.antt", recursive=True) + glob.glob(root + "/crates/*/proofs/**/*.antt", recursive=True):
        text = read(path)
        name = os.path.relpath(path, root + "/crates")
        new = words(words(text, DASHED.get(name, {})), EVERYWHERE) if "/proofs/" in path else text
        write(path, text, respelled(new))


def sources(root):
    for path in glob.glob(root + "/crates/*/src/**/*.rt", recursive=True):
        text = read(path)
        new = outside_strings(text, respelled).replace("#[derive(Drop)]", "#[derive(Clone, Copy)]")
        if os.path.basename(path) in ("lib.rt", "main.rt") and os.path.dirname(path).endswith("/src") and "#![tactic(auto)]" not in new:
            new = rooted(new)
        write(path, text, new)


def rooted(text):
    """The attribute after the comment at the head."""
    lines = text.split("\n")
    at = 0
    while at < len(lines) and lines[at].startswith("//"):
        at += 1
    return "\n".join(lines[:at] + ["#![tactic(auto)]"] + lines[at:])


RENAMED = {"getD": "get_or"}


def edit_text(text):
    text = re.sub(r"(?<=[\w')\]]) \.(?=[a-z0-9])", ".", text)
    text = re.sub(r"Rattle\u00b7(\w+)(?:\u00b7specs)?\.specs\.", r"Rattle.\1.specs.", text).replace(".specs.specs.", ".specs.")
    # (n.store) alone as an argument needs no parentheses
    text = re.sub(r"(?<![\w'])\(([a-z]\w*'?(?:\.\w+)+)\)", r"\1", text)
    text = words(text, RENAMED)
    return respelled(text)


def edits(root):
    for path in glob.glob(root + "/crates/*/must-fail/*.edit") + glob.glob(root + "/tools/wrong-rules/*.edit"):
        text = read(path)
        new = "\n".join(edit_text(line) if line.startswith(("old:", "new:")) else line for line in text.split("\n"))
        write(path, text, new)


def main(root):
    antt(root)
    sources(root)
    edits(root)


if __name__ == "__main__":
    main(sys.argv[1] if len(sys.argv) > 1 else ".")
