"""The state diagrams of docs/STATES.md, made from the two tables that the theorems speak of.

  python3 -m tools.states page    writes the page
  python3 -m tools.states check   says whether the page is the one that this script makes
"""
import os
import re
import sys

from tools.crates import ROOT

PAGE = os.path.join(ROOT, "docs", "STATES.md")
CLIENT = os.path.join(ROOT, "crates", "rules_pool", "specs", "Table.antt")
NODE = os.path.join(ROOT, "crates", "rules_node", "specs", "Table.antt")

SESSION = ["Free", "Created", "Normal", "Failed", "Reconnecting", "Removing"]
STATES = ["Empty", "Registered", "Created", "Normal", "NoIo"]
SHOWN = {"NoIo": "NO_IO"}


def shown(state):
    return SHOWN.get(state, state.upper())


def holds(text, names):
    """The value of a test of the tables: names of states and of sync stand for values."""
    text = re.sub(r"\bis_(\w+) (\w+)", lambda m: "is_(%s, '%s')" % (m.group(2), m.group(1).title().replace("_", "")), text)
    text = re.sub(r"\bstays (\w+) (\w+)", r"stays(\1, \2)", text)
    text = text.replace("||", " or ").replace("&&", " and ").replace("true", "True").replace("false", "False")
    tests = {
        "is_": lambda state, name: state in ("Created", "Normal", "NoIo") if name == "Joined" else state == name,
        "stays": lambda a, b: a == b and a in ("Created", "Normal", "NoIo"),
    }
    return eval(text, {"__builtins__": {}}, {**tests, **names})


def clauses(path, head):
    with open(path, encoding="utf-8") as f:
        return re.findall(r"^legal %s = (.*)$" % head, f.read(), re.M)


def client():
    found = dict(clauses(CLIENT, r"sync \(?State\.(\w+)[\w ]*\)? to"))
    if sorted(found) != sorted(SESSION):
        sys.exit("states: the table of sessions is not read")
    lines = ["stateDiagram-v2"]
    for a in SESSION:
        for b in SESSION:
            kinds = [w for w, s in (("non-sync", False), ("sync", True)) if holds(found[a], {"to": b, "sync": s})]
            if kinds:
                lines.append("    %s --> %s%s" % (shown(a), shown(b), "" if len(kinds) == 2 else ": " + kinds[0]))
    return lines


def node():
    found = clauses(NODE, r"(\w+) from to")
    edges = {}
    for kind, text in found:
        for a in STATES:
            for b in STATES:
                if holds(re.sub(r"\bfrom\b", "start", text), {"start": a, "to": b}):
                    edges.setdefault((a, b), []).append(kind)
    if len(found) < 19:
        sys.exit("states: the table of nodes is not read")
    lines = ["stateDiagram-v2"]
    for a in STATES:
        for b in STATES:
            if (a, b) in edges:
                lines.append("    %s --> %s: %s" % (shown(a), shown(b), ", ".join(edges[(a, b)])))
    return lines


def page():
    return "\n".join(
        ["# State diagrams", "", "Made by `tools/states.py` from the tables that the theorems speak of; the gate compares this page with them.", ""]
        + ["## The client's session", "", "`legal` in crates/rules_pool/specs/Table.antt: source document 001's table. A session begins CREATED (in a sync pool NORMAL) and is freed from REMOVING.", ""]
        + ["```mermaid"] + client() + ["```", ""]
        + ["## The node", "", "`legal` in crates/rules_node/specs/Table.antt: source document 003 as document 01 condenses it; each arrow with the events that may take it.", ""]
        + ["```mermaid"] + node() + ["```"]
    ) + "\n"


def main():
    what = sys.argv[1] if len(sys.argv) == 2 else ""
    if what == "page":
        with open(PAGE, "w", encoding="utf-8") as f:
            f.write(page())
    elif what == "check":
        with open(PAGE, encoding="utf-8") as f:
            if f.read() != page():
                sys.exit("states: stale: docs/STATES.md")
    else:
        sys.exit(__doc__)


if __name__ == "__main__":
    main()
