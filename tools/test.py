"""The gate's test of what the tools share, and of how a wrong rule is read; it says nothing where all is well.

  python3 -m tools.test
"""
import os
import sys
import tempfile

from tools.check_times import seconds
from tools.crates import above, depths, graph, made_of, statics, under
from tools.trust import cited_in
from tools.wrong_rules import cell, parse

CRATES = """# a comment: with a colon
a:
b: a io

# another layer
c: a b
d staticlib: a
"""

WRONG = """rule: one | two
statement: theorem_node_exact When.AcceptedWhen
with: node more
file: crates/rules_node/specs/States.antt
old: f x =
|  1
new:  f x = 2
refuted:
|pub no : NotBefore → ⊥
|no f = f
"""

CODE = """ghost use Rattle.a.specs.B.{c as B·c, d};
impl X {
    ghost use Rattle.a.specs.E.{
        f,
    };
}
"""


def same(got, wanted, what):
    if got != wanted:
        sys.exit("tools.test: %s: %r, not %r" % (what, got, wanted))


def main():
    with tempfile.TemporaryDirectory() as folder:
        with open(os.path.join(folder, "crates.txt"), "w", encoding="utf-8") as f:
            f.write(CRATES)
        uses = graph(folder)
        same(statics(folder), ["d"], "the static libraries of crates.txt")
    same(list(uses.items()), [("a", []), ("b", ["a", "io"]), ("c", ["a", "b"]), ("d", ["a"])], "crates.txt")
    same(under(["b", "d"], uses), {"a", "b", "d", "io"}, "what b and d rest on")
    same(above(["b"], uses), {"b", "c"}, "what rests on b")
    same(made_of(["c"], uses), ["a", "b", "c"], "the crates of c")
    same(depths(uses), {"a": 1, "b": 2, "c": 3, "d": 2}, "how deep they are")
    wrong = parse(WRONG)
    same((wrong.rule, wrong.crate, wrong.words["with"], wrong.falls), ("one | two", "theorem_node_exact", "node more", ""), "a wrong rule's words")
    same(wrong.edits, [["crates/rules_node/specs/States.antt", "f x =\n  1", " f x = 2"]], "its edits")
    same(wrong.refuted, "\npub no : NotBefore → ⊥\nno f = f", "its refutation")
    same((wrong.touched, cell(wrong.rule)), ({"rules_node"}, "one \\| two"), "the crates that it touches, and a cell of the page")
    same(cited_in(CODE), ({"B·c": ("a", "B", "c"), "d": ("a", "B", "d"), "f": ("a", "E", "f")}, {}), "what contracts cite, under another name and inside an impl too")
    same(set(seconds()) & set(graph()) != set(), True, "whether docs/CHECK-TIMES.md has times of crates")


if __name__ == "__main__":
    main()
