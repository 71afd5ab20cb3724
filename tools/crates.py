"""crates.txt, read in one place.

  crates.py NAME ..   the crates of the repository that these are made of, they themselves with them, in the order of crates.txt
"""
import os
import sys

ROOT = os.path.dirname(os.path.dirname(os.path.abspath(__file__)))


def rows(root):
    """Each line of crates.txt: a crate, whether it is a static library, and what it may use."""
    with open(os.path.join(root, "crates.txt"), encoding="utf-8") as f:
        for line in f:
            name, colon, rest = line.partition(":")
            if colon and not line.startswith("#"):
                crate, *kind = name.split()
                yield crate, kind == ["staticlib"], rest.split()


def graph(root=ROOT):
    """Each crate with what it may use, the kit's libraries with them, in the order of crates.txt."""
    return {crate: uses for crate, _, uses in rows(root)}


def statics(root=ROOT):
    """The crates that are static libraries, in the order of crates.txt."""
    return [crate for crate, is_static, _ in rows(root) if is_static]


def under(names, uses):
    """The names with all that they rest on, the kit's libraries with them."""
    todo, reached = list(names), set()
    while todo:
        name = todo.pop()
        if name not in reached:
            reached.add(name)
            todo += uses.get(name, [])
    return reached


def above(names, uses):
    """The names with all that rests on them."""
    reached = set(names)
    while True:
        more = {c for c, used in uses.items() if c not in reached and reached & set(used)}
        if not more:
            return reached
        reached |= more


def depths(uses):
    """How many crates stand one on the other below each, itself with them."""
    found = {}

    def depth(name):
        if name not in found:
            found[name] = 1 + max([depth(used) for used in uses[name] if used in uses], default=0)
        return found[name]

    for name in uses:
        depth(name)
    return found


def made_of(names, uses):
    """The crates of the repository among what the names rest on, in the order of crates.txt."""
    reached = under(names, uses)
    return [c for c in uses if c in reached]


if __name__ == "__main__":
    print("\n".join(made_of(sys.argv[1:], graph())))
