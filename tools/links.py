"""Whether the files that the pages name are there.

  python3 -m tools.links check   says which are not, and where they are named

Looked at are README.md and docs/, without the notes of docs/landings/, which speak of the tree as it was. A name with letters for anything (crates/NAME, *) is passed over.
"""
import glob
import os
import re
import sys

from tools.crates import ROOT

FOLDERS = "bench|c|crates|docs|examples|nbd_server|programs|tools"
NAMED = re.compile(r"(?<![\w/.-])(?:%s)/[\w.*/-]*[\w*/]" % FOLDERS)
ANYTHING = re.compile(r"[A-Z]{3,}(?!\.md|-|[\w-]*\.md)|\*")


def is_there(name):
    """A file or folder; or, as docs/TRUST.md names definitions, CRATE/FILE."""
    crate, _, file = name.partition("/")
    return os.path.exists(os.path.join(ROOT, name)) or os.path.exists(os.path.join(ROOT, "crates", crate, "specs", file + ".antt"))


def missing():
    """Page, line and name of what is not there."""
    for page in [os.path.join(ROOT, "README.md")] + sorted(glob.glob(os.path.join(ROOT, "docs", "*.md"))):
        with open(page, encoding="utf-8") as f:
            for at, line in enumerate(f, 1):
                for name in NAMED.findall(line):
                    if not ANYTHING.search(name) and not is_there(name):
                        yield os.path.relpath(page, ROOT), at, name


def main():
    if sys.argv[1:] != ["check"]:
        sys.exit(__doc__)
    found = list(missing())
    for page, at, name in found:
        print("links: %s:%d: %s is not there" % (page, at, name))
    sys.exit(1 if found else 0)


if __name__ == "__main__":
    main()
