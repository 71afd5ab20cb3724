"""The rule on must-fail edits (docs/ARCHITECTURE.md), held to in the gate's first second.

  python3 -m tools.edits check             every edit keeps the rule; else which does not, and a failing exit
  python3 -m tools.edits list [CRATE..]    every edit with what it is, the function that it is in, and that function's contract

An edit of a definition or of a statement (specs/, proofs/) always may stand. Of code at most three may stand in a crate, and none where the
crate's check takes over a minute (docs/CHECK-TIMES.md); where the contract of its function is no equation, so that more than the equation is to be tried, an edit may stand besides.
"""
import glob
import os
import re
import sys

from tools.check_times import seconds

MOST_SECONDS = 60
MOST_OF_CODE = 3
HEADER = re.compile(r"^[ \t]*(?:pub )?(?:extern \"C\" )?fn (\w+)", re.M)
ENSURES = re.compile(r"\bensures(?: \w+)? \{")
EQUATION = re.compile(r"lender |page_ink |(?:result(?:\.now)?|\w+\.new) ≡ |number_of \w+ ≡ |ink \w+\.new |whole |outcome |\(result ≡ .* × \(\w+\.new ≡ ")


def facts(contract):
    """What its clauses `ensures` say; a clause may stand on several lines."""
    found = []
    for head in ENSURES.finditer(contract):
        end, depth = head.end(), 1
        while depth:
            depth += {"{": 1, "}": -1}.get(contract[end], 0)
            end += 1
        found.append(" ".join(contract[head.end(): end - 1].split()))
    return found


def is_equation(fact):
    """Whether a clause says what the result is, or what is left of a buffer or a page."""
    return bool(EQUATION.match(fact))


class Edit:
    def __init__(self, path):
        self.crate, self.name = path.split("/")[1], os.path.basename(path)[: -len(".edit")]
        self.pairs, file, old = [], None, None
        for line in open(path, encoding="utf-8"):
            line = line.rstrip("\n")
            if line.startswith("file: "):
                file = line[6:]
            elif line.startswith("old: "):
                old = line[5:]
            elif line.startswith("new:"):
                self.pairs.append((file, old))
        self.of_code = any(f.startswith("src/") for f, _ in self.pairs)
        self.function, self.contract = self.where() if self.of_code else ("", [])
        self.beyond = self.of_code and any(not is_equation(f) for f in self.contract)

    def where(self):
        """The function that the first text stands in, and its contract's clauses."""
        file, old = next((f, o) for f, o in self.pairs if f.startswith("src/"))
        text = open(f"crates/{self.crate}/{file}", encoding="utf-8").read()
        at = text.find(old)
        if at < 0 or text.count(old) != 1:
            sys.exit(f"{self.crate}/{self.name}: its text is not in {file} once")
        heads = [h for h in HEADER.finditer(text) if h.start() <= at + len(old)]
        if not heads:
            return "", []
        head = heads[-1]
        end = text.find("\n{\n", head.end()) if head.start() == text.rfind("\n", 0, head.start() + 1) + 1 and not head.group(0).startswith(" ") else text.find("\n    {\n", head.end())
        return head.group(1), facts(text[head.end(): end if end > 0 else len(text)])


def edits(crates=None):
    return [e for e in map(Edit, sorted(glob.glob("crates/*/must-fail/*.edit"))) if not crates or e.crate in crates]


def check():
    times, found, wrong = seconds(), edits(), []
    for crate in sorted({e.crate for e in found}):
        plain = [e.name for e in found if e.crate == crate and e.of_code and not e.beyond]
        if len(plain) > MOST_OF_CODE:
            wrong.append(f"{crate}: {len(plain)} edits of code ({', '.join(plain)}), {MOST_OF_CODE} may stand")
        if plain and times.get(crate, 0) > MOST_SECONDS:
            wrong.append(f"{crate}: its check takes {times[crate]} s, so its edit of code ({', '.join(plain)}) belongs into a crate below it")
    for line in wrong:
        print("edits:", line)
    print(f"edits: {len(found)}, of definitions and statements {sum(not e.of_code for e in found)}, of code {sum(e.of_code for e in found)}")
    return 1 if wrong else 0


def main(words):
    os.chdir(os.path.join(os.path.dirname(os.path.abspath(__file__)), ".."))
    if words[:1] == ["list"]:
        for e in edits(words[1:]):
            kind = "definition or statement" if not e.of_code else "code, beyond an equation" if e.beyond else "code"
            print(f"{e.crate}/{e.name}: {kind}" + (f"; {e.function}: " + "; ".join(e.contract) if e.of_code else ""))
        return 0
    if words == ["check"]:
        return check()
    print(__doc__)
    return 2


if __name__ == "__main__":
    sys.exit(main(sys.argv[1:]))
