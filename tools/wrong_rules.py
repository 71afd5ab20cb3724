"""Wrong rules: which law or theorem refuses each, and which statement is false with it?

A must-fail edit reaches one crate. A misreading of a rule can stand in definition and code alike; then the code's crates are proved, and only a law or a theorem that says what must hold in other
words can refuse it. The rules stand apart from code, so a misreading is put into rules_* alone and tried against the laws and theorems, which rest on no code. Each file of tools/wrong-rules/ is
one: blocks of `file:`, `old:`, `new:`, the rule in words (`rule:`), and one of two kinds of evidence, or both. A line that begins with `|` goes on with the text above it.

1. What refused it (`falls:`, a crate and a name): the crates that it touches and those above are checked, lowest first, up to the first that is refused.
   One that names the crates of a theorem's proof (`proof:`) is tried against that theorem alone: only those crates and what they rest on are checked. It has the edits of another (`as:`), and its own
   make the laws below fit the wrong rule, so that none of them stands in the theorem's way. One of a program (its definitions stand beside its code) is put into definition and code alike.

2. A refutation: a statement is false with it, which is shown by a proof. A broken proof shows less: a wrong rule may break a proof's text and leave what it proves true.
     sentence: the document's sentence that it misreads
     statement: CRATE Module.Name      the statement, of CRATE's specs/
     at: the state, in words
     with: PRELUDE ..                  texts that go before it, tools/wrong-rules/PRELUDE.prelude (may be absent); a line `define WORD text` there has WORD stand for the text
     refuted:
     |pub false_now : Name → ⊥
     |false_now f = ..
   In the tree with the wrong rule a crate is made of CRATE's specs/ with the refutation as its only proof: it must be proved. Over the right rules the same must be refused (several in one check, their
   names marked _2, _3, ..; each must be refused). So no law has to fit the wrong rule, and no proof of laws_* or theorem_* is checked. The refutation may name laws_words, rules_* with their proofs, and the specs/ of CRATE (Rattle.CRATE.specs.Module),
   and those of the theorem crates that CRATE's own specs/ name. Worked rows (modules Worked* of rules_*/proofs) are left out of the wrong tree: they refuse a rule by themselves.
   How to write one: choose one small concrete state; show, by computing, what the wrong rule does there; say by the statement that it is otherwise; end at two values that differ
   (`clash`, or an equation of two numbers by `omega`). map_check_never_empty.edit is a whole one, in some lines over node.prelude.

  python3 -m tools.wrong_rules [-j N]            tries all, two at a time or N
  python3 -m tools.wrong_rules [-j N] NAME ..    tries these
  python3 -m tools.wrong_rules [-j N] refuted    tries all refutations and those alone, and says in tools/wrong-rules/tried.txt that it did; refuted CRATE .., NAME ..: those of its statements, these
  python3 -m tools.wrong_rules page              writes docs/WRONG-RULES.md from the files
  python3 -m tools.wrong_rules check             says whether page and files agree

Each is applied to a copy of the tree with what is proved of it (run `rt all check` before). A wrong rule that nothing refuses, or whose refutation is not one, is a failure. Trying is no part of the
gate; `check` is.
"""
import glob
import os
import re
import shutil
import subprocess
import sys
import tempfile
import time
from concurrent.futures import ThreadPoolExecutor
from dataclasses import dataclass, field

from tools.crates import ROOT, above, depths, graph, under

FOLDER = os.path.join(ROOT, "tools", "wrong-rules")
PAGE = os.path.join(ROOT, "docs", "WRONG-RULES.md")
TRIED = os.path.join(FOLDER, "tried.txt")
NO_CODE = ("laws_", "rules_", "theorem_", "model_")  # what rests on no code
WORDS = ("rule", "falls", "sentence", "statement", "at", "with", "refuted")  # of a file, each once


@dataclass
class Wrong:
    """A wrong rule: its words by name; the crates of the proof that it is tried against, if it names some; its edits, each a file, the old text and the new."""
    words: dict = field(default_factory=lambda: {w: "" for w in WORDS})
    proof: list = field(default_factory=list)
    edits: list = field(default_factory=list)

    def __getattr__(self, name):
        if name in WORDS:
            return self.words[name]
        raise AttributeError(name)

    @property
    def crate(self):
        """Where the statement stands."""
        return self.words["statement"].partition(" ")[0]

    @property
    def touched(self):
        return {path.split("/")[1] for path, _, _ in self.edits}


def text_of(path):
    with open(path, encoding="utf-8") as f:
        return f.read()


def parse(text, of=None):
    """A wrong rule from its text. A line that begins with `|` goes on with the text above it. `of` reads another one by its name."""
    found, more = Wrong(), None
    for line in text.splitlines():
        word, colon, rest = line.partition(":")
        rest = rest[1:] if rest.startswith(" ") else rest
        if line.startswith("|"):
            more("\n" + line[1:])
        elif word in WORDS:
            found.words[word] = rest

            def more(text, word=word):
                found.words[word] += text
        elif word == "as":
            found.edits = [list(e) for e in of(rest).edits]
        elif word == "proof":
            found.proof = rest.split()
        elif word == "file":
            found.edits.append([rest, "", ""])
        elif word in ("old", "new"):
            edit, at = found.edits[-1], 1 if word == "old" else 2
            edit[at] = rest

            def more(text, edit=edit, at=at):
                edit[at] += text
        elif line.strip():
            raise ValueError("no line of a wrong rule: " + line)
    return found


def read(name):
    try:
        return parse(text_of(os.path.join(FOLDER, name + ".edit")), read)
    except FileNotFoundError:
        sys.exit("wrong_rules: tools/wrong-rules/%s.edit is not there" % name)
    except ValueError as e:
        sys.exit("wrong_rules: %s.edit: %s" % (name, e))


def names():
    return sorted(os.path.basename(p)[: -len(".edit")] for p in glob.glob(os.path.join(FOLDER, "*.edit")))


def to_check(uses, touched, proof):
    """The crates that the edits touch and those that rest on them, lowest first; for a rule those without code, for a proof only what it rests on."""
    reached, depth = above(touched, uses), depths(uses)
    if all(c.startswith(NO_CODE) for c in touched):
        reached = {c for c in reached if c.startswith(NO_CODE)}
    if proof:
        reached &= under(proof, uses)
    return sorted(reached, key=lambda c: (depth[c], c))


def apply(tree, edits):
    for path, old, new in edits:
        full = os.path.join(tree, path)
        text = text_of(full)
        if text.count(old) != 1:
            raise ValueError("%s has %d times: %s" % (path, text.count(old), old))
        with open(full, "w", encoding="utf-8") as f:
            f.write(text.replace(old, new))


ERROR = re.compile(r"([\w/.]+):\d+:\d+: error: `([^`]+)`")


def refused_at(output):
    """The first law, theorem or function that the check refuses."""
    first = ERROR.search(output)
    if first:
        return "%s (%s)" % (first.group(2), os.path.normpath(first.group(1)))
    fn = re.search(r"^fn ([\w:]+): (?:not proved|no proof)", output, re.M)
    return "fn " + fn.group(1) if fn else output.strip().split("\n")[-1]


def errors(output):
    """What the check says of what it refuses, the tree's own place left out."""
    lines = output.split("\n")
    first = next((i for i, line in enumerate(lines) if ": error: " in line), len(lines) - 3)
    return "\n".join("    " + re.sub(r"\S*/crates/", "crates/", line) for line in lines[first:first + 30])


def crate_copied(tree, crate, *left_out):
    """A crate's folder, without what has these names."""
    shutil.copytree(os.path.join(ROOT, "crates", crate), os.path.join(tree, "crates", crate), symlinks=True, ignore=shutil.ignore_patterns(*left_out))


def copied(tree, crates):
    """The sources of all crates, and what is proved of these."""
    shutil.copy(os.path.join(ROOT, "crates.txt"), tree)
    for crate in os.listdir(os.path.join(ROOT, "crates")):
        crate_copied(tree, crate, *([] if crate in crates else ["out"]))


def check(tree, crate):
    done = subprocess.run(["rt", "check", "--jobs", "1"], cwd=os.path.join(tree, "crates", crate), capture_output=True, text=True)
    return done.returncode, done.stdout + done.stderr


# ---- what refuses it

def falls(wrong, uses):
    """What there is to say of it, and whether it is refused."""
    tree = tempfile.mkdtemp()
    try:
        crates = to_check(uses, wrong.touched, wrong.proof)
        copied(tree, under(crates, uses) & set(uses))
        apply(tree, wrong.edits)
        for crate in crates:
            status, output = check(tree, crate)
            if status:
                what = "%s: %s" % (crate, refused_at(output))
                before = wrong.falls
                return "refused by %s%s" % (what, "" if not before or before.split()[0].rstrip(":") in what else "  (before: %s)" % before), True
        return "PASSES: nothing refuses it", False
    finally:
        shutil.rmtree(tree, ignore_errors=True)


# ---- the statement that is false with it

def is_rule(crate):
    return crate == "laws_words" or crate.startswith("rules_")


def named_by(text):
    return set(re.findall(r"\bRattle\.(\w+)\.", text)) - {"std"}


def specs_of(crate):
    return "\n".join(text_of(p) for p in sorted(glob.glob(os.path.join(ROOT, "crates", crate, "specs", "*.antt"))))


def stated(crate):
    """Of the crates whose specs/ a statement of this crate rests on, those that are no rules, lowest last."""
    found, todo = [], [crate]
    while todo:
        one = todo.pop(0)
        if one in found:
            found.remove(one)
        found.append(one)
        todo += sorted(c for c in named_by(specs_of(one)) if c != one and not is_rule(c))
    return found


NAME = re.compile(r"^(?:pub |abbrev |unfoldable |record |data )*([^\s(){}]+) :", re.M)


def named(text, mark):
    """The same text with the mark after every name that it gives, so that several can stand in one file."""
    given = {found.group(1) for found in map(NAME.match, text.split("\n")) if found}
    return re.sub(r"(?<![^\s(){},;])[^\s(){},;.]+", lambda m: m.group(0) + mark if m.group(0) in given else m.group(0), text)


def refutation(wrongs):
    """The whole text of one, or of several that have the same texts before them: `use` lines first; the names of the second are marked with _2, and so on."""
    before = [line for p in wrongs[0].words["with"].split() for line in text_of(os.path.join(FOLDER, p + ".prelude")).splitlines() + [""]]
    own = [wrong.words["refuted"].strip("\n").split("\n") for wrong in wrongs]
    uses = list(dict.fromkeys(line for lines in [before] + own for line in lines if line.startswith("use ")))
    text = "\n".join(uses + [""] + [line for line in before if not line.startswith(("use ", "define "))]) + "\n"
    for i, lines in enumerate(own, 1):
        text += named("\n".join(line for line in lines if not line.startswith("use ")).strip("\n"), "_%d" % i if i > 1 else "") + "\n\n"
    for word, stands_for in re.findall(r"^define (\w+) (.*)$", "\n".join(before), re.M):
        text = re.sub(r"\b%s\b" % word, lambda m: stands_for, text)
    return text


def without_worked(folder):
    """Worked rows left out of a crate's proofs: they refuse a rule by themselves."""
    lib = os.path.join(folder, "Lib.antt")
    if os.path.exists(lib):
        kept = [line for line in text_of(lib).splitlines() if not line.startswith("pub mod Worked")]
        with open(lib, "w", encoding="utf-8") as f:
            f.write("".join(line + "\n" for line in kept))
        for path in glob.glob(os.path.join(folder, "Worked*")):
            shutil.rmtree(path) if os.path.isdir(path) else os.remove(path)


def refutation_tree(tree, wrongs, uses, edits):
    """The rules with the edits, the specs/ that the statements rest on, and the refutations as the only proof of their crate."""
    crate, text = wrongs[0].crate, refutation(wrongs)
    reduced = stated(crate)
    strangers = sorted(c for c in named_by(text) if not is_rule(c) and c not in reduced)
    if strangers:
        raise ValueError("a refutation names laws_words, rules_* and the specs/ of its statement alone, not %s" % ", ".join(strangers))
    named = {c for r in reduced for c in named_by(specs_of(r))} | named_by(text)
    rules = [c for c in uses if c in under({c for c in named if is_rule(c)}, uses)]
    touched = above({path.split("/")[1] for path, _, _ in edits}, {c: uses[c] for c in rules})
    for c in rules:
        crate_copied(tree, c, "must-fail", *(["out"] if c in touched else []))
    for c in reduced:
        crate_copied(tree, c, "must-fail", "proofs", "out")
    apply(tree, [edit for edit in edits if edit[0].split("/")[1] in rules])  # what makes laws fit the wrong rule has no place here
    for c in touched & set(rules):
        without_worked(os.path.join(tree, "crates", c, "proofs"))
    proofs = os.path.join(tree, "crates", crate, "proofs")
    os.makedirs(proofs)
    for name, content in (("Lib.antt", "pub mod Refuted\n"), ("Refuted.antt", text)):
        with open(os.path.join(proofs, name), "w", encoding="utf-8") as f:
            f.write(content)
    with open(os.path.join(tree, "crates.txt"), "w", encoding="utf-8") as f:
        for c, used in [(c, uses[c]) for c in rules] + [(c, rules + reduced[i + 1:]) for i, c in reversed(list(enumerate(reduced)))]:
            f.write(":".join([c, "".join(" " + u for u in used)]) + "\n")


def checked(wrongs, uses, edits):
    """Whether these refutations are proved with these edits, and what the check says."""
    tree = tempfile.mkdtemp()
    try:
        refutation_tree(tree, wrongs, uses, edits)
        status, output = check(tree, wrongs[0].crate)
        return status == 0, output
    finally:
        shutil.rmtree(tree, ignore_errors=True)


def refuted(wrong, uses):
    """What there is to say of it, and whether the statement is false with the wrong rule. That it is not with the right one is tried by `right`."""
    holds, output = checked([wrong], uses, wrong.edits)
    if not holds:
        return "NOT REFUTED: %s: the refutation is refused with the wrong rule: %s\n%s" % (wrong.words["statement"], refused_at(output), errors(output)), False
    return "false with it: %s" % wrong.words["statement"], True


AT_ONCE = 25  # refutations in one file over the right rules


def right(chosen, uses):
    """Those whose refutation is not refused over the right rules: several in one check, whose errors name those that are refused; one that is not named is tried alone."""
    groups, proved_too = {}, []
    for name in chosen:
        wrong = read(name)
        groups.setdefault((wrong.crate, wrong.words["with"]), []).append((name, wrong))
    for group in groups.values():
        for i in range(0, len(group), AT_ONCE):
            some = group[i:i + AT_ONCE]
            _, output = checked([wrong for _, wrong in some], uses, [])
            found = set(re.findall(r": (?:error: )?`([^`]+)`(?::| is not admitted)", output))
            for k, (name, wrong) in enumerate(some, 1):
                last = NAME.findall("\n".join(line for line in wrong.words["refuted"].split("\n") if line.startswith("pub ")))[-1]
                if last + ("_%d" % k if k > 1 else "") not in found and checked([wrong], uses, [])[0]:  # not named there: tried alone
                    proved_too.append(name)
    return proved_too


def attempt(name, uses, only_refuted=False):
    """What there is to say of it, and whether it is refused."""
    wrong = read(name)
    said, good, start = ["%s: %s" % (name, wrong.rule)], True, time.monotonic()
    try:
        for kind in ([refuted] if wrong.refuted else []) + ([falls] if not wrong.refuted or wrong.falls and not only_refuted else []):
            what, refused = kind(wrong, uses)
            said.append("  " + what)
            good = good and refused
    except ValueError as e:
        said.append("  CAN'T BE TRIED: %s" % e)
        good = False
    said[-1] += "  (%d s)" % (time.monotonic() - start)
    return said, good


def try_all(chosen, jobs, only_refuted=False):
    """Those that nothing refuses; each is said when it is known."""
    uses, passed = graph(), []
    with ThreadPoolExecutor(jobs) as pool:
        for name, (said, refused) in zip(chosen, pool.map(lambda n: attempt(n, uses, only_refuted), chosen)):
            print("\n".join(said), flush=True)
            passed += [] if refused else [name]
    for name in right([n for n in chosen if read(n).refuted and n not in passed], uses):
        print("%s: NO REFUTATION: it is not refused over the right rules" % name)
        passed.append(name)
    print("%d refused, %d passed%s" % (len(chosen) - len(passed), len(passed), "".join(" " + n for n in passed)))
    return passed


# ---- the page

HEAD = """# Wrong rules

Made by `python3 -m tools.wrong_rules page` from the files of `tools/wrong-rules/`, one a wrong rule: a misreading of a sentence, put into the definitions of rules_* in a copy of the tree.

## With a statement that is false with it
In the tree with the wrong rule it is proved that the statement implies the absurd, at the one state that is named; in the right tree that proof is refused. Both are tried by
`python3 -m tools.wrong_rules refuted`, which is no part of the gate. %s

| sentence | wrong rule | file | statement that is false | at |
|---|---|---|---|---|
"""

REST = """
## With what refused it first
Tried against the laws and theorems as they stand: the first that is refused. What stands above it was not reached.

| wrong rule | file | refused first by |
|---|---|---|
"""


def cell(text):
    return text.strip().replace("\n", " ").replace("|", "\\|")


def page():
    tried = text_of(TRIED).strip() if os.path.exists(TRIED) else ""
    rules = [(name, read(name)) for name in names()]
    out = [HEAD % (tried or "Not tried as a whole yet.")]
    for crate in sorted({w.crate for _, w in rules if w.refuted}):
        for name, w in rules:
            if w.refuted and w.crate == crate:
                out.append("| %s | %s | `%s` | `%s` | %s |\n" % (cell(w.sentence), cell(w.rule), name, cell(w.words["statement"]).replace(" ", "` `", 1), cell(w.at)))
    out.append(REST)
    out += ["| %s | `%s` | `%s` |\n" % (cell(w.rule), name, cell(w.falls)) for name, w in rules if w.falls]
    return "".join(out)


def lacking():
    """What a file lacks, and where page and files differ."""
    for name in names():
        w = read(name)
        if not w.rule:
            yield "%s.edit has no rule:" % name
        if not w.refuted and not w.falls:
            yield "%s.edit has neither falls: nor refuted:" % name
        for word in ("sentence", "statement", "at"):
            if w.refuted and not w.words[word]:
                yield "%s.edit has a refutation and no %s:" % (name, word)
        if w.refuted and w.words["statement"]:
            module, _, short = w.words["statement"].partition(" ")[2].rpartition(".")
            path = os.path.join(ROOT, "crates", w.crate, "specs", module.replace(".", "/") + ".antt")
            if not os.path.exists(path) or not re.search(r"^(abbrev |unfoldable )?pub (record |data )?%s\b" % re.escape(short), text_of(path), re.M):
                yield "%s.edit: there is no statement %s" % (name, w.words["statement"])
        for p in w.words["with"].split():
            if not os.path.exists(os.path.join(FOLDER, p + ".prelude")):
                yield "%s.edit: tools/wrong-rules/%s.prelude is not there" % (name, p)
        for path, old, _ in w.edits:
            full = os.path.join(ROOT, path)
            if not os.path.exists(full):
                yield "%s.edit: %s is not there" % (name, path)
    if not os.path.exists(PAGE) or text_of(PAGE) != page():
        yield "docs/WRONG-RULES.md is not what the files say: python3 -m tools.wrong_rules page"


def main():
    words, jobs = sys.argv[1:], 2
    if words[:1] == ["-j"] and len(words) > 1 and words[1].isdigit():
        jobs, words = int(words[1]), words[2:]
    if words == ["page"]:
        with open(PAGE, "w", encoding="utf-8") as f:
            f.write(page())
        return 0
    if words == ["check"]:
        wrong = list(lacking())
        for line in wrong:
            print("wrong_rules: " + line)
        return 1 if wrong else 0
    if words[:1] == ["refuted"]:
        refutations = {n: read(n).crate for n in names() if read(n).refuted}
        chosen = [n for n, crate in refutations.items() if not words[1:] or crate in words[1:] or n in words[1:]]
        passed = try_all(chosen, jobs, True)
        if words == ["refuted"] and not passed:
            tree = subprocess.run(["git", "rev-parse", "--short", "HEAD"], cwd=ROOT, capture_output=True, text=True).stdout.strip()
            with open(TRIED, "w", encoding="utf-8") as f:
                f.write("Last tried whole on %s, tree %s: all %d.\n" % (time.strftime("%Y-%m-%d"), tree, len(chosen)))
        return 1 if passed else 0
    return 1 if try_all(words or names(), jobs) else 0


if __name__ == "__main__":
    sys.exit(main())
