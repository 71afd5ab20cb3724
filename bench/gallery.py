"""A gallery of wrong drivers (bench/wrong.py): how soon `./lab --against` finds each, and how short the history is that it hands back. docs/DRIVERS.md has the table.

  python3 -m bench.gallery              looks for each, with three seeds, and prints the table; exit status 1 where one is not found within its bound, or its history is too long
  python3 -m bench.gallery NAME..       only these
  python3 -m bench.gallery drive NAME   is the driver NAME, to be tried by hand; `drive right` has no bug
"""
import os
import re
import sys
import tempfile
from typing import NamedTuple

from bench import against, wrong
from bench.under_test import Driver, Ran
from bench.wrong import GALLERY, drive

BOUND = 600          # histories within which each is to be found
SEEDS = range(1, 4)


class Here(Driver):
    """A driver in this process: the same answers, and no process to start."""

    def __init__(self, make):
        super().__init__([], 5.0)
        self.make = make

    def meet(self):
        pass

    def run(self, lines, timeout=None):
        driver, answers = self.make(), []
        for line in lines:
            try:
                answers.append(driver.answer(line))
            except wrong.Stops as e:
                return Ran(answers, str(e), "", 0.0)
        return Ran(answers, "", "", 0.0)


class Looked(NamedTuple):
    """What --against made of a wrong driver."""
    status: int
    histories: int   # until it was found
    commands: int    # of the shortest history
    tries: int       # runs of the driver until it was so short
    text: str        # the history


def looked_for(name, seed, bound):
    said = []
    with tempfile.TemporaryDirectory() as folder:
        status = against.against([name, "--seed", str(seed), "--into", folder, "--histories", str(bound), "--shrink", "120", "-q"], said.append, said.append, Here(GALLERY[name][2]()))
        text = ""
        for file in os.listdir(folder):
            with open(os.path.join(folder, file), encoding="utf-8") as f:
                text = f.read()
    found = re.search(r"Found in history (\d+) of kind \w+, seed \d+; (\d+) commands(?: after (\d+) tries)?", "\n".join(said))
    return Looked(status, *(int(n or 0) for n in found.groups()) if found else (None, None, None), text)


def table(names, seeds, out=print):
    out("| driver | what is wrong | histories until it is found, %d seeds: median, most | commands of the shortest history: fewest, most | a person needs | runs of the driver to make it short: most |" % len(seeds))
    out("|---|---|---|---|---|---|")
    bad = []
    for name in names:
        what, most, _ = GALLERY[name]
        found = [looked_for(name, seed, BOUND) for seed in seeds]
        if any(one.status != 1 or one.commands > most for one in found):
            bad.append(name)
        there = sorted((one.histories for one in found if one.status == 1))
        commands = [one.commands for one in found if one.status == 1]
        out("| `%s` | %s | %s%s | %s | %d | %s |" % (name, what, "%d, %d" % (there[len(there) // 2], there[-1]) if there else "", "" if len(there) == len(found) else "; %d of %d not found" % (len(found) - len(there), len(found)),
                                                    "%d, %d" % (min(commands), max(commands)) if commands else "", most, max((one.tries for one in found if one.status == 1), default="")))
        sys.stdout.flush()
    return bad


def main(words):
    if words[:1] == ["drive"] and len(words) == 2 and (words[1] in GALLERY or words[1] == "right"):
        drive(words[1])
        return 0
    unknown = [name for name in words if name not in GALLERY]
    if unknown:
        print("gallery: no such driver: %s; there are %s" % (unknown[0], ", ".join(GALLERY)), file=sys.stderr)
        return 2
    bad = table(words or GALLERY, SEEDS)
    for name in bad:
        print("gallery: %s is not found within %d histories, or its history is too long" % (name, BOUND), file=sys.stderr)
    return 1 if bad else 0


if __name__ == "__main__":
    sys.exit(main(sys.argv[1:]))
