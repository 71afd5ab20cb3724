"""Tests of `./lab --simulate` (bench/simulate.py), which the gate runs (python3 -m bench.test_simulate): a few seeds, a few promises broken, a wrong rule. The lab is the one that is compiled with no proof."""
import sys

from bench import simulate
from bench.search import Dialogue
from tools import premises


def same(got, wanted, what):
    if got != wanted:
        sys.exit("bench.test_simulate: %s: %.600r, not %.600r" % (what, got, wanted))


class Given:
    def __init__(self, broken=None, rule=None, legs=3, steps=300):
        self.broken, self.rule, self.legs, self.steps, self.faults = broken, rule, legs, steps, simulate.FAULTS


def walked(lab, seed):
    world = simulate.World(lab, seed, 3, simulate.FAULTS, None)
    for _ in range(60):
        world.step()
    return world


def try_seeds(lab):
    """Nothing is lost; the history of a seed is always the same, keeps every premise by another reading of it, and so do its happenings."""
    for seed in range(1, 7):
        outcome = simulate.simulated(seed, Given(), lab)
        same((outcome.lost, outcome.steps), ("", 300), "seed %d" % seed)
    for seed in (3, 4):
        one, two = walked(lab, seed), walked(lab, seed)
        same(one.lines, two.lines, "the lines of seed %d, twice" % seed)
        plain = [line for line in one.lines if line.split(" ")[0] not in ("tick", "check_answer")]
        dropped, forgotten = premises.judged(plain, lambda lines: [lab.ask(line) for line in lines], simulate.THERE)
        same((dropped, forgotten), ({}, []), "what seed %d drops, and what it forgets" % seed)
        kept = [h for h in one.happenings if not (h[0] == "line" and h[1].split(" ")[0] in ("tick", "check_answer"))]
        same(simulate.Replayed(lab, kept).lines, plain, "the happenings of seed %d as lines" % seed)


def try_broken(lab):
    """A promise that is broken loses, and the history is made shorter; so does a wrong rule."""
    for given, seed, most in [(Given("marks", steps=400), 2, 20), (Given("deletes", steps=400), 2, 40)]:
        outcome = simulate.simulated(seed, given, lab)
        same("was missed, and is not dirty" in outcome.lost, True, "whether %s loses: %s" % (given.broken, outcome.lost))
        lines = simulate.shorter(lab, outcome.happenings, given.broken, 5)
        same((lines is not None and len(lines) <= most, simulate.forgets(lab, lines, {given.broken})), (True, True), "the history of %s: %s" % (given.broken, lines))
        same(simulate.forgets(lab, lines, set()), False, "whether it keeps the premise that was broken")
    given = Given(rule="no-17", steps=100)
    bent = simulate.Bent("no-17")
    same(any(simulate.simulated(seed, given, bent).lost for seed in range(30, 40)), True, "whether ten seeds lose without 17")


def run_all():
    lab = Dialogue()
    try_seeds(lab)
    try_broken(lab)
    lab.close()


if __name__ == "__main__":
    run_all()
