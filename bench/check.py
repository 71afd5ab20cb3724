"""Checks histories against the answers that are expected in them; `./lab --check` runs it.

A line `> ANSWER` right after a command is what is expected of it; a command without one is run and not checked.
  > refused 3                    the whole answer
  > ok .. sessions=NF            a part of it: `..` stands for words that are left open, and so is all that comes after the last word
  > ok .. job=none .. | MARK 0   words side by side must stand side by side, in this order; `.. NF` leaves the beginning open
Of sessions=, the dots at the end may be left out. In every file the lab begins fresh: it is told `pool 0 4096` before each.

For each file, `passed`, or its first difference: the command, what was expected and what came. The last line is the total. A file that is missing, is no history, or at which the program fails
is told of on standard error, and the others are checked; so is one that passed with nothing expected in it.
Exit status: 0 all passed, 1 some differ, 2 some could not be checked.
"""
import argparse
import shlex
import shutil
from typing import NamedTuple

from bench.history import Wrong, asked, asking, build_for, complain, loaded, run_lab, store, to_spread, whole
from bench.spread import spread

OPEN = ".."


def words_of(line):
    return [w.rstrip(".") if w.startswith("sessions=") else w for w in line.split()]


def fits(expected, answer):
    """Whether an answer is as expected."""
    if expected == answer:
        return True
    wanted, came = words_of(expected), words_of(answer)
    if OPEN not in wanted:
        return wanted == came
    at, anywhere = 0, False
    for part in parts_of(wanted):
        places = range(at, len(came) - len(part) + 1) if anywhere else [at]
        found = next((k for k in places if came[k : k + len(part)] == part), None)
        if found is None:
            return False
        at, anywhere = found + len(part), True
    return True


def parts_of(words):
    """The words between what is left open; the first part, perhaps empty, stands at the beginning."""
    parts = [[]]
    for w in words:
        if w == OPEN:
            parts.append([])
        else:
            parts[-1].append(w)
    return parts


def renewed(expected, answer):
    """What is to be expected from now on: the line as it is where it fits; of a part the same fields, where that will do; else the whole answer."""
    if fits(expected, answer):
        return expected
    if OPEN in expected.split():
        now = {w.partition("=")[0]: w for w in words_of(answer) if "=" in w}
        part = " ".join(now.get(w.partition("=")[0], w) if "=" in w else w for w in expected.split())
        if fits(part, answer):
            return part
    return answer


def rewritten(history, answers, every):
    """The lines of the file with the answers of today, and how many of them are others than before; every: after each command, not only where one stood."""
    said = {c.at: (c, a) for c, a in zip(history.commands, answers)}
    lines, changed, command = [], 0, None
    for at, line in enumerate(history.lines, 1):
        if at - 1 in said and line.startswith(">"):
            continue
        lines.append(line)
        if at not in said:
            continue
        command, answer = said[at]
        if command.expected is None and not every:
            continue
        line = "> " + (answer if command.expected is None else renewed(command.expected, answer))
        changed += command.expected is None or line != "> " + command.expected
        lines.append(line)
    return lines, changed


def difference(history, answers):
    """The first command that is not answered as expected, with what came."""
    return next(((c, a) for c, a in zip(history.commands, answers) if c.expected is not None and not fits(c.expected, a)), None)


class Outcome(NamedTuple):
    """What became of a file."""
    status: int       # PASSED, DIFFERS or UNREAD
    said: list        # lines about it
    wrong: list       # lines for standard error
    commands: int = 0
    checked: int = 0


PASSED, DIFFERS, UNREAD = range(3)  # the exit statuses, too


def compared(history, answers):
    found, count = difference(history, answers), len(history.commands)
    checked = sum(c.expected is not None for c in history.commands)
    if found is None:
        idle = [] if checked else ["%s: nothing is expected in it, so nothing was checked" % history.name]
        return Outcome(PASSED, ["passed %s: %d of %d commands checked" % (history.name, checked, count)], idle, count, checked)
    command, answer = found
    said = ["differs %s:%d: %s" % (history.name, command.at, command.text), "    expected: %s" % command.expected, "    came:     %s" % answer]
    return Outcome(DIFFERS, said, [], count, checked)


def updated(history, answers, every):
    lines, changed = rewritten(history, answers, every)
    if changed:
        try:
            store(history.name, lines)
        except Wrong as e:
            return Outcome(UNREAD, [], [e])
    return Outcome(PASSED, ["%s %s: expected answers that changed: %d" % ("updated" if changed else "kept", history.name, changed)], [])


def outcomes(things, run, given):
    """What becomes of each file, by one run of the program for all. Those that are no histories, and those that the program fails at, are left out and told of."""
    histories = loaded(things)
    answers = iter(asked([h for h in histories if not isinstance(h, Wrong)], run))
    found = []
    for history in histories:
        said = history if isinstance(history, Wrong) else next(answers)
        if isinstance(said, Wrong):
            found.append(Outcome(UNREAD, [], [said]))
        elif given.update or given.expect:
            found.append(updated(history, said, given.expect))
        else:
            found.append(compared(history, said))
    return found


def arguments(words):
    parser = argparse.ArgumentParser(prog="./lab --check", description=__doc__, formatter_class=argparse.RawDescriptionHelpFormatter)
    parser.add_argument("files", metavar="FILE", nargs="+", help="a history; `-` is standard input")
    parser.add_argument("-q", "--quiet", action="store_true", help="say nothing of files that passed")
    parser.add_argument("--with", metavar="PROGRAM", dest="program", help="ask this program, and its words, instead of the lab: one that reads commands from standard input and writes a line for each")
    parser.add_argument("--jobs", metavar="N", type=whole, help="how many runs of the program at a time; where it is left out, as many as there are processors, and with --with one")
    change = parser.add_mutually_exclusive_group()
    change.add_argument("--update", action="store_true", help="rewrite the expected answers that do not fit to what the lab answers; nothing is checked")
    change.add_argument("--expect", action="store_true", help="the same, and write one after every command that has none")
    given = parser.parse_args(words)
    if "-" in given.files and (given.update or given.expect):
        parser.error("standard input can't be rewritten")
    if given.program is not None and not shlex.split(given.program):
        parser.error("there is no program in --with")
    if given.program is not None and not shutil.which(shlex.split(given.program)[0]):
        raise Wrong("%s could not be run: there is no such program" % shlex.split(given.program)[0])
    return given


def parts(given, run):
    """What becomes of the files, some at a time. With a function that runs the program, which tests hand over, all at once; else spread over processes."""
    things, sizes = to_spread(given.files)
    if given.program:
        program = asking(shlex.split(given.program))
        return spread(lambda some: outcomes(some, program, given), things, sizes, "files", given.jobs or 1)
    if run is not None:
        return [outcomes(things, run, given)]
    build_for(things)
    return spread(lambda some: outcomes(some, run_lab, given), things, sizes, "files", given.jobs)


def check(words, run=None, out=print, wrong=complain):
    given = arguments(words)
    changing, found = given.update or given.expect, []
    for outcome in (outcome for some in parts(given, run) for outcome in some):
        found.append(outcome)
        for line in outcome.said if outcome.status or changing or not given.quiet else []:
            out(line)
        for line in outcome.wrong:
            wrong(line)
    if not changing:
        out(total(found))
    return max(outcome.status for outcome in found)


def total(found):
    counts = [sum(outcome.status == status for outcome in found) for status in (PASSED, DIFFERS, UNREAD)]
    unread = ", %d could not be checked" % counts[UNREAD] if counts[UNREAD] else ""
    return "%d passed, %d differ%s; %d commands, %d checked" % (*counts[:UNREAD], unread, sum(o.commands for o in found), sum(o.checked for o in found))
