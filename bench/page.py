"""A history as one page for a browser; `./lab --page FILE > page.html` runs it.

The page holds everything: no network, no library. On it: the messages as a sequence chart, the client and its nodes; a slider over the commands; and at each command the pool, the sessions
and nodes, and every row of the client's and the nodes' maps as a strip of dirty chunks, with what a transfer has put into staging below it.
Commands have the numbers of their lines in the file. Exit status: 0, or 2 where the file is missing or can't be read as a history.
"""
import argparse
import html
import json
import os
import sys
import textwrap

from bench.history import UNREADABLE, Wrong, load, messages, run_lab
from bench.trace import BY_HAND, FRESH_NODES, MEMBERS, ids, taken, trace

TEMPLATE = os.path.join(os.path.dirname(os.path.abspath(__file__)), "page.html")
WIDEST = 84  # letters of a comment on a line of the chart
CLIENT = -1  # its place among those who send and receive
SENT, AWAITED, ANSWERED, MAP = range(4)  # kinds of arrows
STATES = {".": "", "C": "CREATED", "N": "NORMAL", "F": "FAILED", "R": "RECONNECTING", "X": "REMOVING"}


# What happened at a command: arrows (from, to whom, words, kind), and the same in words.

class Happened:
    def __init__(self, step):
        self.arrows, self.words = [], []
        if step.answer == UNREADABLE:
            return
        handed = [e for e in step.nodes if not e.own]
        if step.command.read.form.name == "deliver" and step.answer != "idle":
            handed = self.delivered(step, handed)
        if step.command.read.form.name == "deliver_check" and step.answer != "idle":
            self.checked(step, handed.pop(0))
        if taken(step.answer) and step.event:
            self.sent(step, handed)

    def delivered(self, step, handed):
        """The awaited message at its node, and the answer that comes back. Hands back the events that are left."""
        message, first = step.before.awaited, handed[0]
        count = 2 if message[0] == "MAP_SEND" and taken(first.answer) else 1
        last = handed[count - 1]
        if count == 2:
            self.arrows.append((first.node, [last.node], "the map", MAP))
        _, kind, version = step.event.numbers
        said = ("failed (%s)" % last.answer, "good", "version %d" % version)[kind]
        self.arrows.append((last.node, [CLIENT], "#%d: %s" % (step.before.number, said), ANSWERED))
        self.words += ["%s arrives" % " ".join(message)] + ["node %d: %s" % (e.node, told(e)) for e in handed[:count]] + ["answer #%d: %s" % (step.before.number, said)]
        return handed[count:]

    def checked(self, step, event):
        """A member's answer to the tick."""
        tick, _, empty = step.event.numbers
        said = "tick %d: %s" % (tick, "empty" if empty else "not empty")
        self.arrows.append((event.node, [CLIENT], said, ANSWERED))
        self.words += ["node %d: %s" % (event.node, told(event)), "answer to " + said]

    def sent(self, step, handed):
        """The messages of an accepted event: those that say the same to several nodes as one. Where they were handed over at once, with what the nodes said to them."""
        same = {}  # words and number: who is told, and who refused it
        for words, number in messages(step.answer):
            to, said = int(words[1]), ""
            if handed and not number and words[0] not in BY_HAND:
                said = handed.pop(0).answer
            told_to, answers = same.setdefault((" ".join([words[0]] + words[2:]), number), ([], []))
            told_to.append(to)
            answers.append((to, said))
        for (text, number), (told_to, answers) in same.items():
            refused = "; ".join("%d: %s" % a for a in answers if a[1].startswith("refused"))
            text += " #" + number if number else ""
            self.arrows.append((CLIENT, told_to, text + (" (%s)" % refused if refused else ""), AWAITED if number else SENT))
            took = refused or ("taken" if answers[0][1] else "")
            self.words.append("%s to %s%s" % (text, " ".join(map(str, told_to)), ": " + took if took else ""))


def told(event):
    """What a node made of an event, in words."""
    line = " ".join([event.read.form.name] + [str(n) for n in event.read.numbers[1:]])
    return "%s: %s" % (line, "taken" if taken(event.answer) else event.answer)


def boxes(step):
    """Who became what: the letters of the sessions, a node's state."""
    found = []
    if step.after.letters != step.before.letters:
        found.append((CLIENT, step.after.letters.rstrip(".") or "-"))
    states = {}
    for e in step.nodes:
        states.setdefault(e.node, [e.before.state, None])[1] = e.after.state
    return found + [(n, after) for n, (before, after) in sorted(states.items()) if before != after]


# The state.

def session_words(pool, i):
    letter, bit = pool.letters[i], 1 << i
    words = [STATES[letter]]
    if letter == "F":
        words[0] += " (IO)" if pool.io & bit else " (link)"
    if letter == "X":
        words[0] += " (delete)" if pool.delete & bit else " (disassemble)"
        words += ["LEAVE owed"] if pool.owed & bit else ["LEAVE done"]
    words += (["in maintenance"] if pool.maint & bit else []) + (["last authoritative"] if pool.marked & bit else [])
    return ", ".join(words)


def names(number):
    """A set in words."""
    return " ".join(map(str, ids(number))) or "none"


def awaited_words(pool):
    if not pool.awaited:
        return "nothing"
    return "%s #%d" % (" ".join(pool.awaited), pool.number)


def pool_of(pool):
    """The pool as words and values, the sessions, the member set, and how many chunks a row has."""
    past = [w for w in ("written", "assembled") if getattr(pool, w)]
    facts = [("version", str(pool.version)), ("NORMAL count", str(pool.count)), ("members", names(pool.members)), ("job", pool.job.replace(":", ": ")), ("awaited", awaited_words(pool)),
             ("the pool was", " and ".join(past) or "neither written to nor assembled"), ("kind", ("sync" if pool.sync else "non-sync") + ", %d chunks" % pool.chunks)]
    if pool.tick or pool.due or pool.once:
        facts.append(("map check", "tick %d, due: %s, empty once: %s" % (pool.tick, names(pool.due), names(pool.once))))
    return [facts, [session_words(pool, i) for i in MEMBERS], pool.members, min(max(pool.chunks, 1), 4096)]


def node_of(node):
    transfer = "" if not node.transfer else "%d bytes" % node.got
    state = node.state + (", marked create" if node.create else "") + (", no store" if node.state == "NO_IO" and not node.store else "")
    return state, node.version, names(node.members), node.kept, transfer, node.members


class Series:
    """Values that change now and then: for each key [command, value] pairs. Values that come again, and nodes that agree, share one: value is its place among `values`."""

    def __init__(self, first):
        self.of, self.places = {}, {first: 0}

    def put(self, key, k, value):
        """Value from command k on."""
        self.set(key, k, self.places.setdefault(value, len(self.places)))

    def set(self, key, k, place):
        found = self.of.get(key, [])
        if place == (found[-1][1] if found else 0):
            return
        if found and found[-1][0] == k:
            found.pop()
        self.of.setdefault(key, found).append([k, place])

    def start_over(self, k):
        for key in self.of:
            self.set(key, k, 0)

    def data(self):
        return {"of": self.of, "values": list(self.places)}


def titles(history):
    """The comments before each command, by its line."""
    found, last = {}, 0
    for c in history.commands:
        found[c.at] = [part for line in history.lines[last : c.at - 1] if line.startswith("#") for part in textwrap.wrap(line, WIDEST)]
        last = c.at
    return found


def picture(history, steps):
    """All that the page shows."""
    comments, nodes, rows, pools, commands, there, last = titles(history), Series(node_of(FRESH_NODES[0])), Series(""), [], [], set(), FRESH_NODES
    for k, step in enumerate(steps):
        c, happened = step.command, Happened(step)
        if step.answer == "done" and c.read.form.name == "pool":
            rows.start_over(k)
        for n in MEMBERS:
            if step.states[n] is not last[n]:
                nodes.put(n, k, node_of(step.states[n]))
        last = step.states
        for whose, member, line in step.rows:
            rows.put("%s %d" % (whose, member), k, line[len("dirty "):])  # nothing is left of `clean`
        now = pool_of(step.after)
        if not pools or pools[-1] != now:
            pools.append(now)
        there |= {n for sender, to, _, _ in happened.arrows for n in [sender] + to} | set(nodes.of) | set(ids(step.after.members)) | {i for i in MEMBERS if step.after.letters[i] != "."}
        commands.append([c.at, c.text, step.answer, len(pools) - 1, comments[c.at], happened.arrows, boxes(step), happened.words])
    return {"name": os.path.basename(history.name), "nodes": sorted(there - {CLIENT}), "commands": commands, "pools": pools, "states": nodes.data(), "rows": rows.data()}


def page(data):
    """The template with the data in it. No `<` is left in the data, so nothing in a history can end the script."""
    with open(TEMPLATE, encoding="utf-8") as f:
        before, after = f.read().split("{{data}}")
    text = json.dumps(data, separators=(",", ":")).replace("<", "\\u003c")
    return before.replace("{{name}}", html.escape(data["name"])) + text + after


def arguments(words):
    parser = argparse.ArgumentParser(prog="./lab --page", description=__doc__, formatter_class=argparse.RawDescriptionHelpFormatter)
    parser.add_argument("file", metavar="FILE", help="a history; `-` is standard input")
    return parser.parse_args(words)


def make(words, run=run_lab, write=sys.stdout.write):
    history = load(arguments(words).file)
    if not history.commands:
        raise Wrong("%s: there is no command in it" % history.name)
    write(page(picture(history, trace([history], run, rows=True)[0])))
    return 0
