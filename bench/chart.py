"""A history's messages as a sequence chart in plain text; `./lab --chart` runs it.

A column for the client and for each node that takes part. An arrow for each message, with its words on the right; `#N` is the number
under which an answer is awaited. In brackets, where they change: the letters of the client's sessions (session 0 first), a node's state.
Exit status: 0, or 2 where the file is missing or is no history.
"""
import argparse
import sys

from bench.history import answers_of, fields, load, messages, run_lab

LEFT = 34   # room for the command
WIDE = 14   # between two columns


def rows_of(history, answers):
    """Each command with the line that answers it, and the comments between them, which stay as titles."""
    said = {c.at: (c.text, answer) for c, answer in zip(history.commands, answers)}
    return [said.get(at, (line, None)) for at, line in enumerate(history.lines, 1) if at in said or line.startswith("#")]


def nodes_of(rows):
    """The nodes that take part, ascending."""
    found = set()
    for line, answer in rows:
        if answer is None or not answer.startswith("ok "):
            continue
        got = fields(answer)
        if "node" in got:
            found.add(int(got["node"]))
            continue
        found.update(i for i, c in enumerate(got["sessions"]) if c != ".")
        for words, _ in messages(answer):
            found.add(int(words[1]))
            if words[0] == "MAP_SEND":
                found.add(int(words[2]))
    return sorted(found)


class Chart:
    def __init__(self, nodes):
        self.column = {"client": LEFT}
        for k, n in enumerate(nodes):
            self.column[n] = LEFT + WIDE * (k + 1)
        self.end = LEFT + WIDE * len(nodes) + 4
        self.rows = []

    def row(self, left="", note="", marks=None, arrow=None):
        cells = [" "] * (self.end + 12)

        def put(at, text):
            for i, c in enumerate(text):
                if at + i < len(cells):
                    cells[at + i] = c

        for x in self.column.values():
            put(x, "|")
        if arrow:
            a, b = self.column[arrow[0]], self.column[arrow[1]]
            low, high = min(a, b), max(a, b)
            put(low + 1, arrow[2] * (high - low - 1))
            put(high - 1 if b > a else low + 1, ">" if b > a else "<")
        for who, text in (marks or {}).items():
            put(self.column[who], "[" + text + "]")
        body = "".join(cells)
        if len(left) > LEFT - 2:
            self.rows.append(left)
            left = ""
        self.rows.append((left.ljust(LEFT) + body[LEFT:].rstrip().ljust(self.end - LEFT) + "  " + note).rstrip())

    def title(self, text):
        self.rows.append(text)

    def head(self):
        line = " " * LEFT + "client"
        for n, x in self.column.items():
            if n != "client":
                line = line.ljust(x) + "node %d" % n
        self.rows.append(line)


def chart(rows):
    c = Chart(nodes_of(rows))
    c.head()
    letters, states = None, {}
    awaited, due = None, []
    for line, answer in rows:
        if answer is None:
            c.title("")
            c.title(line)
            continue
        words = line.split()
        if not answer.startswith("ok "):
            if words[0] == "pool" and answer == "done":
                letters, states, awaited, due = None, {}, None, []
            c.row(line, "" if answer == "done" else answer)
            continue
        got = fields(answer)
        if "node" in got:
            n = int(got["node"])
            changed = states.get(n) != got["state"]
            states[n] = got["state"]
            c.row(line, "", {n: got["state"]} if changed else None)
            continue
        now = got["sessions"].rstrip(".") or "-"
        marks = {"client": now} if now != letters else None
        letters = now
        notes = ["%s=%s" % (k, got[k]) for k in ("taken", "acked", "list") if k in got]
        if got["job"] != "none":
            notes.append(got["job"])
        if words[0] == "deliver" and awaited:
            what, number = awaited
            to = int(what[1])
            c.row(line)
            if what[0] == "MAP_SEND" and what[1] != what[2]:
                c.row("", "the map", None, (to, int(what[2]), "="))
                to = int(what[2])
            c.row("", "answer #" + number, None, (to, "client", "."))
            c.row("", " ".join(notes), marks)
        elif words[0] == "deliver_check" and due:
            c.row(line)
            c.row("", "check answer", None, (due.pop(0), "client", "."))
        else:
            c.row(line, " ".join(notes), marks)
        if words[0] == "tick":
            due = [int(what[1]) for what, _ in messages(answer)]
        sent = None
        for what, number in messages(answer):
            c.row("", " ".join([what[0]] + what[2:]) + (" #" + number if number else ""), None, ("client", int(what[1]), "-"))
            if number:
                sent = (what, number)
        awaited = sent or (awaited if got["job"] != "none" else None)
    return "\n".join(c.rows) + "\n"


def arguments(words):
    parser = argparse.ArgumentParser(prog="./lab --chart", description=__doc__, formatter_class=argparse.RawDescriptionHelpFormatter)
    parser.add_argument("file", metavar="FILE", nargs="?", default="-", help="a history; `-`, or none, is standard input")
    return parser.parse_args(words)


def draw(words, run=run_lab, write=sys.stdout.write):
    history = load(arguments(words).file)
    write(chart(rows_of(history, answers_of(history, run))))
    return 0
