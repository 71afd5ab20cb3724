"""C-15's claim and its premises along histories of the lab: which premise does a history drop, and what is forgotten at its end?

  python3 -m tools.premises            plays examples/premises/ and examples/needed/
  python3 -m tools.premises FILE ..    plays these
  LAB='PROGRAM WORD ..' before it: plays them with that program instead of ./lab, as one with a wrong rule

Each file of examples/premises/ is named after a clause of `Keeps` or `Starts` (crates/rules_world): it has to drop that one, no other but those that are only convenient (docs/DEMANDS.md), and to end with a missed chunk
that is not dirty on the node of a NORMAL session. Those of examples/needed/ show this under a wrong rule only. What is missed is found from the client's lines, in the words of the claim; nothing here is proved, and it is no part of the gate.

How a history is read: a node's line that equals what the client's last event tells, right after it, is that message; one that equals the awaited message is its arrival; `enable1` with the pool's version and set right before the client's
`enable` is a hand enable; `poke_node N 0 0 0 0 0 0` is another node at that id; other pokes belong to the start.
"""
import glob
import os
import shlex
import sys

from bench.history import asking, chunks, fields, load, run_lab, sent
from tools.crates import ROOT

CLAUSES = ("follows", "assembles", "brings", "marks", "stores", "by-hand", "not-else", "own", "once", "broken", "deletes", "answers", "new", "fills", "free", "starts-pool", "starts-node")
CONVENIENT = {"assembles", "brings", "not-else"}
CLIENT = ("join_create", "join_assemble", "enable", "maintenance", "link_down", "store_check", "rejoin", "try", "extend", "remove", "write", "synced", "answer", "deliver")
OWN = ("register_create", "register_add", "unregister", "join_create", "join_assemble", "fault")
LETTERS = ".CNFRXF"
FRESH = "0 0 0 0 0 0".split()


def play(lines):
    run = asking(shlex.split(os.environ["LAB"])) if "LAB" in os.environ else run_lab
    answers = run("\n".join(lines) + "\n")
    if len(answers) != len(lines):
        sys.exit("premises: %d lines, %d answers" % (len(lines), len(answers)))
    return answers


def ids(number):
    return {i for i in range(16) if number >> i & 1}


def as_event(message):
    """The line of the node's event that a message is."""
    word, to, *rest = message.split(" #")[0].split()
    if word == "ENABLE":
        return "node %s enable%s" % (to, " ".join(rest))
    if word == "LEAVE":
        return "node %s leave %d" % (to, rest[0] == "0")
    if word == "MAP_SEND":
        return "node %s take %s" % (rest[0], to)
    name = {"MARK": "write", "CLEAR": "synced"}.get(word, word.lower())
    return " ".join(["node", to, name] + rest)


def spread_out(lines):
    """The same history with auto off: what is handed on at once stands as lines of its own."""
    out, auto = [], False
    for line, answer in zip(lines, play(lines)):
        if line.startswith("auto"):
            auto = line == "auto 1"
            continue
        out.append(line)
        if auto and line.split()[0] in CLIENT:
            out += [as_event(m) for m in sent(answer) if " #" not in m]
    return out


class Walk:
    def __init__(self):
        self.version, self.members, self.sessions, self.deleting, self.job = 1, set(), "." * 16, set(), "none"
        self.nodes = [{"version": "0", "create": "0"} for _ in range(16)]
        self.joined, self.waits, self.acked, self.missed = set(), set(), set(), set()
        self.told, self.need, self.awaited, self.fate = [], (None, []), None, None
        self.dropped, self.begun = {}, False

    def drop(self, clause, line):
        self.dropped.setdefault(clause, line)

    def close(self):
        """The last event of the client is over: what had to arrive with it has arrived."""
        if self.need[1]:
            self.drop(self.need[0], self.need[1][0])
        self.told, self.need = [], (None, [])

    def another(self, j, values, line):
        if not self.begun:
            if values != FRESH:
                self.drop("starts-node", line)
        elif values != FRESH:
            sys.exit("premises: not a history: " + line)
        elif j in self.members or self.sessions[j] != ".":
            self.drop("free", line)
        self.joined.discard(j)
        self.waits.discard(j)
        self.nodes[j] = {"version": values[4], "create": values[2]}

    def poke(self, words, line):
        if self.begun:
            sys.exit("premises: not a history: " + line)
        self.drop("starts-pool", line)
        if words[1] == "members":
            self.members = ids(int(words[2]))
        if words[1] == "session":
            j = int(words[2])
            self.sessions = self.sessions[:j] + LETTERS[int(words[3])] + self.sessions[j + 1:]

    def arrives(self, line, answer):
        if self.job == "none" or self.fate != "under way":
            self.drop("once", line)
            self.drop("broken", line)
        version = fields(answer).get("version") if " map_get_ver" in line else "0"
        self.fate = (0, "0") if answer.startswith("refused") else (2 if " map_get_ver" in line else 1, version)

    def node(self, line, answer, after):
        """A line of a node, before the line `after` with its answer."""
        _, j, name, *rest = line.split()
        j, taken = int(j), answer.startswith("ok")
        if line in self.told:
            self.told.remove(line)
            if taken and line in self.need[1]:
                self.need[1].remove(line)
            return
        self.close()
        if name in OWN:
            before = self.nodes[j]
            if taken and j in self.joined and (name == "register_create" or (name == "register_add" and rest[1] != before["version"]) or (name == "unregister" and rest[0] == "1")):
                self.drop("stores", line)
            if taken and name in ("join_create", "join_assemble"):
                self.joined.add(j)
            if taken and name == "join_create":
                self.waits.add(j)
        elif after[0] == "enable %d" % j and line == "node %d enable1 %d %d" % (j, self.version, sum(1 << m for m in self.members)):
            if self.sessions[j] != "C" or not after[1].startswith("ok") or not taken:
                self.drop("by-hand", line)
            return "by hand"
        elif self.awaited and line == as_event(self.awaited):
            self.arrives(line, answer)
        else:
            self.drop("own", line)

    def client(self, line, answer, by_hand):
        self.close()
        if not answer.startswith("ok"):
            return
        words, new, messages = line.split(), fields(answer), sent(answer)
        word, j = words[0], int(words[1]) if len(words) > 1 else 0
        there = self.members - self.deleting
        normal = {k for k in range(16) if self.sessions[k] == "N"}
        told = [as_event(m) for m in messages if " #" not in m]
        if word == "deliver":
            if self.fate != "under way":
                self.drop("once", line)
            self.fate = "answered"
        if word == "answer" and words[2] != "0" and self.job.startswith("run") and self.fate != (int(words[2]), words[3]):
            self.drop("answers", line)
        if word == "join_create" and j not in self.waits:
            self.drop("follows", line)
        if word == "join_assemble" and j not in self.joined:
            self.drop("assembles", line)
        if word == "join_assemble" and words[3] != self.nodes[j]["version"]:
            self.drop("brings", line)
        if word == "enable" and self.sessions[j] == "C" and not by_hand:
            self.drop("not-else", line)
        if word == "remove" and words[2] == "0" and self.sessions[j] != "X" and not normal - {j}:
            self.drop("deletes", line)
        if word == "extend":
            j = int(new["id"])
            if self.nodes[j] != {"version": "0", "create": "0"}:
                self.drop("new", line)
            self.need = ("fills", [e for e in told if int(e.split()[1]) in normal])
            self.missed |= {(j, c) for c in self.acked}
        if word in ("join_create", "join_assemble", "extend"):
            self.joined.add(j)
            self.waits.discard(j)
        if word == "write":
            self.need = ("marks", list(told))
            if new["acked"] == "1":
                self.acked.add(j)
                self.missed |= {(m, j) for m in there - ids(int(words[2]))}
        if word == "synced":
            self.missed.discard((j, int(words[2])))
        self.told = told
        for m in messages:
            if " #" in m:
                self.awaited, self.fate = m, "under way"
        self.version, self.job, self.sessions = int(new["version"]), new["job"], new["sessions"]
        self.members, self.deleting = ids(int(new["members"])), ids(int(new["delete"]))
        self.missed = {(m, c) for m, c in self.missed if m in self.members - self.deleting}

    def step(self, line, answer, after, by_hand):
        words = line.split()
        if words[0] in ("row", "staging", "look", "cut", "pool"):
            return None
        if words[0] == "poke_node":
            self.close()
            return self.another(int(words[1]), words[2:], line)
        if words[0] == "poke":
            return self.poke(words, line)
        if words[0] == "node":
            self.begun = True
            return self.node(line, answer, after)
        if words[0] in CLIENT:
            self.begun = True
            return self.client(line, answer, by_hand)
        sys.exit("premises: not a history: " + line)


def judge(path):
    """What a history drops, and what is forgotten at its end: node, member, chunk."""
    return judged(spread_out([c.text for c in load(path).commands]), play)


def judged(lines, play, there=range(16)):
    """The same of lines that stand with auto off; `there`: the nodes that can be in them."""
    # after each line every node is asked for its state: that changes nothing, and is refused where the node does not serve
    asked = [x for line in lines for x in [line] + ["node %d map_get_ver" % j for j in there]]
    rows = ["row %d %d" % (j, m) for j in there for m in there]
    answers = play(asked + rows)
    stride = 1 + len(there)
    main, walk, by_hand = answers[: len(asked) : stride], Walk(), None
    for i, line in enumerate(lines):
        after = (lines[i + 1], main[i + 1]) if i + 1 < len(lines) else ("", "")
        by_hand = walk.step(line, main[i], after, by_hand)
        for j, said in zip(there, answers[stride * i + 1 : stride * i + stride]):
            seen = said if said.startswith("ok") else main[i] if main[i].startswith("ok node=%d " % j) else ""
            if seen:
                walk.nodes[j] = {k: v for k, v in fields(seen).items() if k in ("version", "create")}
    walk.close()
    found = {r: chunks(a) for r, a in zip(rows, answers[len(asked):])}
    forgotten = sorted((j, m, c) for j in there if walk.sessions[j] == "N" for m, c in walk.missed if c not in found["row %d %d" % (j, m)])
    return walk.dropped, forgotten


def main():
    paths = sys.argv[1:] or sorted(glob.glob(os.path.join(ROOT, "examples", "premises", "*.history"))) + sorted(glob.glob(os.path.join(ROOT, "examples", "needed", "*.history")))
    wrong = 0
    for path in paths:
        name = os.path.basename(path)[: -len(".history")]
        dropped, forgotten = judge(path)
        clause = max((c for c in CLAUSES if name == c or name.startswith(c + "-")), key=len, default=None)
        good = True
        if clause and os.path.basename(os.path.dirname(os.path.abspath(path))) == "premises":
            good = clause in dropped and not set(dropped) - {clause} - CONVENIENT - ({"once", "broken"} if clause in ("once", "broken") else set()) and bool(forgotten)
        wrong += not good
        print("%s%s: %s; %s" % ("" if good else "NOT AS IT SHOULD BE ", name,
            "drops " + ", ".join("%s (%s)" % d for d in sorted(dropped.items())) if dropped else "drops no premise",
            "forgotten: " + ", ".join("chunk %d of %d on node %d" % (c, m, j) for j, m, c in forgotten) if forgotten else "nothing is forgotten"))
    sys.exit(1 if wrong else 0)


if __name__ == "__main__":
    main()
