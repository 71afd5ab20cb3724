"""A pool under faults, with its data, by a seed; `./lab --simulate SEED` runs it (docs/SIMULATION.md).

The proved program alone decides what client and nodes do. Around it is a world that loses links, nodes, messages and answers, takes stores away and brings them back, maintains, removes and adds legs, and keeps
C-15's premises (docs/DEMANDS.md), but for the one that --break names. Every leg holds for each chunk the number of the last write that reached it; a sync copies. After every step:
  - each chunk that a member missed, and that was not synced since, is dirty for it on every NORMAL session's node;
  - a chunk that is clean for a NORMAL leg on every NORMAL node holds, on that leg, the last write that was acknowledged;
and when the faults stop, all sessions are NORMAL again within a bounded number of steps, with equal maps.
The same seed gives the same history on every machine. What is lost is made shorter and written as lost-NAME.history. Exit status: 0 nothing was lost, 1 something was, 2 a word is wrong.
"""
import argparse
import collections
import multiprocessing
import os
import signal
import sys
import time

from bench.against import seconds
from bench.driver import Chance
from bench.history import Wrong, chunks, fields, messages, store, whole
from bench.search import Dialogue
from bench.trace import Pool, accepted, ids, taken
from bench.wrong import RULES
from programs.build import command, cores
from tools import premises

CHUNKS = 6
MOST_LEGS = 6
CALM = 600        # steps within which all is well again, once the faults stopped
MOST_ANSWERS = 168
FAULTS = ("link", "fault", "store", "lost", "slow", "maintenance", "remove", "delete", "extend", "check")
RESTART = "restart"  # the whole pool is taken down and assembled anew; only where it is asked for
NEEDED = {
    "marks": "the marks of a write do not arrive at a reached node",
    "late": "an awaited message arrives after its job is over",
    "own": "a clear arrives after the next event",
    "by-hand": "a node is enabled by hand whose session is in maintenance",
    "stores": "a store comes back with version 0",
    "afresh": "a store is created afresh",
    "deletes": "a member is deleted while no other session is NORMAL",
    "fills": "what extend tells a NORMAL node does not arrive",
    "answers": "a good answer is taken to a message that never came",
    "new": "the added node has a version of its own",
    "free": "another node stands at a member's id",
}
CONVENIENT = {
    "brings": "a client's join brings another version than its node's",
    "not-else": "a session is enabled, and its node was not",
    "twice": "an awaited message comes twice while its job is in hand",
}
BROKEN = {**NEEDED, **CONVENIENT}


class Lost(Exception):
    """What was lost, in words."""


def event_of(words):
    """The line of the node's event that a message is."""
    name, to, *rest = words
    if name == "ENABLE":
        return "node %s enable%s" % (to, " ".join(rest))
    if name == "LEAVE":
        return "node %s leave %d" % (to, rest[0] == "0")
    if name == "MAP_SEND":
        return "node %s take %s" % (rest[0], to)
    return " ".join(["node", to, {"MARK": "write", "CLEAR": "synced"}.get(name, name.lower())] + rest)


class World:
    def __init__(self, lab, seed, legs, faults, broken, tries_17=False):
        self.lab, self.chance, self.faults, self.broken = lab, Chance("simulate", seed), faults, broken
        self.lines, self.happenings, self.counts = [], [], collections.Counter()
        self.pool, self.nodes = Pool(chunks=CHUNKS), [{"state": "EMPTY", "store": "0", "version": "0", "members": "0", "create": "0"} for _ in range(16)]
        self.data, self.last, self.number = [[0] * CHUNKS for _ in range(16)], [0] * CHUNKS, 0
        self.missed, self.fate, self.late, self.used, self.checks = set(), None, [], set(), []
        self.noted = set()  # of what was missed, what the client map knows
        self.calm, self.tries_17 = False, tries_17
        self.ask("pool 0 %d" % CHUNKS)
        self.made(range(legs))

    # Lines.

    def ask(self, line, happening=None):
        """Happening: the line as it is told apart from its numbers, so that it stays what it is when others are left out."""
        self.lines.append(line)
        self.happenings.append(happening or ("line", line))
        return self.lab.ask(line)

    def node(self, line, happening=None):
        """An event of a node. Whether it was taken."""
        answer = self.ask(line, happening)
        if taken(answer):
            said = fields(answer)
            self.nodes[int(said["node"])] = said
        return taken(answer)

    def breaks(self, name, often=25):
        return self.broken == name and not self.calm and self.chance.in_100(often)

    def does(self, name, often):
        if self.calm or name not in self.faults or not self.chance.in_100(often):
            return False
        self.counts[name] += 1
        return True

    def client(self, line, happening=None):
        """An event of the client, with what it tells the nodes. A message that is not awaited and does not arrive is followed by its link's end."""
        before, missed, answer = self.pool, set(self.missed), self.ask(line, happening)
        if not taken(answer):
            return False
        self.pool = accepted(self.pool, answer)
        said = fields(answer)
        if int(said.get("taken", 0)) > MOST_ANSWERS:
            raise Lost("a run took %s answers" % said["taken"])
        if before.job != "none" and (self.pool.number != before.number or self.pool.job == "none") and self.fate == "under way" and before.awaited:
            self.late.append(before.awaited)
        if any(number for _, number in messages(answer)):
            self.fate = "under way"
        if line.startswith("write ") and said["acked"] == "1":
            self.acknowledged(line, before)
        if line == "extend":
            self.data[int(said["id"])] = [-1] * CHUNKS
            self.missed |= {(int(said["id"]), c) for c in range(CHUNKS) if self.last[c]}
        self.noted |= self.missed - missed
        if not self.those("CNFRX"):
            self.noted = set()  # with the last session the client map is zeroed
        self.missed = {(m, c) for m, c in self.missed if self.pool.members >> m & 1 and not self.pool.delete >> m & 1}
        lost = []
        for words, number in messages(answer):
            if number or words[0] == "MAP_CHECK":
                continue
            must = words[0] in ("MARK", "FILL") or line == "extend" and before.letters[int(words[1])] == "N"
            if words[0] == "MARK" and self.breaks("marks", 10) or line == "extend" and self.breaks("fills", 50):
                continue
            if words[0] == "CLEAR" and self.breaks("own", 30):
                self.late.append(words)
            elif not must and self.does("lost", 4):
                lost.append(words[1])
            else:
                self.node(event_of(words), ("told", words[0], words[1]))
        for i in lost:
            if self.pool.letters[int(i)] in "CNR":
                self.client("link_down " + i)
        return True

    def acknowledged(self, line, before):
        chunk, reached = map(int, line.split()[1:])
        self.last[chunk] = self.number
        self.missed |= {(m, chunk) for m in ids(before.members & ~before.delete & ~reached)}

    # What is there.

    def those(self, letters):
        return [i for i in range(16) if self.pool.letters[i] in letters]

    def serves(self, i):
        return self.nodes[i]["state"] in ("CREATED", "NORMAL", "NO_IO") and self.nodes[i]["store"] == "1"

    def up(self):
        """The NORMAL sessions whose nodes are NORMAL too."""
        return [i for i in self.those("N") if self.nodes[i]["state"] == "NORMAL"]

    def away(self):
        """Members that have no session."""
        return [i for i in ids(self.pool.members) if self.pool.letters[i] == "."]

    # The oracle.

    def looked(self):
        normal = self.those("N")
        rows = {(n, m): chunks(self.lab.ask("row %d %d" % (n, m))) for n in normal for m in ids(self.pool.members)}
        for n in normal:
            for m, c in self.missed:
                if c not in rows[n, m]:
                    raise Lost("chunk %d of leg %d was missed, and is not dirty on node %d, whose session is NORMAL" % (c, m, n))
        known = self.missed & self.noted
        for m in {m for m, _ in known}:
            own = chunks(self.lab.ask("row client %d" % m))
            if any(member == m and c not in own for member, c in known):
                raise Lost("a chunk that leg %d missed is clean for it in the client map" % m)
        for m in normal:
            dirty = set().union(*(rows[n, m] for n in normal))
            for c in range(CHUNKS):
                if self.last[c] and c not in dirty and self.data[m][c] != self.last[c]:
                    raise Lost("chunk %d of leg %d is clean on every NORMAL node, and holds write %d, not %d" % (c, m, self.data[m][c], self.last[c]))
        return rows

    # What happens.

    def made(self, legs):
        for i in legs:
            self.node("node %d register_create" % i)
            self.node("node %d join_create %d" % (i, self.pool.members | 1 << i), ("made", i))
            self.client("join_create %d" % i)
            self.used.add(i)
            if i and not self.calm and self.chance.in_100(15):
                self.nodes[i]["state"] = "CREATED"  # it stays as it is, for later
                continue
            if not self.breaks("not-else", 60):
                self.node("node %d enable1 %d %d" % (i, self.pool.version, self.pool.members), ("by hand", i))
            self.client("enable %d" % i)

    def write(self):
        if self.pool.job.startswith("run") or not self.those("N"):
            return
        self.number += 1
        chunk = self.chance.below(CHUNKS)
        reached = [i for i in self.up() if not self.does("slow", 6)]
        for i in reached:
            self.data[i][chunk] = self.number
        self.client("write %d %d" % (chunk, sum(1 << i for i in reached)))

    def go_on(self):
        """The awaited message, or its answer."""
        words, number = self.pool.awaited, self.pool.number
        if self.fate == "under way" and (self.breaks("answers", 8) or self.does("lost", 5)):
            good = self.broken == "answers" and words[0] != "MAP_GET_VER" and not self.calm
            self.client("answer %d %d 0" % (number, good), ("good",) if good else ("failed",))
        elif self.fate == "under way":
            giver = int(words[1])
            if words[0] == "LEAVE" and self.nodes[giver]["state"] in ("EMPTY", "REGISTERED"):
                self.fate = (1, "0")  # it left before, and that answer was lost: whoever carries messages knows
                return
            good = (words[0] != "MAP_SEND" or self.serves(giver)) and self.node(event_of(words), ("awaited",))
            if good and self.breaks("twice", 40):
                self.node(event_of(words), ("awaited",))
            self.fate = (0, "0") if not good else (2, self.nodes[giver]["version"]) if words[0] == "MAP_GET_VER" else (1, "0")
        else:
            kind, version = (0, "0") if self.does("lost", 4) else self.fate
            self.client("answer %d %d %s" % (number, kind, version), ("answered",) if kind else ("failed",))

    def link(self):
        there = self.those("CNR")
        if there and self.does("link", 60):
            self.client("link_down %d" % self.chance.pick(there))

    def fault(self):
        i = self.chance.pick(sorted(self.used))
        if self.nodes[i]["state"] in ("NORMAL", "NO_IO") and self.does("fault", 50):
            self.node("node %d fault" % i)
        if self.nodes[i]["state"] == "NO_IO" and self.nodes[i]["store"] == "1" and self.does("store", 30):
            self.node("node %d unregister 0" % i)

    def plugged(self, i):
        """A node's store is there again, as it was, and the node has joined."""
        node = self.nodes[i]
        if node["state"] == "EMPTY" or node["state"] == "NO_IO" and node["store"] == "0":
            if node["state"] == "EMPTY" and self.breaks("afresh", 60):
                self.node("node %d register_create" % i)
                self.node("node %d join_create %d" % (i, self.pool.members))
            else:
                version = 0 if self.breaks("stores", 60) else int(node["version"])
                self.node("node %d register_add %d %d" % (i, int(node["members"]) or 1 << i, version), ("store", i, version == int(node["version"])))
        if self.nodes[i]["state"] != "CREATED":
            self.node("node %d join_assemble" % i)

    def back(self):
        """A leg whose session failed, or that has none, is back."""
        if self.pool.job != "none":
            return
        for i in self.those("RC"):
            if not self.serves(i):
                self.plugged(i)
        for i in self.chance.mixed(self.those("F"))[: 1 if not self.calm else 16]:
            self.plugged(i)
            self.client("%s %d" % (self.chance.pick(["store_check", "rejoin"]) if not self.calm else "store_check", i))
            if self.pool.job != "none":
                return
        for i in self.away()[: 1 if not self.calm else 16]:
            if self.broken == "free" and not self.calm and self.chance.in_100(30):
                self.another(i)
                self.node("node %d register_add %d 0" % (i, self.pool.members))
            self.plugged(i)
            node = self.nodes[i]
            self.client("join_assemble %d %s %s" % (i, node["members"], 0 if self.breaks("brings", 50) else node["version"]), ("joins", i))
            if self.pool.job != "none":
                return

    def maintain(self):
        if self.pool.job == "none" and self.those("N") and self.does("maintenance", 60):
            self.client("maintenance %d" % self.chance.pick(self.those("N")))

    def maintained(self):
        flagged = ids(self.pool.maint)
        if flagged and self.pool.job == "none":
            i = self.chance.pick(flagged)
            if self.pool.letters[i] == "R":
                if self.breaks("by-hand", 70):
                    self.node("node %d enable1 %d %d" % (i, self.pool.version, self.pool.members), ("by hand", i))
                self.client("enable %d" % i)

    def remove(self):
        """A leg is disassembled, or deleted, or a removal that halted begins again."""
        if self.pool.job != "none":
            return
        halted = self.those("X")
        if halted:
            i = halted[0]
            self.client("remove %d %d" % (i, not self.pool.delete >> i & 1))
            return
        there, normal = self.those("CNFR"), self.those("N")
        if self.calm or not there or self.away():
            return
        i = self.chance.pick(there)
        others = [n for n in normal if n != i]
        if int(self.nodes[i]["members"]) == self.pool.members and self.does("remove", 40):  # one whose node knows other members could not join again
            self.client("remove %d 1" % i)
        elif len(ids(self.pool.members)) > 1 and (others or self.broken == "deletes") and self.does("delete", 30):
            self.client("remove %d 0" % i)

    def another(self, i):
        """Another node, which held nothing, stands at an id."""
        self.ask("poke_node %d 0 0 0 0 0 0" % i)
        self.nodes[i] = {"state": "EMPTY", "store": "0", "version": "0", "members": "0", "create": "0"}

    def extend(self):
        free = [i for i in range(16) if not self.pool.members >> i & 1 and self.pool.letters[i] == "."]
        if self.pool.job != "none" or not self.those("N") or self.away() or self.those("X") or len(ids(self.pool.members)) >= MOST_LEGS or not self.does("extend", 60):
            return
        i = free[0]
        if i in self.used:
            self.another(i)
        self.used.add(i)
        far = 2 if self.breaks("new", 80) else None
        self.node("node %d register_add %d %d" % (i, self.pool.members | 1 << i, self.pool.version + far if far else 0), ("added", i, far))
        self.node("node %d join_assemble" % i)
        self.client("extend")

    def sync(self):
        up = self.up()
        if self.pool.job.startswith("run") or len(up) < 2:
            return
        m, n = self.chance.pick(up), self.chance.pick(up)
        dirty = chunks(self.lab.ask("row %d %d" % (n, m)))
        if not dirty:
            return
        c = self.chance.pick(sorted(dirty))
        sources = [s for s in up if s != m and c not in chunks(self.lab.ask("row %d %d" % (n, s)))]
        if sources:
            kept = self.data[m][c]
            self.data[m][c] = self.data[self.chance.pick(sources)][c]
            self.missed.discard((m, c))
            if not self.client("synced %d %d %d" % (m, c, n)):
                self.data[m][c] = kept

    def check(self):
        if self.pool.job != "none" or not self.does("check", 50):
            return
        answer = self.lab.ask("tick")
        self.lines.append("tick")
        for words, _ in messages(answer) if taken(answer) else ():
            self.checks.append((words[2], words[1], self.lab.ask("node %s map_check" % words[1]).endswith("empty=1")))
        if not self.does("slow", 30):
            self.checked()

    def checked(self):
        """The answers to a tick come, now or later."""
        for one in self.checks:
            self.client("check_answer %s %s %d" % one)
        self.checks = []

    def arrives_late(self):
        if self.broken in ("late", "own") and self.late and not self.calm and self.chance.in_100(30):
            self.node(event_of(self.late.pop(self.chance.below(len(self.late)))))

    def once_more(self):
        if self.pool.job == "none":
            self.client("try")

    def restart(self):
        """The pool is taken down, leg by leg; its legs join again, one after the other, and case 3 puts it together."""
        there = self.those("CNFR")
        if self.pool.job != "none" or self.away() or self.those("X") or any(int(self.nodes[i]["members"]) != self.pool.members for i in there) or not self.does(RESTART, 50):
            return
        for i in self.chance.mixed(there):
            self.client("remove %d 1" % i)
            for _ in range(40):
                if self.pool.job == "none":
                    break
                self.go_on()

    def step(self):
        if self.pool.job != "none" and self.chance.in_100(75):
            self.go_on()
        else:
            self.chance.weighted([(24, self.write), (10, self.sync), (6, self.link), (4, self.fault), (10, self.back), (3, self.maintain), (4, self.maintained), (3, self.remove), (2, self.extend), (3, self.check), (2, self.checked), (2, self.created),
                                  (3, self.arrives_late), (2, self.once_more)] + ([(4, self.restart)] if RESTART in self.faults else []))()
        self.looked()

    def come_back(self):
        """The faults stop: all is well again within a bounded number of steps."""
        self.calm = True
        for _ in range(CALM):
            if self.pool.job != "none":
                self.go_on()
                continue
            for act in (self.remove, self.back, self.maintained, self.created, self.once_more):
                act()
                if self.pool.job != "none":
                    break
            else:
                if not self.those("CFRX"):
                    break
                self.refreshed()
        rows = self.looked()
        if not self.pool.members:
            return
        if self.those("CFRX") or any(int(self.nodes[i]["members"]) == self.pool.members for i in self.away()):
            raise Lost("the faults stopped, and after %d steps the sessions are %s" % (CALM, self.pool.letters.rstrip(".")))
        normal = self.those("N")
        for m in ids(self.pool.members):
            if len({frozenset(rows[n, m]) for n in normal}) > 1:
                raise Lost("the faults stopped, and the maps of NORMAL nodes differ in the row of %d" % m)

    def created(self):
        """A leg that is made and not yet enabled: by hand, or, where that is refused, by a good store check. One more is made now and then, before the first write."""
        for i in self.those("C") if self.pool.job == "none" else ():
            if not self.calm and self.chance.in_100(50) and (not any(self.last) or self.tries_17):
                self.node("node %d enable1 %d %d" % (i, self.pool.version, self.pool.members), ("by hand", i))
                self.client("enable %d" % i)
            else:
                self.client("store_check %d" % i)
            return

    def refreshed(self):
        """NORMAL sessions whose nodes had a fault: their links are reported down."""
        for i in self.those("N"):
            if self.nodes[i]["state"] != "NORMAL":
                self.client("link_down %d" % i)


# A history that loses, made shorter.

CLAUSES = {"late": ("once", "broken", "own"), "afresh": ("stores",), "twice": ("once", "broken")}
THERE = range(MOST_LEGS + 1)


def forgets(lab, lines, allowed):
    """Whether a history forgets a missed chunk and drops no premise but those that are allowed (tools/premises.py)."""
    try:
        dropped, forgotten = premises.judged(lines, lambda asked: [lab.ask(line) for line in asked], THERE)
    except SystemExit:
        return False
    return bool(forgotten) and not set(dropped) - allowed - premises.CONVENIENT


class Replayed:
    """Happenings as lines, each with the numbers that it has in this history."""

    def __init__(self, lab, happenings):
        self.lab, self.lines = lab, []
        self.pool, self.nodes, self.told, self.fate = Pool(chunks=CHUNKS), {}, [], (0, "0")
        self.lab.ask("pool 0 4096")
        for name, *rest in happenings:
            line = getattr(self, "on_" + name.replace(" ", "_"))(*rest)
            if line:
                self.ask(line, name == "awaited")

    def ask(self, line, awaited):
        answer = self.lab.ask(line)
        self.lines.append(line)
        if not taken(answer):
            self.fate = (0, "0") if awaited else self.fate
            return
        said = fields(answer)
        if "node" in said:
            self.nodes[int(said["node"])] = said
            if awaited:
                self.fate = (2, said["version"]) if line.endswith("map_get_ver") else (1, "0")
            return
        self.pool = accepted(self.pool, answer)
        self.told = [words for words, number in messages(answer) if not number]
        if any(number for _, number in messages(answer)):
            self.fate = (0, "0")

    def of(self, i, name):
        return int(self.nodes.get(i, {}).get(name, 0))

    def on_line(self, line):
        return line

    def on_told(self, name, to):
        return next((event_of(words) for words in self.told if words[:2] == [name, to]), "")

    def on_awaited(self):
        return event_of(self.pool.awaited) if self.pool.awaited else ""

    def on_answered(self):
        return "answer %d %d %s" % (self.pool.number, *self.fate) if self.pool.awaited else ""

    def on_failed(self):
        return "answer %d 0 0" % self.pool.number if self.pool.awaited else ""

    def on_good(self):
        return "answer %d 1 0" % self.pool.number if self.pool.awaited else ""

    def on_store(self, i, own):
        return "node %d register_add %d %d" % (i, self.of(i, "members") or 1 << i, self.of(i, "version") if own else 0)

    def on_joins(self, i):
        return "join_assemble %d %d %d" % (i, self.of(i, "members"), self.of(i, "version"))

    def on_by_hand(self, i):
        return "node %d enable1 %d %d" % (i, self.pool.version, self.pool.members)

    def on_made(self, i):
        return "node %d join_create %d" % (i, self.pool.members | 1 << i)

    def on_added(self, i, far):
        return "node %d register_add %d %d" % (i, self.pool.members | 1 << i, self.pool.version + far if far else 0)


def units(happenings):
    """An event of the client with all that comes before the next one; a node's own event alone."""
    found = []
    for k, (name, *rest) in enumerate(happenings):
        if found and name in ("told", "awaited"):
            found[-1].append(k)
        else:
            found.append([k])
    return found


def shorter(lab, happenings, broken, limit):
    """The shortest history found that forgets a missed chunk and keeps the other premises. None where the loss is of another kind than C-15's."""
    allowed = set(CLAUSES.get(broken, (broken,) if broken else ()))
    until = time.monotonic() + limit
    now = [h for h in happenings if not (h[0] == "line" and (h[1].split(" ")[0] in ("tick", "check_answer") or h[1].endswith(" map_check")))]

    def shows(some):
        return forgets(lab, Replayed(lab, some).lines, allowed)

    if not shows(now):
        return None
    before = None
    while before != now and time.monotonic() < until:
        before = now
        for cut in (units, lambda some: [[k] for k in range(len(some))]):
            size = max(1, len(cut(now)) // 2)
            while size and time.monotonic() < until:
                k, fewer = 1, False
                while k < len(cut(now)) and time.monotonic() < until:
                    gone = {x for unit in cut(now)[k : k + size] for x in unit}
                    some = [h for x, h in enumerate(now) if x not in gone]
                    if shows(some):
                        now, fewer = some, True
                    else:
                        k += size
                size = size if fewer and size == 1 else size // 2
    return Replayed(lab, now).lines


class Outcome:
    """What became of a seed."""

    def __init__(self, seed, steps, lost, lines, happenings, counts):
        self.seed, self.steps, self.lost, self.lines, self.happenings, self.counts = seed, steps, lost, lines, happenings, counts


def simulated(seed, given, lab):
    world = World(lab, seed, given.legs, given.faults, given.broken, given.rule == "no-17")
    done, lost = 0, ""
    try:
        while done < given.steps:
            world.step()
            done += 1
        for i in world.those("N"):
            if world.nodes[i]["state"] != "NORMAL":
                world.client("link_down %d" % i)
        world.come_back()
    except Lost as e:
        lost = str(e)
    return Outcome(seed, done, lost, world.lines if lost else [], world.happenings if lost else [], world.counts)


class Bent:
    """The rules in Python with one of them wrong (bench/wrong.py), in the lab's place."""

    def __init__(self, rule):
        self.driver = RULES[rule][1]()()

    def ask(self, line):
        return self.driver.answer(line)


given_to_all, lab_of_this = None, None  # a forked process has the first from its parent, and makes the second for itself


def one_seed(seed):
    global lab_of_this
    if lab_of_this is None:
        lab_of_this = Bent(given_to_all.rule) if given_to_all.rule else Dialogue()
    return simulated(seed, given_to_all, lab_of_this)


def outcomes(given):
    """What becomes of each seed, in turn, on all processors."""
    global given_to_all
    given_to_all = given
    began = time.monotonic()
    seeds = range(given.seed, given.seed + given.seeds) if given.seeds else range(given.seed, given.seed + 10**6)
    workers = given.jobs or cores()
    with multiprocessing.get_context("fork").Pool(workers, signal.signal, (signal.SIGINT, signal.SIG_IGN)) as pool:
        k = 0
        while k < len(seeds) and (given.seconds is None or time.monotonic() - began < given.seconds):
            some = seeds[k : k + 4 * workers]
            k += len(some)
            for outcome in pool.imap(one_seed, some):
                yield outcome


def report(given, done, lost, took, shortest, name):
    """In Markdown."""
    steps, counts = sum(o.steps for o in done), sum((o.counts for o in done), collections.Counter())
    yield "%d seeds (%d to %d), %d steps, %d legs at first, %.0f s: %s" % (len(done), done[0].seed, done[-1].seed, steps, given.legs, took, "nothing was lost" if lost is None else "LOST at seed %d, step %d" % (lost.seed, lost.steps))
    yield ""
    yield "| what was done to it | " + " | ".join(counts) + " |"
    yield "|---|" + "---|" * len(counts)
    yield "| times | " + " | ".join(map(str, counts.values())) + " |"
    if lost is None:
        return
    yield ""
    yield "**%s.** Again: `./lab --simulate %d --legs %d --steps %d%s%s%s`" % (lost.lost, lost.seed, given.legs, given.steps, " --break " + given.broken if given.broken else "", " --rule " + given.rule if given.rule else "", " --faults " + ",".join(given.faults) if tuple(given.faults) != FAULTS else "")
    yield "%s: %d commands%s. To look at: `./lab --page %s > page.html`" % (name, len(shortest), "" if len(shortest) < len(lost.lines) else ", as they were", name)


# What is typed.

def faults_of(word):
    found = [w for w in word.split(",") if w]
    for w in found:
        if w not in FAULTS + (RESTART, "all"):
            raise argparse.ArgumentTypeError("no such fault: %s; there are %s" % (w, ", ".join(FAULTS + (RESTART,))))
    return list(FAULTS) + [RESTART] if "all" in found else found


def arguments(words):
    parser = argparse.ArgumentParser(prog="./lab --simulate", description=__doc__, formatter_class=argparse.RawDescriptionHelpFormatter, allow_abbrev=False)
    parser.add_argument("seed", metavar="SEED", type=whole, help="a whole number: the first seed")
    parser.add_argument("--legs", metavar="N", type=whole, default=3, help="how many legs at first (3)")
    parser.add_argument("--steps", metavar="N", type=whole, default=10000, help="how many steps a seed (10000)")
    parser.add_argument("--seeds", metavar="N", type=whole, help="how many seeds, from SEED on (1, or with --for as many as there is time for)")
    parser.add_argument("--for", metavar="TIME", dest="seconds", type=seconds, help="go on with the next seeds for so long: 60s, 5m")
    parser.add_argument("--faults", metavar="LIST", type=faults_of, default=FAULTS, help="only these: %s; restart, which is not among them where --faults is left out, takes the pool down and assembles it anew; all is all of them" % ",".join(FAULTS))
    parser.add_argument("--break", metavar="PREMISE", dest="broken", choices=BROKEN, help="break one promise: " + "; ".join("%s (%s)" % pair for pair in BROKEN.items()))
    parser.add_argument("--rule", choices=RULES, help="play with one wrong rule, by bench/wrong.py: " + "; ".join("%s (%s)" % (name, what) for name, (what, _) in RULES.items()))
    parser.add_argument("--into", metavar="DIR", default=".", help="where lost-NAME.history is written (here)")
    parser.add_argument("--shrink", metavar="TIME", type=seconds, default=30.0, help="how long to make a history shorter (30s)")
    parser.add_argument("--jobs", metavar="N", type=whole, help="how many processes; one for each processor where it is left out")
    given = parser.parse_args(words)
    if not 1 <= given.legs <= MOST_LEGS:
        raise Wrong("--legs is 1 to %d" % MOST_LEGS)
    if given.seeds is None and given.seconds is None:
        given.seeds = 1
    if not os.path.isdir(given.into):
        raise Wrong("%s: there is no such folder" % given.into)
    return given


def simulate(words, out=print):
    given = arguments(words)
    command("lab")
    began, done, lost = time.monotonic(), [], None
    for outcome in outcomes(given):
        done.append(outcome)
        if sys.stderr.isatty():
            sys.stderr.write("\r\033[Klab: %d seeds, %d steps, %.0f s" % (len(done), sum(o.steps for o in done), time.monotonic() - began))
            sys.stderr.flush()
        if outcome.lost:
            lost = outcome
            break
    if sys.stderr.isatty():
        sys.stderr.write("\r\033[K")
    took, shortest, name = time.monotonic() - began, [], ""
    if lost:
        lab = Bent(given.rule) if given.rule else Dialogue()
        shortest = shorter(lab, lost.happenings, given.broken, given.shrink) or lost.lines
        name = os.path.join(given.into, "lost-%s.history" % (given.broken or given.rule or "seed-%d" % lost.seed))
        store(name, ["# " + lost.lost, "# by: ./lab --simulate %s" % " ".join(words)] + shortest + [""])
    for line in report(given, done, lost, took, shortest, name):
        out(line)
    return 1 if lost else 0
