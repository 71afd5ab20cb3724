"""Histories for a driver under test, made while the lab answers them: what comes next is chosen by the state that the pool is in, and goes where few have been (docs/DRIVERS.md).

Each history is a walk. Its kind says who is driven: the client alone, with the answers to its awaited messages as lines of their own; nodes alone, with what a client would send them; or both,
with messages delivered. Each walk has weights of its own for what can happen (some events often, some never), a pool of its own and numbers of its own, so that three conditions that are seldom
together are together in some walk; and of several events it takes the one whose pair of state and event was met least. Every third history is one of `./lab --generate`, cut down to the kind.

In a history that is not yet played, `@` is the number of the awaited message, or of the last tick, and `@-1` the one before it: so it stays what it was when commands are left out.
"""
import collections
import os
import re
import subprocess

from bench import generate
from bench.cover import CLIENT_COLUMNS, CLIENT_TABLES, NODE_COLUMNS, NODE_TABLE, Met, meeting, node_row
from bench.driver import Chance
from bench.history import CLIENT, DELIVER, FORMS, LOOK, NODE, SETUP, Wrong, parse, read
from bench.trace import Node, Pool, accepted, ids, looked, node_after, nodes_set_up, set_up, taken, trace
from programs.build import command

AWAITED = re.compile(r" #(\d+)")
TICKS = 2**32
EDGE = 2**63


# The lab, one line at a time.

class Dialogue:
    """A run of the lab that answers each line before the next."""

    def __init__(self, program=None):
        self.process = subprocess.Popen(program or command("lab"), stdin=subprocess.PIPE, stdout=subprocess.PIPE, bufsize=0)
        self.to, self.back, self.rest = self.process.stdin.fileno(), self.process.stdout.fileno(), b""

    def ask(self, line):
        os.write(self.to, line.encode() + b"\n")
        while b"\n" not in self.rest:
            data = os.read(self.back, 65536)
            if not data:
                raise Wrong("the lab was ended")
            self.rest += data
        answer, _, self.rest = self.rest.partition(b"\n")
        return answer.decode()

    def close(self):
        self.process.stdin.close()
        self.process.stdout.close()
        self.process.wait()


class Numbers:
    """The numbers that `@` stands for."""

    def __init__(self):
        self.awaited, self.tick = 1, 0

    def resolved(self, line):
        if "@" not in line:
            return line
        first, second, *rest = line.split(" ")
        base = self.tick if first == "check_answer" else self.awaited
        return " ".join([first, str(max(0, base + int(second[1:] or 0)))] + rest)

    def note(self, line, answer):
        if line.startswith("pool ") and answer == "done":
            self.awaited, self.tick = 1, 0
        elif line.startswith("poke tick ") and answer == "done":
            self.tick = int(line.split(" ")[2])
        elif answer.startswith("ok "):
            found = AWAITED.search(answer)
            self.awaited = int(found.group(1)) if found else self.awaited
            self.tick = (self.tick + 1) % TICKS if line == "tick" else self.tick


def play(lab, lines):
    """A history with its numbers, and what the rules answer."""
    numbers, whole, answers = Numbers(), [], []
    lab.ask("pool 0 4096")
    for line in lines:
        line = numbers.resolved(line)
        answer = lab.ask(line)
        numbers.note(line, answer)
        whole.append(line)
        answers.append(answer)
    return whole, answers


def followed(lab, lines):
    """The pool before each command, by the lab's lines and looks."""
    numbers, pool, found = Numbers(), Pool(), []
    lab.ask("pool 0 4096")
    for line in lines:
        found.append(pool)
        line = numbers.resolved(line)
        read_line, answer = read(line), lab.ask(line)
        numbers.note(line, answer)
        if isinstance(read_line, str):
            continue
        if read_line.form.kind == SETUP and answer == "done":
            pool = set_up(pool, read_line)
        elif taken(answer) and read_line.form.kind in (CLIENT, DELIVER):
            pool = looked(accepted(pool, answer), lab.ask("look"))
    return found


# What was met.

class Met_pairs:
    """How often which pair of state and event was met, and which with what is beside it."""

    def __init__(self):
        self.pairs, self.beside = collections.Counter(), collections.Counter()

    def client(self, pool, found):
        name, numbers = found.form.name, found.numbers
        met = set()
        for i, row in meeting(pool, name, numbers):
            event = Met(numbers, pool=pool, id=min(i, 16))
            met |= {(CLIENT_TABLES[pool.sync], row.words, column) for column, meant in CLIENT_COLUMNS[name] if meant(event)}
        return met

    def node(self, node, found):
        event = Met(found.numbers, id=found.numbers[0], node=node)
        row = node_row(node).words
        return {(NODE_TABLE, row, column) for column, meant in NODE_COLUMNS[found.form.name] if meant(event)}

    def news(self, met, beside):
        """How seldom it was met: more is seldomer."""
        return sum(8 / (1 + self.pairs[pair]) + 4 / (1 + self.beside[pair, beside]) for pair in met) / max(1, len(met))

    def add(self, met, beside):
        for pair in met:
            self.pairs[pair] += 1
            self.beside[pair, beside] += 1


def surroundings(pool):
    """What is beside the session of an event: the job, who else is there, what the pool went through."""
    letters = pool.letters
    return (pool.job.partition(":")[0] if pool.job.startswith("remove") else pool.job, min(letters.count("N"), 2), "".join(sorted(set(letters) - {"N"})), bool(pool.marked), bool(pool.maint), bool(pool.delete),
            pool.written, pool.assembled, pool.version > 2**62, bool(pool.once))


# Walks.

class Walk:
    """A history in the making: its lines, and the client and nodes as the lab says they are."""

    def __init__(self, lab, chance, met, speaks):
        self.lab, self.chance, self.met, self.speaks = lab, chance, met, speaks
        self.lines, self.numbers = [], Numbers()
        self.pool, self.nodes, self.auto, self.missed = Pool(), (Node(),) * 16, False, []
        self.daring = chance.pick([2, 8, 25])      # of 100 numbers so many are at an edge
        self.lab.ask("pool 0 4096")

    def speaks_of(self, name):
        return self.speaks.forms is None or name in self.speaks.forms

    def say(self, line):
        """A command, where the driver speaks of it. What the lab answers; nothing where it was left out."""
        whole = self.numbers.resolved(line)
        found = read(whole)
        if isinstance(found, str) or not self.speaks_of(form_name(found.form)):
            return ""
        answer = self.lab.ask(whole)
        self.lines.append(line)
        self.numbers.note(whole, answer)
        kind = found.form.kind
        if kind == CLIENT or kind == DELIVER:
            if kind == CLIENT:
                self.met.add(self.met.client(self.pool, found), surroundings(self.pool))
            if taken(answer):
                before = self.pool
                self.pool = accepted(self.pool, answer)
                if found.form.name == "write":
                    self.missed += [(m, found.numbers[0]) for m in ids(self.pool.members & ~found.numbers[1])]
                if before.letters != self.pool.letters or kind == DELIVER or found.form.name in ("write", "tick", "check_answer", "join_assemble", "answer"):
                    self.pool = looked(self.pool, self.lab.ask("look"))
            elif kind == DELIVER:
                self.pool = looked(self.pool, self.lab.ask("look"))
        elif kind == NODE:
            n = found.numbers[0]
            self.met.add(self.met.node(self.nodes[n], found), 0)
            look = self.lab.ask("look %d" % n) if found.form.name in ("take", "take_part") else ""
            node = node_after(self.nodes[n], found, answer, look)
            self.nodes = self.nodes[:n] + (node,) + self.nodes[n + 1 :]
        elif kind == SETUP and answer == "done":
            self.pool, self.nodes = set_up(self.pool, found), nodes_set_up(self.nodes, found)
            self.auto = {"auto": found.numbers[-1:] == (1,), "pool": False}.get(found.form.name, self.auto)
        return answer

    def dares(self):
        return self.chance.in_100(self.daring)

    def one_of(self, *things):
        return self.chance.pick(things)

    def best(self, drawn):
        """Of some lines the one whose pair was met least."""
        most, best = -1.0, None
        for line in drawn:
            found = read(self.numbers.resolved(line))
            if isinstance(found, str) or not self.speaks_of(form_name(found.form)):
                continue
            if found.form.kind == CLIENT:
                news = self.met.news(self.met.client(self.pool, found), surroundings(self.pool))
            elif found.form.kind == NODE:
                news = self.met.news(self.met.node(self.nodes[found.numbers[0]], found), 0)
            else:
                news = 0.5
            if news > most:
                most, best = news, line
        return best

    # Numbers.

    def edge(self, n, *bounds):
        """A number at an edge, or one that is n where a word is too short for it."""
        return self.one_of(*bounds, *bounds, n + 2**8, n + 2**16, n + 2**32, 2**64 - 1, EDGE + n)

    def an_id(self, *letters):
        """An id, rather one in these states."""
        if self.dares():
            i = self.chance.pick(self.ids)
            return self.edge(i, 15, 16, 16 + i)
        found = [i for i in self.ids if self.pool.letters[i] in letters]
        return self.chance.pick(found) if found and self.chance.in_100(85) else self.chance.pick(self.ids)

    def a_chunk(self):
        chunks = max(1, self.pool.chunks)
        if self.dares():
            return self.edge(self.chance.below(chunks), chunks, chunks, chunks - 1, 4095, 4096)
        return self.one_of(0, 1, 7, 8, chunks - 1, self.chance.below(chunks), self.chance.below(chunks), 3, 15, 16, 16 * self.chance.below(256), 255, 256) % chunks

    def a_set(self, holding, but=0):
        """A set that mostly is the members'."""
        found = self.one_of(self.pool.members, self.pool.members, self.pool.members | holding, holding, self.chance.below(1 << len(self.ids)), self.chance.below(65536)) & ~but
        return self.edge(found, 65535, 65536, 65536 | found) if self.dares() else found

    def a_version(self, own):
        if self.dares():
            return self.edge(own, EDGE - 35, EDGE - 34, EDGE - 33, EDGE - 32, EDGE - 18, EDGE - 17, EDGE - 16, EDGE - 1, EDGE)
        return self.one_of(0, 1, own, own, own + 1, max(0, own - 1), own + 3, self.chance.below(6))

    # The client.

    def client_line(self, name):
        """A line of a client's event, as the pool is."""
        p, letters = self.pool, self.pool.letters
        if name == "join_create":
            return "join_create %d" % self.an_id(".")
        if name == "join_assemble":
            i = self.an_id(".")
            own = p.members or self.home
            found = self.one_of(own, own, own, own, own | 1 << min(i, 15), self.a_set(1 << min(i, 15)))
            return "join_assemble %d %d %d" % (i, found, self.a_version(p.version))
        if name in ("enable", "maintenance", "link_down", "store_check", "rejoin"):
            return "%s %d" % (name, self.an_id(*{"enable": "CRR", "maintenance": "N", "link_down": "CNRX", "store_check": "FFC", "rejoin": "F"}[name]))
        if name == "remove":
            i = self.an_id(*self.one_of("X", "CNFRX", "NF", "N"))
            again = i < 16 and letters[i] == "X" and self.chance.in_100(70)
            return "remove %d %d" % (i, (not p.delete >> i & 1) if again else self.chance.below(2))
        if name == "write":
            normals = p.normals()
            reached = self.one_of(normals, normals, normals & self.chance.below(65536), normals & self.chance.below(65536), 0 if self.chance.in_100(30) else normals, normals & ~(1 << self.chance.pick(self.ids)))
            if self.dares():
                reached = self.one_of(reached | 1 << self.chance.pick(self.ids), reached | 65536, reached + 2**32, EDGE | reached, reached | 32768)
            return "write %d %d" % (self.a_chunk(), reached)
        if name == "synced":
            m, c = self.chance.pick(self.missed[-12:]) if self.missed and self.chance.in_100(80) else (self.an_id("N"), self.a_chunk())
            return "synced %d %d %d" % (m, c, self.chance.pick(self.ids))
        if name == "answer":
            return self.answer_line()
        if name == "check_answer":
            due = ids(p.due)
            number = "@" if not self.chance.in_100(12) else self.one_of("@-1", "@+1", "@+%d" % TICKS, "0")
            return "check_answer %s %d %d" % (number, self.chance.pick(due) if due and self.chance.in_100(85) else self.an_id("N"), self.chance.in_100(75))
        return name  # try, extend, tick

    def answer_line(self, good=None):
        p = self.pool
        versions = p.job == "run:versions"
        if good is None:
            good = self.chance.in_100(70)
        number = "@" if not self.chance.in_100(6) else self.one_of("@-1", "@-1", "@+1", "0", "@+%d" % TICKS)
        kind = 0 if not good else 2 if versions or self.chance.in_100(15) else 1
        if versions and self.chance.in_100(14):
            kind = self.one_of(0, 1, 1)
        return "answer %s %d %d" % (number, kind, self.one_of(p.version, p.version, max(0, p.version - 1), 0, 1, p.version + (not self.chance.below(3))) if kind == 2 else 0)

    EVENTS = ("join_create", "join_assemble", "enable", "maintenance", "link_down", "store_check", "rejoin", "remove", "write", "synced", "answer", "try", "extend", "tick", "check_answer")
    WEIGHTS = {"write": 6, "link_down": 5, "store_check": 5, "answer": 4, "remove": 3, "maintenance": 3, "enable": 4, "rejoin": 3, "tick": 2, "check_answer": 2, "synced": 1}

    def swarm(self, names, weights):
        """Weights of this walk's own: what can happen often, seldom or never."""
        return [(w, n) for n in names for w in [weights.get(n, 2) * self.one_of(0, 1, 1, 2, 4)] if w] or [(1, names[0])]

    def client_step(self, table):
        if self.pool.job != "none" and self.chance.in_100(self.steady):
            self.say("deliver" if self.auto and self.by_nodes else self.answer_line(good=self.chance.in_100(92)))
            return
        if self.pool.due and self.chance.in_100(30):
            self.say("deliver_check" if self.auto and self.by_nodes else "check_answer @ %d %d" % (ids(self.pool.due)[0], self.chance.in_100(85)))
            return
        if self.pool.letters.count("N") < 2 and self.chance.in_100(self.tidy):
            self.mend()
            return
        if self.pool.job == "none" and not self.pool.sync and self.chance.in_100(9):
            self.chance.pick([self.check_twice, self.check_twice, self.halt, self.halt, self.write_often])()
            return
        line = self.best([self.client_line(self.chance.weighted(table)) for _ in range(5)])
        if line is None:
            return
        if line.startswith("synced ") and self.by_bytes:
            self.dirty_first(line)
        if self.by_nodes:
            self.nodes_first(line)
        self.say(line)

    def mend(self):
        """What is wrong is put right, one thing after the other: the job in hand, removals that halted, links, maintenance, legs that are not there."""
        self.run_on()
        for i in range(16):
            letter = self.pool.letters[i]
            if letter == "X":
                self.say("remove %d %d" % (i, not self.pool.delete >> i & 1))
            elif letter == "F" or letter == "C" and (self.pool.written or self.pool.assembled):
                self.told("store_check %d" % i)
            elif letter == "C" or letter == "R" and self.pool.maint >> i & 1:
                self.told("enable %d" % i)
            elif letter == "." and self.pool.members >> i & 1:
                self.told("join_assemble %d %d %d" % (i, self.pool.members, min(self.pool.version, EDGE - 34)))
            self.run_on()
        if self.pool.letters.count("N") < 2 and not self.pool.written:
            for i in [i for i in self.ids if self.pool.letters[i] == "."][:2]:
                self.made(i)
        self.say("try")
        self.run_on()

    def told(self, line):
        """An event of the client, after what its node is told."""
        if self.by_nodes:
            self.nodes_first(line)
        self.say(line)

    def check_twice(self):
        """A member is asked twice whether its row is empty; something may come between."""
        asked = [i for i in ids(self.pool.normals()) if i in {m for m, _ in self.missed}]
        if not asked:
            asked = self.missed_and_back()
        for _ in range(2):
            self.say("tick")
            for i in asked[:2]:
                self.say("check_answer @ %d %d" % (i, self.chance.in_100(90)))
            if self.chance.in_100(45):
                self.say(self.client_line(self.one_of("link_down", "write", "maintenance", "enable", "try", "remove", "store_check", "synced", "join_assemble")))
                if self.pool.job != "none":
                    self.run_on()
                self.say("look")
        if asked:
            self.say("row client %d" % asked[0])

    def missed_and_back(self):
        """A leg misses a write and is brought back, so that its row of the client map is not empty."""
        normals = ids(self.pool.normals())
        if len(normals) < 2:
            return []
        i = self.chance.pick(normals)
        self.say("write %d %d" % (self.a_chunk(), self.pool.normals() & ~(1 << i)))
        if self.by_nodes:
            self.nodes_first("store_check %d" % i)
        self.say("store_check %d" % i)
        self.run_on()
        return [i]

    def halt(self):
        """A removal halts, at its own LEAVE or at a peer, and is begun again, or something comes that it bars no more."""
        there = [i for i in range(16) if self.pool.letters[i] in "CNFR"]
        if not there:
            return
        i, mode = self.chance.pick(there), self.chance.below(2)
        self.say("remove %d %d" % (i, mode))
        for _ in range(self.chance.below(3)):
            if self.pool.job != "none":
                self.say("answer @ 1 0")
        if self.pool.job == "none":
            return
        peer = self.pool.awaited[1] if self.pool.awaited else i
        normals = self.pool.normals()
        self.say(self.one_of("answer @ 0 0", "link_down %s" % peer, "write %d %d" % (self.a_chunk(), normals & ~(1 << int(peer)))))
        for _ in range(1 + self.chance.below(3)):
            self.say(self.one_of("remove %d %d" % (i, mode), "remove %d %d" % (i, mode), "answer @ 1 0", "answer @-1 1 0", "extend", "link_down %d" % i, "write %d %d" % (self.a_chunk(), self.pool.normals()), "remove %d %d" % (i, 1 - mode), "look"))

    def write_often(self):
        for _ in range(self.one_of(3, 5, 17)):
            self.say("write %d %d" % (self.a_chunk(), self.pool.normals()))

    def dirty_first(self, line):
        """The chunk is dirty for the member in the map that is lent, and perhaps for others."""
        m, c, n = map(int, line.split()[1:])
        if m < 16 and c < min(4096, self.pool.chunks) and self.chance.in_100(80):
            also = self.one_of([], [], [self.chance.pick(self.ids)], ids(self.pool.normals()), ids(self.pool.members))
            for member in sorted({m, *also}):
                self.say("byte %d %d %d" % (n, 512 * member + c // 8, 1 << c % 8))

    def look_on(self, often):
        """Looks at what an answer does not show."""
        if self.chance.in_100(often):
            self.say(self.one_of("look", "look", "record", "row client %d" % self.chance.pick(self.ids)))

    def last_looks(self):
        self.say("look")
        for m in ids(self.pool.members) or [0]:
            self.say("row client %d" % m)

    def made(self, i):
        if self.by_nodes:
            self.nodes_first("join_create %d" % i)
        self.say("join_create %d" % i)
        if not self.pool.sync:
            if self.by_nodes:
                self.say("node %d enable1 %d %d" % (i, self.pool.version, self.pool.members | 1 << i))
            self.say("enable %d" % i)

    def begun(self):
        """How a pool comes to be: made, assembled, or not yet there."""
        way = self.chance.weighted([(5, "made"), (3, "assembled"), (1, "half"), (1, "nothing")])
        legs = self.chance.mixed(self.ids)[: self.one_of(1, 2, 2, 3, 3, 4, 16) if len(self.ids) < 16 or self.chance.in_100(50) else self.one_of(13, 14, 15, 16)]
        if way == "made" or self.pool.sync:
            for i in legs:
                self.made(i)
        elif way in ("assembled", "half"):
            self.home = sum(1 << i for i in legs)
            top = self.one_of(1, 2, 3, 7, EDGE - 34 - self.chance.below(45), EDGE - 34 - self.chance.below(12), EDGE - 34 - self.chance.below(3), EDGE - 34)
            for i in legs if way == "assembled" else legs[:-1] or legs:
                version = max(0, top - self.chance.below(3))
                if self.by_nodes:
                    self.say("node %d register_add %d %d" % (i, self.home, version))
                    self.say("node %d join_assemble" % i)
                self.say("join_assemble %d %d %d" % (i, self.home, version))
            if way == "assembled" and self.chance.in_100(75):
                self.run_on()

    def run_on(self):
        """The job in hand goes on to its end."""
        for _ in range(200):
            if self.pool.job == "none" or not self.say("deliver" if self.auto and self.by_nodes else "answer @ %d %d" % ((2, max(0, self.pool.version - self.chance.below(2))) if self.pool.job == "run:versions" else (1, 0))):
                return

    # Nodes.

    def nodes_first(self, line):
        """What a node is told before its client's event."""
        name, *numbers = line.split()
        i = int(numbers[0]) if numbers and numbers[0].isdigit() else None
        if name == "join_create" and i is not None and i < 16:
            self.say("node %d register_create" % i)
            self.say("node %d join_create %d" % (i, self.pool.members | 1 << i))
        elif name == "join_assemble" and i < 16:
            self.say("node %d register_add %s %s" % (i, numbers[1], numbers[2]))
            self.say("node %d join_assemble" % i)
        elif name in ("store_check", "rejoin") and i < 16 and self.chance.in_100(85):
            self.say("node %d join_assemble" % i)
        elif name == "enable" and i < 16 and self.chance.in_100(85):
            self.say("node %d enable1 %d %d" % (i, self.pool.version, self.pool.members | 1 << i))
        elif name == "extend":
            free = [k for k in range(16) if not self.pool.members >> k & 1 and self.pool.letters[k] == "."]
            if free and self.chance.in_100(85):
                self.say("node %d register_add %d 0" % (free[0], self.pool.members | 1 << free[0]))
                self.say("node %d join_assemble" % free[0])

    NODE_EVENTS = ("register_create", "register_add", "unregister", "join_create", "join_assemble", "leave", "enable1", "enable0", "fault", "write", "synced", "map_ready", "give_part", "take_part", "take",
                   "map_done", "map_disable", "map_get_ver", "last_io", "pool_info", "fill", "map_check", "next")
    NODE_WEIGHTS = {"write": 9, "take_part": 6, "map_ready": 5, "map_done": 5, "enable1": 5, "synced": 4, "take": 3, "join_assemble": 4, "last_io": 3, "fill": 3, "pool_info": 3, "register_add": 3, "register_create": 3, "join_create": 3,
                    "unregister": 1, "leave": 2, "fault": 1}

    def node_line(self, name, n):
        node = self.nodes[n]
        member = self.edge(n, 15, 16) if self.dares() else self.chance.pick(self.ids) if self.chance.in_100(60) else self.chance.pick(ids(node.members) or [n])
        held = self.one_of(node.members | 1 << n, node.members | 1 << n, self.home | 1 << n, 1 << n | self.chance.below(1 << len(self.ids)), self.chance.below(65536))
        held = self.edge(held, 65535, 65536, 65536 | held) if self.dares() else held
        version = self.a_version(node.version)
        if name in ("register_create", "join_assemble", "enable0", "fault", "map_disable", "map_get_ver", "map_check"):
            return "node %d %s" % (n, name)
        if name == "register_add":
            return "node %d register_add %d %d" % (n, held, version)
        if name in ("unregister", "leave", "map_ready"):
            return "node %d %s %d" % (n, name, self.chance.below(2))
        if name == "join_create":
            return "node %d join_create %d" % (n, held)
        if name == "enable1":
            return "node %d enable1 %d %d" % (n, version, held)
        if name == "write":
            found = self.one_of(0, 1 << self.chance.pick(self.ids), self.chance.below(1 << len(self.ids)), node.members & ~(1 << n), 1 << n, 65535 if self.chance.in_100(20) else 2)
            return "node %d write %d %d %d" % (n, self.a_chunk(), self.edge(found, 65535, 65536, 65536 | found) if self.dares() else found, version)
        if name == "synced":
            m, c = self.chance.pick(self.missed[-16:]) if self.missed and self.chance.in_100(70) else (member, self.a_chunk())
            return "node %d synced %d %d" % (n, m, c)
        if name == "give_part":
            return "node %d give_part %d %d" % (n, self.one_of(0, 512, 1024, 7168, 7169, 8191, 8192), self.one_of(0, 1, 512, 1023, 1024, 1024, 1025) if not self.dares() else self.edge(1, 1024, 1025))
        if name == "take_part":
            got = node.got if self.chance.in_100(85) else self.one_of(0, node.got + 1, max(0, node.got - 1), node.got + 1024, 8192)
            length = self.one_of(1024, 1024, 1000, 512, 1, 1023, self.chance.below(1025), 0 if self.chance.in_100(30) else 1024, 1025 if self.chance.in_100(30) else 1024)
            length = min(length, 8192 - got) or length if got < 8192 and self.chance.in_100(85) else length
            return "node %d take_part %d %d %d" % (n, got if not self.dares() else self.edge(got, 8191, 8192), length, self.chance.pick(self.speaks.nodes))
        if name == "take":
            return "node %d take %d" % (n, self.chance.pick(self.used))
        if name == "map_done":
            return "node %d map_done %d %d %d" % (n, self.chance.below(2), version, held)
        if name == "last_io":
            return "node %d last_io %d" % (n, member)
        if name == "pool_info":
            return "node %d pool_info %d %d" % (n, self.chance.below(4), member)
        if name == "fill":
            return "node %d fill %d %d" % (n, member, version)
        m, c = self.chance.pick(self.missed[-16:]) if self.missed and self.chance.in_100(70) else (member, self.a_chunk())
        return "node %d next %d %d" % (n, m, self.one_of(0, c, max(0, c - 1), c + 1, self.a_chunk()))

    TOWARDS = {"EMPTY": ("register_create", "register_add"), "REGISTERED": ("join_create", "join_assemble"), "CREATED": ("enable1",), "NO_IO": ("enable1", "map_ready", "take", "take_part", "map_done", "register_add"), "NORMAL": ("write", "write", "synced")}

    def node_step(self, table):
        n = self.chance.pick(self.used)
        if self.chance.in_100(self.steady // 2):
            names = self.TOWARDS[self.nodes[n].state]
            line = self.node_line(self.chance.pick(names), n)
        else:
            line = self.best([self.node_line(self.chance.weighted(table), n) for _ in range(5)])
        if line is None:
            return
        answer = self.say(line)
        found = read(line)
        if taken(answer) and found.form.name == "write":
            self.missed += [(m, found.numbers[1]) for m in ids(found.numbers[2])]
        if taken(answer) and found.form.name == "map_ready" and self.chance.in_100(60):
            self.transfer(n)
        if self.nodes[n].state == "NORMAL" and self.chance.in_100(3):
            for _ in range(self.one_of(4, 15, 16, 17, 18)):
                self.say(self.node_line("write", n))
        self.look_at_node(n, 35)

    def transfer(self, n):
        """A map in parts, and then mostly MAP_DONE."""
        of = self.chance.pick(self.used)
        length = self.one_of(1024, 1024, 1000, 700, 1023)
        for offset in range(0, 8192, length):
            if self.chance.in_100(3):
                return
            self.say("node %d take_part %d %d %d" % (n, offset, min(length, 8192 - offset), of if self.chance.in_100(80) else self.chance.pick(self.used)))
        if self.chance.in_100(30):
            self.look_at_node(n, 100)
        if self.chance.in_100(85):
            self.say(self.node_line("map_done", n) if self.chance.in_100(20) else "node %d map_done %d %d %d" % (n, self.chance.below(2), self.nodes[n].version + self.chance.below(2), self.nodes[n].members | 1 << n))

    def look_at_node(self, n, often):
        if self.chance.in_100(often):
            m = self.chance.pick(ids(self.nodes[n].members) if self.nodes[n].members and self.chance.in_100(70) else self.ids)
            self.say(self.one_of("row %d %d" % (n, m), "row %d %d" % (n, m), "staging %d %d" % (n, m), "look %d" % n))

    def last_node_looks(self):
        for n in self.used:
            for m in self.ids if len(self.ids) < 7 else self.chance.mixed(self.ids)[:6]:
                self.say("row %d %d" % (n, m))
            self.say("staging %d %d" % (n, self.chance.pick(self.ids)))

    def nodes_there(self):
        """Nodes that serve, each by a way of its own; some are left EMPTY."""
        for n in self.used:
            if self.chance.in_100(15):
                continue
            version = self.one_of(0, 1, 2, 5, EDGE - 34 - self.chance.below(3), EDGE - 20 if self.chance.in_100(20) else 3)
            if self.chance.below(2):
                self.say("node %d register_create" % n)
                self.say("node %d join_create %d" % (n, self.home | 1 << n))
            else:
                self.say("node %d register_add %d %d" % (n, self.home | 1 << n, version))
                self.say("node %d join_assemble" % n)
            if self.chance.in_100(75):
                self.say("node %d enable1 %d %d" % (n, version, self.home | 1 << n))

    # Whole walks.

    def prepared(self, kind, sync):
        chance = self.chance
        self.ids = range(self.one_of(2, 3, 3, 4, 5, 8, 16))
        nodes = self.speaks.nodes
        if kind != "client" and len(nodes) < 16:
            self.ids = nodes
        self.home = sum(1 << i for i in self.ids if chance.in_100(70)) or 1
        self.used = chance.mixed([i for i in self.ids if i in nodes] or nodes)[: self.one_of(1, 2, 2, 3)]
        self.steady = self.one_of(50, 75, 90, 96)
        self.tidy = self.one_of(0, 5, 12, 20)
        self.by_nodes = kind == "both"
        self.by_bytes = kind != "node" and self.speaks_of("byte N")
        self.say("pool %d %d" % (sync, self.one_of(1, 7, 8, 9, 64, 64, 64, 100, 1000, 4095, 4096, 4096) if not chance.in_100(2) else self.one_of(0, 4097, 65535)))
        if kind == "both" and chance.in_100(85):
            self.say("auto 1")
        if kind != "client" and chance.in_100(15):
            self.say("cut %d" % (1 + chance.below(1024)))

    def go(self, kind, steps, sync):
        self.prepared(kind, sync)
        if kind == "node":
            self.nodes_there()
        else:
            self.begun()
        client, node = self.swarm(self.EVENTS, self.WEIGHTS), self.swarm(self.NODE_EVENTS, self.NODE_WEIGHTS)
        tries = 0
        while len(self.lines) < steps and tries < 3 * steps:
            tries += 1
            if kind == "node" or kind == "both" and self.chance.in_100(25):
                self.node_step(node)
            else:
                self.client_step(client)
                self.look_on(20)
        if kind != "node":
            self.last_looks()
        if kind != "client":
            self.last_node_looks()
        return self.lines


def form_name(form):
    """A command's name as `--only` has it: `node write`, `row client`, `row N`."""
    words = [w for w in form.words if w.islower() or w.rstrip("01").islower()]
    if form.kind == NODE:
        return " ".join(words)
    return form.name + (" N" if form.words[-1:] != form.words[:1] and form.name in ("row", "look", "byte", "lend", "staging", "staging_byte", "lend_staging") and form.words[1:2] == ("N",) else "")


# Cut down from `./lab --generate`.

def line_of(found):
    """The line of a client's event, with its answers' numbers as they are."""
    numbers = iter(found.numbers)
    return " ".join(str(next(numbers)) if w.isupper() else w for w in found.form.words)


def cut_down(kind, lines, run):
    """A history of a whole system as its client, or its nodes, saw it: the answers are those that the lab's own nodes gave, and a node's events are what its client sent."""
    (steps,) = trace([parse("", "\n".join(lines))], run)
    found, number, tick = [], 1, 0
    for step in steps:
        if step.command.read.form.name == "pool":
            found.append(step.command.text)
        elif kind == "client" and step.event:
            line = line_of(step.event)
            if line.startswith("answer "):
                line = relative(line, step.before.number)
            if line.startswith("check_answer "):
                line = relative(line, step.before.tick)
            found.append(line)
        elif kind == "client" and step.command.text.startswith(("look", "record", "row client")) and step.command.text.count(" ") != 1:
            found.append(step.command.text)
        elif kind == "node":
            found += ["node %d %s" % (e.node, " ".join([e.read.form.name] + [str(n) for n in e.read.numbers[1:]])) for e in step.nodes]
            if step.command.text.startswith(("row ", "staging ")) and "client" not in step.command.text:
                found.append(step.command.text)
    return found


def relative(line, base):
    first, number, *rest = line.split(" ")
    far = int(number) - base
    return " ".join([first, "@" if not far else "@%+d" % far] + rest) if abs(far) < 2**31 else line


def kept_to(lines, speaks):
    """The lines that a driver speaks of."""
    if speaks.forms is None:
        return lines
    numbers, found = Numbers(), []
    for line in lines:
        form = read(numbers.resolved(line))
        if not isinstance(form, str) and form_name(form.form) in speaks.forms:
            found.append(line)
    return found


KINDS = ("client", "node", "both") + tuple(sorted(generate.KINDS))
LENGTHS = ((5, 40), (5, 90), (3, 180), (1, 400))


class Search:
    """The histories of a kind and a seed, one after the other. The k-th hangs on those before it: it goes where they were not."""

    def __init__(self, kind, seed, speaks, lab, run):
        self.kind, self.seed, self.speaks, self.lab, self.run = kind, seed, speaks, lab, run
        self.met, self.made = Met_pairs(), 0

    def next(self):
        self.made += 1
        chance = Chance("against", self.kind, self.seed, self.made)
        if self.kind in generate.KINDS:
            return kept_to(generate.KINDS[self.kind](self.seed, self.made), self.speaks)
        if self.made % 3 == 0:
            whole = generate.KINDS["wide" if self.made % 15 == 0 else "system"](self.seed, self.made // 3)
            if whole[0].startswith("pool 1") and not self.speaks.sync:
                whole = ["pool 0" + whole[0][6:]] + whole[1:]
            lines = whole if self.kind == "both" else cut_down(self.kind, whole, self.run)
            return kept_to(lines, self.speaks)
        kind = chance.pick(["both", "client", "client", "node"]) if self.kind == "both" else self.kind
        sync = self.speaks.sync and kind != "node" and chance.in_100(10)
        return Walk(self.lab, chance, self.met, self.speaks).go(kind, chance.weighted(LENGTHS), sync)
