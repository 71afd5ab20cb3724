"""Drives a pool at random, for `./lab --generate`: a client and its nodes, as a driver would, with mishaps.

It has no rules of the pool but a rough idea of it, as a driver has: whose session is in which state, which answer comes next. Where the idea is wrong an event is refused, which is a history too.
"""
import hashlib
from typing import NamedTuple

MOST = 2**64 - 1


class Chance:
    """Random numbers by splitmix64, so that they are the same wherever and whenever this runs."""

    def __init__(self, *seed):
        self.state = int.from_bytes(hashlib.sha256(" ".join(map(str, seed)).encode()).digest()[:8], "big")

    def below(self, n):
        self.state = (self.state + 0x9E3779B97F4A7C15) & MOST
        z = self.state
        z = (z ^ z >> 30) * 0xBF58476D1CE4E5B9 & MOST
        z = (z ^ z >> 27) * 0x94D049BB133111EB & MOST
        return (z ^ z >> 31) * n >> 64

    def in_100(self, n):
        return self.below(100) < n

    def pick(self, things):
        return things[self.below(len(things))]

    def weighted(self, table):
        """One of a table of (weight, thing)."""
        at = self.below(sum(weight for weight, _ in table))
        for weight, thing in table:
            at -= weight
            if at < 0:
                return thing

    def some(self, things):
        return [t for t in things if self.below(2)]

    def mixed(self, things):
        things = list(things)
        for k in range(len(things) - 1, 0, -1):
            j = self.below(k + 1)
            things[k], things[j] = things[j], things[k]
        return things


def set_of(ids):
    return sum(1 << i for i in ids)


def ids_of(number):
    return {i for i in range(16) if number >> i & 1}


FREE, CREATED, NORMAL, FAILED, RECONNECTING, REMOVING = ".CNFRX"
DELETE, DISASSEMBLE = 0, 1
FAILED_ANSWER, GOOD, GOOD_WITH_VERSION = range(3)


class Answer(NamedTuple):
    """An answer that is to come: to what, whom it brings on, and who is to give it."""
    what: str
    who: int
    by: int


def spread(what, receivers):
    return [Answer(what + step, r, r) for r in receivers for step in (" ready", " sent", " done")]


class Idea:
    """What a driver takes the pool for. Each method `on_EVENT` says what becomes of it, if the event is taken."""

    def __init__(self, sync):
        self.sync = sync
        self.session = dict.fromkeys(range(16), FREE)
        self.members, self.maintained, self.io, self.owed = set(), set(), set(), set()
        self.marked = None         # last authoritative
        self.mode = {}             # of REMOVING sessions
        self.written = self.assembled = False
        self.missed = []           # (member, chunk, a node that marked it)
        self.version = 1
        self.number = 1            # of the awaited message, or of the next one to come
        self.to_come = []          # the answers of the job in hand, if all are good
        self.spoiled = False       # whether the next one will not be
        self.ticks = 0             # the last tick's number

    def those(self, *states):
        return [i for i, s in self.session.items() if s in states]

    def peers(self):
        return self.those(CREATED, NORMAL, RECONNECTING)

    def candidates(self):
        return [i for i in self.those(RECONNECTING) if i not in self.maintained]

    def removing(self):
        return bool(self.to_come) and self.to_come[0].what in ("leave", "told")

    def left_normal(self, i, state):
        if self.session[i] == NORMAL and not self.sync:
            self.version += 1
            self.marked = i if self.those(NORMAL) == [i] and state != REMOVING else self.marked
        self.session[i] = state

    def entered_normal(self, i):
        self.session[i] = NORMAL
        self.marked = None
        self.maintained.discard(i)

    def freed(self, i):
        self.session[i] = FREE
        self.maintained.discard(i)

    def abandoned(self):
        """What is awaited will not be answered."""
        self.to_come = []
        self.number += 1

    def recovery(self):
        """A run, where one begins."""
        candidates = self.candidates()
        if self.sync or self.to_come:
            return
        if self.those(NORMAL):
            self.to_come = spread("enabling", candidates)
        elif self.marked in candidates:
            self.to_come = [Answer("enable", self.marked, self.marked)] + spread("enabling", [i for i in candidates if i != self.marked])
        elif self.marked is None and self.members and self.members <= set(candidates):
            members = sorted(self.members)
            first, others = members[0], members[1:]  # who is chosen the driver does not know
            self.to_come = ([Answer("version", i, i) for i in members] + spread("base", others) + [Answer("last io", i, i) for i in members] + spread("gather", others)
                            + [Answer("enable", first, first)] + spread("enabling", others))

    def on_join_create(self, i):
        if i > 15 or self.to_come or self.session[i] != FREE or self.written or i in self.members:
            return
        self.session[i] = NORMAL if self.sync else CREATED
        if not self.sync:
            self.members.add(i)

    def on_join_assemble(self, i, members, version):
        if i > 15 or self.to_come or self.sync or self.session[i] != FREE or not members >> i & 1 or self.members and ids_of(members) != self.members:
            return
        self.assembled |= not self.members
        self.members = ids_of(members)
        self.version = max(self.version, version)
        self.session[i] = RECONNECTING
        self.recovery()

    def on_enable(self, i):
        if self.to_come or self.sync:
            return
        if self.session.get(i) == CREATED and not self.written and not self.assembled:
            self.entered_normal(i)
        elif self.session.get(i) == RECONNECTING and i in self.maintained:
            self.maintained.discard(i)
            self.recovery()

    def on_maintenance(self, i):
        if not self.to_come and not self.sync and self.session.get(i) == NORMAL:
            self.left_normal(i, RECONNECTING)
            self.maintained.add(i)

    def on_link_down(self, i):
        if self.session.get(i) in (CREATED, NORMAL, RECONNECTING):
            self.left_normal(i, FAILED)
            self.io.discard(i)
            if self.to_come and not self.removing():
                self.abandoned()
                self.version += 1
                self.recovery()
        if self.removing() and self.to_come[0].by == i:
            self.abandoned()

    def on_store_check(self, i):
        if not self.to_come and (self.session.get(i) == FAILED or self.session.get(i) == CREATED and not self.sync):
            self.session[i] = NORMAL if self.sync else RECONNECTING
            self.recovery()

    def on_rejoin(self, i):
        if self.session.get(i) == FAILED and i not in self.io:
            self.on_store_check(i)

    def on_remove(self, i, mode):
        if self.to_come or self.session.get(i, FREE) == FREE or self.session[i] == REMOVING and mode != self.mode[i]:
            return
        if self.session[i] != REMOVING:
            self.mode[i] = mode
            self.owed.add(i) if self.session[i] != FAILED else self.owed.discard(i)
            self.marked = None if self.marked == i else self.marked
            self.left_normal(i, REMOVING)
        self.to_come = ([Answer("leave", i, i)] if i in self.owed else []) + ([] if self.sync else [Answer("told", i, p) for p in self.peers()])
        if i not in self.owed:
            self.gone(i)
        if not self.to_come:
            self.freed(i)

    def gone(self, i):
        """LEAVE is done, or not owed."""
        self.owed.discard(i)
        if self.mode[i] == DELETE:
            self.members.discard(i)
            if not self.members:
                self.written = self.assembled = False

    def on_write(self, chunk, reached):
        normals, reached = set(self.those(NORMAL)), ids_of(reached)
        if self.sync or self.to_come and not self.removing() or not normals or not reached <= normals:
            return
        for i in sorted(normals - reached):
            self.left_normal(i, FAILED)
            self.io.add(i)
        if reached:
            self.written = True
            self.missed += [(i, chunk, min(reached)) for i in sorted(self.members - reached)]
        if self.removing() and self.to_come[0].by in normals - reached:
            self.abandoned()

    def on_try(self):
        self.recovery()

    def on_tick(self):
        self.ticks += not self.sync and not self.to_come

    def on_extend(self):
        free = self.free()
        if free and self.those(NORMAL) and not self.to_come and not self.sync:
            self.members.add(free[0])
            self.session[free[0]] = RECONNECTING
            self.recovery()

    def free(self):
        """The ids that extend can pick."""
        return [i for i in range(16) if i not in self.members and self.session[i] == FREE]

    def on_deliver(self):
        if self.to_come:
            self.answered(not self.spoiled)
        self.spoiled = False

    def on_answer(self, number, kind, version):
        if self.to_come and number == self.number:
            self.answered(kind != FAILED_ANSWER and (kind == GOOD_WITH_VERSION or self.to_come[0].what != "version"))

    def answered(self, good):
        """The awaited answer was taken. A receiver that fails in an enabling spread is passed over; any other failure ends the job."""
        self.number += 1
        what, who, _ = self.to_come[0]
        if not good:
            self.to_come = [a for a in self.to_come if a.who != who] if what.startswith("enabling") else []
            return
        self.to_come = self.to_come[1:]
        if what in ("enable", "enabling done"):
            self.entered_normal(who)
        if what == "leave":
            self.gone(who)
        if not self.to_come:
            if what in ("leave", "told"):
                self.freed(who)
            else:
                self.version += 1


class Driver(Idea):
    """Writes a history: acts, each some lines, as one thing that happens to a pool."""

    def __init__(self, chance, ids, sync, chunks):
        super().__init__(sync)
        self.chance, self.ids, self.chunks = chance, ids, chunks
        self.lines = []
        self.by_hand = False  # whether answers are written with their numbers, and not by deliver

    def say(self, line, *numbers):
        line = line % numbers if numbers else line
        self.lines.append(line)
        words = line.split()
        note = getattr(self, "on_" + words[0], None)
        if note:
            note(*map(int, words[1:]))

    def one_of(self, *things):
        return self.chance.pick(things)

    # Answers.

    def answer(self, good=True):
        """The awaited answer. By hand it carries its number; else the node gives it, and is spoiled first where it is to fail."""
        if self.by_hand:
            kind = FAILED_ANSWER if not good else GOOD_WITH_VERSION if self.to_come[0].what == "version" or self.chance.in_100(35) else GOOD
            self.say("answer %d %d %d", self.number, kind, self.one_of(0, 1, 1, 1, self.version))
        else:
            if not good:
                self.say(self.one_of("node %d leave 0", "node %d unregister 0", "node %d leave 1"), self.to_come[0].by)
                self.spoiled = True
            self.say("deliver")

    def settle(self):
        """The job in hand is brought to its end; now and then something comes between, an answer fails, or the rest is left for later."""
        between, failing, later = (self.chance.below(len(self.to_come) + 1) if self.chance.in_100(often) else None for often in (25, 20, 8))
        done = 0
        while self.to_come and done != later:
            if done == between:
                self.chance.weighted([(5, self.lose), (4, self.write), (8, self.probe), (2, self.probe_node), (3, self.stray_answer)])()
            if self.to_come:
                self.answer(done != failing)
            done += 1

    def finish(self):
        """The job in hand is brought to its end, and nothing comes between."""
        while self.to_come:
            self.answer()

    def stray_answer(self):
        """An answer that comes twice, late, or out of nowhere."""
        number = self.one_of(self.number - 1, self.number - 1, self.number + 1, 1, 0, self.number + 7)
        self.say("answer %d %d %d", number, self.chance.below(3), self.chance.below(4))

    # Legs come.

    def create(self, i):
        """A leg that is made; the client's join and the node's come in either order."""
        self.say("node %d register_create", i)
        for line in self.chance.mixed(["join_create %d" % i, "node %d join_create %d" % (i, set_of(self.members | {i}))]):
            self.say(line)
        if self.sync:
            self.say("node %d enable1 0 %d", i, 1 << i)

    def enable(self, i):
        self.say("node %d enable1 %d %d", i, self.version, set_of(self.members | {i}))
        self.say("enable %d", i)

    def assemble(self, ids, come):
        """Stores that name each other make a pool, once those that come are all of them."""
        versions = {i: self.chance.below(4) for i in ids}
        for i in ids:
            self.say("node %d register_add %d %d", i, set_of(ids), versions[i])
            self.say("node %d join_assemble", i)
        for i in come:
            self.say("join_assemble %d %d %d", i, set_of(ids), versions[i])

    def add(self):
        """One more leg, made as the first ones were; or one that was deleted and comes anew."""
        free = [i for i in self.ids if self.session[i] == FREE]
        if free:
            i = self.chance.pick(free)
            if self.chance.below(2):
                self.say("node %d unregister 1", i)
            self.create(i)
            if self.chance.in_100(40):
                self.probe(i)

    def extend(self):
        """A leg is added in service; its node is made ready first."""
        free = self.free()
        if free and self.chance.in_100(85):
            self.say("node %d unregister 1", free[0])
            self.say("node %d register_add %d 0", free[0], set_of(self.members | {free[0]}))
            self.say("node %d join_assemble", free[0])
        self.say("extend")
        self.settle()

    def come_back(self):
        """Members without a session join with what their stores hold."""
        for i in sorted(i for i in self.members if self.session[i] == FREE):
            self.say("node %d join_assemble", i)
            self.say("join_assemble %d %d %d", i, set_of(self.members), self.one_of(0, 1, self.version))
        self.settle()

    def enable_created(self):
        created = self.those(CREATED)
        if created:
            i = self.chance.pick(created)
            if self.written or self.assembled:
                self.say("store_check %d", i)
                self.settle()
            else:
                self.enable(i)

    # Writes.

    def write(self):
        normals = self.those(NORMAL)
        self.say("write %d %d", self.chance.below(self.chunks), set_of(self.chance.weighted([(6, normals), (3, self.chance.some(normals)), (1, [])])))

    def write_often(self):
        for _ in range(2 + self.chance.below(4)):
            self.say("write %d %d", self.chance.below(self.chunks), set_of(self.those(NORMAL)))

    def synced(self):
        """A chunk that a member missed has been copied to it. Or not: then the client does not take it."""
        missed = [m for m in self.missed[-20:] if self.session[m[0]] == NORMAL or self.chance.in_100(20)]
        if missed and self.chance.in_100(85):
            self.say("synced %d %d %d", *self.chance.pick(missed))
        else:
            self.say("synced %d %d %d", self.chance.pick(self.ids), self.chance.below(self.chunks), self.chance.pick(self.ids))

    def copy_on(self):
        """The sync thread: it asks a node for a member's next dirty chunk, copies it, and asks on from there."""
        if not self.missed:
            return
        member, chunk, n = self.chance.pick(self.missed[-20:])
        self.say("node %d next %d %d", n, member, self.one_of(0, chunk))
        self.say("synced %d %d %d", member, chunk, n)
        self.say("node %d next %d %d", n, member, min(chunk + 1, self.chunks - 1))

    def check_maps(self):
        """The periodic map check."""
        self.say("tick")
        for _ in range(self.chance.below(4)):
            self.say("deliver_check")

    # Legs are lost, and back.

    def lose(self):
        if self.peers():
            self.down(self.chance.pick(self.peers()))

    def lose_all(self):
        for i in self.chance.mixed(self.peers()):
            if self.chance.in_100(93):
                self.down(i)

    def down(self, i):
        self.say("link_down %d", i)
        if self.chance.in_100(15):
            self.say("node %d fault", i)

    def back(self):
        """Legs that were lost are back; the first ones may have to wait for the last."""
        for i in self.chance.mixed(self.those(FAILED))[: self.one_of(1, 1, 2, 16)]:
            if self.chance.in_100(85):
                self.say("node %d join_assemble", i)
            self.say("rejoin %d" if i not in self.io and self.chance.below(2) else "store_check %d", i)
            self.settle()

    def maintain(self):
        normals = self.those(NORMAL)
        if normals:
            i = self.chance.pick(normals)
            self.say("maintenance %d", i)
            if self.chance.in_100(30):
                self.probe(i)

    def end_maintenance(self):
        if self.maintained:
            self.enable(self.chance.pick(sorted(self.maintained)))
            self.settle()

    def try_recovery(self):
        self.say("try")
        self.settle()

    def store_trouble(self):
        i = self.chance.pick(self.ids)
        self.say("node %d %s" % (i, self.one_of("unregister 0", "fault")))
        if self.chance.below(2):
            self.say("node %d register_add %d %d", i, set_of(self.members | {i}), self.version)

    def mend(self):
        """All that is wrong is put right, one after the other: what is awaited, removals that halted, links, stores, maintenance."""
        self.finish()
        for i in self.those(REMOVING):
            self.say("remove %d %d", i, self.mode[i])
            self.finish()
        self.come_back()
        for i in self.those(FAILED) + sorted(self.maintained):
            self.say("node %d register_add %d %d", i, set_of(self.members | {i}), self.version)
            self.say("node %d join_assemble", i)
            self.say("enable %d" if i in self.maintained else "store_check %d", i)
            self.finish()
        if not self.sync:
            self.say("try")
            self.finish()

    # Legs go.

    def remove(self):
        there = self.those(CREATED, NORMAL, FAILED, RECONNECTING, REMOVING)
        if there:
            self.take_out(self.chance.pick(there), self.one_of(DELETE, DISASSEMBLE))
            self.settle()

    def take_out(self, i, mode):
        """A removal begins, or, where it halted, begins again: mostly in the same mode."""
        if self.session[i] == REMOVING and self.chance.in_100(80):
            mode = self.mode[i]
        self.say("remove %d %d", i, mode)

    def halt(self):
        """A removal halts: the one that is to go does not answer, or a peer does not."""
        if not self.peers() or self.to_come:
            return
        i = self.chance.pick(self.peers())
        self.take_out(i, self.one_of(DELETE, DISASSEMBLE))
        if len(self.to_come) > 1 and self.chance.below(2):
            self.answer()
            self.down(self.to_come[0].by)
        elif self.chance.below(2):
            self.down(i)
        else:
            self.answer(good=False)
        for _ in range(self.chance.below(5)):
            self.probe(i)

    def disassemble_all(self):
        """The pool is taken down, its stores stay; then it is put together again."""
        for i in self.chance.mixed(self.those(CREATED, NORMAL, FAILED, RECONNECTING)):
            self.take_out(i, DISASSEMBLE)
            self.finish()
        self.come_back()

    # What nobody asked for.

    def rare(self):
        """An id, rather one whose session is in a state that few are in."""
        found = self.those(CREATED, FAILED, RECONNECTING, REMOVING)
        return self.chance.pick(found) if found and self.chance.in_100(60) else self.chance.pick(self.ids)

    def probe(self, i=None):
        self.say(probed(self.chance.pick(CLIENT_PROBES), self, self.rare() if i is None else i))

    def probe_node(self):
        n = self.chance.pick(self.ids)
        for _ in range(1 + self.chance.below(3)):
            self.say("node %d %s" % (n, probed(self.chance.pick(NODE_PROBES), self, n)))

    def look(self):
        self.say(self.one_of("row %d %d", "staging %d %d"), self.chance.pick(self.ids), self.chance.pick(self.ids))

    def acts(self):
        """What can happen to a pool, with how often."""
        table = [(9, self.lose), (3, self.lose_all), (14, self.back), (4, self.try_recovery), (4, self.remove), (3, self.halt), (4, self.add), (2, self.store_trouble), (5, self.mend),
                 (10, self.probe), (4, self.probe_node), (2, self.look), (2, self.stray_answer), (14 if not self.sync else 2, self.write), (6 if not self.sync else 1, self.synced)]
        if not self.sync:
            table += [(6, self.write_often), (5, self.maintain), (5, self.end_maintenance), (4, self.enable_created), (4, self.extend), (2, self.disassemble_all), (3, self.come_back),
                      (4, self.copy_on), (4, self.check_maps)]
        return table

    def go_on(self, count):
        """So many acts, whatever they are."""
        for _ in range(count):
            self.chance.weighted(self.acts())()
            if self.by_hand and self.chance.in_100(10):
                self.by_hand = False  # and what is left of the job is delivered, whatever its number
                for _ in range(len(self.to_come) + 2):
                    self.say("deliver")


# The numbers of a probe, such as a driver could send: one row a kind of call.

def some_set(d, n):
    """A set that holds n, mostly the members'."""
    return d.chance.pick([set_of(d.members | {n}), set_of(d.members | {n}), 1 << n, 1 << n | 1 << d.chance.below(16)])


def other_set(d, n):
    """A set without n."""
    return (some_set(d, n) | 1 << d.chance.below(16)) & ~(1 << n)


def some_version(d):
    return d.chance.pick([0, 1, d.version, d.version, d.version + 1, d.version + 3])


def some_chunk(d):
    return d.chance.below(d.chunks)


def some_member(d, n):
    others = sorted(i for i in d.members if i != n)
    return d.chance.pick(others) if others else d.chance.pick(d.ids)


def just_the_id(d, i):
    return "%d" % i


def nothing(d, i):
    return ""


CLIENT_PROBES = [
    ("join_create", just_the_id), ("enable", just_the_id), ("maintenance", just_the_id), ("link_down", just_the_id), ("store_check", just_the_id), ("rejoin", just_the_id),
    ("try", nothing), ("extend", nothing), ("tick", nothing),
    ("join_assemble", lambda d, i: "%d %d %d" % (i, set_of(d.members) or 1 << i, some_version(d))),
    ("join_assemble", lambda d, i: "%d %d %d" % (i, some_set(d, i) ^ 1 << d.chance.below(16), some_version(d))),
    ("remove", lambda d, i: "%d 0" % i),
    ("remove", lambda d, i: "%d 1" % i),
    ("write", lambda d, i: "%d %d" % (some_chunk(d), set_of(d.those(NORMAL)))),
    ("write", lambda d, i: "%d %d" % (some_chunk(d), set_of(d.those(NORMAL)) & ~(1 << i))),
    ("write", lambda d, i: "%d %d" % (some_chunk(d), 1 << i)),
    ("synced", lambda d, i: "%d %d %d" % d.chance.pick([m for m in d.missed if m[0] == i] or [(i, some_chunk(d), d.chance.pick(d.ids))])),
    ("answer", lambda d, i: "%d %d %d" % (d.chance.pick([d.number, d.number, d.number - 1, d.number + 1]), d.chance.below(3), d.chance.below(3))),
    ("check_answer", lambda d, i: "%d %d %d" % (d.chance.pick([d.ticks, d.ticks, d.ticks + 1]), i, d.chance.below(2))),
]
NODE_PROBES = [
    ("register_create", nothing), ("join_assemble", nothing), ("enable0", nothing), ("fault", nothing), ("map_disable", nothing), ("map_get_ver", nothing), ("map_check", nothing),
    ("register_add", lambda d, n: "%d %d" % (some_set(d, n), some_version(d))),
    ("register_add", lambda d, n: "%d %d" % (other_set(d, n), some_version(d))),
    ("unregister", lambda d, n: "%d" % d.chance.below(2)),
    ("join_create", lambda d, n: "%d" % some_set(d, n)),
    ("leave", lambda d, n: "%d" % d.chance.below(2)),
    ("enable1", lambda d, n: "%d %d" % (some_version(d), some_set(d, n))),
    ("enable1", lambda d, n: "%d %d" % (some_version(d), other_set(d, n))),
    ("write", lambda d, n: "%d %d %d" % (some_chunk(d), some_set(d, d.chance.below(16)), some_version(d))),
    ("synced", lambda d, n: "%d %d" % (some_member(d, n), some_chunk(d))),
    ("map_ready", lambda d, n: "%d" % d.chance.below(2)),
    ("give_part", lambda d, n: "%d %d" % (d.chance.pick([0, 512, 1024, 7168, 7169]), d.chance.pick([1, 512, 1024]))),
    ("take_part", lambda d, n: "0 %d %d" % (d.chance.pick([1, 1000, 1024]), d.chance.pick(d.ids))),
    ("take_part", lambda d, n: "%d %d %d" % (d.chance.pick([1, 1000, 1024, 7168]), d.chance.pick([1, 1024, 1025]), d.chance.pick(d.ids))),
    ("take", lambda d, n: "%d" % d.chance.pick(d.ids)),
    ("map_done", lambda d, n: "%d %d %d" % (d.chance.below(2), some_version(d), some_set(d, n))),
    ("last_io", lambda d, n: "%d" % d.chance.pick(d.ids)),
    ("pool_info", lambda d, n: "%d %d" % (d.chance.below(4), some_member(d, n))),
    ("pool_info", lambda d, n: "%d %d" % (d.chance.below(4), d.chance.below(16))),
    ("fill", lambda d, n: "%d %d" % (some_member(d, n), some_version(d))),
    ("fill", lambda d, n: "%d %d" % (d.chance.below(16), some_version(d))),
    ("next", lambda d, n: "%d %d" % (d.chance.below(16), some_chunk(d))),
]


def probed(row, d, i):
    """The line of a probe."""
    name, numbers = row
    return (name + " " + numbers(d, i)).strip()
