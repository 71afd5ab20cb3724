"""The rules once more, in Python and by hand, for the gallery of wrong drivers (bench/gallery.py): a driver that answers as the lab does, and in whose methods one rule can be bent.

Nothing rests on it. Where it and the lab differ, `./lab --against 'python3 -m bench.model'` says so, and the lab is right.
"""
import sys

LIMIT, WRITE_LIMIT = 2**63 - 34, 2**63 - 17
ORDER = (1, 2, 18, 3, 4, 5, 6, 7, 8, 9, 17, 10, 11, 19, 12, 13, 14, 15, 16)
PHASES = ("versions", "base", "last_io", "gather", "enable", "spread")


class Refused(Exception):
    pass


def first_of(*tests):
    """The first refusal that applies, of (number, whether)."""
    found = [number for number, applies in tests if applies]
    if found:
        raise Refused(min(found, key=ORDER.index))


def bits(number):
    return [i for i in range(16) if number >> i & 1]


def high(number):
    return number > 65535


class Session:
    def __init__(self):
        self.state, self.maint, self.mark, self.disassemble, self.owed, self.io = ".", False, False, False, False, False


class Client:
    def __init__(self, sync, chunks):
        self.sync, self.chunks, self.version, self.members, self.number = sync, chunks, 1, 0, 0
        self.at = [Session() for _ in range(16)]
        self.rows = [set() for _ in range(16)]
        self.written = self.assembled = False
        self.tick_number = self.due = self.once = 0
        self.run = self.removal = None
        self.records, self.record = 0, None

    # What is asked of the state.

    def those(self, letters):
        return [i for i in range(16) if self.at[i].state in letters]

    def normals(self):
        return self.those("N")

    def set_of(self, ids):
        return sum(1 << i for i in ids)

    def candidates(self):
        return [i for i in self.those("R") if not self.at[i].maint]

    def known(self, i):
        return i < 16

    def state(self, i):
        return self.at[i].state if i < 16 else "."

    def job(self):
        return self.run is not None or self.removal is not None

    def told_peers(self, i):
        return [p for p in self.those("CNR") if p != i]

    # Changes.

    def leave_normal(self, i, state, marks):
        s = self.at[i]
        if s.state == "N" and not self.sync:
            self.raised(state)
            s.state = state
            if marks and not self.normals():
                s.mark = True
        s.state = state
        self.changed()

    def raised(self, state):
        self.version += 1

    def enter_normal(self, i):
        self.at[i].state = "N"
        self.unmark()
        self.changed()

    def unmark(self):
        for s in self.at:
            s.mark = False

    def changed(self):
        """A session changed, a write was acknowledged or a run came: a row of empty answers is broken."""
        self.once = 0

    def send(self, *words):
        self.number = (self.number + 1) % 2**32
        return " ".join(map(str, words)) + " #%d" % self.number

    # Recovery.

    def begin(self):
        """The first message of a run, where one begins."""
        if self.sync or self.job() or self.version > LIMIT:
            return []
        candidates, marked = self.candidates(), [i for i in range(16) if self.at[i].mark]
        if self.normals():
            if not candidates:
                return []
            self.run = {"phase": "spread", "source": self.normals()[0], "left": candidates, "step": 0, "taken": 0}
        elif marked:
            if marked[0] not in candidates:
                return []
            self.run = {"phase": "enable", "source": marked[0], "left": [i for i in candidates if i != marked[0]], "step": 0, "taken": 0}
        elif self.members and bits(self.members) == [i for i in candidates if self.members >> i & 1]:
            self.run = {"phase": "versions", "source": None, "left": bits(self.members), "step": 0, "taken": 0, "best": None}
        else:
            return []
        self.changed()
        return [self.ask()]

    def others(self):
        return [i for i in bits(self.members) if i != self.run["source"]]

    def ask(self):
        """The awaited message of the run as it is."""
        r = self.run
        phase, source, who = r["phase"], r["source"], r["left"][0] if r["left"] else None
        if phase == "versions":
            return self.send("MAP_GET_VER", who)
        if phase == "last_io":
            return self.send("LAST_IO", who, source)
        if phase == "enable":
            return self.send("ENABLE", source, 1, self.version, self.members)
        taker, giver = (source, who) if phase == "gather" else (who, source)
        return self.send(*[("MAP_READY", taker, int(phase == "gather")), ("MAP_SEND", giver, taker), ("MAP_DONE", taker, int(phase == "spread"), self.version, self.members)][r["step"]])

    def in_hand(self):
        """The receiver in hand."""
        r = self.run
        return {"base": r["left"][:1], "spread": r["left"][:1], "gather": [r["source"]]}.get(r["phase"], [])

    def end_run(self):
        self.run = None
        self.version += 1
        self.changed()

    def next_phase(self):
        """What comes when nobody is left: the next message, or the end of the run."""
        r = self.run
        order = {"versions": "base", "base": "last_io", "last_io": "gather", "gather": "enable", "enable": "spread", "spread": None}
        while True:
            phase = order[r["phase"]]
            if phase is None:
                self.end_run()
                return []
            r["phase"], r["step"] = phase, 0
            r["left"] = r["left"] if phase == "spread" and not r.get("all") else bits(self.members) if phase == "last_io" else self.others()
            if phase == "enable" or r["left"]:
                return [self.ask()]

    def answered(self, kind, version):
        r = self.run
        phase = r["phase"]
        good = kind != 0 and (phase != "versions" or self.version_will_do(kind, version))
        r["taken"] += 1
        self.outcome = " taken=%d" % r["taken"]
        if not good:
            return self.failed(phase)
        if phase == "versions":
            if r["best"] is None or self.better(version, r["best"]):
                r["best"], r["source"] = version, r["left"][0]
            r["all"] = True
            r["left"] = r["left"][1:]
        elif phase == "last_io":
            r["left"] = r["left"][1:]
        elif phase == "enable":
            self.enter_normal(r["source"])
            r["left"] = self.others() if r.get("all") else r["left"]
            r["all"] = False
            r["phase"], r["step"] = "spread", 0
        elif r["step"] < 2:
            r["step"] += 1
            return [self.ask()]
        else:
            if phase == "spread":
                self.enter_normal(r["left"][0])
            r["left"], r["step"] = r["left"][1:], 0
        return [self.ask()] if r["left"] else self.next_phase()

    def better(self, version, best):
        return version > best

    def version_will_do(self, kind, version):
        return kind == 2 and version <= self.version

    def failed(self, phase):
        r = self.run
        told = ["MAP_DISABLE %d" % i for i in self.in_hand()]
        if phase != "spread":
            self.end_run()
            return told
        r["left"], r["step"] = r["left"][1:], 0
        if r["left"]:
            return told + [self.ask()]
        self.end_run()
        return told

    # Events.

    def join_create(self, i):
        first_of((3, i > 15), (6, self.job()), (8, self.state(i) != "."), (17, self.written and not self.sync), (10, not self.sync and i < 16 and self.members >> i & 1))
        told = [] if self.sync else ["POOL_INFO %d 0 %d" % (p, i) for p in self.told_peers(i)]
        self.at[i].state = "N" if self.sync else "C"
        if not self.sync:
            self.members |= 1 << i
        self.changed()
        return told

    def join_assemble(self, i, found, version):
        first_of((3, i > 15 or high(found)), (5, self.sync), (6, self.job()), (8, self.state(i) != "."), (10, i < 16 and not found >> i & 1 or self.members not in (0, found)), (14, version > LIMIT))
        told = ["POOL_INFO %d 1 %d" % (p, i) for p in self.told_peers(i)]
        if not self.members:
            self.members, self.assembled = found, True
        self.version = max(self.version, version)
        self.at[i].state = "R"
        self.changed()
        return told + self.begin()

    def enable(self, i):
        s = self.at[i] if i < 16 else Session()
        created = s.state == "C"
        first_of((3, i > 15), (5, self.sync), (6, self.job()), (7, s.state == "."), (9, not created and not (s.state == "R" and s.maint)), (17, created and (self.written or self.assembled)), (14, created and self.version > LIMIT))
        if created:
            self.enter_normal(i)
            return []
        s.maint = False
        self.changed()
        return self.begin()

    def maintenance(self, i):
        first_of((3, i > 15), (5, self.sync), (6, self.job()), (7, self.state(i) == "."), (9, self.state(i) != "N"))
        self.leave_normal(i, "R", True)
        self.at[i].maint = True
        return ["ENABLE %d 0" % i]

    def link_down(self, i):
        awaited = self.removal is not None and self.removal[1] == i
        first_of((3, i > 15), (7, self.state(i) == "."), (9, self.state(i) not in "CNR" and not (self.state(i) == "X" and awaited)))
        if self.state(i) != "X":
            self.leave_normal(i, "F", True)
            self.at[i].io = False
        if awaited:
            self.removal = None
        if self.run is None:
            return []
        told = ["MAP_DISABLE %d" % p for p in self.in_hand() if p != i]
        self.outcome = " taken=%d" % self.run["taken"]
        self.end_run()
        return told + self.begin()

    def back(self, i):
        self.at[i].state = "N" if self.sync else "R"
        self.changed()
        return self.begin()

    def store_check(self, i):
        first_of((3, i > 15), (6, self.job()), (7, self.state(i) == "."), (9, self.state(i) != "F" and (self.sync or self.state(i) != "C")))
        return self.back(i)

    def rejoin(self, i):
        first_of((3, i > 15), (6, self.job()), (7, self.state(i) == "."), (9, self.state(i) != "F" or self.at[i].io))
        return self.back(i)

    def remove(self, i, mode):
        first_of((3, i > 15), (6, self.job()), (7, self.state(i) == "."), (9, i < 16 and self.state(i) == "X" and self.at[i].disassemble != bool(mode)))
        s = self.at[i]
        if s.state != "X":
            s.owed = s.state != "F"
            s.mark = s.maint = False
            s.disassemble = bool(mode)
            self.leave_normal(i, "X", False)
        if s.owed:
            self.removal = (i, i)
            return [self.send("LEAVE", i, mode)]
        return self.after_leave(i)

    def after_leave(self, i):
        """LEAVE is done or not owed."""
        s = self.at[i]
        s.owed = False
        if not s.disassemble and not self.sync:
            self.members &= ~(1 << i)
            self.rows[i] = set()
            if not self.members:
                self.written = self.assembled = False
        return self.tell_next(i, -1)

    def tell_next(self, i, last):
        peers = [] if self.sync else [p for p in self.told_peers(i) if p > last]
        if peers:
            self.removal = (i, peers[0])
            return [self.send("POOL_INFO", peers[0], 3 if self.at[i].disassemble else 2, i)]
        self.removal = None
        self.at[i] = Session()
        self.changed()
        if not self.those("CNFRX") and not self.sync:
            self.rows = [set() for _ in range(16)]
        return []

    def removal_answered(self, kind):
        i, peer = self.removal
        if kind == 0:
            self.removal = None
            return []
        return self.after_leave(i) if peer == i else self.tell_next(i, peer)

    def write(self, chunk, reached):
        normals = self.set_of(self.normals())
        first_of((3, high(reached)), (4, chunk >= self.chunks), (5, self.sync), (6, self.run is not None), (11, not normals or reached & ~normals))
        for i in bits(normals & ~reached):
            self.leave_normal(i, "F", True)
            self.at[i].io = True
        if self.removal is not None and normals & ~reached & 65535 and (normals & ~reached) >> self.removal[1] & 1:
            self.removal = None
        missed = self.mark_list() if reached else 0
        self.outcome = " acked=%d list=%d" % (reached != 0, missed)
        if not reached:
            return []
        self.written = True
        self.changed()
        for m in bits(missed):
            self.rows[m].add(chunk)
        return ["MARK %d %d %d %d" % (i, chunk, missed, self.version) for i in bits(reached)]

    def mark_list(self):
        return self.set_of(m for m in bits(self.members) if self.at[m].state != "N" and not (self.at[m].state == "X" and not self.at[m].disassemble))

    def synced(self, m, chunk, clean):
        """Clean: the members for which the chunk is clean in the map that was lent."""
        normals = self.set_of(self.normals())
        first_of((2, clean is None), (3, m > 15), (4, chunk >= self.chunks), (5, self.sync), (6, self.run is not None), (7, self.state(m) == "."), (11, not normals),
                 (12, m < 16 and clean is not None and (self.state(m) != "N" or clean >> m & 1 or not normals & clean & ~(1 << m))))
        return ["CLEAR %d %d %d" % (i, m, chunk) for i in self.normals()]

    def try_(self):
        first_of((5, self.sync), (6, self.job()))
        return self.begin()

    def extend(self):
        free = self.free_ids()
        first_of((5, self.sync), (6, self.job()), (11, not self.normals()), (19, not free))
        i = free[0]
        told = ["POOL_INFO %d 0 %d" % (p, i) for p in self.told_peers(i)] + ["FILL %d %d %d" % (n, i, self.version) for n in self.normals()]
        self.members |= 1 << i
        self.rows[i] = set(range(self.chunks))
        self.at[i] = Session()
        self.at[i].state = "R"
        self.changed()
        self.outcome = " id=%d" % i
        return told + self.begin()

    def free_ids(self):
        return [i for i in range(16) if not self.members >> i & 1 and self.at[i].state == "."]

    def answer(self, number, kind, version):
        first_of((13, not self.job() or not self.is_awaited(number)))
        return self.answered(kind, version) if self.run is not None else self.removal_answered(kind)

    def is_awaited(self, number):
        return number == self.number

    def tick(self):
        first_of((5, self.sync), (6, self.job()))
        self.tick_number = (self.tick_number + 1) % 2**32
        self.due = self.set_of(i for i in self.normals() if self.rows[i])
        return ["MAP_CHECK %d %d" % (i, self.tick_number) for i in bits(self.due)]

    def check_answer(self, number, m, empty):
        first_of((3, m > 15), (5, self.sync), (6, self.job()), (7, self.state(m) == "."), (13, number != self.tick_number or m < 16 and not self.due >> m & 1))
        self.due &= ~(1 << m)
        if not empty:
            self.once &= ~(1 << m)
        elif self.once >> m & 1:
            self.rows[m] = set()
            self.once &= ~(1 << m)
        else:
            self.once |= 1 << m
        return []

    # What is said.

    def set_where(self, test):
        return self.set_of(i for i in range(16) if test(self.at[i]))

    def line(self):
        count = 0 if self.sync else len(self.normals())
        job = "remove:%d" % self.removal[0] if self.removal is not None else "run:%s" % self.run["phase"] if self.run is not None else "none"
        return "ok version=%d count=%d members=%d sessions=%s maint=%d marked=%d delete=%d owed=%d job=%s" % (
            self.version, count, self.members, "".join(s.state for s in self.at), self.set_where(lambda s: s.maint), self.set_where(lambda s: s.mark),
            self.set_where(lambda s: s.state == "X" and not s.disassemble), self.set_where(lambda s: s.owed), job)

    def look(self):
        return "look written=%d assembled=%d tick=%d due=%d once=%d link=%d io=%d" % (
            self.written, self.assembled, self.tick_number, self.due, self.once, self.set_where(lambda s: s.state == "F" and not s.io), self.set_where(lambda s: s.state == "F" and s.io))

    KINDS = {"join_create": 1, "join_assemble": 2, "enable": 3, "maintenance": 4, "link_down": 5, "store_check": 6, "write": 9, "try": 10, "rejoin": 14, "extend": 15}

    def note(self, name, numbers):
        """The record of an accepted event that is logged."""
        kind = self.KINDS.get(name) or {"remove": lambda: 7 + numbers[1], "answer": lambda: (13, 11, 12)[numbers[1]]}.get(name, lambda: 0)()
        if not kind:
            self.record = None
            return
        member = int(self.outcome[4:]) if name == "extend" else numbers[0] if name not in ("write", "try", "answer") else 0
        found, number = {"join_assemble": (numbers[1:2], numbers[2:]), "write": (numbers[1:], numbers[:1]), "answer": ((), numbers[2:] if kind == 12 else ())}.get(name, ((), ()))
        causes = sum((2 if s.io else 1) << 2 * i for i, s in enumerate(self.at) if s.state == "F")
        self.records += 1
        self.record = [self.records, kind, member, sum(found), sum(number), self.version, 0 if self.sync else len(self.normals()), causes]

    def event(self, name, numbers, clean=0):
        self.outcome = ""
        if not 1 <= self.chunks <= 4096:
            self.record = None
            return "refused 1"
        try:
            sent = self.synced(*numbers[:2], clean) if name == "synced" else getattr(self, name + "_" * (name == "try"))(*numbers)
        except Refused as e:
            self.record = None
            return "refused %s" % e
        self.note(name, numbers)
        return " | ".join([self.line() + self.outcome] + sent)


class Node:
    STATES = ("EMPTY", "REGISTERED", "CREATED", "NORMAL", "NO_IO")

    def __init__(self, n, chunks):
        self.n, self.chunks, self.state, self.store, self.create, self.members, self.version, self.kept = n, chunks, "EMPTY", False, False, 0, 0, []
        self.map, self.staging, self.got = bytearray(8192), bytearray(8192), None

    # Maps.

    def mark(self, m, chunk):
        self.map[512 * m + chunk // 8] |= 1 << chunk % 8

    def clear(self, m, chunk):
        self.map[512 * m + chunk // 8] &= ~(1 << chunk % 8)

    def is_dirty(self, m, chunk):
        return self.map[512 * m + chunk // 8] >> chunk % 8 & 1

    def zero(self, but):
        """Zeroes the rows that are not in a set."""
        for m in range(16):
            if not but >> m & 1:
                self.map[512 * m : 512 * m + 512] = bytes(512)

    def drop(self):
        self.staging, self.got = bytearray(8192), None

    def serving(self):
        return self.state in ("CREATED", "NORMAL", "NO_IO") and self.store

    def own(self):
        return 1 << self.n

    # Events.

    def register_create(self):
        first_of((9, self.state != "EMPTY"))
        self.state, self.store, self.create, self.map, self.kept, self.members, self.version = "REGISTERED", True, True, bytearray(8192), [], self.own(), 0

    def register_add(self, found, version):
        lost = self.state == "NO_IO" and not self.store
        first_of((3, high(found)), (9, self.state != "EMPTY" and not lost), (10, not found >> self.n & 1), (14, version > LIMIT))
        self.state, self.store, self.members, self.version = "NO_IO" if lost else "REGISTERED", True, found, version

    def unregister(self, delete):
        stored = self.state == "NO_IO" and self.store
        first_of((9, self.state != "REGISTERED" and (not stored or delete)))
        if stored:
            self.store = False
            self.drop()
            return
        self.state, self.store, self.create = "EMPTY", False, False
        if delete:
            self.map, self.members, self.version = bytearray(8192), 0, 0

    def join_create(self, found):
        first_of((3, high(found)), (9, self.state != "REGISTERED" or not self.create))
        self.state, self.create, self.members = "CREATED", False, found | self.own()
        self.zero(self.own())

    def join_assemble(self):
        first_of((9, not (self.state == "REGISTERED" and not self.create or self.state == "NORMAL" or self.state == "NO_IO" and self.store)))
        self.state = "NO_IO"

    def leave(self, delete):
        first_of((9, self.state not in ("CREATED", "NORMAL", "NO_IO")))
        self.state = "REGISTERED" if self.store else "EMPTY"
        if delete:
            self.zero(self.own())
        self.drop()

    def enable1(self, version, found):
        first_of((3, high(found)), (9, not self.serving()), (10, not found >> self.n & 1), (14, version > LIMIT))
        self.state, self.version, self.members = "NORMAL", version, found
        self.zero(found)
        self.drop()

    def enable0(self):
        first_of((9, self.state not in ("NORMAL", "NO_IO")))
        self.state = "NO_IO"
        self.drop()

    def fault(self):
        first_of((9, self.state not in ("NORMAL", "NO_IO")))
        self.state = "NO_IO"

    def write(self, chunk, found, version):
        first_of((3, high(found)), (4, chunk >= self.chunks), (9, self.state != "NORMAL"), (14, version > WRITE_LIMIT))
        for m in bits(found):
            self.mark(m, chunk)
        self.version = max(self.version, version)
        self.kept = (self.kept + [chunk])[-16:]

    def synced(self, m, chunk):
        first_of((3, m > 15), (4, chunk >= self.chunks), (9, self.state != "NORMAL"))
        self.clear(m, chunk)

    def map_ready(self, keep):
        first_of((9, not self.serving()))
        self.state, self.got = "NO_IO", 0
        self.staging = bytearray(self.map) if keep else bytearray(8192)

    def give_part(self, offset, length):
        first_of((9, not self.serving()), (16, self.wrong_part(offset, length)))

    def wrong_part(self, offset, length):
        return not 1 <= length <= 1024 or offset > 8192 or offset + length > 8192

    def take_part(self, offset, part):
        past = any((c + 8 * offset) % 4096 >= self.chunks for c in chunks_of(part))
        first_of((15, self.got is None), (16, self.wrong_part(offset, len(part)) or offset != self.got or past))
        self.put(offset, part)
        self.got += len(part)

    def put(self, offset, part):
        for k, byte in enumerate(part):
            self.staging[offset + k] |= byte

    def map_done(self, enable, version, found):
        first_of((3, high(found)), (10, not found >> self.n & 1), (14, version > LIMIT), (15, not self.has_map()))
        self.map = bytearray(self.staging)
        self.version, self.members = version, found
        self.zero(found)
        self.state = "NORMAL" if enable else "NO_IO"
        self.drop()

    def has_map(self):
        return self.got == 8192

    def map_disable(self):
        first_of((15, self.got is None))
        self.drop()

    def map_get_ver(self):
        first_of((9, not self.serving()))

    def last_io(self, chosen):
        first_of((3, chosen > 15), (9, not self.serving()))
        for chunk in self.kept:
            if not self.is_dirty(chosen, chunk):
                for m in bits(self.members & ~(1 << chosen)):
                    self.mark(m, chunk)

    def pool_info(self, op, m):
        first_of((3, m > 15), (9, self.state not in ("CREATED", "NORMAL", "NO_IO")), (10, m == self.n or op == 1 and m < 16 and not self.members >> m & 1))
        if op == 0:
            self.members |= 1 << m
            self.zero(65535 & ~(1 << m))
        if op == 2:
            self.members &= ~(1 << m)
            self.zero(65535 & ~(1 << m))

    def fill(self, m, version):
        first_of((3, m > 15), (9, self.state not in ("CREATED", "NORMAL", "NO_IO")), (10, m < 16 and not self.members >> m & 1), (14, version > WRITE_LIMIT))
        for chunk in range(self.chunks):
            self.mark(m, chunk)
        self.version = max(self.version, version)

    def map_check(self):
        self.outcome = " empty=%d" % (self.state == "NORMAL" and not any(self.map[512 * self.n : 512 * self.n + 512]))

    def next(self, m, chunk):
        first_of((3, m > 15), (4, chunk >= self.chunks))
        found = next((c for c in chunks_of(self.map[512 * m : 512 * m + 512]) if c >= chunk), None)
        self.outcome = " next=%s" % ("none" if found is None else found)

    def event(self, name, numbers):
        self.outcome = ""
        if not 1 <= self.chunks <= 4096:
            return "refused 1"
        try:
            getattr(self, name)(*numbers)
        except Refused as e:
            return "refused %s" % e
        return self.line() + self.outcome

    def line(self):
        transfer = 0 if self.got is None else 2 if self.got == 8192 else 1
        return "ok node=%d state=%s store=%d create=%d members=%d version=%d kept=%s transfer=%d" % (
            self.n, self.state, self.store, self.create, self.members, self.version, ",".join(map(str, self.kept)) or "-", transfer)


def row_line(chunks):
    """The dirty chunks, ascending, as ranges."""
    found = []
    for c in chunks:
        if found and found[-1][1] == c - 1:
            found[-1][1] = c
        else:
            found.append([c, c])
    return "dirty " + " ".join(str(a) if a == b else "%d-%d" % (a, b) for a, b in found) if found else "clean"


def chunks_of(row):
    """The dirty chunks of a row's bytes."""
    return [8 * k + b for k, byte in enumerate(row) if byte for b in range(8) if byte >> b & 1]


class Driver:
    """A client and sixteen nodes, as lines. What it does not speak of it answers with `?`."""
    client, node = Client, Node
    CLIENT_EVENTS = {"join_create", "join_assemble", "enable", "maintenance", "link_down", "store_check", "rejoin", "remove", "write", "synced", "try", "extend", "answer", "tick", "check_answer"}
    NODE_EVENTS = {name for name in vars(Node) if not name.startswith("_")} - {"mark", "clear", "is_dirty", "zero", "drop", "serving", "own", "put", "has_map", "event", "line", "wrong_part", "STATES"}

    def __init__(self):
        self.fresh(0, 4096)

    def fresh(self, sync, chunks):
        self.c, self.nodes, self.cut = self.client(sync, chunks), [self.node(n, chunks) for n in range(16)], 1024

    def answer(self, line):
        name, *rest = line.split(" ")
        if name == "node":
            return self.node_answer(int(rest[0]), rest[1], list(map(int, rest[2:])))
        if name == "row" and rest[0] == "client":
            return row_line(sorted(self.c.rows[int(rest[1])]))
        numbers = list(map(int, rest)) if all(w.isdigit() for w in rest) else []
        if name in self.CLIENT_EVENTS:
            clean = self.clean_for(*numbers[1:]) if name == "synced" else 0
            return self.c.event(name, numbers, clean)
        if name == "pool":
            self.fresh(*numbers)
        elif name == "cut":
            self.cut = numbers[0]
        elif name == "poke_node" and not any(numbers[1:]):
            kept, self.nodes[numbers[0]] = self.nodes[numbers[0]], self.node(numbers[0], self.c.chunks)
            self.nodes[numbers[0]].map, self.nodes[numbers[0]].staging, self.nodes[numbers[0]].kept = kept.map, kept.staging, kept.kept
        elif name == "byte" and len(numbers) == 3:
            self.nodes[numbers[0]].map[numbers[1]] = numbers[2]
        elif name == "look":
            return "look got=%d" % (self.nodes[numbers[0]].got or 0) if numbers else self.c.look()
        elif name == "record":
            return "record " + " ".join(map(str, self.c.record)) if self.c.record else "none"
        elif name in ("row", "staging"):
            n, m = numbers
            where = self.nodes[n].map if name == "row" else self.nodes[n].staging
            return row_line(chunks_of(where[512 * m : 512 * m + 512]))
        else:
            return "?"
        return "done"

    def clean_for(self, chunk, n):
        """The members for which a chunk is clean in a node's map; None where the map has a bit past the chunk count."""
        node = self.nodes[n]
        if any(c >= node.chunks for m in range(16) for c in chunks_of(node.map[512 * m : 512 * m + 512])):
            return None
        return sum(1 << m for m in range(16) if chunk < 4096 and not node.is_dirty(m, chunk))

    def node_answer(self, n, name, numbers):
        node = self.nodes[n]
        if name == "take_part":
            offset, length, of = numbers
            part = bytes(self.nodes[of].map[offset : offset + length]) if offset < 8192 else b""
            return node.event("take_part", [offset, part + bytes(length - len(part))])
        if name == "take":
            return self.take(node, numbers[0])
        return node.event(name, numbers) if name in self.NODE_EVENTS else "?"

    def take(self, node, of):
        said = ""
        for offset in range(0, 8192, self.cut):
            said = node.event("take_part", [offset, bytes(self.nodes[of].map[offset : offset + self.cut])])
            if said.startswith("refused"):
                break
        return said


def drive(driver):
    for line in sys.stdin:
        print(driver.answer(line.rstrip("\n")), flush=True)


if __name__ == "__main__":
    drive(Driver())
