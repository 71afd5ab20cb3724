"""Wrong drivers, each with one realistic bug: bench/model.py with one method bent. bench/gallery.py looks for them."""
from bench import model
from bench.model import Client, Node, bits, first_of


class Stops(Exception):
    """It ends, or hangs; in words."""


GALLERY = {}  # name: what is wrong, the most commands a person would need, and what bends the driver


def bug(what, most):
    def keep(bend):
        GALLERY[bend.__name__.replace("_", "-")] = (what, most, bend)
        return bend
    return keep


def client(**methods):
    return type("Driver", (model.Driver,), {"client": type("Client", (Client,), methods)})


def node(**methods):
    return type("Driver", (model.Driver,), {"node": type("Node", (Node,), methods)})


# The twelve that were asked for.

@bug("an id above 15 wraps onto a neighbour", 3)
def wrapped_id():
    return client(link_down=lambda c, i: Client.link_down(c, i % 16))


@bug("no mark for a member that was down before the write", 7)
def forgotten_mark():
    def write(c, chunk, reached):
        c.down = set(c.those("F"))
        return Client.write(c, chunk, reached)

    return client(write=write, mark_list=lambda c: Client.mark_list(c) & ~c.set_of(c.down))


@bug("the version is not raised at maintenance", 4)
def quiet_maintenance():
    return client(raised=lambda c, state: None if state == "R" else Client.raised(c, state))


@bug("MAP_DONE is taken before a whole map was", 5)
def early_done():
    return node(has_map=lambda n: n.got is not None)


@bug("a late answer counts", 9)
def late_answer():
    return client(is_awaited=lambda c, number: number in (c.number, c.number - 1))


@bug("the last authoritative mark stays when a session is NORMAL again", 7)
def kept_mark():
    return client(unmark=lambda c: None)


@bug("the count of answers in case 3 leaves LAST_IO out", 7)
def short_count():
    def answered(c, kind, version):
        c.run["taken"] -= c.run["phase"] == "last_io"
        return Client.answered(c, kind, version)

    return client(answered=answered)


@bug("a removal goes on to the next peer after one failed", 9)
def removal_goes_on():
    def link_down(c, i):
        removal = c.removal
        sent = Client.link_down(c, i)
        return c.tell_next(removal[0], i) if removal is not None and removal[1] == i != removal[0] else sent

    return client(link_down=link_down)


@bug("a chunk is synced though no other NORMAL member is clean", 8)
def stale_sync():
    return client(synced=lambda c, m, chunk, clean: Client.synced(c, m, chunk, clean if clean is None or m > 15 else clean | 65535 & ~(1 << m)))


@bug("parts of a map overwrite what was kept", 9)
def overwritten_parts():
    def put(n, offset, part):
        n.staging[offset : offset + len(part)] = part

    return node(put=put)


@bug("a rejoin brings a session back after an IO failure", 6)
def rejoin_after_io():
    def rejoin(c, i):
        if i < 16 and not c.job():
            c.at[i].io = False
        return Client.rejoin(c, i)

    return client(rejoin=rejoin)


@bug("extend picks an id that a session still holds", 9)
def held_id():
    return client(free_ids=lambda c: [i for i in range(16) if not c.members >> i & 1])


# Others.

@bug("a CREATED session is enabled in a pool that was assembled", 8)
def enabled_when_assembled():
    def enable(c, i):
        kept, c.assembled = c.assembled, False
        try:
            return Client.enable(c, i)
        finally:
            c.assembled = kept

    return client(enable=enable)


@bug("deleting the last member does not clear what the pool went through", 7)
def never_fresh():
    def after_leave(c, i):
        past = c.written, c.assembled
        sent = Client.after_leave(c, i)
        c.written, c.assembled = past
        return sent

    return client(after_leave=after_leave)


@bug("a session's change leaves one empty answer standing", 15)
def standing_answer():
    def link_down(c, i):
        once = c.once
        sent = Client.link_down(c, i)
        c.once = once
        return sent

    return client(link_down=link_down)


@bug("the end of a run by a link down does not raise the version", 6)
def quiet_end():
    def link_down(c, i):
        c.end_run = lambda: (setattr(c, "run", None), c.changed())
        try:
            return Client.link_down(c, i)
        finally:
            del c.end_run

    return client(link_down=link_down)


@bug("MAP_DISABLE goes to the session whose link dropped, too", 7)
def told_the_dead():
    def link_down(c, i):
        dead = [] if c.run is None or i > 15 else [p for p in c.in_hand() if p == i]
        sent = Client.link_down(c, i)
        return ["MAP_DISABLE %d" % p for p in dead] + sent

    return client(link_down=link_down)


@bug("of equal versions the highest id is chosen", 11)
def last_of_equals():
    return client(better=lambda c, version, best: version >= best)


@bug("a run begins at a version of 2^63 - 33", 7)
def one_too_high():
    def begin(c):
        if c.version == model.LIMIT + 1:
            c.version -= 1
            sent = Client.begin(c)
            c.version += 1
            return sent
        return Client.begin(c)

    return client(begin=begin)


@bug("fifteen chunk numbers are kept, not sixteen", 22)
def fifteen_kept():
    def write(n, chunk, found, version):
        Node.write(n, chunk, found, version)
        n.kept = n.kept[-15:]

    return node(write=write)


@bug("LAST_IO marks a chunk that is dirty for the chosen", 11)
def marks_past_the_chosen():
    def last_io(n, chosen):
        first_of((3, chosen > 15), (9, not n.serving()))
        for chunk in n.kept:
            for m in bits(n.members & ~(1 << chosen)):
                n.mark(m, chunk)

    return node(last_io=last_io)


@bug("leave with delete zeroes the node's own row, too", 7)
def zeroed_itself():
    def leave(n, delete):
        Node.leave(n, delete)
        if delete:
            n.zero(0)

    return node(leave=leave)


@bug("a lower version brought by a fill is stored", 6)
def lower_fill():
    def fill(n, m, version):
        Node.fill(n, m, version)
        n.version = version

    return node(fill=fill)


@bug("a repeated removal sends LEAVE again", 10)
def left_twice():
    def remove(c, i, mode):
        if i < 16 and not c.job() and c.at[i].state == "X" and c.at[i].disassemble == bool(mode):
            c.at[i].owed = True
        return Client.remove(c, i, mode)

    return client(remove=remove)


@bug("maintenance is over when its session fails", 6)
def forgotten_flag():
    def link_down(c, i):
        sent = Client.link_down(c, i)
        if i < 16:
            c.at[i].maint = False
        return sent

    return client(link_down=link_down)


@bug("a set is cut to sixteen bits", 4)
def short_set():
    return client(write=lambda c, chunk, reached: Client.write(c, chunk, reached & 65535))


@bug("the chunk count itself is taken for a chunk", 4)
def one_chunk_more():
    def write(c, chunk, reached):
        c.chunks += 1
        try:
            return Client.write(c, chunk, reached)
        finally:
            c.chunks -= 1

    return client(write=write)


@bug("a sync pool's version rises", 3)
def sync_version():
    def link_down(c, i):
        rises = c.sync and i < 16 and c.at[i].state == "N"
        sent = Client.link_down(c, i)
        c.version += rises
        return sent

    return client(link_down=link_down)


@bug("a search misses the first chunk of a group of 16", 7)
def missed_group():
    def search(n, m, chunk):
        Node.next(n, m, chunk)
        if n.outcome != " next=none" and int(n.outcome[6:]) % 16 == 0 and int(n.outcome[6:]) > chunk:
            n.outcome = " next=none"

    return node(next=search)


@bug("an answer that comes while a removal halted by a write is taken", 9)
def write_does_not_halt():
    def write(c, chunk, reached):
        removal = c.removal
        sent = Client.write(c, chunk, reached)
        c.removal = removal
        return sent

    return client(write=write)


@bug("it ends when a sixteenth leg is added", 18)
def ends():
    def extend(c):
        if len(c.free_ids()) == 1:
            raise Stops("it ended with status 3")
        return Client.extend(c)

    return client(extend=extend)


@bug("it hangs when a write reaches nobody", 5)
def hangs():
    def write(c, chunk, reached):
        sent = Client.write(c, chunk, reached)
        if not reached:
            raise Stops("it gave no answer within 5 s")
        return sent

    return client(write=write)


@bug("a write that reached nobody counts as acknowledged for later joins", 5)
def counted_unreached():
    def write(c, chunk, reached):
        sent = Client.write(c, chunk, reached)
        c.written = True
        return sent

    return client(write=write)


@bug("the mark stays on a session that is removed", 8)
def removed_with_mark():
    def remove(c, i, mode):
        mark = i < 16 and c.at[i].mark
        sent = Client.remove(c, i, mode)
        c.at[i].mark = mark and c.at[i].state == "X"
        return sent

    return client(remove=remove)


@bug("a member that is being disassembled gets no mark", 8)
def unmarked_disassembled():
    return client(mark_list=lambda c: Client.mark_list(c) & ~c.set_of(c.those("X")))


@bug("the source of a run is the highest NORMAL id", 9)
def highest_source():
    def begin(c):
        sent = Client.begin(c)
        if c.run is not None and c.run["phase"] == "spread":
            c.run["source"] = c.normals()[-1]
        return sent

    return client(begin=begin)


@bug("MAP_GET_VER is answered well without a version", 4)
def good_without_version():
    return client(version_will_do=lambda c, kind, version: version <= c.version)


@bug("the client map is not zeroed when no session is left", 11)
def kept_map():
    def tell_next(c, i, last):
        rows = c.rows
        sent = Client.tell_next(c, i, last)
        c.rows = rows
        return sent

    return client(tell_next=tell_next)


@bug("a tick asks members whose row is empty, too", 5)
def asks_all():
    def tick(c):
        rows, c.rows = c.rows, [{0}] * 16
        try:
            return Client.tick(c)
        finally:
            c.rows = rows

    return client(tick=tick)


@bug("an answer that is not empty leaves the empty one before it standing", 16)
def not_in_a_row():
    def check_answer(c, number, m, empty):
        once = c.once
        sent = Client.check_answer(c, number, m, empty)
        if not empty:
            c.once = once
        return sent

    return client(check_answer=check_answer)


@bug("maintenance that empties the pool marks nobody", 5)
def unmarked_maintenance():
    return client(leave_normal=lambda c, i, state, marks: Client.leave_normal(c, i, state, marks and state != "R"))


@bug("a failed receiver ends the whole run", 9)
def run_gives_up():
    def failed(c, phase):
        told = ["MAP_DISABLE %d" % i for i in c.in_hand()]
        c.end_run()
        return told

    return client(failed=failed)


@bug("a fault drops the transfer in hand", 6)
def fault_drops():
    def fault(n):
        Node.fault(n)
        n.drop()

    return node(fault=fault)


@bug("rows outside the set that MAP_DONE brings are not zeroed", 9)
def stale_rows():
    def map_done(n, enable, version, found):
        kept = n.zero
        n.zero = lambda but: None
        try:
            Node.map_done(n, enable, version, found)
        finally:
            n.zero = kept

    return node(map_done=map_done)


@bug("a node's write with a lower version lowers the stored one", 6)
def lower_write():
    def write(n, chunk, found, version):
        Node.write(n, chunk, found, version)
        n.version = version

    return node(write=write)


@bug("a new store of a node without one does not bring its set and version", 7)
def store_without_set():
    def register_add(n, found, version):
        lost, kept = n.state == "NO_IO", (n.members, n.version)
        Node.register_add(n, found, version)
        if lost:
            n.members, n.version = kept

    return node(register_add=register_add)


@bug("the staging map is not zeroed when it is dropped", 10)
def dirty_staging():
    def drop(n):
        n.got = None

    return node(drop=drop)


TWELVE = list(GALLERY)[:12]


# Wrong rules that lose data, for ./lab --simulate --rule.

def without_17():
    def enable(c, i):
        past, c.written, c.assembled = (c.written, c.assembled), False, False
        try:
            return Client.enable(c, i)
        finally:
            c.written, c.assembled = past

    return client(enable=enable)


def without_raise_at_removal():
    return client(raised=lambda c, state: None if state == "X" else Client.raised(c, state))


def without_raise_at_a_run():
    def end_run(c):
        version = c.version
        Client.end_run(c)
        c.version = version

    return client(end_run=end_run)


def one_answer():
    def check_answer(c, number, m, empty):
        if empty and m < 16 and c.due >> m & 1:
            c.once |= 1 << m
        return Client.check_answer(c, number, m, empty)

    return client(check_answer=check_answer)


RULES = {  # a wrong rule, and what bends the driver
    "no-17": ("a CREATED session is enabled after a write", without_17),
    "maintenance-raise": ("maintenance does not raise the version", quiet_maintenance),
    "removal-raise": ("a removal does not raise the version", without_raise_at_removal),
    "run-end-raise": ("the end of a run does not raise the version", without_raise_at_a_run),
    "one-answer": ("one empty answer clears a row", one_answer),
}


def drive(name):
    """Is the driver of that name; `right` has no bug."""
    model.drive(model.Driver() if name == "right" else GALLERY[name][2]()())
