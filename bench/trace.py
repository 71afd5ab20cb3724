"""What happened at each command of a history, for `./lab --cover` and `./lab --page`.

The lab's line for a client event says what the client became, but not what the nodes did with the messages that `auto` and `deliver` hand to them. So a history is run twice, each time
with looks between the commands, which change nothing: once as it is, for the client; and once for the nodes, where each message that is handed over stands as the node event that it is.
What the nodes answer to the history's own commands must be the same both times.
"""
from typing import NamedTuple, Optional

from bench.history import CLIENT, DELIVER, LOOK, NODE, SETUP, UNREADABLE, Command, Read, Wrong, answers_to, fields, messages, ranges, read

MEMBERS = range(16)
ALL = 2**16 - 1
LETTERS = ".CNFRXF"  # of the states of `poke session`, in their order
CAUSE_LINK, CAUSE_IO = 3, 6
NODE_STATES = ("EMPTY", "REGISTERED", "CREATED", "NORMAL", "NO_IO")
MAP_BYTES = 8192


class Pool(NamedTuple):
    """The client as its lines, looks and pokes say it is."""
    sync: int = 0
    chunks: int = 4096
    letters: str = "." * 16
    maint: int = 0
    marked: int = 0
    delete: int = 0
    owed: int = 0
    members: int = 0
    version: int = 1
    count: int = 0
    job: str = "none"
    written: int = 0
    assembled: int = 0
    link: int = 0
    io: int = 0
    tick: int = 0
    due: int = 0
    once: int = 0
    awaited: Optional[list] = None   # the words of the awaited message
    number: int = 1                  # the number of the message last awaited; before any, the first one's

    def normals(self):
        return sum(1 << i for i in MEMBERS if self.letters[i] == "N")


class Node(NamedTuple):
    """A node as its lines, looks and pokes say it is."""
    state: str = "EMPTY"
    store: int = 0
    create: int = 0
    members: int = 0
    version: int = 0
    kept: str = "-"
    transfer: int = 0
    got: int = 0
    chunks: int = 4096


class Told(NamedTuple):
    """An event that a node is to get, as a line of the lab. Own: it is a command of the history. If given: only where the event before it, the giving of a map, was accepted."""
    line: str
    own: bool = False
    if_given: bool = False


class NodeEvent(NamedTuple):
    """An event of a node. Own: it is a command of the history; else a message that was handed to it."""
    node: int
    read: Read
    answer: str
    before: Node
    after: Node
    own: bool
    dirty: bool   # of a question about a row: whether it had a chunk to find


class Half(NamedTuple):
    """A command as the client's pass knows it."""
    command: Command
    answer: str
    before: Pool
    after: Pool
    dirty: bool
    told: list   # the events that nodes are to get: Told each
    rows: list


class Step(NamedTuple):
    """A command, and all that is known of what it did."""
    command: Command
    answer: str
    before: Pool
    after: Pool
    event: Optional[Read]  # the client event that it was: a delivery is the answer that the client took
    dirty: bool            # at synced: whether the chunk was dirty for the member in the map that was lent
    nodes: list            # what happened at nodes: NodeEvent each, in order
    states: tuple          # the nodes after it
    rows: list             # the rows that were looked at after it: (whose map, member, the lab's line); whose: client, a node, or a node's staging as ~node


def taken(answer):
    return answer.startswith("ok ")


def ids(number):
    """The ids of a set."""
    return [i for i in MEMBERS if number >> i & 1]


# The client.

def accepted(pool, answer):
    """The pool after an accepted line."""
    said = fields(answer)
    sent = [(words, int(number)) for words, number in messages(answer) if number]
    awaited, number = sent[0] if sent else (None if said["job"] == "none" else pool.awaited, pool.number)
    numbers = {k: int(said[k]) for k in ("version", "count", "members", "maint", "marked", "delete", "owed")}
    return pool._replace(letters=said["sessions"], job=said["job"], awaited=awaited, number=number, **numbers)


def looked(pool, answer):
    """The pool with the further fields that `look` shows; those that are new to this script are passed over."""
    return pool._replace(**{k: int(v) for k, v in fields(answer).items() if k in Pool._fields})


def with_bit(number, i, on):
    return number | 1 << i if on else number & ~(1 << i)


def poked_session(pool, i, state, maint, mark, mode, owed):
    letters = pool.letters[:i] + LETTERS[state] + pool.letters[i + 1 :]
    sets = {"maint": maint, "marked": mark, "delete": LETTERS[state] == "X" and not mode, "owed": owed, "link": state == CAUSE_LINK, "io": state == CAUSE_IO}
    return pool._replace(letters=letters, **{name: with_bit(getattr(pool, name), i, on) for name, on in sets.items()})


def set_up(pool, command):
    """The pool after a command that sets the lab up."""
    name, numbers = command.form.name, command.numbers
    if name == "pool":
        return Pool(sync=numbers[0], chunks=numbers[1])
    if name == "poke session":
        return poked_session(pool, *numbers)
    if name.startswith("poke "):
        return pool._replace(**{name[len("poke "):]: numbers[0]})
    return pool


# Messages as node events.

HANDED = {
    "POOL_INFO": "pool_info {1} {2}", "MARK": "write {1} {2} {3}", "CLEAR": "synced {1} {2}", "FILL": "fill {1} {2}", "MAP_DISABLE": "map_disable", "MAP_READY": "map_ready {1}",
    "MAP_DONE": "map_done {1} {2} {3}", "MAP_GET_VER": "map_get_ver", "LAST_IO": "last_io {1}", "MAP_CHECK": "map_check",
}
BY_HAND = ("MAP_CHECK",)  # not awaited, and yet not handed over by `auto`


def handed(words, cut):
    """The node events that a message is. Of MAP_SEND two: the source gives, and only then the receiver takes."""
    name, to = words[0], int(words[1])
    if name == "MAP_SEND":
        return [Told("node %d give_part 0 %d" % (to, cut)), Told("node %s take %d" % (words[2], to), if_given=True)]
    if name == "ENABLE":
        event = "enable0" if words[2] == "0" else "enable1 %s %s" % (words[3], words[4])
    elif name == "LEAVE":
        event = "leave %d" % (words[2] == "0")
    else:
        event = HANDED[name].format(*words[1:])
    return [Told("node %d %s" % (to, event))]


def delivered(name, pool, cut):
    """The node events of a delivery."""
    if name == "deliver" and pool.awaited:
        return handed(pool.awaited, cut)
    if name == "deliver_check" and pool.due:
        return [Told("node %d map_check" % ids(pool.due)[0])]
    return []


def handed_at_once(answer, cut):
    """The node events by which `auto` hands an accepted event's messages over."""
    return [told for words, number in messages(answer) if not number and words[0] not in BY_HAND for told in handed(words, cut)]


# What is looked at.

CHANGES_CLIENT_MAP = ("write", "remove", "answer", "extend", "check_answer", "byte client", "deliver", "deliver_check")
NEITHER = ("register_add", "join_assemble", "fault", "give_part", "map_get_ver", "map_check", "next")
STAGING_ALONE = ("enable0", "map_ready", "take_part", "take", "map_disable")
MAP_ALONE = ("register_create", "join_create", "last_io")
ONE_ROW = {"synced": 1, "fill": 1, "pool_info": 2}  # of the member that is this number of the event


def rows_after(event):
    """Which rows of a node's map and of its staging an event can change, as sets."""
    name, numbers = event.form.name, event.numbers
    if name in NEITHER:
        return 0, 0
    if name == "write":
        return numbers[2], 0
    if name in ONE_ROW:
        return 1 << min(numbers[ONE_ROW[name]], 16), 0
    return 0 if name in STAGING_ALONE else ALL, 0 if name in MAP_ALONE else ALL


class Script:
    """Lines for the lab, and the looks among them that are for the rows of maps."""

    def __init__(self):
        self.lines, self.rows = [], []

    def add(self, line):
        """Hands back where its answer will stand."""
        self.lines.append(line)
        return len(self.lines) - 1

    def look_at_rows(self, whose, members):
        word = "row client" if whose == "client" else "row %d" % whose if whose >= 0 else "staging %d" % ~whose
        for m in ids(members):
            self.rows.append((whose, m, self.add("%s %d" % (word, m))))

    def rows_since(self, first, answers):
        return [(whose, m, answers[at]) for whose, m, at in self.rows[first[0] : first[1]]]


# The first pass.

class Asked(NamedTuple):
    """Where the answers to a command, and to the looks beside it, stand."""
    said: int
    row: Optional[int] = None    # before a synced: the member's row in the map that is lent
    look: Optional[int] = None
    rows: tuple = (0, 0)


class ClientPass:
    """The history as it is, with looks at the client."""

    def __init__(self, history, rows):
        self.history, self.script = history, Script()
        self.asked = [self.ask(c, rows) for c in history.commands]

    def ask(self, c, rows):
        if isinstance(c.read, str):
            return Asked(self.script.add(c.text))
        (form, numbers), row, look, first = c.read, None, None, len(self.script.rows)
        if form.kind == CLIENT and form.name == "synced" and numbers[0] < 16:
            row = self.script.add("row %d %d" % (numbers[2], numbers[0]))
        said = self.script.add(c.text)
        if form.kind in (CLIENT, DELIVER):
            look = self.script.add("look")
        if rows and form.kind != NODE and form.name in CHANGES_CLIENT_MAP:
            self.script.look_at_rows("client", ALL)
        return Asked(said, row, look, (first, len(self.script.rows)))

    def halves(self, answers):
        pool, auto, cut = Pool(), False, 1024
        for c, asked in zip(self.history.commands, self.asked):
            answer, before, told = answers[asked.said], pool, []
            kind = LOOK if answer == UNREADABLE else c.read.form.kind
            if kind == NODE:
                told = [Told(c.text, own=True)]
            elif kind == SETUP:
                pool = set_up(pool, c.read)
                auto, cut = {"auto": (c.read.numbers[0] == 1, cut), "cut": (auto, c.read.numbers[0]), "pool": (False, 1024)}.get(c.read.form.name, (auto, cut))
            elif kind != LOOK and answer != "idle":
                told = delivered(c.read.form.name, pool, cut)
                if taken(answer):
                    pool = accepted(pool, answer)
                    told = told + (handed_at_once(answer, cut) if auto else [])
                pool = looked(pool, answers[asked.look])
            dirty = asked.row is not None and any(first <= c.read.numbers[1] <= last for first, last in ranges(answers[asked.row]))
            yield Half(c, answer, before, pool, dirty, told, self.script.rows_since(asked.rows, answers))


# The second pass.

NODES_SET_UP = ("pool", "cut", "byte", "staging_byte", "lend", "lend_staging", "poke_node", "poke_got", "summary")
FRESH_NODES = (Node(),) * 16


class NodePass:
    """The events of the nodes, with looks at them. Ungiven: the commands whose map the source did not give, so that nobody took it."""

    def __init__(self, halves, rows, ungiven):
        self.halves, self.script = halves, Script()
        self.asked = [self.ask(half, rows, k in ungiven) for k, half in enumerate(halves)]

    def ask(self, half, rows, ungiven):
        """Where the answers stand: to each event, with the looks beside it; and the rows."""
        first = len(self.script.rows)
        if half.answer == "done" and half.command.read.form.name in NODES_SET_UP:
            self.set_up(half.command, rows)
        events = [(told,) + self.event(read(told.line), told.line, rows) for told in half.told if not (ungiven and told.if_given)]
        return events, (first, len(self.script.rows))

    def set_up(self, c, rows):
        self.script.add(c.text)
        if rows and c.read.form.name in ("byte", "staging_byte"):
            n, i, _ = c.read.numbers
            self.script.look_at_rows(n if c.read.form.name == "byte" else ~n, 1 << i // 512)

    def event(self, event, line, rows):
        n, member = event.numbers[0], asked_about(event)
        row = self.script.add("row %d %d" % (n, member)) if member is not None else None
        said = self.script.add(line)
        got = self.script.add("look %d" % n) if event.form.name in ("take", "take_part") else None
        if rows:
            of_map, of_staging = rows_after(event)
            self.script.look_at_rows(n, of_map)
            self.script.look_at_rows(~n, of_staging)
        return said, got, row

    def not_given(self, answers):
        """The commands with a take after a give that was refused. A map is given by the first event of a delivery."""
        return {k for k, (events, _) in enumerate(self.asked) if len(events) > 1 and events[1][0].if_given and not taken(answers[events[0][1]])}

    def steps(self, name, answers):
        nodes = FRESH_NODES
        for half, (events, rows) in zip(self.halves, self.asked):
            c, happened = half.command, []
            if half.answer == "done":
                nodes = nodes_set_up(nodes, c.read)
            for told, said, got, row in events:
                answer, event = answers[said], read(told.line)
                if told.own and answer != half.answer:
                    raise Wrong("%s:%d: the node answers otherwise when messages are handed over one by one (%s): a fault of this script" % (name, c.at, answer))
                n = event.numbers[0]
                was = nodes[n]
                nodes = with_node(nodes, n, node_after(was, event, answer, answers[got] if got is not None else ""))
                happened.append(NodeEvent(n, event, answer, was, nodes[n], told.own, row is not None and to_find(event, answers[row])))
            yield Step(c, half.answer, half.before, half.after, client_event(half, happened), half.dirty, happened, nodes, half.rows + self.script.rows_since(rows, answers))


def asked_about(event):
    """The member whose row a question to a node is about: its own in a map check. None for what is no question, and for an id that has no row."""
    if event.form.name == "map_check":
        return event.numbers[0]
    return event.numbers[1] if event.form.name == "next" and event.numbers[1] in MEMBERS else None


def to_find(event, row):
    """Whether the row that is asked about has a dirty chunk, at or after the search's start."""
    start = event.numbers[2] if event.form.name == "next" else 0
    return any(last >= start for _, last in ranges(row))


def with_node(nodes, n, node):
    return nodes[:n] + (node,) + nodes[n + 1 :]


def nodes_set_up(nodes, command):
    """The nodes after a command that sets the lab up."""
    name, numbers = command.form.name, command.numbers
    if name == "pool":
        return (Node(chunks=numbers[1]),) * 16
    if name == "poke_node":
        n, state, store, create, members, version, transfer = numbers
        got = MAP_BYTES if transfer == 2 else 0
        return with_node(nodes, n, nodes[n]._replace(state=NODE_STATES[state], store=store, create=create, members=members, version=version, transfer=transfer, got=got))
    if name == "poke_got" and nodes[numbers[0]].transfer:
        n, got = numbers
        return with_node(nodes, n, nodes[n]._replace(transfer=2 if got == MAP_BYTES else 1, got=got))
    return nodes


def node_after(node, event, answer, look):
    """The node after an event. A map whose taking was refused may have been taken in part."""
    if taken(answer):
        said = fields(answer)
        numbers = {k: int(said[k]) for k in ("store", "create", "members", "version", "transfer")}
        got = {0: 0, 2: MAP_BYTES}.get(numbers["transfer"], 0 if event.form.name == "map_ready" else node.got)
        node = node._replace(state=said["state"], kept=said["kept"], got=got, **numbers)
    if look and node.transfer:
        got = int(fields(look)["got"])
        node = node._replace(got=got, transfer=2 if got == MAP_BYTES else 1)
    return node


def client_event(half, events):
    """The client event that a command is. A delivery is the answer that the node gave."""
    c, pool = half.command, half.before
    if half.answer in (UNREADABLE, "idle") or c.read.form.kind not in (CLIENT, DELIVER):
        return None
    if c.read.form.name == "deliver":
        good = all(taken(e.answer) for e in events[: len(handed(pool.awaited, 1))])
        with_version = pool.awaited[0] == "MAP_GET_VER"
        return read("answer %d %d %d" % (pool.number, (2 if with_version else 1) if good else 0, events[0].after.version if good and with_version else 0))
    if c.read.form.name == "deliver_check":
        return read("check_answer %d %d %d" % (pool.tick, events[0].node, events[0].answer.endswith("empty=1")))
    return c.read


def trace(histories, run, rows=False):
    """The steps of each history. Rows: with looks at every row that a command can have changed. Where a map was not given the second run is wrong from there on, and is done again."""
    clients = [ClientPass(h, rows) for h in histories]
    halves = [list(p.halves(answers)) for p, answers in zip(clients, answers_to([p.script.lines for p in clients], run))]
    ungiven, found, left = [set() for _ in histories], [None] * len(histories), list(range(len(histories)))
    while left:
        passes = [NodePass(halves[k], rows, ungiven[k]) for k in left]
        for k, p, said in zip(left, passes, answers_to([p.script.lines for p in passes], run)):
            more = p.not_given(said)
            found[k] = None if more else list(p.steps(histories[k].name, said))
            ungiven[k] |= more
        left = [k for k in left if found[k] is None]
    return found
