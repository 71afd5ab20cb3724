"""Which states met which events in histories; `./lab --cover` runs it.

Pairs are those of docs/MATRIX.md: the state of the event's session with the event, in a non-sync and in a sync pool, and the state of a node with its event. An event that names no session
(write, try, extend, an answer) meets every state that a session, or an id without one, is in at that moment. `deliver` is the answer that it brings. What `auto` and `deliver`
hand to a node counts as the node's event. For each pair: how often accepted, how often refused with which number; then which pairs and which refusal numbers never occur.

Where several columns are the same command: a write is `all reached` where it reached the session, or every NORMAL one, and `1 not reached` where it did not reach the session, so for one
that is not NORMAL it can be both; an answer's number is the awaited one or, with nothing awaited, the one last awaited, and any other is `another number`; `our set` is the pool's
member set or, with no member yet, the id alone; `the root's bit clear` is any word of the node's summaries that disagrees with its map, which refusal 18 tells.
A file that is missing or is no history is told of on standard error, and the others are counted. Exit status: 0, or 2 where one was left out.
"""
import argparse
import collections
import functools
import html
import sys
from typing import NamedTuple

from bench.history import UNREADABLE, Wrong, build_for, complain, loaded, run_lab, to_spread
from bench.spread import spread
from bench.trace import MAP_BYTES, MEMBERS, NODE_STATES, Node, Pool, trace
from programs.refusals import ORDER, REFUSALS as WORDS, number_of
from tools import matrix

REFUSALS = {n: WORDS[n] for n in sorted(ORDER)}  # those that events give


# Rows: the states.

class Row(NamedTuple):
    words: str
    known: bool  # a row of docs/MATRIX.md


class Sessions(NamedTuple):
    """What of a pool the rows of its sessions hang on."""
    sync: int
    letters: str
    maint: int
    marked: int
    delete: int
    owed: int
    members: int
    written: int
    assembled: int
    io: int


def numbers_of(pool, i):
    """A session's numbers as matrix.py has them: state, maintenance, mark, mode, owed."""
    state = {".": matrix.NONE, "C": matrix.CREATED, "N": matrix.NORMAL, "R": matrix.RECONNECTING, "X": matrix.REMOVING}.get(pool.letters[i])
    if state is None:
        state = matrix.FAILED_IO if pool.io >> i & 1 else matrix.FAILED
    mode = state == matrix.REMOVING and not pool.delete >> i & 1
    return state, pool.maint >> i & 1, pool.marked >> i & 1, int(mode), pool.owed >> i & 1


def alike(numbers):
    """What must be equal for a row to be a session's: all but the cause of a failure."""
    return (matrix.FAILED if numbers[0] == matrix.FAILED_IO else numbers[0],) + numbers[1:]


def session_rows(sync):
    """The rows of the matrix for a kind of pool: words, numbers, member, past."""
    there = {words for words, _, _, _ in matrix.client_setups(sync)}
    return [row for row in matrix.SESSIONS if row[0] in there]


SESSION_ROWS = [session_rows(sync) for sync in (0, 1)]
STATE_WORDS = ("none", "CREATED", "NORMAL", "FAILED", "RECONNECTING", "REMOVING", "FAILED")


def session_row(pool, i):
    """The row of a session, or of an id without one."""
    return rows_at(pool)[i] if i < 16 else Row("an id above 15", False)


def rows_at(pool):
    """The row of each id."""
    return rows_of(Sessions(*(getattr(pool, name) for name in Sessions._fields)))


@functools.lru_cache(maxsize=65536)
def rows_of(pool):
    return [row_of(pool.sync, numbers_of(pool, i), bool(pool.members >> i & 1), pool.written, pool.assembled) for i in MEMBERS]


@functools.lru_cache(maxsize=None)
def row_of(sync, numbers, member, written, assembled):
    """Of several rows that are alike: by membership first, then by the cause, then by what the pool went through. A state that no row is like gets a row of its own."""
    rows = [row for row in SESSION_ROWS[sync] if alike(row[1]) == alike(numbers)]
    if not rows:
        return Row(other_state(numbers), False)
    past = {word for word, stands in ((matrix.WRITTEN, written), (matrix.ASSEMBLED, assembled)) if stands}

    def far(row):
        return 4 * (row[2] != member) + 2 * (row[1][0] != numbers[0]) + len(past.symmetric_difference(row[3]))

    return Row(min(rows, key=far)[0], True)


def other_state(numbers):
    state, maint, mark, mode, owed = numbers
    words = STATE_WORDS[state]
    if state == matrix.REMOVING:
        words += " (%s), LEAVE %s" % ("disassemble" if mode else "delete", "owed" if owed else "done")
    return words + (" in maintenance" if maint else "") + (", marked" if mark else "")


def node_key(state, store, create, transfer, got):
    return state, store, create, 0 if not transfer else 3 if got == MAP_BYTES else 2 if got else 1


NODE_ROWS = {node_key(state, store, create, transfer, MAP_BYTES if transfer == 2 else got): words for words, (state, store, create, transfer, got) in matrix.NODES}


def node_row(node):
    key = node_key(NODE_STATES.index(node.state), node.store, node.create, node.transfer, node.got)
    if key in NODE_ROWS:
        return Row(NODE_ROWS[key], True)
    words = node.state + (", marked create" if node.create else "") + ("" if node.store else " without store")
    return Row(words + (", a transfer in hand" if node.transfer else ""), False)


# Columns: the events. One row a command: its name, which of its numbers names the session, and its columns, each with when it is meant.

class Met(NamedTuple):
    """An event as one session, or one node, meets it."""
    numbers: tuple
    pool: Pool = None
    id: int = 0
    dirty: bool = False
    node: Node = None
    answer: str = ""

    def bit(self):
        return 1 << self.id


def always(met):
    return True


def all_reached(met):
    reached, normals = met.numbers[1], met.pool.normals()
    return reached == normals or reached >> met.id & 1 == 1


def not_reached(met):
    reached, others = met.numbers[1], met.pool.normals() & ~met.bit()
    return reached == others or reached != 0 and not reached >> met.id & 1


def our_set(met):
    return met.numbers[1] == (met.pool.members or met.bit())


def awaited(kind):
    return lambda met: met.numbers[0] == met.pool.number and met.numbers[1] == kind


def check_number(met):
    return met.numbers[0] == met.pool.tick


def is_due(met):
    return check_number(met) and met.pool.due & met.bit() != 0


def empty_after(others):
    """An empty answer, after so many others that stand: none or one."""
    return lambda met: is_due(met) and met.numbers[2] == 1 and (met.pool.once & met.bit() != 0) == others


CLIENT_EVENTS = [
    ("join_create", 0, [("join create", always)]),
    ("join_assemble", 0, [("join assemble, our set", our_set), ("join assemble, another set", lambda met: not our_set(met))]),
    ("enable", 0, [("enable", always)]),
    ("maintenance", 0, [("maintenance", always)]),
    ("link_down", 0, [("link down", always)]),
    ("store_check", 0, [("store check good", always)]),
    ("rejoin", 0, [("rejoin good", always)]),
    ("remove", 0, [("remove, delete", lambda met: met.numbers[1] == 0), ("remove, disassemble", lambda met: met.numbers[1] == 1)]),
    ("write", None, [("write, all reached", all_reached), ("write, 1 not reached", not_reached), ("write, none reached", lambda met: met.numbers[1] == 0)]),
    ("synced", 0, [("synced, dirty for 1", lambda met: met.dirty), ("synced, clean for 1", lambda met: not met.dirty)]),
    ("try", None, [("try", always)]),
    ("extend", None, [("extend", always)]),
    ("answer", None, [("answer, failed", awaited(0)), ("answer, success", awaited(1)), ("answer, success with a version", awaited(2)),
                      ("answer, another number", lambda met: met.numbers[0] != met.pool.number)]),
    ("tick", None, [("tick", always)]),
    ("check_answer", 1, [("check answer, not empty", lambda met: is_due(met) and met.numbers[2] == 0), ("check answer, the first empty one", empty_after(0)),
                         ("check answer, the second empty one", empty_after(1)), ("check answer, another number", lambda met: not check_number(met)),
                         ("check answer, not due", lambda met: check_number(met) and not is_due(met))]),
]


def holds_itself(place):
    return lambda met: met.numbers[place] >> met.id & 1 == 1


def lacks_itself(place):
    return lambda met: not met.numbers[place] >> met.id & 1


def is_case(place, value):
    return lambda met: met.numbers[place] == value


def is_member(met, i):
    return i < 16 and met.node.members >> i & 1 == 1


def about(op, member=None):
    """POOL_INFO with this op, not about itself; where it matters, about a member or about none."""
    return lambda met: met.numbers[1] == op and met.numbers[2] != met.id and member in (None, is_member(met, met.numbers[2]))


def untrue(met):
    """Whether the node's summaries disagree with its map: the number says so, and nothing else does."""
    return met.answer == "refused 18"


def search(found):
    return lambda met: not untrue(met) and met.numbers[2] < met.node.chunks and met.dirty == found


NODE_EVENTS = [
    ("register_create", [("register create", always)]),
    ("register_add", [("register add", holds_itself(1)), ("register add, a set without itself", lacks_itself(1))]),
    ("unregister", [("unregister", is_case(1, 0)), ("unregister, delete", is_case(1, 1))]),
    ("join_create", [("join create", always)]),
    ("join_assemble", [("assemble or rejoin", always)]),
    ("leave", [("leave", is_case(1, 0)), ("leave, delete", is_case(1, 1))]),
    ("enable1", [("enable 1", holds_itself(2)), ("enable 1, a set without itself", lacks_itself(2))]),
    ("enable0", [("enable 0", always)]),
    ("fault", [("fault", always)]),
    ("write", [("write", lambda met: not untrue(met)), ("write, the root's bit clear", untrue)]),
    ("synced", [("synced", always)]),
    ("map_ready", [("MAP_READY, start empty", is_case(1, 0)), ("MAP_READY, keep", is_case(1, 1))]),
    ("give_part", [("give a part", lambda met: met.numbers[1] + met.numbers[2] <= MAP_BYTES), ("give a part past the end", lambda met: met.numbers[1] + met.numbers[2] > MAP_BYTES)]),
    ("take_part", [("take the first part", lambda met: met.numbers[1] == 0 and met.numbers[2] <= 1024), ("take the second part", lambda met: met.numbers[1] > 0 and met.numbers[2] <= 1024),
                   ("take a part that is too long", lambda met: met.numbers[2] > 1024)]),
    ("take", [("take a map, part by part", always)]),
    ("map_done", [("MAP_DONE", is_case(1, 0)), ("MAP_DONE, enabling", is_case(1, 1))]),
    ("map_disable", [("MAP_DISABLE", always)]),
    ("map_get_ver", [("MAP_GET_VER", always)]),
    ("last_io", [("LAST_IO_TO_MAP", always)]),
    ("pool_info", [("POOL_INFO, add-create", about(0)), ("POOL_INFO, add-assemble", about(1, True)), ("POOL_INFO, add-assemble of no member", about(1, False)),
                   ("POOL_INFO, remove-delete", about(2)), ("POOL_INFO, remove-disassemble", about(3)), ("POOL_INFO about itself", lambda met: met.numbers[2] == met.id)]),
    ("fill", [("fill", lambda met: met.numbers[1] != met.id and is_member(met, met.numbers[1]) and met.numbers[2] >= met.node.version),
              ("fill, a lower version", lambda met: met.numbers[1] != met.id and is_member(met, met.numbers[1]) and met.numbers[2] < met.node.version),
              ("fill about itself", lambda met: met.numbers[1] == met.id), ("fill of no member", lambda met: met.numbers[1] != met.id and not is_member(met, met.numbers[1]))]),
    ("map_check", [("map check", lambda met: met.dirty), ("map check, its own row empty", lambda met: not met.dirty)]),
    ("next", [("next dirty chunk", search(True)), ("next dirty chunk, none", search(False)),
              ("next dirty chunk, a start past the last", lambda met: not untrue(met) and met.numbers[2] >= met.node.chunks), ("next dirty chunk, the root's bit clear", untrue)]),
]
CLIENT_COLUMNS = {name: tests for name, _, tests in CLIENT_EVENTS}
NODE_COLUMNS = dict(NODE_EVENTS)
NAMES_SESSION = {name: place for name, place, _ in CLIENT_EVENTS}


def meeting(pool, name, numbers):
    """Who meets a client event, (id, row) each. Of those in the same row, where it names none, one that a write reached and one that it did not: the others meet it alike."""
    place = NAMES_SESSION.get(name)
    if place is not None:
        return [(numbers[place], session_row(pool, numbers[place]))]
    reached = numbers[1] if name == "write" else 0
    found = {}
    for i, row in enumerate(rows_at(pool)):
        found.setdefault((row, reached >> i & 1), i)
    return [(i, row) for (row, _), i in found.items()]


# Counting.

CLIENT_TABLES = ("Client, non-sync pool", "Client, sync pool")
NODE_TABLE = "Node"
ACCEPTED = 0  # among the numbers of refusals


class Cover:
    def __init__(self):
        self.pairs = collections.defaultdict(collections.Counter)  # (table, row, column): how often with which number
        self.numbers = {"client": collections.Counter(), "node": collections.Counter()}
        self.files = self.histories = self.commands = self.client_events = self.node_events = self.handed = self.unreadable = 0

    def add(self, steps):
        self.files += 1
        self.histories += bool(steps) and steps[0].command.text.split()[0] != "pool"
        self.commands += len(steps)
        for step in steps:
            self.histories += step.answer == "done" and step.command.read.form.name == "pool"
            self.unreadable += step.answer == UNREADABLE
            if step.event:
                self.client(step)
            for event in step.nodes:
                self.node(event)

    def merge(self, other):
        """Counts what another has counted, too."""
        for pair, counts in other.pairs.items():
            self.pairs[pair].update(counts)
        for side, counts in other.numbers.items():
            self.numbers[side].update(counts)
        for name in ("files", "histories", "commands", "client_events", "node_events", "handed", "unreadable"):
            setattr(self, name, getattr(self, name) + getattr(other, name))

    def client(self, step):
        self.client_events += 1
        number = number_of(step.answer)
        self.numbers["client"][number] += 1
        name, pool, numbers = step.event.form.name, step.before, step.event.numbers
        met = set()
        for i, row in meeting(pool, name, numbers):
            event = Met(numbers, pool=pool, id=min(i, 16), dirty=step.dirty)
            met |= {(row, column) for column, meant in CLIENT_COLUMNS[name] if meant(event)}
        for row, column in met:
            self.pairs[CLIENT_TABLES[pool.sync], row, column][number] += 1

    def node(self, event):
        self.node_events += 1
        self.handed += not event.own
        number = number_of(event.answer)
        self.numbers["node"][number] += 1
        met = Met(event.read.numbers, id=event.node, node=event.before, dirty=event.dirty, answer=event.answer)
        for column, meant in NODE_COLUMNS[event.read.form.name]:
            if meant(met):
                self.pairs[NODE_TABLE, node_row(event.before), column][number] += 1


# What there is to say.

class Table(NamedTuple):
    name: str
    rows: list      # of the matrix; then those of its own that occur
    columns: list   # the same
    known: tuple    # how many of both are the matrix's


def tables(cover):
    found = []
    for name, rows, events in [(CLIENT_TABLES[sync], [r[0] for r in SESSION_ROWS[sync]], matrix.client_events(2, 2)) for sync in (0, 1)] + [(NODE_TABLE, [w for w, _ in matrix.NODES], matrix.NODE_EVENTS)]:
        names = [column for column, *_ in events]
        more_rows = sorted({row.words for table, row, _ in cover.pairs if table == name and not row.known})
        more = sorted({column for table, _, column in cover.pairs if table == name} - set(names))
        found.append(Table(name, [Row(w, True) for w in rows] + [Row(w, False) for w in more_rows], names + more, (len(rows), len(names))))
    return found


def never(cover, table):
    """The matrix's pairs that do not occur, by row."""
    found = {}
    for row in table.rows[: table.known[0]]:
        columns = [c for c in table.columns[: table.known[1]] if (table.name, row, c) not in cover.pairs]
        if columns:
            found[row] = columns
    return found


def having(word):
    return lambda row: word in row


# Pairs that no event brings about, only a line that puts something in (poke, byte, summary): the table, which of its rows, which columns (None: all), and why.
FIRST, SECOND, NOT_EMPTY = "check answer, the first empty one", "check answer, the second empty one", "check answer, not empty"
ONLY_BY_POKE = [
    (CLIENT_TABLES[0], lambda row: row != "NORMAL", (SECOND,), "a tick asks NORMAL sessions, and when a session changes no first answer stands"),
    (CLIENT_TABLES[1], having("CREATED"), None, "a session of a sync pool is never CREATED"),
    (CLIENT_TABLES[1], having("cause IO"), None, "a sync pool takes no write, so none fails by one"),
    (CLIENT_TABLES[1], having("written"), None, "a sync pool takes no write"),
    (CLIENT_TABLES[1], having("assembled"), None, "a sync pool takes over no set"),
    (CLIENT_TABLES[1], having(""), (NOT_EMPTY, FIRST, SECOND), "a sync pool takes no tick, so nobody is due"),
    (NODE_TABLE, having("marked create"), ("POOL_INFO, add-assemble", "fill", "fill, a lower version"), "a node that is marked create knows no member but itself"),
    (NODE_TABLE, having("marked create"), ("map check", "next dirty chunk"), "register create leaves no chunk dirty"),
    (NODE_TABLE, having("CREATED"), ("map check",), "nothing makes a node's own row dirty before it serves"),
    (NODE_TABLE, having(""), ("next dirty chunk, the root's bit clear", "write, the root's bit clear"), "a node's summaries follow its map"),
]


def only_by_poke(table, row, column):
    """Why no event brings a pair about, all three by name; nothing where one does."""
    return next((why for name, rows, columns, why in ONLY_BY_POKE if name == table and rows(row) and (columns is None or column in columns)), "")


def missing_numbers(cover):
    """The refusal numbers that never occur, each with why it is given."""
    return [(n, why) for n, why in REFUSALS.items() if not any(counts[n] for counts in cover.numbers.values())]


def share(cover, table):
    """How many pairs the matrix has, how many of them occur, and how many do not and can't, but by a poke."""
    missing = [(row, column) for row, columns in never(cover, table).items() for column in columns]
    pairs = table.known[0] * table.known[1]
    return pairs, pairs - len(missing), sum(bool(only_by_poke(table.name, row.words, column)) for row, column in missing)


def head(cover):
    said = ["Files: %d. Histories: %d. Commands: %d; client events: %d; node events: %d, of them messages that auto and deliver handed over: %d."
            % (cover.files, cover.histories, cover.commands, cover.client_events, cover.node_events, cover.handed)]
    said += ["Unreadable: %d." % cover.unreadable] if cover.unreadable else []
    return said + ["In the names of events, 1 is the session, or the node, that meets it."]


def missing_words(cover):
    return "; ".join("%d (%s)" % missing for missing in missing_numbers(cover)) or "none of them"


def never_lines(cover, table):
    """The pairs that can occur and never do, a line for each row."""
    lines = []
    for row, columns in never(cover, table).items():
        those = [c for c in columns if not only_by_poke(table.name, row.words, c)]
        if those:
            lines.append("- %s: %s" % (row.words, "every event" if len(those) == table.known[1] else "; ".join(those)))
    return lines or ["All that can occur do."]


def poke_lines(cover, every):
    """How many pairs never occur that no event brings about, a line for each reason."""
    whys = collections.Counter((t.name, only_by_poke(t.name, row.words, c)) for t in every for row, columns in never(cover, t).items() for c in columns)
    return ["%s, %d: %s" % (name, n, why) for (name, why), n in whys.items() if why]


BY_POKE = "no event brings it about, only a line that puts something in (poke, byte, summary)"


def counted(cover, table, row, column):
    """How often accepted, and refused with which numbers how often."""
    counter = cover.pairs.get((table.name, row, column))
    if not counter:
        return ("by poke" if only_by_poke(table.name, row.words, column) else "never",) * 2
    return str(counter[ACCEPTED] or "-"), ", ".join("%d: %d" % (n, counter[n]) for n in sorted(counter) if n != ACCEPTED) or "-"


def is_asked(table, row, k):
    """Whether the matrix has the pair of a row and the k-th column."""
    return row.known and k < table.known[1]


def row_lines(cover, table, row):
    """The table of a state: each event of the matrix, and those that occur besides."""
    there = [c for k, c in enumerate(table.columns) if is_asked(table, row, k) or (table.name, row, c) in cover.pairs]
    head = ["", "**%s**%s" % (row.words, "" if row.known else " (no row of docs/MATRIX.md)"), "", "| event | accepted | refused |", "|---|---|---|"]
    return head + ["| %s | %s | %s |" % ((column,) + counted(cover, table, row, column)) for column in there]


def text(cover, brief=False):
    every = tables(cover)
    out = ["# Which states met which events", ""] + head(cover) + ["", "| pairs of docs/MATRIX.md | there are | occur | no event brings about |", "|---|---|---|---|"]
    out += ["| %s | %d | %d | %d |" % ((t.name,) + share(cover, t)) for t in every]
    out += ["", "## Refusals", "", "| number | client | node | given for |", "|---|---|---|---|"]
    out += ["| %d | %s | %s | %s |" % (n, cover.numbers["client"][n] or "-", cover.numbers["node"][n] or "-", why) for n, why in REFUSALS.items()]
    out += ["", "Never: %s." % missing_words(cover), "", "## Pairs that never occur"]
    for t in every:
        out += ["", "**%s**" % t.name, ""] + never_lines(cover, t)
    by_poke = poke_lines(cover, every)
    out += ["", "**By poke**: %s" % BY_POKE, ""] + ["- " + line for line in by_poke] if by_poke else []
    for t in [] if brief else every:
        out += ["", "## " + t.name] + [line for row in t.rows for line in row_lines(cover, t, row)]
    return "\n".join(out) + "\n"


STYLE = """
:root { color-scheme: light dark; --line: #8886; --never: #b3261e; --good: #1b6e3c; --ground: #fff; --text: #1c1c1c; }
@media (prefers-color-scheme: dark) { :root { --never: #ff9c8f; --good: #7fd8a1; --ground: #161616; --text: #e8e8e8; } }
body { font: 15px/1.45 system-ui, sans-serif; margin: 1rem auto; padding: 0 1rem; max-width: 110rem; background: var(--ground); color: var(--text); }
.scroll { overflow: auto; max-height: 85vh; border: 1px solid var(--line); }
table { border-collapse: collapse; font-size: 13px; }
th, td { border: 1px solid var(--line); padding: .2rem .45rem; text-align: left; vertical-align: top; font-weight: normal; }
thead th { position: sticky; top: 0; background: var(--ground); z-index: 1; min-width: 5.5rem; }
tbody th, thead th:first-child { position: sticky; left: 0; background: var(--ground); min-width: 8rem; }
thead th:first-child { z-index: 2; }
td b { color: var(--good); }
td.never { color: var(--never); }
td.other { opacity: .75; }
td small { display: block; white-space: nowrap; font-size: 12px; }
"""


def cell(cover, table, row, k, column):
    counter = cover.pairs.get((table.name, row, column))
    if counter:
        accepted = "<b>%d</b>" % counter[ACCEPTED] if counter[ACCEPTED] else ""
        return "<td>%s%s</td>" % (accepted, "".join("<small>refused %d: %d</small>" % (n, counter[n]) for n in sorted(counter) if n != ACCEPTED))
    if not is_asked(table, row, k):
        return "<td></td>"
    return '<td class="other">by poke</td>' if only_by_poke(table.name, row.words, column) else '<td class="never">never</td>'


def listed(lines):
    return ["<ul>"] + ["<li>%s</li>" % html.escape(line) for line in lines] + ["</ul>"] if lines else []


def table_of(title, heads, rows):
    """A table that scrolls by itself, also by keys. Rows: the words at the left, and the cells."""
    title = html.escape(title)
    out = ["<h2>%s</h2>" % title, '<div class="scroll" tabindex="0" role="region" aria-label="%s">' % title, "<table>"]
    out.append("<thead><tr>%s</tr></thead><tbody>" % "".join('<th scope="col">%s</th>' % html.escape(words) for words in heads))
    out += ['<tr><th scope="row">%s</th>%s</tr>' % (html.escape(words), cells) for words, cells in rows]
    return out + ["</tbody></table></div>"]


def page(cover):
    every = tables(cover)
    out = ["<!DOCTYPE html>", '<html lang="en">', '<meta charset="utf-8">', '<meta name="viewport" content="width=device-width, initial-scale=1">',
           "<title>Which states met which events</title>", "<style>%s</style>" % STYLE, "<main>", "<h1>Which states met which events</h1>"]
    out += ["<p>%s</p>" % html.escape(line) for line in head(cover)]
    out += listed(["%s: of %d pairs %d occur; %d of the others no event brings about" % ((t.name,) + share(cover, t)) for t in every])
    out.append("<p>Refusal numbers that never occur: %s.</p>" % html.escape(missing_words(cover)))
    out.append("<p>In a cell: how often <b>accepted</b>, and how often refused with which number. By poke: %s. * in no table of docs/MATRIX.md.</p>" % BY_POKE)
    out += listed(poke_lines(cover, every))
    for t in every:
        rows = [(column + ("" if k < t.known[1] else " *"), "".join(cell(cover, t, row, k, column) for row in t.rows)) for k, column in enumerate(t.columns)]
        out += table_of(t.name, ["event"] + [r.words + ("" if r.known else " *") for r in t.rows], rows)
    counts = cover.numbers
    out += table_of("Refusals", ["number", "client", "node", "given for"],
                    [(str(n), "<td>%d</td><td>%d</td><td>%s</td>" % (counts["client"][n], counts["node"][n], html.escape(why))) for n, why in REFUSALS.items()])
    return "\n".join(out + ["</main>", "</html>"]) + "\n"


def arguments(words):
    parser = argparse.ArgumentParser(prog="./lab --cover", description=__doc__, formatter_class=argparse.RawDescriptionHelpFormatter)
    parser.add_argument("files", metavar="FILE", nargs="+", help="a history; `-` is standard input")
    form = parser.add_mutually_exclusive_group()
    form.add_argument("--html", action="store_true", help="one page for a browser, with nothing to load, instead of text")
    form.add_argument("--brief", action="store_true", help="only what never occurs, without the tables")
    parser.add_argument("--unreadable", action="store_true", help="count lines that are no command, and go on")
    return parser.parse_args(words)


def covered(things, run, unreadable):
    """What some files cover, by two runs of the program for all, and what is wrong with those that are left out."""
    histories = loaded(things, unreadable)
    found = Cover()
    for steps in trace([h for h in histories if not isinstance(h, Wrong)], run):
        found.add(steps)
    return found, [h for h in histories if isinstance(h, Wrong)]


def parts(given, run):
    """What some of the files cover, some at a time. With a function that runs the program, which tests hand over, all at once; else spread over processes."""
    things, sizes = to_spread(given.files)
    if run is not None:
        return [covered(things, run, given.unreadable)]
    build_for(things)
    return spread(lambda some: covered(some, run_lab, given.unreadable), things, sizes, "files")


def cover(words, run=None, write=sys.stdout.write, wrong=complain):
    given = arguments(words)
    found, status = Cover(), 0
    for some, errors in parts(given, run):
        found.merge(some)
        for error in errors:
            wrong(error)
            status = 2
    if found.files:
        write(page(found) if given.html else text(found, given.brief))
    return status
