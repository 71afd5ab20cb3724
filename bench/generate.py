"""Histories to run against one's own driver; `./lab --generate` runs it.

  system   whole pools: legs are made or assembled, written to, lost and back, in maintenance, removed, added; now and then an event that does not belong there
  wide     the same with sixteen members
  hostile  numbers that no driver sends, states put in by hand, maps lent in part, bits past the chunk count, false summaries
The same kind and seed give the same histories on every machine; the first ones of a longer list are those of a shorter one. No program is needed but for --expect.

Each history leads to a cell of docs/MATRIX.md, a state and an event, and goes on from there; the cells come in turn. So `./lab --cover` of a thousand histories of a kind leaves no pair
out that can occur in it (docs/LAB.md says which can't).
"""
import argparse
import functools
import os
import sys

from bench.check import rewritten
from bench.cover import CLIENT_TABLES, FIRST, NODE_TABLE, NOT_EMPTY, SECOND, SESSION_ROWS, only_by_poke
from bench.driver import DELETE, DISASSEMBLE, NORMAL, Chance, Driver, set_of
from bench.history import CLIENT, DELIVER, FORMS, NODE, Wrong, answers_to, parse, read, run_lab, store, whole
from bench.spread import spread
from programs.build import command
from tools import matrix

HERE = 1  # the matrix's session and node
BESIDE = 0  # another one that is always there


# Ways to the matrix's states, for session 1, by events alone. Others: who is there besides.

def made(d, ids):
    for i in ids:
        d.create(i)
        if not d.sync:
            d.enable(i)


def half_assembled(d, ids):
    """The membership is taken over, and the pool is not whole: no run begins."""
    d.assemble(ids, ids[:1])


def assembled(d, ids):
    d.assemble(ids, ids)
    d.finish()


def all_lost(d, others):
    made(d, others + [HERE])
    for i in others + [HERE]:
        d.down(i)


def maybe_fails(d):
    """The run in hand goes on, or its first answer fails, so that none is."""
    if d.chance.below(2):
        d.by_hand = True
        d.answer(good=False)


def lost(d, others):
    made(d, others + [HERE])
    d.down(HERE)


def lost_by_a_write(d, others):
    made(d, others + [HERE])
    d.say("write %d %d", matrix.CHUNK, set_of(others))


def lost_when_written_and_assembled(d, others):
    assembled(d, sorted(others + [HERE]))
    d.say("write %d %d", matrix.CHUNK, set_of(others + [HERE]))
    d.down(HERE)


def written(d, others):
    made(d, others)
    d.say("write %d %d", matrix.CHUNK, set_of(others))


def created_and_written(d, others):
    made(d, others)
    d.create(HERE)
    d.say("write %d %d", matrix.CHUNK, set_of(others))


def reconnecting(d, others):
    lost(d, others)
    d.say("store_check %d", HERE)
    maybe_fails(d)


def marked_and_back(d, others):
    all_lost(d, others)
    d.say("store_check %d", HERE)
    maybe_fails(d)


def removed(mode, after_leave=False):
    def way(d, others):
        made(d, others + [HERE])
        d.say("remove %d %d", HERE, mode)
        if after_leave:
            d.answer()
        elif d.chance.below(2):
            d.down(HERE)

    return way


WAYS = {
    "none, no member": made,
    "none, no member, the pool written": written,
    "none, no member, the pool assembled": half_assembled,
    "none, a member": lambda d, others: half_assembled(d, others + [HERE]),
    "CREATED": lambda d, others: (made(d, others), d.create(HERE)),
    "CREATED, the pool written": created_and_written,
    "CREATED, the pool assembled": lambda d, others: (half_assembled(d, others), d.create(HERE)),
    "NORMAL": lambda d, others: made(d, others + [HERE]),
    "FAILED, cause link": lost,
    "FAILED, cause IO": lost_by_a_write,
    "FAILED, the pool written and assembled": lost_when_written_and_assembled,
    "FAILED, marked": all_lost,
    "RECONNECTING": reconnecting,
    "RECONNECTING, marked": marked_and_back,
    "RECONNECTING in maintenance": lambda d, others: (made(d, others + [HERE]), d.say("maintenance %d", HERE)),
    "REMOVING (delete), LEAVE owed": removed(DELETE),
    "REMOVING (delete), LEAVE done": removed(DELETE, after_leave=True),
    "REMOVING (disassemble), LEAVE owed": removed(DISASSEMBLE),
}

# The same for node 1 with the members 0, 1 and 2; an EMPTY one that was in use before, and a CREATED one that has a version.
NODE_WAYS = {words: way.split("|") for words, way in {
    "EMPTY": "register_add 7 4|unregister 0",
    "REGISTERED": "register_add 7 4",
    "REGISTERED, marked create": "register_create",
    "CREATED": "register_create|join_create 7|fill 2 4",
    "NORMAL": "register_add 7 4|join_assemble|enable1 4 7",
    "NO_IO": "register_add 7 4|join_assemble",
    "NO_IO, MAP_READY taken": "register_add 7 4|join_assemble|map_ready 0",
    "NO_IO, a part taken": "register_add 7 4|join_assemble|map_ready 0|take_part 0 1024 2",
    "NO_IO, a map taken": "register_add 7 4|join_assemble|map_ready 0|take 2",
    "NO_IO without store": "register_add 7 4|join_assemble|unregister 0",
}.items()}
TO_EMPTY = ("leave 1", "unregister 1")  # from every state

# In a driven history the row that is asked about gets its dirty chunk by a write, where the matrix puts a byte in: for 1 itself and for 2, before the node comes into its state.
# The row of 0 stays clean.
SEARCHES = {"next dirty chunk": "next 2 1", "next dirty chunk, none": "next 0 1"}
MISSED = ("register_add 7 4", "join_assemble", "enable1 4 7", "write 3 6 4", "leave 0", "unregister 0")
FINDS = ("next dirty chunk", "map check")


def node_cell(d, row, column):
    event = SEARCHES.get(column) or lines_of(matrix.NODE_EVENTS)[column]
    for line in [*(MISSED if column in FINDS else ()), *NODE_WAYS[row], event, *TO_EMPTY]:
        d.say("node %d %s" % (HERE, line))


def lines_of(events):
    return {name: line for name, line, *_ in events}


def line_of(d, column):
    """The matrix's event for session 1 as the pool is now: an answer with the number that is awaited, or of the last tick."""
    words = lines_of(matrix.client_events(set_of(d.members), set_of(d.those(NORMAL))))[column].split()
    if words[:2] == ["answer", "1"]:
        words[1] = str(d.number if d.to_come else max(d.number - 1, 1))
    if words[0] == "check_answer":
        words[1] = str(d.ticks + (int(words[1]) != matrix.CHECK["tick"]))
    return " ".join(words)


def mark_the_chunk(d):
    """Node 0's map is to have the chunk dirty for 1, whoever they are."""
    d.say("node %d enable1 %d %d", BESIDE, d.version, set_of(d.members | {BESIDE}))
    d.say("node %d write %d %d %d", BESIDE, matrix.CHUNK, 1 << HERE, d.version)


def missed_and_back(d):
    """1 misses a write and is brought back: it is NORMAL, and its row of the client map is not empty."""
    d.down(HERE)
    d.say("write %d %d", matrix.CHUNK, set_of(d.those(NORMAL)))
    d.say("node %d join_assemble", HERE)
    d.say("store_check %d", HERE)
    d.finish()


def was_asked(d):
    """1 is asked by a tick, and then all are deleted. Its answer stays due, whatever becomes of it."""
    made(d, [BESIDE, HERE])
    missed_and_back(d)
    d.say("tick")
    for i in (HERE, BESIDE):
        d.say("remove %d %d", i, DELETE)
        d.finish()
        d.say("node %d unregister 1", i)


def asked_again(d, others):
    """1 has given one empty answer, and is asked a second time."""
    made(d, others + [HERE])
    missed_and_back(d)
    d.say("tick")
    d.say("check_answer %d %d 1", d.ticks, HERE)
    d.say("tick")


def client_cell(d, row, column, others):
    if column in (NOT_EMPTY, FIRST):
        was_asked(d)
    (asked_again if column == SECOND else WAYS[row])(d, others)
    if column.startswith("synced"):
        mark_the_chunk(d)
    d.say(line_of(d, column))


# Cells in turn.

def driven_cells():
    """The cells that events lead to: of the client with the kind of pool, of the node."""
    client = [(sync, row[0], column) for sync in (0, 1) for row in SESSION_ROWS[sync] for column, *_ in matrix.client_events(2, 2) if not only_by_poke(CLIENT_TABLES[sync], row[0], column)]
    node = [(row, column) for row, _ in matrix.NODES for column, *_ in matrix.NODE_EVENTS if not only_by_poke(NODE_TABLE, row, column)]
    return {"client": client, "node": node}


def matrix_cells():
    """The cells of the matrix, each with its setups: table, row and column to (lines, event)."""
    found = {}
    for table, row, column, lines, event, _ in matrix.blocks():
        found.setdefault((table[:2], row, column), []).append((lines, event))
    return found


MATRIX, DRIVEN = matrix_cells(), driven_cells()
PUT_IN = {what: [cell for cell in MATRIX if cell[0][0] == what] for what in ("client", "node")}
CELLS = {"system": DRIVEN, "wide": DRIVEN, "hostile": PUT_IN}


@functools.lru_cache(maxsize=None)
def order(kind, seed, what):
    """The cells of a kind, in an order of the seed's own."""
    return Chance(kind, seed, what).mixed(CELLS[kind][what])


def in_turn(kind, seed, what, k):
    """The k-th of them, and after the last the first again."""
    cells = order(kind, seed, what)
    return cells[(k - 1) % len(cells)]


# Whole pools.

def driven(kind, seed, k, ids, others, count):
    chance = Chance(kind, seed, k)
    sync, row, column = in_turn(kind, seed, "client", k)
    d = Driver(chance, ids, sync, chance.pick([8, 64, 64, 64, 1000, 4095, 4096]))
    d.say("pool %d %d", sync, d.chunks)
    d.by_hand = chance.in_100(30)
    if chance.in_100(85):
        d.say("auto 1")
    if chance.in_100(10):
        d.say("cut %d", 1 + chance.below(1024))
    node_cell(d, *in_turn(kind, seed, "node", k))
    client_cell(d, row, column, others)
    if chance.in_100(70):
        d.mend()
    d.go_on(count)
    return d.lines


def system(seed, k):
    chance = Chance("system", seed, k, "legs")
    others = [BESIDE, 2] + list(range(3, 3 + chance.below(3)))
    return driven("system", seed, k, range(len(others) + 2), others, 8 + chance.below(22))


def wide(seed, k):
    return driven("wide", seed, k, range(16), [BESIDE] + list(range(2, 16)), 4 + Chance("wide", seed, k, "acts").below(10))


# Hostile.

EDGE = 2**63
HOSTILE = {
    "ID": (0, 0, 0, 1, 1, 1, 2, 2, 3, 15, 16, 17, 31, 32, 63, 64, 255, 2**16, 2**32 - 1, 2**32, EDGE, 2**64 - 1),
    "SET": (0, 1, 2, 3, 3, 5, 6, 7, 7, 7, 15, 2**15, 2**15 + 2, 65535, 65536, 65537, 2**32 + 3, EDGE, 2**64 - 1),
    "CHUNK": (0, 0, 1, 5, 5, 7, 8, 63, 64, 4094, 4095, 4096, 4097, 65535, 65536, 2**32, EDGE, 2**64 - 1),
    "VERSION": (0, 1, 1, 2, 3, 4, 5, 6, EDGE - 35, EDGE - 34, EDGE - 33, EDGE - 18, EDGE - 17, EDGE - 16, EDGE - 1, EDGE, 2**64 - 1),
    "NUMBER": (0, 1, 1, 1, 2, 2, 3, 4, 2**32 - 1, 2**32, 2**32 + 1, 2**64 - 1),
    "OFFSET": (0, 0, 0, 1, 1023, 1024, 1024, 2048, 7168, 8191, 8192, 2**32, 2**64 - 1024, 2**64 - 1),
    "LEN": (0, 1, 1, 512, 1023, 1024, 1024, 1024, 1025, 2048, 8191, 8192, 2**63, 2**64 - 1),
    "I": (0, 64, 511, 512, 512, 513, 576, 1023, 1024, 1535, 4095, 7680, 8191),
    "CHUNKS": (1, 2, 7, 8, 9, 64, 64, 64, 1000, 4095, 4096, 4096),
}
ALIKE = {"MEMBER": "ID", "CHOSEN": "ID", "REACHED": "SET", "MEMBERS": "SET", "V": "VERSION"}  # numbers of the same kind
WEIGHTS = {CLIENT: 12, NODE: 12, DELIVER: 6}


def hostile_number(chance, name, first, last):
    """A number of that kind which can be read: often one that gets through, else one at an edge."""
    found = [n for n in HOSTILE.get(ALIKE.get(name, name), ()) if first <= n <= last]
    if found and last - first > 95:
        return chance.pick(found)
    return first + chance.below(min(last, 3) - first + 1) if last < 16 and chance.in_100(80) else first + chance.below(min(last, 65535) - first + 1)


def hostile_line(chance, form):
    numbers = (hostile_number(chance, name, *limit) for name, limit in zip((w for w in form.words if w.isupper()), form.limits))
    return " ".join(str(next(numbers)) if w.isupper() else w for w in form.words)


def hostile_table():
    """Each command that the lab reads, with how often: events most, and what spoils the lab for all that follows seldom."""
    seldom = {"pool": 0, "row client": 2, "row": 2, "staging": 2, "look": 2, "lend client": 2, "lend": 2, "lend_staging": 2, "poke chunks": 1, "poke count": 3, "poke version": 3, "cut": 2, "summary": 2}
    return [(seldom.get(f.name, WEIGHTS.get(f.kind, 4)), f) for f in FORMS.values()]


HOSTILE_TABLE = hostile_table()


def repaired(form, line):
    """The line that takes back what would have every later event refused alike."""
    if form.name.startswith("lend"):
        return line.rsplit(" ", 1)[0] + " 8192"
    if form.name == "summary":
        _, n, word, _ = line.split()
        return "byte %s %d 0" % (n, int(word) // 6 * 512)  # which makes the row's words true
    return {"poke chunks": "poke chunks 64", "poke count": "poke count 0", "poke version": "poke version 3"}.get(form.name)


def attack(chance, count):
    lines = []
    while len(lines) < count:
        form = chance.weighted(HOSTILE_TABLE)
        line = hostile_line(chance, form)
        if isinstance(read(line), str):
            continue  # numbers that do not go together can't be read
        lines.append(line)
        again = repaired(form, line)
        if again and chance.in_100(80):
            lines += [hostile_line(chance, chance.weighted([(w, f) for w, f in HOSTILE_TABLE if f.kind in (CLIENT, NODE)])), again]
    return lines


def put_in(chance, cell):
    """The matrix's own lines for a cell, without the fresh pool that they begin with, and its event. Its EMPTY node knows no member: here it is one that was in use, so that it can be told of
    a member."""
    (first, *lines), event = chance.pick(MATRIX[cell])
    return first, [line.replace("poke_node 1 0 0 0 0 4 0", "poke_node 1 0 0 0 7 4 0") for line in lines] + [event]


def hostile(seed, k):
    """A cell of the client and what comes to it, then one of a node in a fresh pool, so that nothing done before hides it."""
    chance = Chance("hostile", seed, k)
    pool, lines = put_in(chance, in_turn("hostile", seed, "client", k))
    if chance.in_100(20):
        pool = "%s %d" % (pool.rsplit(" ", 1)[0], chance.pick([0, 1, 6, 63, 64, 4095, 4097, 65535]))
    if chance.in_100(5):
        lines += ["poke members 65535", "extend"]  # no id is left
    lines += attack(chance, 8 + chance.below(20))
    fresh, more = put_in(chance, in_turn("hostile", seed, "node", k))
    return [pool] + lines + [fresh] + more + attack(chance, 6 + chance.below(16))


KINDS = {"system": system, "hostile": hostile, "wide": wide}


def history(kind, seed, k):
    """The k-th history, a list of lines."""
    return ["# %s %d %d" % (kind, seed, k)] + KINDS[kind](seed, k)


def histories(kind, seed, count):
    return (history(kind, seed, k) for k in range(1, count + 1))


# What is typed.

def arguments(words):
    parser = argparse.ArgumentParser(prog="./lab --generate", description=__doc__, formatter_class=argparse.RawDescriptionHelpFormatter)
    parser.add_argument("kind", metavar="KIND", choices=sorted(KINDS), help="system, wide or hostile")
    parser.add_argument("seed", metavar="SEED", type=whole, help="a whole number: another one, other histories")
    parser.add_argument("count", metavar="COUNT", type=whole, help="how many")
    parser.add_argument("--expect", action="store_true", help="write the lab's answers in, as `>` lines (for ./lab --check)")
    parser.add_argument("--into", metavar="DIR", help="a file for each, KIND-SEED-K.history in that folder, instead of all on standard output")
    return parser.parse_args(words)


def with_answers(made, run):
    parsed = [parse("history %d" % k, "\n".join(lines)) for k, lines in enumerate(made, 1)]
    answers = answers_to([[c.text for c in h.commands] for h in parsed], run)
    return [rewritten(h, said, every=True)[0] for h, said in zip(parsed, answers)]


SIZE = 2000  # bytes of a history, roughly


def expecting(given, run):
    """Histories with their answers. With a function of its own that runs the program, all by one run of it; else spread over the processors."""
    numbers = range(1, given.count + 1)
    if run is not None:
        return with_answers([history(given.kind, given.seed, k) for k in numbers], run)
    command("lab")  # it is built once, before the work is spread
    runs = spread(lambda some: with_answers([history(given.kind, given.seed, k) for k in some], run_lab), numbers, [SIZE] * given.count, "histories")
    return (lines for some in runs for lines in some)


def generate(words, run=None, write=sys.stdout.write):
    given = arguments(words)
    made = expecting(given, run) if given.expect else histories(given.kind, given.seed, given.count)
    if given.into is None:
        for lines in made:
            write("\n".join(lines) + "\n")
        return 0
    try:
        os.makedirs(given.into, exist_ok=True)
    except OSError as e:
        raise Wrong("%s: %s" % (given.into, e.strerror))
    wide = len(str(given.count))
    for k, lines in enumerate(made, 1):
        store(os.path.join(given.into, "%s-%d-%0*d.history" % (given.kind, given.seed, wide, k)), lines + [""])
    write("%d histories in %s\n" % (given.count, given.into))
    return 0
