"""The full matrix of state and event, as the last history that the program `lab` is run on and as a page made from what it answers.

  python3 -m tools.matrix history   writes the history into crates/lab/stdin, after the histories that stand before it
  python3 -m tools.matrix page      writes docs/MATRIX.md from the end of crates/lab/stdout
  python3 -m tools.matrix check     says whether the history and the page are those that this script makes
"""
import os
import sys

from bench.history import chunks, fields, parse, sent
from tools.crates import ROOT

STDIN = os.path.join(ROOT, "crates", "lab", "stdin")
STDOUT = os.path.join(ROOT, "crates", "lab", "stdout")
PAGE = os.path.join(ROOT, "docs", "MATRIX.md")
FIRST = "# The matrix: every state with every event.\n"  # where it begins in STDIN

# The acted-on session is 1. Its state: the words, the lab's numbers (state, maintenance, mark, mode, owed), whether it is a member, and what the pool went through.
NONE, CREATED, NORMAL, FAILED, RECONNECTING, REMOVING, FAILED_IO = range(7)
WRITTEN, ASSEMBLED = "written", "assembled"
SESSIONS = [
    ("none, no member", (NONE, 0, 0, 0, 0), False, ()),
    ("none, no member, the pool written", (NONE, 0, 0, 0, 0), False, (WRITTEN,)),
    ("none, no member, the pool assembled", (NONE, 0, 0, 0, 0), False, (ASSEMBLED,)),
    ("none, a member", (NONE, 0, 0, 0, 0), True, ()),
    ("CREATED", (CREATED, 0, 0, 0, 0), True, ()),
    ("CREATED, the pool written", (CREATED, 0, 0, 0, 0), True, (WRITTEN,)),
    ("CREATED, the pool assembled", (CREATED, 0, 0, 0, 0), True, (ASSEMBLED,)),
    ("NORMAL", (NORMAL, 0, 0, 0, 0), True, ()),
    ("FAILED, cause link", (FAILED, 0, 0, 0, 0), True, ()),
    ("FAILED, cause IO", (FAILED_IO, 0, 0, 0, 0), True, ()),
    ("FAILED, the pool written and assembled", (FAILED, 0, 0, 0, 0), True, (WRITTEN, ASSEMBLED)),
    ("FAILED, marked", (FAILED, 0, 1, 0, 0), True, ()),
    ("RECONNECTING", (RECONNECTING, 0, 0, 0, 0), True, ()),
    ("RECONNECTING, marked", (RECONNECTING, 0, 1, 0, 0), True, ()),
    ("RECONNECTING in maintenance", (RECONNECTING, 1, 0, 0, 0), True, ()),
    ("REMOVING (delete), LEAVE owed", (REMOVING, 0, 0, 0, 1), True, ()),
    ("REMOVING (delete), LEAVE done", (REMOVING, 0, 0, 0, 0), False, ()),
    ("REMOVING (disassemble), LEAVE owed", (REMOVING, 0, 0, 1, 1), True, ()),
]
SYNC_STATES = {NONE, CREATED, NORMAL, FAILED, FAILED_IO, REMOVING}

# Who is beside it (session id: the lab's numbers), and the lines that bring the job into hand.
BESIDE = [
    ("alone", {}, []),
    ("beside a NORMAL session", {0: (NORMAL, 0, 0, 0, 0)}, []),
    ("beside a candidate", {0: (RECONNECTING, 0, 0, 0, 0)}, []),
    ("with the mark elsewhere", {0: (FAILED, 0, 1, 0, 0)}, []),
    ("a run in hand (0 NORMAL, 2 a candidate)", {0: (NORMAL, 0, 0, 0, 0), 2: (RECONNECTING, 0, 0, 0, 0)}, ["try"]),
    ("a removal in hand (of 2, beside 0 NORMAL)", {0: (NORMAL, 0, 0, 0, 0), 2: (CREATED, 0, 0, 0, 0)}, ["remove 2 0"]),
]
SYNC_BESIDE = [
    ("alone", {}, []),
    ("beside a NORMAL session", {0: (NORMAL, 0, 0, 0, 0)}, []),
    ("a removal in hand (of 2)", {0: (NORMAL, 0, 0, 0, 0), 2: (NORMAL, 0, 0, 0, 0)}, ["remove 2 1"]),
]

CHUNK = 5

# What map check knows, as it is put in: the tick's number, the members due and those of which one empty answer stands. Of the client map's rows 1 alone is not empty.
CHECK = {"tick": 6, "due": 2, "once": 2}
CLIENT_ROW = {9}
CLIENT_LOOKS = ["look", "row client 1"]


def client_events(members, normals):
    """Each event on session 1, with its words and, of some, the lines before it."""
    return [
        ("join create", "join_create 1"),
        ("join assemble, our set", "join_assemble 1 %d 3" % (members or 2)),
        ("join assemble, another set", "join_assemble 1 %d 3" % ((members | 2) ^ 32768)),
        ("enable", "enable 1"),
        ("maintenance", "maintenance 1"),
        ("link down", "link_down 1"),
        ("store check good", "store_check 1"),
        ("rejoin good", "rejoin 1"),
        ("remove, delete", "remove 1 0"),
        ("remove, disassemble", "remove 1 1"),
        ("write, all reached", "write %d %d" % (CHUNK, normals)),
        ("write, 1 not reached", "write %d %d" % (CHUNK, normals & ~2)),
        ("write, none reached", "write %d 0" % CHUNK),
        ("synced, dirty for 1", "synced 1 %d 0" % CHUNK),
        ("try", "try"),
        ("extend", "extend"),
        ("answer, failed", "answer 1 0 0"),
        ("answer, success", "answer 1 1 0"),
        ("answer, success with a version", "answer 1 2 1"),
        ("answer, another number", "answer 7 1 0"),
        ("tick", "tick"),
        ("check answer, not empty", "check_answer 6 1 0"),
        ("check answer, the first empty one", "check_answer 6 1 1", "poke once 0"),
        ("check answer, the second empty one", "check_answer 6 1 1"),
        ("check answer, another number", "check_answer 5 1 1"),
        ("check answer, not due", "check_answer 6 1 1", "poke due 0"),
    ]


def client_setups(sync):
    for words, own, member, past in SESSIONS:
        if sync and (own[0] not in SYNC_STATES or own[2] or (own[0] == NONE and member) or (own[0] == REMOVING and (own[3], own[4]) != (0, 1))):
            continue
        for beside, others, job in SYNC_BESIDE if sync else BESIDE:
            sessions = dict(others)
            sessions[1] = own
            normals = sum(1 << i for i, s in sessions.items() if s[0] == NORMAL)
            marks = sum(1 for s in sessions.values() if s[2])
            if marks > 1 or (marks and normals):
                continue
            members = 0 if sync else sum(1 << i for i in others) | (2 if member else 0)
            lines = ["pool %d 4096" % sync]
            for i, s in sorted(sessions.items()):
                if s[0] != NONE:
                    lines.append("poke session %d %s" % (i, " ".join(map(str, s))))
            lines += ["poke members %d" % members, "poke count %d" % (0 if sync else bin(normals).count("1"))]
            lines += ["poke %s 1" % w for w in past]
            lines.append("byte 0 %d %d" % (512 + CHUNK // 8, 1 << CHUNK % 8))
            lines += ["byte client %d %d" % (512 + c // 8, 1 << c % 8) for c in CLIENT_ROW]
            after = normals & ~4 if job and job[0].startswith("remove") else normals
            yield words, beside, lines + job + ["poke %s %d" % check for check in CHECK.items()], client_events(members, after)


# What is looked at in map and staging: the rows of 0 (a member, the chosen of LAST_IO_TO_MAP), of 1 (itself), of 2 (a member) and of 3 (no member). In the node's
# map, in its staging and in the map that it can take (node 2's) each row holds two chunks of its own, so that what is left of a row says where it is from.
ROWS = (0, 1, 2, 3)
MAP, STAGING, TAKEN = 16, 32, 48
LOOKS = ["row 1 %d" % m for m in ROWS] + ["staging 1 %d" % m for m in ROWS]


def emptied(m):
    """The line that empties row m of the node's map."""
    return "byte 1 %d 0" % (512 * m + MAP // 8)


# A node's state: the words, and the lab's numbers (state, store, create, transfer, bytes taken of one that is not whole). Node 1, members 0, 1 and 2, version 4; kept chunks 9 and 16.
NODES = [
    ("EMPTY", (0, 0, 0, 0, 0)),
    ("REGISTERED", (1, 1, 0, 0, 0)),
    ("REGISTERED, marked create", (1, 1, 1, 0, 0)),
    ("CREATED", (2, 1, 0, 0, 0)),
    ("NORMAL", (3, 1, 0, 0, 0)),
    ("NO_IO", (4, 1, 0, 0, 0)),
    ("NO_IO, MAP_READY taken", (4, 1, 0, 1, 0)),
    ("NO_IO, a part taken", (4, 1, 0, 1, 1024)),
    ("NO_IO, a map taken", (4, 1, 0, 2, 0)),
    ("NO_IO without store", (4, 0, 0, 0, 0)),
]
NODE_EVENTS = [
    ("register create", "register_create"),
    ("register add", "register_add 7 5"),
    ("register add, a set without itself", "register_add 5 5"),
    ("unregister", "unregister 0"),
    ("unregister, delete", "unregister 1"),
    ("join create", "join_create 7"),
    ("assemble or rejoin", "join_assemble"),
    ("leave", "leave 0"),
    ("leave, delete", "leave 1"),
    ("enable 1", "enable1 5 3"),
    ("enable 1, a set without itself", "enable1 5 5"),
    ("enable 0", "enable0"),
    ("fault", "fault"),
    ("write", "write 9 5 6"),
    ("synced", "synced 2 18"),
    ("MAP_READY, start empty", "map_ready 0"),
    ("MAP_READY, keep", "map_ready 1"),
    ("give a part", "give_part 512 1024"),
    ("give a part past the end", "give_part 8192 1"),
    ("take the first part", "take_part 0 1024 2"),
    ("take the second part", "take_part 1024 1024 2"),
    ("take a part that is too long", "take_part 0 1025 2"),
    ("take a map, part by part", "take 2"),
    ("MAP_DONE", "map_done 0 5 7"),
    ("MAP_DONE, enabling", "map_done 1 5 7"),
    ("MAP_DISABLE", "map_disable"),
    ("MAP_GET_VER", "map_get_ver"),
    ("LAST_IO_TO_MAP", "last_io 0"),
    ("POOL_INFO, add-create", "pool_info 0 3"),
    ("POOL_INFO, add-assemble", "pool_info 1 2"),
    ("POOL_INFO, add-assemble of no member", "pool_info 1 3"),
    ("POOL_INFO, remove-delete", "pool_info 2 2"),
    ("POOL_INFO, remove-disassemble", "pool_info 3 2"),
    ("POOL_INFO about itself", "pool_info 0 1"),
    ("fill", "fill 2 5"),
    ("fill, a lower version", "fill 2 3"),
    ("fill about itself", "fill 1 5"),
    ("fill of no member", "fill 3 5"),
    ("map check", "map_check"),
    ("map check, its own row empty", "map_check", emptied(1)),
    ("next dirty chunk", "next 2 19"),
    ("next dirty chunk, none", "next 2 23"),
    ("next dirty chunk, a start past the last", "next 2 4096"),
    ("next dirty chunk, the root's bit clear", "next 2 19", "summary 1 17 0"),
    ("write, the root's bit clear", "write 9 5 6", "summary 1 17 0"),
]


def row_of(first, m):
    """The chunks that row m holds, in one byte of it."""
    return {first + m, first + m + 4}


def bytes_of(command, first):
    """The lines that put them into each row of a map."""
    return ["%s %d %d" % (command, 512 * m + first // 8, sum(1 << c - first for c in row_of(first, m))) for m in ROWS]


def node_setups():
    kept = ["poke_node 1 3 1 0 7 4 0", "node 1 write 9 0 4", "node 1 write 16 0 4"]
    maps = bytes_of("byte 1", MAP) + bytes_of("staging_byte 1", STAGING) + bytes_of("byte 2", TAKEN)
    for words, (state, store, create, transfer, got) in NODES:
        members = 0 if state == 0 else 7
        lines = ["pool 0 4096"] + kept + maps + ["poke_node 1 %d %d %d %d 4 %d" % (state, store, create, members, transfer)]
        lines += ["poke_got 1 %d" % got] if got else []
        yield words, lines, NODE_EVENTS


def blocks():
    """Every block: its table, its row, its event, the lines that set it up, the line of the event, and those that look at what it left."""
    for sync in (0, 1):
        for words, beside, lines, events in client_setups(sync):
            for name, line, *more in events:
                yield ("client", sync, beside), words, name, lines + more, line, CLIENT_LOOKS
    for words, lines, events in node_setups():
        for name, line, *more in events:
            yield ("node",), words, name, lines + more, "node 1 " + line, LOOKS


def before():
    """The histories that stand before the matrix."""
    with open(STDIN, encoding="ascii") as f:
        return f.read().partition(FIRST)[0]


def history():
    out = []
    for _, words, name, lines, line, looks in blocks():
        out.append("# %s: %s" % (words, name))
        out += lines
        out.append(line)
        out += looks
    return before() + FIRST + "\n".join(out) + "\n"


def cell(line, further=""):
    """An answer, short, with the further fields before its messages."""
    if line.startswith("refused "):
        return line[8:]
    said = fields(line)
    if "node" in said:
        words = [said["state"]]
        words += ["%s=%s" % (k, said[k]) for k in ("store", "create", "members", "version", "kept", "transfer", "empty", "next") if k in said]
    else:
        words = [said["sessions"].rstrip(".") or "-", "v%s" % said["version"], "n%s" % said["count"]]
        for k in ("members", "maint", "marked", "delete", "owed"):
            if said[k] != "0":
                words.append("%s=%s" % (k, said[k]))
        if said["job"] != "none":
            words.append(said["job"])
        for k in ("id", "taken", "acked", "list"):
            if k in said:
                words.append("%s=%s" % (k, said[k]))
    return " ".join(words) + further + "".join("; " + m for m in sent(line))


def put_in(word, lines):
    """The number that the lines put into the client, 0 where they put none."""
    return ([0] + [int(line.split()[2]) for line in lines if line.startswith("poke %s " % word)])[-1]


def fields_of(answer, look, lines):
    """The further fields of the client after the event: the pool's that are not 0, map check's that it changed. None for a refusal, which leaves them as they were set up."""
    now = fields(look)
    was = {w: str(put_in(w, lines)) for w in (WRITTEN, ASSEMBLED, *CHECK)}
    for word, state in (("link", FAILED), ("io", FAILED_IO)):
        was[word] = str(sum(1 << i for i in range(16) if any(line.startswith("poke session %d %d " % (i, state)) for line in lines)))
    if answer.startswith("refused "):
        if now != was:
            sys.exit("matrix: a refusal changed a field of the client")
        return ""
    shown = [k for k, v in now.items() if v != (was[k] if k in CHECK else "0")]
    return "".join(" " + (k if k in (WRITTEN, ASSEMBLED) else "%s=%s" % (k, now[k])) for k in shown)


def row_fate(left, was, known):
    """What became of a row that was `was`; `known`: what else it can be, by name."""
    if left == was:
        return "kept"
    if not left:
        return "zeroed"
    if left == set(range(4096)):
        return "full"
    for name, row in known.items():
        if left == row:
            return name
    more, gone = sorted(left - was), sorted(was - left)
    return " ".join(["marked %d" % c for c in more] + ["cleared %d" % c for c in gone])


WHOLE = {"kept": "as it was", "ORed": "the map taken ORed in"}


def client_row(answer, looked):
    """The cell that says what became of row 1 of the client map; nothing for a refusal, which leaves it as it was."""
    left = row_fate(chunks(looked), CLIENT_ROW, {})
    if answer.startswith("refused "):
        if left != "kept":
            sys.exit("matrix: a refusal changed the client map")
        return ""
    return WHOLE.get(left, left)


def fate(answers, was, known):
    """What became of a map whose rows were `was`, in words: one for all rows, or each with its rows."""
    fates = {}
    for m, line in zip(ROWS, answers):
        left = row_fate(chunks(line), was[m], {name: set().union(*(row_of(first, m) for first in firsts)) for name, firsts in known.items()})
        fates.setdefault(left, []).append(m)
    if len(fates) == 1:
        return WHOLE.get(left, left)
    return "rows " + ", ".join("%s %s" % (" ".join(map(str, rows)), word) for word, rows in fates.items())


def left_of(answer, looked, lines):
    """The cells that say what became of map and staging; none for a refusal, which leaves both as they were."""
    half = len(ROWS)
    in_map = {m: set() if emptied(m) in lines else row_of(MAP, m) for m in ROWS}
    in_staging = {m: row_of(STAGING, m) for m in ROWS}
    both = [fate(looked[:half], in_map, {"staging's": [STAGING]}), fate(looked[half:], in_staging, {"the map's": [MAP], "ORed": [STAGING, TAKEN]})]
    if answer.startswith("refused "):
        if both != ["as it was", "as it was"]:
            sys.exit("matrix: a refusal changed a map")
        return ["", ""]
    return both


def page():
    with open(STDOUT, encoding="ascii") as f:
        answers = f.read().split("\n")
    at = len(parse("the histories before it", before()).commands)  # each command has one line of answer
    tables = {}
    for table, words, name, lines, _, looks in blocks():
        at += len(lines)
        looked = answers[at + 1 : at + 1 + len(looks)]
        if table[0] == "client":
            cells = [cell(answers[at], fields_of(answers[at], looked[0], lines)), client_row(answers[at], looked[1])]
        else:
            cells = [cell(answers[at])] + left_of(answers[at], looked, lines)
        tables.setdefault(table, {}).setdefault(words, []).append([name] + cells)
        at += 1 + len(looks)
    if answers[at:] != [""]:
        sys.exit("matrix: the output does not fit the history")
    out = [
        "# The matrix: every state with every event",
        "",
        "Made by `tools/matrix.py` from what the program `lab` answers to the last history of `crates/lab/stdin`, which the gate runs; the gate also compares this page with it.",
        "",
        "A number alone is the refusal. Else the answer: for the client the session letters (session 0 first; the acted-on session is 1), `v` the pool version,",
        "`n` the NORMAL count, the sets that are not empty, the job, what the answer counts, `written` and `assembled` where they stand, the sessions that are FAILED with cause",
        "`link` and with cause `io`, of `tick`, `due` and `once` what the event changed, and after each `;` a message; for the node its state and fields.",
        "The numbers and words are those of the lab (docs/HISTORIES.md).",
        "",
        "For the client also what became of row 1 of its map, in which chunk 9 was dirty; the other rows were empty. The last tick's number was 6, 1 was due, and one empty answer of 1 stood:",
        "where an event left `once=0`, it broke the row of empty answers.",
        "",
        "For the node (1, with the members 0, 1 and 2) also what became of its map and its staging. Looked at are row 0 (a member, the chosen of LAST_IO_TO_MAP), 1 (its own),",
        "2 (a member) and 3 (no member). Each held two dirty chunks, others in the map, in staging and in the map that is taken; the kept chunks are 9 and 16, of which 16 is",
        "dirty for 0. `staging's` and `the map's` say that the row, or all of it, is now equal to the other's, `full` that every chunk is dirty. A refusal left both as they were.",
    ]
    for table, rows in tables.items():
        if table[0] == "client":
            out += ["", "## Client, %s pool, %s" % ("sync" if table[1] else "non-sync", table[2])]
        else:
            out += ["", "## Node"]
        for words, cells in rows.items():
            heads = ["event", "answer"] + (["map", "staging"] if table[0] == "node" else ["client row 1"])
            out += ["", "**%s**" % words, "", "| %s |" % " | ".join(heads), "|" + "---|" * len(heads)]
            out += ["| %s |" % " | ".join(texts) for texts in cells]
    return "\n".join(out) + "\n"


def same(path, text):
    try:
        with open(path, encoding="utf-8") as f:
            return f.read() == text
    except FileNotFoundError:
        return False


def write(path, text):
    os.makedirs(os.path.dirname(path), exist_ok=True)
    with open(path, "w", encoding="utf-8") as f:
        f.write(text)


def main():
    what = sys.argv[1] if len(sys.argv) == 2 else ""
    if what == "history":
        write(STDIN, history())
    elif what == "page":
        write(PAGE, page())
    elif what == "check":
        stale = [p for p, t in ((STDIN, history()), (PAGE, page())) if not same(p, t)]
        for p in stale:
            print("matrix: stale: %s" % os.path.relpath(p, ROOT))
        sys.exit(1 if stale else 0)
    else:
        sys.exit(__doc__)


if __name__ == "__main__":
    main()
