"""The numbers, words, names and comments of c/munzolkheg.h, made from the crates' definitions.

  python3 -m tools.header write   writes what is made into the header, between its marks
  python3 -m tools.header check   says whether the header is the one that this script makes, and whether programs/refusals.py has the order of the rules

What a number is, which word stands where, which of four numbers an event takes, which map is lent: all this is read from the definitions that the contracts cite, and from the signatures of the exported
functions. This table has what they do not: the name in C, and some words. A case that is in a definition and not in this table, or the other way round, is an error, never passed over.
"""
import os
import re
import sys

from programs.refusals import ORDER, REFUSALS
from tools.crates import ROOT

HEADER = os.path.join(ROOT, "c", "munzolkheg.h")
BEGIN, END = "/* [made by tools/header.py: %s] */\n", "/* [end] */\n"


class Wrong(Exception):
    """What the definitions have otherwise than this table."""


# ---- Reading definitions.

def content(*path):
    with open(os.path.join(ROOT, "crates", *path), encoding="utf-8") as f:
        return f.read()


def clauses(crate, file, name):
    """The clauses of a definition: what stands left of = after the name, and what right of it."""
    text = content(crate, "specs", file + ".antt")
    found = re.findall(r"^%s\b(?! :)([^=\n]*)=(.*(?:\n[ \t]+.*)*)" % re.escape(name), text, re.M)
    if not found:
        raise Wrong("%s/%s has no %s" % (crate, file, name))
    return [(plain(left), plain(right)) for left, right in found]


def plain(text):
    """Without comments, line ends and the parentheses around the whole."""
    text = " ".join(re.sub(r"--.*", "", text).split())
    while text.startswith("(") and closing(text) == len(text) - 1:
        text = text[1:-1].strip()
    return text


def closing(text):
    """Where the parenthesis that text begins with is closed."""
    depth = 0
    for at, char in enumerate(text):
        depth += (char == "(") - (char == ")")
        if not depth:
            return at
    raise Wrong("a parenthesis is not closed: %s" % text)


LETTERS = ["tag", "a", "b", "c", "d"]


def items(text):
    """The items of a list; the kth word of another list is called by its letter."""
    return [re.sub(r"^get_or (\(.*\)|\w+) (\d) 0$", lambda m: m.group(1) + "." + LETTERS[int(m.group(2))], plain(item)) for item in text.split("∷")]


def only(crate, file, name):
    """A definition of one clause."""
    found = clauses(crate, file, name)
    if len(found) != 1:
        raise Wrong("%s/%s: %s has %d clauses" % (crate, file, name, len(found)))
    return found[0][1]


def constant(crate, file, name):
    return int(only(crate, file, name))


def cases(crate, file, name):
    """A definition by cases without arguments, as {case: right side}; the type's name and the arguments in front of the case are cut."""
    return {re.sub(r"^.*?\b[A-Z]\w*\.", "", left.replace("(", "").replace(")", "")): right for left, right in clauses(crate, file, name)}


def tagged(crate, file, name):
    """Words by cases: {constructor: (tag, {letter: what})}, the letters whose word is not 0."""
    found = {}
    for left, right in clauses(crate, file, name):
        fields = dict(zip(LETTERS, items(right)[:-1]))
        constructor = re.search(r"\.(\w+)", left).group(1)
        found[constructor] = (int(fields["tag"]), {k: fields[k] for k in LETTERS[1:] if fields.get(k, "0") != "0"})
    return found


def picks(text):
    """A chain of picks on k: {number: what}, and the rest."""
    found = {}
    while text.startswith("pick "):
        tested = re.match(r"pick \(eqb \w+ (\d+)\) ", text)
        text = text[tested.end():]
        end = closing(text) + 1 if text.startswith("(") else text.index(" ")
        found[int(tested.group(1))] = plain(text[:end])
        text = plain(text[end:])
    return found, text


def signature(crate, name):
    """The arguments of an exported function, and whether it returns a number."""
    found = re.search(r'extern "C" fn %s\((.*?)\)( -> u64)?\n' % name, content(crate, "src", "lib.rt"), re.S)
    return [tuple(arg.split(": ")) for arg in re.findall(r"\w+: [^,\n]*(?:; \d+\])?[^,\n]*", found.group(1))], bool(found.group(2))


# ---- The table.

COMMON_LIMITS = [("MEMBERS", "Limits", "members"), ("CHUNK_LIMIT", "Limits", "chunk_limit"), ("MAP_BYTES", "Limits", "map_bytes"), ("PART_BYTES", "Parts", "part_bytes")]
RETURNED = [("DONE", "the event was tried; the answer says whether it was accepted or refused"), ("NO_STATE", "the words of state are those of no client, or no node"),
            ("NO_EVENT", "kind is no event's, or a number that is a case is out of its range")]
REFUSAL_NAMES = {1: "BROKEN", 2: "MAP", 3: "ID", 4: "CHUNK", 5: "POOL_KIND", 6: "JOB", 7: "NO_SESSION", 8: "SESSION", 9: "STATE", 10: "MEMBERSHIP", 11: "REACH", 12: "NO_SYNC", 13: "NOT_AWAITED", 14: "VERSION",
                 15: "NO_TRANSFER", 16: "PART", 17: "IN_SERVICE", 18: "SUMMARIES", 19: "NO_ID"}
ANSWER = [("ACCEPTED", "1, or 0: refused"), ("REFUSAL", "its number, MZK_R_..; 0 where it was accepted")]

CLIENT_WORDS = [
    ("COUNT", "c.pool.roster.count", "sessions that are NORMAL"), ("VERSION", "c.pool.roster.version", "of the pool"), ("MEMBERS", "c.pool.roster.members", "a set"),
    ("SYNC", "one c.pool.roster.sync", "1 for a sync pool"), ("WRITTEN", "one c.pool.roster.past.written", "1: a write was acknowledged,"),
    ("ASSEMBLED", "one c.pool.roster.past.assembled", "1: a node's member set was taken over, since a delete last emptied the membership"),
    ("NUMBER", "c.pool.number", "of the last awaited message"), ("CHUNKS", "c.pool.chunks", "of the pool"), ("JOB", "(job_words c.pool.job).tag", "what is in hand: MZK_JOB_.."),
    ("JOB_DATA", "(job_words c.pool.job).a", None), ("JOB_ID", "(job_words c.pool.job).b", None), ("JOB_LEFT", "(job_words c.pool.job).c", None), ("JOB_TAKEN", "(job_words c.pool.job).d", None),
    ("TICK", "c.check.tick", "the number of the last tick"), ("DUE", "c.check.due", "the members whose answer to it is due, a set"), ("ONCE", "c.check.once", "those of which one empty answer stands, a set"),
    ("SESSION", "map session_word c.pool.roster.sessions", "sixteen words, one for each id"),
]
PHASES = {"Versions v": "VERSIONS", "Base s": "BASE", "LastIo": "LAST_IO", "Gather s": "GATHER", "Enable all": "ENABLE", "Spread s": "SPREAD"}
STAGES = {"Leave": "REMOVE_LEAVE", "Info": "REMOVE_INFO"}
JOB_DATA = {"v": "the highest version so far", "step_word s": "the message, MZK_STEP_..", "one all": "1 where all members are to stay candidates", "peer": "the peer", "0": "0",
            "r.source": "its source", "id": "its id", "r.left": "who is left in its phase, a set", "r.taken": "the awaited answers taken so far"}
STEPS = {"Ready": "READY", "Send": "SEND", "Done": "DONE"}
SESSIONS = {"Free": ("NONE", "none"), "Created": ("CREATED", "CREATED"), "Normal": ("NORMAL", "NORMAL"), "Failed Cause.Link": ("FAILED_LINK", "FAILED, cause link"), "Failed Cause.Io": ("FAILED_IO", "FAILED, cause IO"),
            "Reconnecting": ("RECONNECTING", "RECONNECTING"), "Removing mode owed": ("REMOVING", "REMOVING")}
SESSION_BITS = [("MAINTENANCE", "s.maintenance", "under maintenance"), ("MARK", "s.mark", "holds the mark"),
                ("DISASSEMBLE", "is_removing s.state && not (is_deleting s.state)", "REMOVING in disassemble mode, else in delete mode"), ("OWED", "is_owed s.state", "REMOVING, and LEAVE_POOL is still owed")]
OPS = {"AddCreate": "ADD_CREATE", "AddAssemble": "ADD_ASSEMBLE", "RemoveDelete": "REMOVED_DELETE", "RemoveDisassemble": "REMOVED_DISASSEMBLE"}
MODES = {"Delete": "DELETE", "Disassemble": "DISASSEMBLE"}

# event: its name, and what its numbers are
CLIENT_EVENTS = {
    "JoinCreate a": ("JOIN_CREATE", "id"), "JoinAssemble a b c": ("JOIN_ASSEMBLE", "id set version"), "Enable a": ("ENABLE", "id"), "Maintenance a": ("MAINTENANCE", "id"), "LinkDown a": ("LINK_DOWN", "id"),
    "StoreCheck a": ("STORE_CHECK", "id"), "Remove a Mode.Delete": ("REMOVE_DELETE", "id"), "Remove a Mode.Disassemble": ("REMOVE_DISASSEMBLE", "id"), "Write a b": ("WRITE", "chunk reached"), "Try": ("TRY", ""),
    "Answer a (Reply.Good None)": ("ANSWER_GOOD", "number"), "Answer a (Reply.Good (Some b))": ("ANSWER_VERSION", "number version"), "Answer a Reply.Failed": ("ANSWER_FAILED", "number"),
    "Rejoin a": ("REJOIN", "id"), "Extend": ("EXTEND", ""), "Synced a b 0": ("SYNCED", "member chunk"), "Tick": ("TICK", ""), "CheckAnswer a b (eqb c 1)": ("CHECK_ANSWER", "tick member empty"),
}
NODE_EVENTS = {
    "RegisterCreate": ("REGISTER_CREATE", ""), "RegisterAdd a b": ("REGISTER_ADD", "set version"), "Unregister (eqb a 1)": ("UNREGISTER", "is_delete"), "JoinCreate a": ("JOIN_CREATE", "set"),
    "JoinAssemble": ("JOIN_ASSEMBLE", ""), "Leave (eqb a 1)": ("LEAVE", "is_delete"), "Enable1 a b": ("ENABLE1", "version set"), "Enable0": ("ENABLE0", ""), "Fault": ("FAULT", ""),
    "Write a b c": ("WRITE", "chunk missed version"), "Synced a b": ("SYNCED", "member chunk"), "PoolInfo (op_of a) b": ("POOL_INFO", "what member"), "LastIo a": ("LAST_IO", "chosen"),
    "MapReady (eqb a 1)": ("MAP_READY", "keep"), "GivePart a b": ("GIVE_PART", "offset length"), "TakePart a 0 0": ("TAKE_PART", "offset"), "MapDone (eqb a 1) b c": ("MAP_DONE", "enable version set"),
    "MapDisable": ("MAP_DISABLE", ""), "MapGetVer": ("MAP_GET_VER", ""), "Fill a b": ("FILL", "member version"),
}
QUESTIONS = {"MapCheck": ("CHECK", "map_check", "", "is the node NORMAL and its own row empty: 1 or 0"), "Next a b": ("NEXT", "next", "member start", "the first dirty chunk of that member's row at or after start, if there is one")}
EVENT_NOTES = {"GIVE_PART": "if it is accepted, these bytes of map are yours to send", "TAKE_PART": "part: the bytes"}
FLAGS = "empty is_delete keep enable"  # numbers that are 0 or 1
NUMBERS = {"is_delete": "delete", "reached": "the set that was reached", "missed": "the set that it did not reach", "set": "a set", "what": "MZK_INFO_..", "chosen": "the id that was chosen",
           "number": "the message's number", "tick": "the tick's number"}

OUTCOMES = {"Plain": ("PLAIN", ""), "Taken": ("TAKEN", "the awaited answers taken"), "Written": ("WRITTEN", "a write ended"), "Picked": ("PICKED", "the id that extend picked")}
TOLD = {"Nothing": ("NOTHING", ""), "Marks": ("MARKS", "MARK to each of A"), "Clears": ("CLEARS", "CLEAR to each of A"), "Infos": ("INFOS", "POOL_INFO to each of A, which may be empty"), "Disable": ("DISABLE", "MAP_DISABLE to A"),
        "Off": ("OFF", "ENABLE 0 to A"), "Extended": ("EXTENDED", "POOL_INFO add-create of the member to each of A, then its FILL to each of B"), "Checks": ("CHECKS", "MAP_CHECK to each of A")}
SENT = {"Nothing": ("NOTHING", ""), "GetVersion": ("GET_VERSION", "MAP_GET_VER to A"), "Ready": ("READY", "MAP_READY to A"), "Send": ("SEND", "MAP_SEND to A"), "Done": ("DONE", "MAP_DONE to A"), "LastIo": ("LAST_IO", "LAST_IO to A"),
        "Enable": ("ENABLE", "ENABLE 1 to A"), "Leave": ("LEAVE", "LEAVE to A"), "Info": ("INFO", "POOL_INFO to A")}
SHOWN = {"one acked": "acknowledged 0 or 1", "one keep": "keep 0 or 1", "one enable": "enable 0 or 1", "op_number op": "MZK_INFO_..", "mode_number mode": "MZK_MODE_..", "members": "set", "n": "how many", "list": "the mark list",
         "others": "a set", "normals": "a set", "set": "the set", "to": "the node's id"}
CLIENT_ANSWER = [("OUTCOME", "o.tag", "MZK_OUTCOME_.."), ("OUTCOME_A", "o.a", "its numbers"), ("OUTCOME_B", "o.b", ""), ("TOLD", "t.tag", "the messages that are not awaited: MZK_TOLD_.."), ("TOLD_A", "t.a", "their numbers"),
                 ("TOLD_B", "t.b", ""), ("TOLD_C", "t.c", ""), ("TOLD_D", "t.d", ""), ("AWAITED", "m.tag", "the awaited message: MZK_SENT_.."), ("AWAITED_A", "m.a", "its numbers"), ("AWAITED_B", "m.b", ""),
                 ("AWAITED_C", "m.c", ""), ("AWAITED_D", "m.d", ""), ("NUMBER", "n", "of the awaited message")]
NODE_WORDS = [("ID", "n.id", ""), ("CHUNKS", "n.chunks", ""), ("STATE", "state_word n.state", "MZK_NS_.."), ("STORE", "one n.store", "1: a store is registered"),
              ("CREATE", "one n.create", "1: registered with create mode"), ("MEMBERS", "n.members", "a set"), ("VERSION", "n.version", ""), ("HELD", "n.held", "how many of the last chunk numbers are kept, 0 to 16"),
              ("TRANSFER", "one (in_hand n.transfer)", "1: a map transfer is in hand,"), ("GOT", "got_word n.transfer", "of which so many bytes were taken"),
              ("KEPT", "n.kept", "sixteen words; the kept chunk numbers stand at their end, oldest first. The six words before are 0")]
NODE_STATES = {"Empty": "EMPTY", "Registered": "REGISTERED", "Created": "CREATED", "Normal": "NORMAL", "NoIo": "NO_IO"}
NODE_ANSWER = [("NUMBERED", "1: a number is answered,"), ("VALUE", "this one: of MAP_GET_VER the version, of a question what it says")]


# ---- Making.

def named(table, found, what):
    """What is found, under the table's names: both have the same cases."""
    if set(table) != set(found):
        raise Wrong("%s: %s" % (what, ", ".join(sorted(set(table) ^ set(found)))))
    return [(table[case], found[case]) for case in found]


def enum(name, rows, above=""):
    """rows: name in C, number, comment. By number, each once."""
    rows = sorted(rows, key=lambda row: row[1])
    if len({row[1] for row in rows}) != len(rows):
        raise Wrong("a number is there twice in %s" % name)
    width = max(len("%s = %d," % row[:2]) for row in rows)
    lines = []
    for at, (key, number, comment) in enumerate(rows):
        text = "%s = %d%s" % (key, number, "," if at + 1 < len(rows) else "")
        lines.append("\t%s%s\n" % (text, " " * (width - len(text)) + " /* %s */" % comment if comment else ""))
    return "%senum%s {\n%s};\n" % ("/* %s */\n" % above if above else "", " " + name if name else "", "".join(lines))


def places(table, found, what, prefix):
    """Words by their place: each expression of the list is the table's, or 0 where the table has none."""
    rows, todo = [], list(table)
    for place, text in enumerate(found):
        if todo and text == todo[0][1]:
            rows.append((prefix + todo[0][0], place, todo[0][2]))
            todo.pop(0)
        elif text != "0":
            raise Wrong("%s: word %d is %s" % (what, place, text))
    if todo:
        raise Wrong("%s: no word is %s" % (what, todo[0][1]))
    return rows


def common():
    known, event = re.fullmatch(r"pick known \(pick event (\d) (\d)\) (\d)", only("event_words", "Calls", "error_of")).group(3), re.findall(r"\d", only("event_words", "Calls", "error_of"))
    returned = [int(event[0]), int(known), int(event[1])]
    refused, done = dict(clauses("library_answer", "Words", "answer_words"))["Answer.Refused n"], items(only("library_answer", "Words", "joined"))[:2]
    if items(refused)[:2] != ["0", "n"] or done != ["1", "0"] or not all(items(r)[0] + items(r)[1] in ("0n", "10") for _, r in clauses("library_node", "Library", "answer_words")):
        raise Wrong("the first two words of an answer")
    listed = [int(n) for n in items(only("rules_base", "Refusals", "places"))[:-1]]
    if listed != list(ORDER) or sorted(listed) != sorted(REFUSAL_NAMES):
        raise Wrong("the order of refusals: programs/refusals.py, or the names here")
    return "\n".join([
        enum("", [("MZK_" + name, constant("rules_base", file, key), "") for name, file, key in COMMON_LIMITS]),
        enum("mzk_returned", [("MZK_" + name, number, comment) for (name, comment), number in zip(RETURNED, returned)], "What a call returns. At any number but MZK_DONE nothing was changed: no word, no byte, not the answer."),
        enum("mzk_refusal", [("MZK_R_" + name, number, REFUSALS[number]) for number, name in REFUSAL_NAMES.items()],
             "Refusals, where an event was not accepted. A refusal changes no state and no byte of a map. The first that applies is given,\n * in the order %s." % " ".join(map(str, listed))),
        enum("mzk_answer_word", [("MZK_A_" + name, place, comment) for place, (name, comment) in enumerate(ANSWER)], "Both answers begin so."),
    ])


def job_rows():
    """The numbers of jobs, and what the four words beside them say."""
    tags, data = cases("library_client_words", "PoolWords", "phase_tag"), cases("library_client_words", "PoolWords", "phase_data")
    stages = tagged("library_client_words", "PoolWords", "stage_words")
    idle = dict(clauses("library_client_words", "PoolWords", "job_words"))["Job.Idle"]
    run = dict(zip(LETTERS, items(only("library_client_words", "PoolWords", "run_words"))))
    if (run["tag"], run["a"]) != ("phase_tag r.phase", "phase_data r.phase"):
        raise Wrong("the words of a run")
    rows = [("MZK_JOB_NONE", int(items(idle)[0]), "")] + [("MZK_JOB_" + name, int(number), "") for name, number in named(PHASES, tags, "phase_tag")]
    rows += [("MZK_JOB_" + name, tag, "") for name, (tag, _) in named(STAGES, stages, "stage_words")]
    said = {"JOB_DATA": {}}
    for name, text in named(PHASES, data, "phase_data"):
        said["JOB_DATA"].setdefault(JOB_DATA[text], []).append(name)
    for name, (_, letters) in named(STAGES, stages, "stage_words"):
        said["JOB_DATA"].setdefault(JOB_DATA[letters.get("a", "0")], []).append(name)
        if letters.get("b") != "id" or set(letters) - {"a", "b"}:
            raise Wrong("the words of a removal")
    data = "; ".join("%s: %s" % (", ".join(names), text) for text, names in said["JOB_DATA"].items() if text != "0") + "; else 0"
    return rows, {"JOB_DATA": data, "JOB_ID": "of a run %s, of a removal %s" % (JOB_DATA[run["b"]], JOB_DATA["id"]), "JOB_LEFT": "of a run: " + JOB_DATA[run["c"]], "JOB_TAKEN": "of a run: " + JOB_DATA[run["d"]]}


def session_rows():
    states = cases("library_client_words", "PoolWords", "state_word")
    word = items(only("library_client_words", "PoolWords", "session_word").replace(" + ", " ∷ "))
    if word[0] != "state_word s.state":
        raise Wrong("session_word")
    bits = []
    for (name, test, comment), text in zip(SESSION_BITS, word[1:]):
        found = re.fullmatch(r"pick (.*) (\d+) 0", text)
        if plain(found.group(1)) != test or len(word) != 1 + len(SESSION_BITS):
            raise Wrong("session_word: %s" % text)
        bits.append(("MZK_SB_" + name, int(found.group(2)), comment))
    low = int(re.match(r"lines\.session_of \(w % (\d+)\)", only("library_client_words", "PoolWords", "session_in")).group(1))
    return [("MZK_S_" + name[0], int(number), "") for name, number in named(SESSIONS, states, "state_word")], [("MZK_SB_STATE", low - 1, "word & MZK_SB_STATE is its state, MZK_S_..")] + bits


def tagged_rows(table, name, prefix):
    """Comments: what the message is, then what each letter holds."""
    rows = []
    for (key, said), (tag, letters) in named(table, tagged("library_answer", "Words", name), name):
        numbers = ", ".join("%s: %s" % (letter.upper(), SHOWN.get(text, text)) for letter, text in letters.items())
        rows.append((prefix + key, tag, ". ".join(part for part in (said, numbers) if part)))
    return rows


def numbered(crate, table, what, limit):
    """The events by number: name, number, names of a, b, c."""
    found, last = picks(only(crate, "Library", "numbered"))
    most = int(re.search(r"ltb 0 k && ltb k (\d+)", only(crate, "Library", "event_known")).group(1)) - 1
    found[most] = last
    if sorted(found) != list(range(1, limit + 1)) or most != limit:
        raise Wrong("%s: the kinds are not 1 to %d" % (what, limit))
    events = {re.sub(r"^(Node)?Event\.", "", text): number for number, text in found.items()}
    for text, (name, words) in table.items():
        letters = re.findall(r"\b[abc]\b", text)
        if letters != list("abc")[:len(words.split())]:
            raise Wrong("%s: the numbers of %s" % (what, name))
        for letter, word in zip(letters, words.split()):
            if (word in FLAGS.split()) != ("(eqb %s 1)" % letter in text):
                raise Wrong("%s: whether %s of %s is 0 or 1" % (what, word, name))
    return [(name, number, words.split()) for (name, words), number in named(table, events, what)]


def event_comment(name, words, *more):
    numbers = ", ".join("%s: %s%s" % (letter, NUMBERS.get(word, word), " 0 or 1" if word in FLAGS.split() else "") for letter, word in zip("abc", words))
    return "; ".join(part for part in (numbers,) + more + (EVENT_NOTES.get(name, ""),) if part)


def lent(name):
    """The map that a client's event is lent."""
    constructor = {"ANSWER_GOOD": "Answer", "ANSWER_VERSION": "Answer", "ANSWER_FAILED": "Answer", "REMOVE_DELETE": "Remove", "REMOVE_DISASSEMBLE": "Remove"}.get(name) or "".join(w.capitalize() for w in name.split("_"))
    which = [right for left, right in clauses("event", "OfClient", "lent_of") if re.search(r"Event\.%s\b" % constructor, left)]
    left_as = [right for left, right in clauses("event", "OfClient", "own_left") if re.search(r"Event\.%s\b" % constructor, left)]
    if len(which) != 1 or len(left_as) != 1:
        raise Wrong("the map of %s" % name)
    return {"pool.Lent.none": "", "pool.Lent.some own": "map" if left_as != ["xs"] else "map, only read", "pool.Lent.some other": "other, a node's map, only read"}[which[0]]


def prototype(crate, name):
    args, returns = signature(crate, name)
    words = []
    for arg, kind in args:
        found = re.fullmatch(r"&(mut )?\[u64; (\d+)\]", kind)
        if found:
            words.append("%suint64_t %s[MZK_WORDS(%s)]" % ("" if found.group(1) else "const ", arg, found.group(2)))
        elif kind in ("&[u8]", "&mut [u8]"):
            words += ["%suint8_t *%s" % ("const " if kind == "&[u8]" else "", arg), "size_t %s_bytes" % arg]
        elif kind == "u64":
            words.append("uint64_t " + arg)
        else:
            raise Wrong("%s: an argument %s" % (name, kind))
    lines, head = [], "%s %s(" % ("uint64_t" if returns else "void", name)
    for word in words:
        if lines and len(lines[-1]) + len(word) < 110:
            lines[-1] += ", " + word
        else:
            lines.append(word)
    return head + (",\n" + " " * len(head)).join(lines) + ");\n"


def size_of(crate, function, arg):
    return int(re.search(r"(\d+)\]", dict(signature(crate, function)[0])[arg]).group(1))


def client():
    jobs, said = job_rows()
    states, bits = session_rows()
    words = places(CLIENT_WORDS, items(only("library_client_words", "ClientWords", "packed")), "the words of a client", "MZK_CW_")
    answer = [plain(text) for text in items(only("library_answer", "Words", "joined"))[2:-1]]
    answers = [(key, place + 2, comment) for key, place, comment in places(CLIENT_ANSWER, answer, "the words of a client's answer", "MZK_CA_")]
    steps = named(STEPS, cases("library_client_words", "PoolWords", "step_word"), "step_word")
    return "\n".join([
        enum("", [("MZK_CLIENT_OUT", size_of("library_client", "mzk_client_event", "out"), ""), ("MZK_CLIENT_WORDS", size_of("library_client", "mzk_client_event", "state"), "")]),
        enum("mzk_client_word", [(key, place, said[key[7:]] if comment is None else comment) for key, place, comment in words], "The words of a client."),
        enum("mzk_job", jobs),
        enum("mzk_step", [("MZK_STEP_" + name, int(number), "") for name, number in steps], "The message of a run that goes round: READY, SEND, DONE."),
        enum("mzk_session", states, "A session's word: its state, and bits."),
        enum("mzk_session_bit", bits),
        enum("mzk_client_kind", [("MZK_CE_" + name, number, event_comment(name, words, lent(name))) for name, number, words in numbered("library_client", CLIENT_EVENTS, "the client's events", 18)],
             "The kinds of events, with the numbers a, b, c (else 0) and the map that is lent. The first fifteen are those of a log record\n * (docs/AUDIT.md)."),
        enum("mzk_client_answer", answers, "The words of an answer. A refusal's others are 0."),
        enum("mzk_outcome", tagged_rows(OUTCOMES, "outcome_words", "MZK_OUTCOME_")),
        enum("mzk_told", tagged_rows(TOLD, "told_words", "MZK_TOLD_")),
        enum("mzk_sent", tagged_rows(SENT, "message_words", "MZK_SENT_")),
        enum("mzk_info", [("MZK_INFO_" + name, int(number), "") for name, number in named(OPS, cases("event_number", "Values", "op_number"), "op_number")], "What a POOL_INFO says of its member."),
        enum("mzk_mode", [("MZK_MODE_" + name, int(number), "") for name, number in named(MODES, cases("event_number", "Values", "mode_number"), "mode_number")]),
        "/* A fresh client of a pool, sync 0 or 1 (else MZK_NO_EVENT). A chunk count outside 1 to %d gives a client whose events are all refused. */\n" % constant("rules_base", "Limits", "chunk_limit")
        + prototype("library_client", "mzk_client_fresh"),
        "/* An event, its kind one of enum mzk_client_kind. map: the client's own. other: the node's map that MZK_CE_SYNCED reads; at other\n * events any byte. */\n" + prototype("library_client", "mzk_client_event"),
    ])


def node():
    words = places(NODE_WORDS, items(only("event_words", "NodeWords", "packed")), "the words of a node", "MZK_NW_")
    events = numbered("library_node", NODE_EVENTS, "the node's events", 20)
    flags = [int(n) for n in re.findall(r"eqb k (\d+)", re.search(r"not \((eqb k .*?)\) \|\| ltb a 2", only("library_node", "Library", "event_known")).group(1))]
    if sorted(flags) != sorted(number for _, number, names in events if names[:1] and names[0] in FLAGS.split()):
        raise Wrong("the node's events with a flag")
    answers = clauses("library_node", "Library", "answer_words")
    if items(dict(answers)["Answer.Version v"])[2:4] != ["1", "v"]:
        raise Wrong("the words of a node's answer")
    asked, last = picks(only("library_node", "Library", "asked"))
    asked[2] = last
    questions = named(QUESTIONS, {text.replace("Question.", ""): number for number, text in asked.items()}, "questions")
    return "\n".join([
        enum("", [("MZK_NODE_OUT", size_of("library_node", "mzk_node_event", "out"), ""), ("MZK_NODE_WORDS", size_of("library_node", "mzk_node_event", "state"), ""),
                  ("MZK_SUMMARY_WORDS", size_of("library_node", "mzk_node_event", "summaries"), "")]),
        enum("mzk_node_word", words, "The words of a node. The summaries are the node's too: any words are some node's, but events of a node whose summaries are not\n * its map's are refused (18)."),
        enum("mzk_node_state", [("MZK_NS_" + name, int(number), "") for name, number in named(NODE_STATES, cases("event_words", "NodeWords", "state_word"), "state_word")]),
        enum("mzk_node_kind", [("MZK_NE_" + name, number, event_comment(name, names)) for name, number, names in events],
             "The kinds of a node's events, with the numbers a, b, c (else 0). A number out of the range that is said here is MZK_NO_EVENT."),
        enum("mzk_question", [("MZK_NQ_" + row[0], number, "; ".join(part for part in (", ".join("%s: %s" % pair for pair in zip("ab", row[2].split())), row[3]) if part)) for row, number in questions],
             "The kinds of questions, which change nothing."),
        enum("mzk_node_answer", [("MZK_NA_" + name, place, comment) for place, (name, comment) in enumerate(NODE_ANSWER, 2)], "The words of a node's answer."),
        "/* A fresh node, with its summaries. */\n" + prototype("library_node", "mzk_node_fresh"),
        "/* An event, its kind one of enum mzk_node_kind, with the node's map and staging map. part: the bytes that MZK_NE_TAKE_PART takes; at\n * other events any byte. */\n"
        + prototype("library_node", "mzk_node_event"),
        "/* A question, its kind one of enum mzk_question. */\n" + prototype("library_node", "mzk_node_ask"),
    ])


def text_function(name, argument, rows, other):
    lines = "".join('\tcase %s: return "%s";\n' % (key, text) for key, text in rows)
    return "static inline const char *%s(uint64_t %s)\n{\n\tswitch (%s) {\n%s\tdefault: return \"%s\";\n\t}\n}\n" % (name, argument, argument, lines, other)


def texts():
    jobs = [(key, key[8:]) for key, _, _ in sorted(job_rows()[0], key=lambda row: row[1])]
    kinds = [[(prefix + name, name.lower()) for name, _, _ in sorted(numbered(crate, table, crate, limit), key=lambda row: row[1])]
             for prefix, crate, table, limit in (("MZK_CE_", "library_client", CLIENT_EVENTS, 18), ("MZK_NE_", "library_node", NODE_EVENTS, 20))]
    return "\n".join([
        text_function("mzk_refusal_text", "refusal", [("MZK_R_" + name, REFUSALS[number]) for number, name in REFUSAL_NAMES.items()], "no refusal"),
        text_function("mzk_session_text", "session_word", [("MZK_S_" + name, text) for name, text in SESSIONS.values()], "no state").replace("switch (session_word)", "switch (session_word & MZK_SB_STATE)"),
        text_function("mzk_job_text", "job", jobs, "no job's number"),
        text_function("mzk_node_state_text", "state", [("MZK_NS_" + name, name) for name in NODE_STATES.values()], "no state"),
        text_function("mzk_client_kind_text", "kind", kinds[0], "no event"),
        text_function("mzk_node_kind_text", "kind", kinds[1], "no event"),
    ])


def call(side, name, number, words):
    """The small function of an event."""
    pointer, prefix, kind = {"client": ("k", "mzk_", "MZK_CE_"), "node": ("n", "mzk_n_", "MZK_NE_")}[side]
    args = "".join(", uint64_t " + word for word in words)
    given = ", ".join(words + ["0"] * (3 - len(words)))
    if name == "SYNCED" and side == "client":
        return ("static inline uint64_t mzk_synced(mzk_client *k, const mzk_node *of, uint64_t member, uint64_t chunk)\n{\n"
                "\treturn mzk_client_event(k->state, k->map, sizeof k->map, of->map, sizeof of->map, MZK_CE_SYNCED, member, chunk, 0, k->out);\n}\n")
    if name == "TAKE_PART":
        return ("static inline uint64_t mzk_n_take_part(mzk_node *n, uint64_t offset, const uint8_t *part, size_t bytes)\n{\n"
                "\treturn mzk_node_event(n->state, n->summaries, n->map, sizeof n->map, n->staging, sizeof n->staging, part, bytes, MZK_NE_TAKE_PART, offset, 0, 0, n->out);\n}\n")
    return "static inline uint64_t %s%s(mzk_%s *%s%s) { return mzk_%s_do(%s, %s%s, %s); }\n" % (prefix, name.lower(), side, pointer, args, side, pointer, kind, name, given)


def calls(side):
    table, crate, limit = {"client": (CLIENT_EVENTS, "library_client", 18), "node": (NODE_EVENTS, "library_node", 20)}[side]
    made = "".join(call(side, *row) for row in sorted(numbered(crate, table, crate, limit), key=lambda row: row[1]))
    if side == "node":
        for key, name, words, _ in QUESTIONS.values():
            words = words.split()
            made += "static inline uint64_t mzk_n_%s(mzk_node *n%s) { return mzk_n_ask(n, MZK_NQ_%s, %s); }\n" % (name, "".join(", uint64_t " + word for word in words), key, ", ".join(words + ["0"] * (2 - len(words))))
    return made


BLOCKS = {"common": common, "client": client, "node": node, "texts": texts, "client calls": lambda: calls("client"), "node calls": lambda: calls("node")}


def blocks():
    """What is made, by name."""
    return {name: make() for name, make in BLOCKS.items()}


def made(text, parts):
    """The header with what is made between its marks."""
    for name, part in parts.items():
        begin = BEGIN % name
        if text.count(begin) != 1:
            raise Wrong("the header has no mark for %s" % name)
        before, _, rest = text.partition(begin)
        text = before + begin + part + END + rest.partition(END)[2]
    return text


def main():
    what = sys.argv[1] if len(sys.argv) == 2 else ""
    if what not in ("write", "check"):
        sys.exit(__doc__)
    with open(HEADER, encoding="utf-8") as f:
        text = f.read()
    try:
        due = made(text, blocks())
    except Wrong as e:
        sys.exit("header: %s" % e)
    if what == "write":
        with open(HEADER, "w", encoding="utf-8") as f:
            f.write(due)
    elif text != due:
        lines = [(at, was, is_) for at, (was, is_) in enumerate(zip(text.split("\n"), due.split("\n")), 1) if was != is_]
        sys.exit("header: c/munzolkheg.h is not what the definitions say: line %d has\n  %s\nand it is to have\n  %s" % lines[0])


if __name__ == "__main__":
    main()
