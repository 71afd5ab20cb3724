"""The proved rules of a replicated pool for Python: client and storage node, called event by event (docs/LIBRARY.md).

    import munzolkheg                        # PYTHONPATH=c; the archives are looked for beside it, and in target/library, where ./library puts them
    pool = munzolkheg.Client(chunks=64)
    pool.join_create(0)
    pool.enable(0)
    done = pool.write(7, 1)                  # chunk 7, reached the set {0}
    done.accepted, done.refusal, str(done)   # a refusal is no exception; done is true where the event was accepted
    pool.count, pool.version, pool.session(0), done.told, done.awaited

The calls are those of the shared object that the system's C compiler links from the two proved archives. Names, numbers, places of words, the calls and the words of refusals are read from munzolkheg.h, which is made
from the definitions of the rules; nothing of them stands here. This file is not proved. x86-64 only, Python 3.8 or newer, no other package.
"""
import ctypes
import os
import re
import shutil
import subprocess

HERE = os.path.dirname(os.path.abspath(__file__))
BUILT = os.path.join(os.path.dirname(HERE), "target", "library")
SIDES = ("client", "node")

with open(os.path.join(HERE, "munzolkheg.h"), encoding="utf-8") as _file:
    HEADER = _file.read()

# Every number of the header by its name: MZK_CE_WRITE is NUMBERS["CE_WRITE"], and munzolkheg.CE_WRITE.
NUMBERS = {name: int(number) for name, number in re.findall(r"\bMZK_(\w+) = (\d+)", HEADER)}
globals().update(NUMBERS)
VERSION = int(re.search(r"#define MZK_VERSION (\d+)", HEADER).group(1))


def _names(prefix):
    """The names that begin so, by number."""
    return {number: name[len(prefix):] for name, number in NUMBERS.items() if name.startswith(prefix)}


def _texts(function):
    body = re.search(r"\b%s\(.*?\n}" % function, HEADER, re.S).group(0)
    return {NUMBERS[name]: text for name, text in re.findall(r'case MZK_(\w+): return "(.*?)";', body)}


REFUSALS, SESSIONS, NODE_STATES = _texts("mzk_refusal_text"), _texts("mzk_session_text"), _texts("mzk_node_state_text")
OUTCOMES, TOLD, SENT, JOBS, INFOS = (_names(prefix) for prefix in ("OUTCOME_", "TOLD_", "SENT_", "JOB_", "INFO_"))


class Wrong(Exception):
    """A call that is no event: the words of a state were spoilt, or a number that is a case is out of its range. Nothing was changed."""


def archives_in(folder):
    return [os.path.join(folder, "libmunzolkheg_%s.a" % side) for side in SIDES]


def shared():
    """The shared object, linked anew where it is older than an archive."""
    folder = next((f for f in (HERE, BUILT) if all(map(os.path.exists, archives_in(f)))), None)
    if folder is None:
        raise OSError("the archives are neither in %s nor in %s: ./library builds them" % (HERE, BUILT))
    archives = archives_in(folder)
    path = os.path.join(folder, "libmunzolkheg.so")
    if not os.path.exists(path) or any(os.path.getmtime(a) > os.path.getmtime(path) for a in archives):
        compiler = os.environ.get("CC") or next((c for c in ("cc", "gcc", "clang") if shutil.which(c)), None)
        if not compiler:
            raise OSError("no C compiler was found to link %s (cc, gcc, clang; CC may name one)" % path)
        mine = "%s.%d" % (path, os.getpid())
        subprocess.run([compiler, "-shared", "-o", mine, "-Wl,--whole-archive"] + archives + ["-Wl,--no-whole-archive"], check=True)
        os.replace(mine, path)
    return path


_WORDS, _BYTES, _U64 = ctypes.POINTER(ctypes.c_uint64), ctypes.c_char_p, ctypes.c_uint64


def _library():
    """The exported functions, typed as the header declares them."""
    found = ctypes.CDLL(shared())
    for returned, name, args in re.findall(r"^(uint64_t|void) (mzk_\w+)\(([^;{]*?)\);", HEADER, re.M):
        function = getattr(found, name)
        function.restype = _U64 if returned == "uint64_t" else None
        function.argtypes = [_WORDS if "[" in arg else ctypes.c_void_p if "uint8_t" in arg else ctypes.c_size_t if "size_t" in arg else _U64 for arg in args.replace("\n", " ").split(",")]
    return found


LIBRARY = _library()


def _lent(data):
    """A pointer to bytes and their number, as a call takes them. A bytearray is lent as it is, other bytes are copied."""
    if not isinstance(data, bytearray):
        data = bytearray(data)
    room = data or bytearray(1)
    return (ctypes.c_char * len(room)).from_buffer(room), len(data)


class Answer:
    """What an event was answered: true where it was accepted."""

    def __init__(self, words):
        self.words = list(words)
        self.accepted, self.refusal = bool(self.words[NUMBERS["A_ACCEPTED"]]), self.words[NUMBERS["A_REFUSAL"]]

    def __bool__(self):
        return self.accepted

    def __str__(self):
        return "accepted" if self.accepted else "refused %d: %s" % (self.refusal, REFUSALS[self.refusal])

    __repr__ = __str__


class ClientAnswer(Answer):
    def _tagged(self, at, names, count):
        place = NUMBERS["CA_" + at]
        return (names[self.words[place]],) + tuple(self.words[place + 1:place + 1 + count])

    @property
    def outcome(self):
        """("PLAIN", 0, 0), ("WRITTEN", acknowledged, list), .. as MZK_OUTCOME_.. says."""
        return self._tagged("OUTCOME", OUTCOMES, 2)

    @property
    def told(self):
        """The messages that are not awaited: ("MARKS", set, chunk, list, version), .. as MZK_TOLD_.. says."""
        return self._tagged("TOLD", TOLD, 4)

    @property
    def awaited(self):
        """The awaited message: ("READY", to, keep, 0, 0), .. as MZK_SENT_.. says; its number is `number`."""
        return self._tagged("AWAITED", SENT, 4)

    @property
    def number(self):
        return self.words[NUMBERS["CA_NUMBER"]]


class NodeAnswer(Answer):
    @property
    def value(self):
        """The number that is answered, None where there is none."""
        return self.words[NUMBERS["NA_VALUE"]] if self.words[NUMBERS["NA_NUMBERED"]] else None


class _Side:
    """Words of state that a caller keeps. A word's name in small letters reads it: pool.version."""

    _prefix, _answer = "", Answer

    def __getattr__(self, name):
        place = NUMBERS.get(self._prefix + name.upper())
        if place is None or name != name.lower():
            raise AttributeError(name)
        return self.words[place]

    def _ended(self, returned):
        if returned != NUMBERS["DONE"]:
            raise Wrong({NUMBERS["NO_STATE"]: "the words are no state's", NUMBERS["NO_EVENT"]: "the numbers are no event"}[returned])
        return self._answer(self.out)

    def __eq__(self, other):
        return type(self) is type(other) and self._value() == other._value()

    __hash__ = None

    def copy(self):
        """Another one, with words and maps of its own."""
        new = object.__new__(type(self))
        for name, value in self.__dict__.items():
            setattr(new, name, value[:] if isinstance(value, bytearray) else type(value)(*value))
        return new


class Client(_Side):
    """A client with its map. sync: of a sync pool."""

    _prefix, _answer = "CW_", ClientAnswer

    def __init__(self, chunks=4096, sync=False):
        self.words, self.out = (_U64 * NUMBERS["CLIENT_WORDS"])(), (_U64 * NUMBERS["CLIENT_OUT"])()
        self.map = bytearray(NUMBERS["MAP_BYTES"])
        self._ended(LIBRARY.mzk_client_fresh(self.words, int(sync), chunks))

    def _value(self):
        return list(self.words), self.map

    def event(self, kind, a=0, b=0, c=0, other=b""):
        """Any event: kind is CE_.., other a node's map for CE_SYNCED."""
        own, lent = _lent(self.map), _lent(other)
        return self._ended(LIBRARY.mzk_client_event(self.words, *own, *lent, kind, a, b, c, self.out))

    def synced(self, node, member, chunk):
        return self.event(NUMBERS["CE_SYNCED"], member, chunk, other=node.map)

    def session(self, member):
        """The state of a member's session, in words."""
        return SESSIONS[self.words[NUMBERS["CW_SESSION"] + member] & NUMBERS["SB_STATE"]]

    def session_bits(self, member):
        """Its bits: SB_MAINTENANCE, SB_MARK, .."""
        return self.words[NUMBERS["CW_SESSION"] + member] & ~NUMBERS["SB_STATE"]


class Node(_Side):
    """A storage node with its map, its staging map and its summaries."""

    _prefix, _answer = "NW_", NodeAnswer

    def __init__(self, member, chunks=4096):
        self.words, self.summaries, self.out = (_U64 * NUMBERS["NODE_WORDS"])(), (_U64 * NUMBERS["SUMMARY_WORDS"])(), (_U64 * NUMBERS["NODE_OUT"])()
        self.map, self.staging = bytearray(NUMBERS["MAP_BYTES"]), bytearray(NUMBERS["MAP_BYTES"])
        LIBRARY.mzk_node_fresh(self.words, self.summaries, member, chunks)

    def _value(self):
        return list(self.words), list(self.summaries), self.map, self.staging

    def event(self, kind, a=0, b=0, c=0, part=b""):
        """Any event: kind is NE_.., part the bytes for NE_TAKE_PART."""
        return self._ended(LIBRARY.mzk_node_event(self.words, self.summaries, *_lent(self.map), *_lent(self.staging), *_lent(part), kind, a, b, c, self.out))

    def ask(self, kind, a=0, b=0):
        """A question: kind is NQ_.."""
        return self._ended(LIBRARY.mzk_node_ask(self.words, self.summaries, *_lent(self.map), *_lent(self.staging), kind, a, b, self.out))

    def take_part(self, offset, part):
        return self.event(NUMBERS["NE_TAKE_PART"], offset, part=part)

    @property
    def state_text(self):
        return NODE_STATES[self.state]


CALL = re.compile(r"^static inline uint64_t mzk_(n_)?(\w+)\(mzk_\w+ \*\w((?:, uint64_t \w+)*)\) \{ return mzk_\w+\(\w, MZK_(\w+),.*\}$", re.M)


def _add_calls():
    """A method for each small function of the header that is a call of one event, or a question. `try` is a word of Python's own: that one is try_run."""
    for side, name, args, kind in CALL.findall(HEADER):
        name, words = "try_run" if name == "try" else name, "".join(", " + word for word in re.findall(r"uint64_t (\w+)", args))
        scope = {}
        exec("def %s(self%s):\n    return self.%s(%d%s)\n" % (name, words, "ask" if kind.startswith("NQ_") else "event", NUMBERS[kind], words), scope)
        setattr(Node if side else Client, name, scope[name])


_add_calls()
