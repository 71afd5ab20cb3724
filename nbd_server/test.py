"""The gate's test of the NBD server, with a small client of its own; it says nothing where all is well.

  python3 -m nbd_server.test

It needs no package and no program that is built by proving: a server here gets its descriptors from files, not from `./status`. They are those that the gate itself compares with what
the programs write and take (crates/status/stdout, programs/cases/statusread/stdin), and some written by hand. What a client must be told is found from the row's bits, not from the descriptors.
"""
import contextlib
import os
import random
import signal
import socket
import struct
import subprocess
import sys
import tempfile
import urllib.parse

from tools.crates import ROOT

PATIENCE = 20  # seconds after which a server that does not answer has failed
MIB = 1 << 20

# The protocol's numbers once more, so that a wrong one in the server is seen.
EXPORT_NAME, ABORT, LIST, PEEK_EXPORT, STARTTLS, INFO, GO, STRUCTURED, LIST_CONTEXTS, SET_CONTEXTS, EXTENDED = range(1, 12)
ACK, SERVER, REP_INFO, CONTEXT = 1, 2, 3, 4
UNSUP, INVALID, UNKNOWN, TOO_BIG = 2**31 + 1, 2**31 + 3, 2**31 + 6, 2**31 + 9
READ, WRITE, DISC, FLUSH, TRIM, CACHE, WRITE_ZEROES, BLOCK_STATUS, RESIZE = range(9)
FUA, DF, REQ_ONE, PAYLOAD_LEN = 1, 4, 8, 32
EPERM, EINVAL = 1, 22
HOLE, STATUS, ERROR = 2, 5, 32769
GREETING = b"NBDMAGICIHAVEOPT\0\3"
FLAGS = 1 + 2 + 256  # of the export: has flags, read-only, any number of connections


def same(got, wanted, what):
    if got != wanted:
        sys.exit("nbd-test: %s: %.300r, not %.300r" % (what, got, wanted))


# Servers.

@contextlib.contextmanager
def started(status, words):
    """The server's program with another command for `status`."""
    program = "import sys; sys.path.insert(0, %r); from nbd_server import server; server.main(sys.argv[1:], %r)" % (ROOT, status)
    command = [sys.executable, "-B", "-c", program] + words
    with subprocess.Popen(command, stdin=subprocess.DEVNULL, stdout=subprocess.PIPE, stderr=subprocess.PIPE) as process:
        try:
            yield process
        finally:
            process.kill()


class Server:
    """A server that is ready, its descriptors taken from a file. It listens on the socket `s` of the directory at hand: a short path, wherever that directory is."""

    def __init__(self, process, words):
        self.process = process
        self.ready = process.stdout.readline().decode().split(" ", 2)
        same(self.ready[0], "ready", "the first word of a server")
        with open("words", encoding="ascii") as f:
            same(f.read().split("\n")[:-1], words, "the words that status is given")
        self.member, chunks, self.chunk_size = (int(w) for w in words[1:])
        self.size = chunks * self.chunk_size

    def stop(self, number):
        """Ends it by a signal: it must have said nothing more, and end well."""
        self.process.send_signal(number)
        same(self.process.communicate(timeout=PATIENCE), (b"", b""), "what a server says after its first line")
        same(self.process.returncode, 0, "exit status after signal %d" % number)


@contextlib.contextmanager
def serving(status, member, chunks, chunk_size, place=("--socket", "s"), number=signal.SIGTERM):
    words = ["some map", str(member), str(chunks), str(chunk_size)]
    with open("descriptors", "wb") as f:
        f.write(status)
    with started(["sh", "-c", 'printf "%s\\n" "$@" >words; cat "$0"', "descriptors"], words + list(place)) as process:
        server = Server(process, words)
        yield server
        server.stop(number)
        same(os.path.exists("s"), False, "the socket's file after the end")


# The client.

class Client:
    def __init__(self, place="s", flags=3):
        self.sock = socket.socket(socket.AF_UNIX if isinstance(place, str) else socket.AF_INET)
        self.sock.settimeout(PATIENCE)
        self.sock.connect(place)
        self.structured, self.cookie = False, 0
        same(self.take(18), GREETING, "the greeting")
        self.send(struct.pack(">I", flags))

    def send(self, data):
        self.sock.sendall(data)

    def take(self, count):
        data = bytearray()
        while len(data) < count:
            got = self.sock.recv(count - len(data))
            if not got:
                sys.exit("nbd-test: the server hung up")
            data += got
        return bytes(data)

    def unpack(self, form):
        return struct.unpack(form, self.take(struct.calcsize(form)))

    def ended(self, what):
        """The server must hang up, and say nothing before."""
        try:
            same(self.sock.recv(1), b"", what)
        except ConnectionResetError:
            pass  # it hung up on bytes that it had not read
        self.sock.close()

    def option(self, number, data=b""):
        """The replies to an option, up to its acknowledgement or error; what an error says in words is left out."""
        self.send(b"IHAVEOPT" + struct.pack(">II", number, len(data)) + data)
        found = []
        while True:
            magic, about, kind, length = self.unpack(">QIII")
            same((magic, about), (0x3E889045565A9, number), "head of the reply to option %d" % number)
            said = self.take(length)
            found.append((kind, said if kind < 2**31 else b""))
            if kind == ACK or kind >= 2**31:
                return found

    def context_ids(self, number, *queries):
        """The contexts that an option lists or sets, with their ids."""
        found = self.option(number, context_data("", *queries))
        same(found.pop(), (ACK, b""), "the end of a list of contexts")
        same({kind for kind, _ in found} - {CONTEXT}, set(), "replies with contexts")
        return [(data[4:].decode(), struct.unpack(">I", data[:4])[0]) for _, data in found]

    def begin(self, *queries):
        """Structured replies, these contexts, then requests. The ids of the contexts."""
        same(self.option(STRUCTURED), [(ACK, b"")], "structured replies")
        self.structured = True
        ids = self.context_ids(SET_CONTEXTS, *queries)
        same([name for name, _ in ids], list(queries), "contexts that are set")
        same(self.option(GO, info_data(""))[-1], (ACK, b""), "go")
        return [i for _, i in ids]

    def request(self, kind, offset, length, flags=0, payload=b""):
        """An error's number, or 0, and what came: the parts of a structured reply, or the bytes of a simple one."""
        self.cookie += 1
        self.send(struct.pack(">IHHQQI", 0x25609513, flags, kind, self.cookie, offset, length) + payload)
        if not self.structured:
            magic, error, cookie = self.unpack(">IIQ")
            same((magic, cookie), (0x67446698, self.cookie), "head of a simple reply")
            return error, self.take(length) if kind == READ and not error else b""
        parts, done = [], 0
        while not done:
            magic, done, what, cookie, size = self.unpack(">IHHQI")
            same((magic, cookie, done in (0, 1)), (0x668E33EF, self.cookie, True), "head of a part")
            parts.append((what, self.take(size)))
        if parts[-1][0] != ERROR:
            return 0, parts
        error, words = struct.unpack(">IH", parts[-1][1][:6])
        same((len(parts), len(parts[-1][1])), (1, 6 + words), "an error's length")
        return error, []

    def status(self, offset, length, flags=0):
        """The descriptors of each context, by its id."""
        error, parts = self.request(BLOCK_STATUS, offset, length, flags)
        same((error, {what for what, _ in parts}), (0, {STATUS}), "block status of %d at %d" % (length, offset))
        return [(struct.unpack(">I", data[:4])[0], list(struct.iter_unpack(">II", data[4:]))) for _, data in parts]


def string(text):
    data = text.encode() if isinstance(text, str) else text
    return struct.pack(">I", len(data)) + data


def info_data(name, *asked):
    return string(name) + struct.pack(">H", len(asked)) + b"".join(struct.pack(">H", a) for a in asked)


def context_data(name, *queries):
    return string(name) + struct.pack(">I", len(queries)) + b"".join(string(q) for q in queries)


# What a client must be told.

def file(*path):
    with open(os.path.join(ROOT, *path), "rb") as f:
        return f.read()


def dirty_chunks(row):
    return {8 * i + b for i, byte in enumerate(row) for b in range(8) if byte >> b & 1}


def merged(descriptors):
    """Equal neighbours as one."""
    found = []
    for length, flags in descriptors:
        if found and found[-1][1] == flags:
            length += found.pop()[0]
        found.append((length, flags))
    return found


def wanted(dirty, chunk_size, offset, length):
    """A range's status, chunk by chunk, equal neighbours as one."""
    pieces, end = [], offset + length
    while offset < end:
        k = offset // chunk_size
        stop = min((k + 1) * chunk_size, end)
        pieces.append((stop - offset, 1 if k in dirty else 0))
        offset = stop
    return merged(pieces)


def packed(*descriptors):
    return b"".join(struct.pack(">II", *d) for d in descriptors)


def volumes():
    """The volumes that are tried: words, descriptors, member, chunks, chunk size, dirty chunks."""
    member, chunks, size = (int(w) for w in file("crates", "status", "args").split()[1:])
    row = file("crates", "status", "data", "map")[512 * member:512 * member + 512]
    yield "what status wrote", file("crates", "status", "stdout"), member, chunks, size, dirty_chunks(row)
    chunks, size = (int(w) for w in file("programs", "cases", "statusread", "args").split()[1:])
    yield "what statusread takes", file("programs", "cases", "statusread", "stdin"), 0, chunks, size, dirty_chunks(file("programs", "cases", "statusread", "stdout"))
    yield "a full row, cut", packed((4095 * MIB, 1), (MIB, 1)), 15, 4096, MIB, set(range(4096))
    yield "an empty row, cut", packed((4095 * MIB, 0), (MIB, 0)), 3, 4096, MIB, set()
    yield "last chunk only", packed((100 * 4096, 0), (4096, 1)), 3, 101, 4096, {100}
    yield "alternating chunks", packed(*[(4096, k % 2) for k in range(4096)]), 3, 4096, 4096, set(range(1, 4096, 2))


# The tests.

def edges(server, dirty):
    """Where a range may begin or end: at each change of the flag and beside it, and near both ends; of many changes a few."""
    at, found = 0, {0, 1, server.size - 1, server.size, server.chunk_size // 2}
    for length, _ in wanted(dirty, server.chunk_size, 0, server.size)[:8] + [(server.size, 0)]:
        at += length
        found |= {at - 1, at, at + 1}
    found |= {server.size - MIB - 1, server.size - MIB, server.size - MIB + 1}
    return sorted(e for e in found if 0 <= e <= server.size)


def try_ranges(what, server, dirty):
    """Every range between two edges, and one descriptor of each."""
    client = Client()
    dirt, = client.begin("qemu:dirty-bitmap:member-%d" % server.member)
    places = edges(server, dirty)
    for offset, end in [(a, b) for a in places for b in places if a < b]:
        length = min(end - offset, 2**32 - 1)
        full = wanted(dirty, server.chunk_size, offset, length)
        (context, found), = client.status(offset, length)
        same((context, merged(found), all(n for n, _ in found)), (dirt, full, True), "%s: %d at %d" % (what, length, offset))
        (context, ((first, flags),)), = client.status(offset, length, REQ_ONE)
        same((context, flags, 0 < first <= full[0][0]), (dirt, full[0][1], True), "%s: one of %d at %d" % (what, length, offset))
    client.sock.close()


def try_walk(what, server, status, dirty):
    """The whole volume by requests for one descriptor each: those of `status` and no other."""
    client = Client()
    dirt, = client.begin("qemu:dirty-bitmap:member-%d" % server.member)
    at, descriptors = 0, list(struct.iter_unpack(">II", status))
    same(merged(descriptors), wanted(dirty, server.chunk_size, 0, server.size), what + ": the row")
    for length, flags in descriptors:
        same(client.status(at, min(server.size - at, 2**32 - 1), REQ_ONE), [(dirt, [(length, flags)])], "%s: the descriptor at %d" % (what, at))
        at += length
    client.sock.close()


def try_cuts():
    """The range that cuts three descriptors, written out; both contexts at once."""
    client = Client()
    base, dirt = client.begin("base:allocation", "qemu:dirty-bitmap:member-3")
    same(base != dirt, True, "two contexts have two ids")
    half = 32768
    same(client.status(5 * half, 6 * half), [(base, [(6 * half, 3)]), (dirt, [(half, 0), (4 * half, 1), (half, 0)])], "three descriptors, two of them cut")
    same(client.status(5 * half, 6 * half, REQ_ONE), [(base, [(6 * half, 3)]), (dirt, [(half, 0)])], "one descriptor")
    same(client.status(7 * half, 1), [(base, [(1, 3)]), (dirt, [(1, 1)])], "one byte")
    client.sock.close()


def try_options(server):
    """The handshake, each option well and badly."""
    client = Client()
    size_and_flags = struct.pack(">QH", server.size, FLAGS)
    export = (REP_INFO, b"\0\0" + size_and_flags)
    sizes = (REP_INFO, struct.pack(">HIII", 3, 1, 4096, 32 * MIB))
    words = (REP_INFO, b"\0\2dirty chunks of member 3; the data reads as zeros")
    same(client.option(LIST), [(SERVER, string("volume")), (ACK, b"")], "list")
    same(client.option(INFO, info_data("")), [export, (ACK, b"")], "info")
    same(client.option(INFO, info_data("volume", 1, 3, 77, 2)), [export, words, sizes, (ACK, b"")], "info with sizes and words")
    for what, option, data, error in [
        ("list with data", LIST, b"x", INVALID),
        ("info of another export", INFO, info_data("volumf"), UNKNOWN),
        ("go to another export", GO, info_data("another", 3), UNKNOWN),
        ("go to a name that is no text", GO, info_data(b"\xff\xfe"), UNKNOWN),
        ("a name that is too long", GO, info_data("v" * 4097), TOO_BIG),
        ("a name longer than the data", GO, struct.pack(">I", 2**32 - 1) + b"volume\0\0", INVALID),
        ("fewer infos than said", GO, string("") + b"\0\2\0\3", INVALID),
        ("more infos than said", GO, info_data("", 3) + b"\0\3", INVALID),
        ("go with no data", GO, b"", INVALID),
        ("structured replies with data", STRUCTURED, b"x", INVALID),
        ("contexts listed before structured replies", LIST_CONTEXTS, context_data(""), INVALID),
        ("contexts set before structured replies", SET_CONTEXTS, context_data("", "base:allocation"), INVALID),
        ("an option that is too long", LIST_CONTEXTS, bytes(65537), TOO_BIG),
    ] + [("option %d" % n, n, b"abc", UNSUP) for n in (0, PEEK_EXPORT, STARTTLS, EXTENDED, 2**32 - 1)]:
        same(client.option(option, data), [(error, b"")], what)
    same(client.option(ABORT), [(ACK, b"")], "abort")
    client.ended("after abort")


def try_contexts():
    """Which queries list and set which contexts."""
    base, dirt, other = "base:allocation", "qemu:dirty-bitmap:member-3", "qemu:dirty-bitmap:member-4"
    client = Client()
    client.option(STRUCTURED)
    for queries, found in [((), [base, dirt]), (("base:",), [base]), (("qemu:",), [dirt]), (("qemu:dirty-bitmap:",), [dirt]), ((dirt,), [dirt]), ((base, dirt), [base, dirt]),
                           (("base:", base), [base]), ((other,), []), (("",), []), ((":",), []), (("qemu",), []), (("qemu:dirty-bitmap:member-",), []), (("qemu:allocation-depth",), [])]:
        same(client.context_ids(LIST_CONTEXTS, *queries), [(name, 0) for name in found], "contexts listed for %r" % (queries,))
    for queries, found in [((), []), (("base:",), []), (("qemu:",), []), (("qemu:dirty-bitmap:",), []), ((other, dirt), [dirt]), ((dirt, dirt), [dirt]), ((base, dirt), [base, dirt])]:
        same([name for name, _ in client.context_ids(SET_CONTEXTS, *queries)], found, "contexts set for %r" % (queries,))
    for what, data, error in [
        ("contexts of another export", context_data("another", dirt), UNKNOWN),
        ("fewer queries than said", string("") + struct.pack(">I", 2**32 - 1) + string(dirt), INVALID),
        ("more queries than said", context_data("", dirt) + string(dirt), INVALID),
        ("a query that is too long", context_data("", "q" * 4097), TOO_BIG),
    ]:
        for option in (LIST_CONTEXTS, SET_CONTEXTS):
            same(client.option(option, data), [(error, b"")], what)
    client.structured = True
    same(client.option(GO, info_data("volume"))[-1], (ACK, b""), "go")
    same(client.request(BLOCK_STATUS, 0, 4096), (EINVAL, []), "block status after a set that was refused")
    client.sock.close()


def bad_requests(size):
    """What is refused: words, command, flags, offset, length, error."""
    yield from (("a write", WRITE, 0, 0, 70000, EPERM), ("an empty write", WRITE, 0, 0, 0, EPERM), ("a write past the end", WRITE, FUA, size, 512, EPERM))
    yield from (("a trim", TRIM, 0, 0, 4096, EPERM), ("a write of zeros", WRITE_ZEROES, 0, 0, 4096, EPERM))
    yield from (("command %d" % n, n, 0, 0, 0, EINVAL) for n in (FLUSH, CACHE, RESIZE, 9, 65535))
    for name, kind in (("read", READ), ("block status", BLOCK_STATUS)):
        for offset, length in ((0, 0), (size, 0), (size, 1), (size - 1, 2), (1, size), (0, size + 1), (2**32, 1), (2**63, 1), (2**64 - 1, 1), (2**64 - 4096, 4096), (0, 2**32 - 1)):
            yield "%s of %d at %d" % (name, length, offset), kind, 0, offset, length, EINVAL
        for flag in (FUA, DF, PAYLOAD_LEN, 32768, REQ_ONE if kind == READ else REQ_ONE | FUA):
            yield "%s with flags %d" % (name, flag), kind, flag, 0, 4096, EINVAL


def try_requests(server):
    """Bad requests are answered by their error, and the connection goes on, with structured replies and without."""
    client, plain = Client(), Client(flags=1)
    dirt, = client.begin("qemu:dirty-bitmap:member-3")
    same(plain.option(GO, info_data(""))[-1], (ACK, b""), "go")
    for what, kind, flags, offset, length, error in bad_requests(server.size):
        payload = b"\x25\x60\x95\x13" * (length // 4) if kind == WRITE else b""  # thrown away, though it looks like requests
        for c in (client, plain):
            same(c.request(kind, offset, length, flags, payload)[0], error, what)
        same(client.status(0, 1), [(dirt, [(1, 0)])], "a good request after " + what)
        same(plain.request(READ, 0, 3), (0, bytes(3)), "a read after " + what)
    same(plain.request(BLOCK_STATUS, 0, 4096), (EINVAL, b""), "block status without structured replies")
    same(client.request(READ, 5, 70000), (0, [(HOLE, struct.pack(">QI", 5, 70000))]), "a read in structured replies")
    same(plain.request(READ, server.size - 70000, 70000), (0, bytes(70000)), "a read in simple replies")
    for c in (client, plain):
        c.send(struct.pack(">IHHQQI", 0x25609513, 0, DISC, 1, 0, 0))
        c.ended("after disconnect")
    client = Client()
    client.begin()
    same(client.request(BLOCK_STATUS, 0, 4096), (EINVAL, []), "block status without a context")
    client.sock.close()


def try_long_reads():
    """A read of at most 32 MiB is answered."""
    client = Client()
    same(client.option(GO, info_data(""))[-1], (ACK, b""), "go")
    same(client.request(READ, MIB, 32 * MIB) == (0, bytes(32 * MIB)), True, "a read of 32 MiB")
    same(client.request(READ, MIB, 32 * MIB + 1), (EINVAL, b""), "a read of more")
    client.sock.close()


def try_old_ways(server):
    """Requests begun by the export's name, with the zeros after it and without."""
    for name, flags, zeros in ((b"", 3, 0), (b"volume", 1, 124), (b"volume", 0, 124)):
        client = Client(flags=flags)
        client.send(b"IHAVEOPT" + struct.pack(">II", EXPORT_NAME, len(name)) + name)
        same(client.take(10 + zeros), struct.pack(">QH", server.size, FLAGS) + bytes(zeros), "an export by its name")
        same(client.request(READ, 0, 2), (0, b"\0\0"), "a read after it")
        client.sock.close()
    for what, name in (("another name", b"volumf"), ("a name that is too long", b"v" * 5000)):
        client = Client()
        client.send(b"IHAVEOPT" + struct.pack(">II", EXPORT_NAME, len(name)) + name)
        client.ended(what)


def try_broken(server):
    """Bytes that are no protocol are hung up on."""
    Client(flags=4).ended("flags that there are not")
    client = Client()
    client.send(b"IHAVEOPU" + struct.pack(">II", LIST, 0))
    client.ended("an option without its magic")
    client = Client()
    client.begin()
    client.send(struct.pack(">IHHQQI", 0x25609514, 0, READ, 1, 0, 1))
    client.ended("a request without its magic")
    whole = session("qemu:dirty-bitmap:member-%d" % server.member)
    for cut in range(len(whole)):
        hang_up(whole[:cut])
    chance = random.Random(21)
    for _ in range(60):
        at = chance.randrange(len(whole))
        hang_up(whole[:at] + bytes(chance.randrange(256) for _ in range(200)))


def session(context):
    """All that a good client sends."""
    def option(number, data):
        return b"IHAVEOPT" + struct.pack(">II", number, len(data)) + data
    return b"\0\0\0\3" + option(STRUCTURED, b"") + option(SET_CONTEXTS, context_data("", context)) + option(GO, info_data("", 3)) + b"".join(
        struct.pack(">IHHQQI", 0x25609513, 0, kind, 1, 0, 4096) for kind in (READ, BLOCK_STATUS, DISC))


def hang_up(data):
    """A client that sends this and no more. The server must let it go."""
    with socket.socket(socket.AF_UNIX) as sock:
        sock.settimeout(PATIENCE)
        sock.connect("s")
        with contextlib.suppress(ConnectionError):  # it may have hung up first
            sock.sendall(data)
            sock.shutdown(socket.SHUT_WR)
            while sock.recv(65536):
                pass


def try_many():
    """Several clients at once, some of them silent in the middle of what they say."""
    silent = [Client() for _ in range(4)]
    silent[1].send(b"IHAVE")
    silent[2].send(b"IHAVEOPT" + struct.pack(">II", LIST, 10) + b"abc")
    silent[3].begin("base:allocation")
    silent[3].send(struct.pack(">IHHQQI", 0x25609513, 0, WRITE, 1, 0, 4096) + b"abc")
    busy = [Client() for _ in range(4)]
    for client in busy:
        client.begin("base:allocation")
    for _ in range(3):
        for client in busy:
            same(client.status(0, 4096)[0][1], [(4096, 3)], "one of several clients")
    for client in silent + busy:
        client.sock.close()


def has_loopback():
    """Whether 127.0.0.1 is there: some places where the gate runs have no network at all, not even this one."""
    with socket.socket() as sock:
        try:
            sock.bind(("127.0.0.1", 0))
        except OSError:
            return False
    return True


def try_port(status, member, chunks, chunk_size):
    """A free port of 127.0.0.1, and of no other address; ended by Ctrl-C."""
    if not has_loopback():
        print("nbd-test: no 127.0.0.1 here, so the port was not tried")
        return
    with serving(status, member, chunks, chunk_size, ("--port", "0"), signal.SIGINT) as server:
        uri, port = server.ready[1].rsplit(":", 1)
        same(uri, "nbd://127.0.0.1", "the URI of a port")
        client = Client(("127.0.0.1", int(port)))
        client.begin("base:allocation")
        same(client.status(0, 4096)[0][1], [(4096, 3)], "block status at a port")
        with socket.socket() as sock:
            sock.settimeout(PATIENCE)
            same(sock.connect_ex(("127.0.0.2", int(port))) != 0, True, "no answer at another address")
    client.ended("after the server's end")


def try_starts():
    """Starts that fail: a failing exit, words that say why, and no socket's file."""
    good = ["map", "3", "1", "4096", "--socket", "s"]
    chunk = ["sh", "-c", r"printf '\0\0\020\0\0\0\0\1'"]  # one dirty chunk of 4,096 bytes
    refusing = ["sh", "-c", chunk[2] + "; echo refused 3 >&2; exit 1"]
    for what, status, words, said in [
        ("a refusal of status", refusing, good, b"refused 3\n"),
        ("descriptors short of the volume", chunk, ["map", "3", "2", "4096", "--socket", "s"], b"nbd: the descriptors do not cover the volume\n"),
        ("no descriptor", ["true"], good, b"nbd: the descriptors do not cover the volume\n"),
        ("half a descriptor", ["echo"], good, b"nbd: no whole number of descriptors\n"),
        ("no such program", ["./none"], good, b"nbd: "),
        ("too few words", chunk, good[:3], b"usage: nbd "),
        ("a member that is no number", chunk, ["map", "x"] + good[2:], b"usage: nbd "),
        ("two places", chunk, good + ["--port", "0"], b"usage: nbd "),
        ("a port that there is not", chunk, good[:4] + ["--port", "65536"], b"nbd: 127.0.0.1:65536: "),
        ("a path that is too long", chunk, good[:5] + ["s" * 200], b"nbd: sssss"),
        ("a path that is there already", chunk, good[:5] + ["taken"], b"nbd: taken: Address already in use (another server's, or left by one that was killed: remove it, or take another path)\n"),
    ]:
        with open("taken", "wb"):
            pass
        with started(status, words) as process:
            out, err = process.communicate(timeout=PATIENCE)
        same((process.returncode, out), (2, b""), what)
        same(err if said.endswith(b"\n") else err[:len(said)], said, "words after " + what)
        same((b"Traceback" in err, os.path.exists("s"), os.path.exists("taken")), (False, False, True), "files after " + what)
    usage = subprocess.run([os.path.join(ROOT, "nbd")], stdout=subprocess.PIPE, stderr=subprocess.PIPE, check=False)
    same((usage.returncode, usage.stdout, usage.stderr[:11]), (2, b"", b"usage: nbd "), "./nbd without words")


def try_all():
    for what, status, member, chunks, chunk_size, dirty in volumes():
        with serving(status, member, chunks, chunk_size) as server:
            try_ranges(what, server, dirty)
            try_walk(what, server, status, dirty)
    cut = packed((3 * 65536, 0), (2 * 65536, 1), (95 * 65536, 0))
    with serving(cut, 3, 100, 65536) as server:
        same(server.ready[1:], ["nbd+unix:///?socket=" + urllib.parse.quote(os.path.abspath("s")), "size=6553600 context=qemu:dirty-bitmap:member-3 (the data reads as zeros)\n"], "the line of a server that is ready")
        try_cuts()
        try_options(server)
        try_contexts()
        try_requests(server)
        try_old_ways(server)
        try_many()
        try_broken(server)
        try_cuts()
    with serving(packed((1024 * MIB, 0)), 3, 1024, MIB):
        try_long_reads()
    try_port(cut, 3, 100, 65536)
    try_starts()


def main():
    if len(sys.argv) != 1:
        sys.exit(__doc__)
    signal.signal(signal.SIGALRM, lambda *_: sys.exit("nbd-test: no end in sight"))
    signal.alarm(15 * PATIENCE)
    with tempfile.TemporaryDirectory() as folder:
        os.chdir(folder)
        try:
            try_all()
        finally:
            os.chdir(ROOT)


if __name__ == "__main__":
    main()
