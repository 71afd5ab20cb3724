"""An NBD server that gives a member's dirty chunks to backup software (docs/NBD.md); `./nbd` runs it.

  ./nbd MAP MEMBER CHUNKS CHUNK_SIZE [--socket PATH | --port N]

A read-only export of the volume's size. Its data reads as zeros: what is offered is the block status, in the context qemu:dirty-bitmap:member-MEMBER. The status is
what the proved program `status` wrote. Here descriptors are only cut to the range that a client asks for; no dirty bit is computed.
Clients are taken from this machine alone, by a Unix socket or at 127.0.0.1 (port 10809, NBD's own, where nothing else is said; 0 picks a free one).
"""
import argparse
import bisect
import contextlib
import errno
import itertools
import os
import signal
import socket
import struct
import subprocess
import sys
import threading
import time
import urllib.parse

from tools.crates import ROOT

STATUS = [os.path.join(ROOT, "status")]
PORT = 10809

# Numbers of the NBD protocol's document.
IHAVEOPT, OPTION_REPLY, REQUEST, SIMPLE_REPLY, STRUCTURED_REPLY = 0x49484156454F5054, 0x3E889045565A9, 0x25609513, 0x67446698, 0x668E33EF
FIXED_NEWSTYLE, NO_ZEROES = 1, 2
HAS_FLAGS, READ_ONLY, CAN_MULTI_CONN = 1, 2, 256
OPT_EXPORT_NAME, OPT_ABORT, OPT_LIST, OPT_INFO, OPT_GO, OPT_STRUCTURED_REPLY, OPT_LIST_META_CONTEXT, OPT_SET_META_CONTEXT = 1, 2, 3, 6, 7, 8, 9, 10
REP_ACK, REP_SERVER, REP_INFO, REP_META_CONTEXT = 1, 2, 3, 4
REP_ERR_UNSUP, REP_ERR_INVALID, REP_ERR_UNKNOWN, REP_ERR_TOO_BIG = (0x80000000 + n for n in (1, 3, 6, 9))
INFO_EXPORT, INFO_DESCRIPTION, INFO_BLOCK_SIZE = 0, 2, 3
CMD_READ, CMD_WRITE, CMD_DISC, CMD_TRIM, CMD_WRITE_ZEROES, CMD_BLOCK_STATUS = 0, 1, 2, 4, 6, 7
CMD_FLAG_REQ_ONE = 8
TYPE_OFFSET_HOLE, TYPE_BLOCK_STATUS, TYPE_ERROR = 2, 5, 0x8001
FLAG_DONE = 1
EPERM, EINVAL = 1, 22
HOLE_AND_ZERO = 3  # flags of base:allocation

NAME = "volume"  # the export's name; the empty name means it too
TRANSMISSION_FLAGS = HAS_FLAGS | READ_ONLY | CAN_MULTI_CONN
ALLOCATION, DIRTY = 1, 2  # context ids
MOST_OPTION = 65536  # bytes of an option that are looked at
MOST_NAME = 4096  # bytes of a name, the protocol's limit
MOST_READ = 32 << 20  # bytes of a read, the protocol's default
PIECE = 65536


class Gone(Exception):
    """The client hung up, or broke the protocol where no answer is foreseen and is hung up on."""


class Refused(Exception):
    """An option or a request that is answered by an error."""

    def __init__(self, number, why):
        super().__init__(why)
        self.number, self.why = number, why.encode()


class Volume:
    """What is offered: the volume's size and the descriptors of one member's row."""

    def __init__(self, member, size, status):
        """`status` is bytes as `status` writes them. That they cover the volume exactly is proved of it; other bytes are no status, and are not offered."""
        if len(status) % 8:
            raise ValueError("no whole number of descriptors")
        self.descriptors = list(struct.iter_unpack(">II", status))
        ends = list(itertools.accumulate(length for length, _ in self.descriptors))
        if not all(length for length, _ in self.descriptors) or ends[-1:] != [size]:
            raise ValueError("the descriptors do not cover the volume")
        self.starts, self.size = [0] + ends[:-1], size
        self.contexts = {"base:allocation": ALLOCATION, "qemu:dirty-bitmap:member-%d" % member: DIRTY}
        self.description = "dirty chunks of member %d; the data reads as zeros" % member

    def cut(self, offset, length, one):
        """The descriptors of a range within the volume, the first and the last cut to it; with `one` the first alone."""
        at = bisect.bisect_right(self.starts, offset) - 1
        end, found = offset + length, []
        while offset < end and not (one and found):
            whole, flags = self.descriptors[at]
            stop = min(self.starts[at] + whole, end)
            found.append((stop - offset, flags))
            offset, at = stop, at + 1
        return found


class Fields:
    """The fields of an option's data, one after the other."""

    def __init__(self, data):
        self.data, self.at = data, 0

    def take(self, count):
        taken = self.data[self.at:self.at + count]
        if len(taken) < count:
            raise Refused(REP_ERR_INVALID, "the option's data is too short")
        self.at += count
        return taken

    def number(self, form):
        return struct.unpack(form, self.take(struct.calcsize(form)))[0]

    def name(self):
        taken = self.take(self.number(">I"))
        if len(taken) > MOST_NAME:
            raise Refused(REP_ERR_TOO_BIG, "the name is too long")
        return taken.decode("utf-8", "replace")

    def end(self):
        if self.at < len(self.data):
            raise Refused(REP_ERR_INVALID, "the option's data is too long")


def option_reply(option, kind, data=b""):
    return struct.pack(">QIII", OPTION_REPLY, option, kind, len(data)) + data


def reply_chunk(flags, kind, cookie, data):
    """A part of a structured reply."""
    return struct.pack(">IHHQI", STRUCTURED_REPLY, flags, kind, cookie, len(data)) + data


def matches(query, context):
    """Whether a query of a list asks for the context: its name, or what it begins with up to a colon."""
    return query == context or query.endswith(":") and context.startswith(query)


class Client:
    """One client's connection, from the greeting to its end."""

    def __init__(self, sock, volume):
        self.sock, self.volume = sock, volume
        self.no_zeroes = self.structured = False
        self.selected = []  # ids of the contexts that block status answers for
        self.options = {
            OPT_LIST: self.list_exports,
            OPT_INFO: self.info,
            OPT_GO: self.info,
            OPT_STRUCTURED_REPLY: self.structured_reply,
            OPT_LIST_META_CONTEXT: self.list_contexts,
            OPT_SET_META_CONTEXT: self.set_contexts,
        }

    def run(self):
        with contextlib.suppress(Gone, OSError), self.sock:
            self.negotiate()
            while True:
                self.request()

    def take(self, count):
        data = bytearray()
        while len(data) < count:
            got = self.sock.recv(min(count - len(data), PIECE))
            if not got:
                raise Gone
            data += got
        return bytes(data)

    def unpack(self, form):
        return struct.unpack(form, self.take(struct.calcsize(form)))

    def skip(self, count):
        """Reads and throws away: what is refused unseen still stands before the next option or request."""
        while count:
            count -= len(self.take(min(count, PIECE)))

    # Options.

    def negotiate(self):
        """Answers options until one of them begins the requests."""
        self.sock.sendall(b"NBDMAGIC" + struct.pack(">QH", IHAVEOPT, FIXED_NEWSTYLE | NO_ZEROES))
        flags, = self.unpack(">I")
        if flags & ~(FIXED_NEWSTYLE | NO_ZEROES):
            raise Gone
        self.no_zeroes = bool(flags & NO_ZEROES)
        while not self.option():
            pass

    def option(self):
        """Answers one option, and says whether requests come next."""
        magic, option, length = self.unpack(">QII")
        if magic != IHAVEOPT:
            raise Gone
        if option == OPT_EXPORT_NAME:
            self.export_name(length)
            return True
        try:
            replies = self.replies(option, length)
        except Refused as no:
            self.sock.sendall(option_reply(option, no.number, no.why))
            return False
        self.sock.sendall(b"".join(option_reply(option, kind, data) for kind, data in replies + [(REP_ACK, b"")]))
        if option == OPT_ABORT:
            raise Gone
        return option == OPT_GO

    def replies(self, option, length):
        """What an option is answered before its acknowledgement."""
        if length > MOST_OPTION:
            self.skip(length)
            raise Refused(REP_ERR_TOO_BIG, "the option is too long")
        data = Fields(self.take(length))
        if option == OPT_ABORT:
            return []
        if option not in self.options:
            raise Refused(REP_ERR_UNSUP, "no such option here")
        return self.options[option](data)

    def export_name(self, length):
        """The old way to begin the requests, which knows no refusal."""
        if length > MOST_NAME or self.take(length) not in (b"", NAME.encode()):
            raise Gone
        self.sock.sendall(struct.pack(">QH", self.volume.size, TRANSMISSION_FLAGS) + (b"" if self.no_zeroes else bytes(124)))

    def list_exports(self, data):
        data.end()
        return [(REP_SERVER, struct.pack(">I", len(NAME)) + NAME.encode())]

    def info(self, data):
        name = data.name()
        asked = [data.number(">H") for _ in range(data.number(">H"))]
        data.end()
        self.known(name)
        replies = [struct.pack(">HQH", INFO_EXPORT, self.volume.size, TRANSMISSION_FLAGS)]
        if INFO_DESCRIPTION in asked:
            replies.append(struct.pack(">H", INFO_DESCRIPTION) + self.volume.description.encode())
        if INFO_BLOCK_SIZE in asked:
            replies.append(struct.pack(">HIII", INFO_BLOCK_SIZE, 1, 4096, MOST_READ))
        return [(REP_INFO, r) for r in replies]

    def structured_reply(self, data):
        data.end()
        self.structured = True
        return []

    def list_contexts(self, data):
        queries = self.queries(data)
        found = [c for c in self.volume.contexts if not queries or any(matches(q, c) for q in queries)]
        return [(REP_META_CONTEXT, struct.pack(">I", 0) + c.encode()) for c in found]

    def set_contexts(self, data):
        self.selected = []  # also where this one is refused
        queries = self.queries(data)
        found = [(c, i) for c, i in self.volume.contexts.items() if c in queries]
        self.selected = [i for _, i in found]
        return [(REP_META_CONTEXT, struct.pack(">I", i) + c.encode()) for c, i in found]

    def queries(self, data):
        if not self.structured:
            raise Refused(REP_ERR_INVALID, "structured replies come before contexts")
        name = data.name()
        queries = [data.name() for _ in range(data.number(">I"))]
        data.end()
        self.known(name)
        return queries

    def known(self, name):
        if name not in ("", NAME):
            raise Refused(REP_ERR_UNKNOWN, "no such export here")

    # Requests.

    def request(self):
        magic, flags, kind, cookie, offset, length = self.unpack(">IHHQQI")
        if magic != REQUEST or kind == CMD_DISC:
            raise Gone
        if kind == CMD_WRITE:
            self.skip(length)
        try:
            answer = self.answer(flags, kind, cookie, offset, length)
        except Refused as no:
            answer = self.error(cookie, no)
        self.sock.sendall(answer)

    def answer(self, flags, kind, cookie, offset, length):
        if kind in (CMD_WRITE, CMD_TRIM, CMD_WRITE_ZEROES):
            raise Refused(EPERM, "the export is read-only")
        if kind not in (CMD_READ, CMD_BLOCK_STATUS):
            raise Refused(EINVAL, "no such command here")
        if flags & ~(CMD_FLAG_REQ_ONE if kind == CMD_BLOCK_STATUS else 0):
            raise Refused(EINVAL, "no such flag here")
        if length == 0 or offset + length > self.volume.size:
            raise Refused(EINVAL, "the range is empty or ends past the volume")
        if kind == CMD_READ:
            return self.zeros(cookie, offset, length)
        return self.block_status(cookie, offset, length, bool(flags))

    def zeros(self, cookie, offset, length):
        if length > MOST_READ:
            raise Refused(EINVAL, "the read is too long")
        if self.structured:
            return reply_chunk(FLAG_DONE, TYPE_OFFSET_HOLE, cookie, struct.pack(">QI", offset, length))
        return struct.pack(">IIQ", SIMPLE_REPLY, 0, cookie) + bytes(length)

    def block_status(self, cookie, offset, length, one):
        """One part for each selected context; the last says that it is."""
        if not self.selected:
            raise Refused(EINVAL, "no context was selected")
        answer = b""
        for context in self.selected:
            found = self.volume.cut(offset, length, one) if context == DIRTY else [(length, HOLE_AND_ZERO)]
            data = struct.pack(">I", context) + b"".join(struct.pack(">II", *d) for d in found)
            answer += reply_chunk(FLAG_DONE if context == self.selected[-1] else 0, TYPE_BLOCK_STATUS, cookie, data)
        return answer

    def error(self, cookie, no):
        if self.structured:
            return reply_chunk(FLAG_DONE, TYPE_ERROR, cookie, struct.pack(">IH", no.number, len(no.why)) + no.why)
        return struct.pack(">IIQ", SIMPLE_REPLY, no.number, cookie)


def bind(sock, address, words, taken):
    """Binds a socket; what is wrong is said with the address, and of one that is in use what may be done."""
    try:
        sock.bind(address)
    except (OSError, OverflowError) as e:
        in_use = isinstance(e, OSError) and e.errno == errno.EADDRINUSE
        raise ValueError("%s: %s%s" % (words, e.strerror if in_use else e, " (%s)" % taken if in_use else "")) from None


@contextlib.contextmanager
def listening(path, port):
    """A listening socket with its URI: at the path where there is one, else at the port. The socket's file goes when it is over."""
    with socket.socket(socket.AF_INET if path is None else socket.AF_UNIX) as sock:
        if path is None:
            sock.setsockopt(socket.SOL_SOCKET, socket.SO_REUSEADDR, 1)
            bind(sock, ("127.0.0.1", port), "127.0.0.1:%d" % port, "--port takes another, 0 a free one")
            sock.listen()
            yield sock, "nbd://127.0.0.1:%d" % sock.getsockname()[1]
            return
        bind(sock, path, path, "another server's, or left by one that was killed: remove it, or take another path")  # fails where something is there already, and leaves it
        try:
            sock.listen()
            yield sock, "nbd+unix:///?socket=" + urllib.parse.quote(os.fsencode(os.path.abspath(path)))
        finally:
            with contextlib.suppress(FileNotFoundError):
                os.unlink(path)


def serve(sock, volume):
    """Takes clients, each in a thread of its own, until a signal ends the program."""
    while True:
        try:
            taken, _ = sock.accept()
            if taken.family == socket.AF_INET:
                taken.setsockopt(socket.IPPROTO_TCP, socket.TCP_NODELAY, 1)
            threading.Thread(target=Client(taken, volume).run, daemon=True).start()
        except (OSError, RuntimeError):
            time.sleep(0.1)  # no room for one more just now, or it is gone already


def read_status(status, words):
    """What the program `status` writes for the words. Its refusal is its own line on standard error, and this program's end."""
    done = subprocess.run(status + words, stdin=subprocess.DEVNULL, stdout=subprocess.PIPE, check=False)
    if done.returncode:
        sys.exit(2)
    return done.stdout


def number(word):
    """A number in plain digits, so that it means here what it means to `status`."""
    if not (word.isascii() and word.isdigit() and len(word) < 32):
        raise ValueError
    return int(word)


def arguments(words):
    parser = argparse.ArgumentParser(prog="nbd", description="A read-only NBD export whose block status is a member's dirty chunks; its data reads as zeros.")
    parser.add_argument("map", metavar="MAP", help="a map file, 8,192 bytes")
    parser.add_argument("member", metavar="MEMBER", type=number)
    parser.add_argument("chunks", metavar="CHUNKS", type=number)
    parser.add_argument("chunk_size", metavar="CHUNK_SIZE", type=number)
    place = parser.add_mutually_exclusive_group()
    place.add_argument("--socket", metavar="PATH", help="listen on a Unix socket")
    place.add_argument("--port", metavar="N", type=number, default=PORT, help="listen at 127.0.0.1 (default %d; 0 picks a free port)" % PORT)
    given = parser.parse_args(words)
    if given.socket == "":
        parser.error("an empty PATH")
    return given


def end(*_):
    sys.exit(0)


def main(words, status=STATUS):
    """`status` is the command that writes the descriptors; the gate's test, which runs before the programs are built, hands over another."""
    signal.signal(signal.SIGTERM, end)
    signal.signal(signal.SIGINT, end)
    given = arguments(words)
    numbers = given.member, given.chunks, given.chunk_size
    try:
        volume = Volume(given.member, given.chunks * given.chunk_size, read_status(status, [given.map] + [str(n) for n in numbers]))
        with listening(given.socket, given.port) as (sock, uri):
            print("ready %s size=%d context=qemu:dirty-bitmap:member-%d (the data reads as zeros)" % (uri, volume.size, given.member), flush=True)
            serve(sock, volume)
    except (OSError, OverflowError, ValueError) as wrong:
        print("nbd: %s" % wrong, file=sys.stderr)
        sys.exit(2)
