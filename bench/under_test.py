"""A driver under test (docs/DRIVERS.md): a process for each history, which is handed the commands and answers a line each; and how its answers are compared with the rules'.

It may answer `?`: of this command it does not speak. Of an answer it gives the fields that it has, and they are compared; its messages are, where it has given one before.
"""
import os
import selectors
import shlex
import shutil
import signal
import subprocess
import tempfile
import threading
import time
from typing import NamedTuple

from bench.history import LOOK, Wrong, fields, read, sent

UNSPOKEN = "?"
LONGEST_LINE = 1 << 17  # bytes of an answer: a row has 20,490 at most
MORE = 5                # lines beyond the last command's answer that are looked at
STAYS = 0.3             # seconds that a driver has to end after its input did, until it is known to stay
TOLD = 6                # lines of its standard error that are told


# Its process.

class Ran(NamedTuple):
    """What a driver did with a history."""
    answers: list     # lines
    trouble: str      # "", or in words why there are no more of them
    errors: str       # the end of its standard error
    slowest: float    # seconds until an answer


def words_of(typed):
    """The words that start a driver; what can't be started is said."""
    try:
        words = shlex.split(typed)
    except ValueError as e:
        raise Wrong("%s can't be read: %s" % (typed, e)) from None
    if not words:
        raise Wrong("there is no driver in --against")
    path = words[0]
    if os.path.isdir(path):
        raise Wrong("%s can't be started: it is a directory" % path)
    if shutil.which(path):
        return words
    if os.path.exists(path):
        raise Wrong("%s can't be started: %s" % (path, "it is not executable (chmod +x)" if not os.access(path, os.X_OK) else "it has no path; meant is perhaps ./%s" % path))
    raise Wrong("%s can't be started: there is no such program" % path)


def status_words(status):
    if status >= 0:
        return "it ended with status %d" % status
    try:
        return "it was ended by %s" % signal.Signals(-status).name
    except ValueError:
        return "it was ended by signal %d" % -status


class Process:
    """One run of a driver, fed and read at the same time, so that neither waits for the other."""

    def __init__(self, words):
        self.errors = tempfile.TemporaryFile()
        try:
            self.process = subprocess.Popen(words, stdin=subprocess.PIPE, stdout=subprocess.PIPE, stderr=self.errors, bufsize=0, start_new_session=True)
        except OSError as e:
            self.errors.close()
            raise Wrong("%s can't be started: %s" % (words[0], e.strerror or e)) from None
        self.lines, self.part, self.slowest, self.ended = [], b"", 0.0, False
        self.last = time.monotonic()
        self.select = selectors.DefaultSelector()
        for stream in (self.process.stdin, self.process.stdout):
            os.set_blocking(stream.fileno(), False)
        self.select.register(self.process.stdout, selectors.EVENT_READ)
        self.data, self.then_close = b"", False

    def feed(self, lines, then_close=False):
        self.data, self.then_close = "".join(line + "\n" for line in lines).encode("utf-8", "surrogateescape"), then_close
        self.select.register(self.process.stdin, selectors.EVENT_WRITE)

    def write(self):
        try:
            self.data = self.data[os.write(self.process.stdin.fileno(), self.data[:65536]):]
        except BlockingIOError:
            return
        except OSError:
            self.data = b""  # it reads no more; what it says still counts
        if not self.data:
            self.select.unregister(self.process.stdin)
            if self.then_close:
                self.process.stdin.close()

    def read(self):
        try:
            data = os.read(self.process.stdout.fileno(), 65536)
        except BlockingIOError:
            return
        if not data:
            self.ended = True
            self.select.unregister(self.process.stdout)
            return
        *whole, self.part = (self.part + data).split(b"\n")
        if whole:
            now = time.monotonic()
            self.slowest, self.last = max(self.slowest, now - self.last), now
            self.lines += [line.decode("utf-8", "backslashreplace").rstrip("\r") for line in whole]

    def until(self, count, limit):
        """Goes on until so many lines came, its output ended, or none came for so many seconds. Whether they came."""
        while len(self.lines) < count and not self.ended and len(self.part) <= LONGEST_LINE:
            left = self.last + limit - time.monotonic()
            if left <= 0:
                return False
            for key, _ in self.select.select(left):
                if key.fileobj is self.process.stdin:
                    self.write()
                else:
                    self.read()
        return len(self.lines) >= count

    def close_input(self):
        if self.data:
            self.data = b""
            self.select.unregister(self.process.stdin)
        self.process.stdin.close()

    def end(self, grace):
        """Its input ends, and it has so many seconds to end too. The status, or None where it had to be ended."""
        if not self.process.stdin.closed:
            self.close_input()
        if not self.ended:
            self.last = time.monotonic()
            self.until(len(self.lines) + MORE, grace)
        try:
            return self.process.wait(grace if self.ended else 0.001)
        except subprocess.TimeoutExpired:
            return None
        finally:
            self.stop()

    def stop(self):
        """It, and what it has started."""
        try:
            os.killpg(self.process.pid, signal.SIGKILL)
        except (ProcessLookupError, PermissionError):
            pass
        self.process.wait()
        self.select.close()
        for stream in (self.process.stdin, self.process.stdout):
            try:
                stream.close()
            except OSError:
                pass

    def said(self):
        """The end of its standard error."""
        size = self.errors.seek(0, os.SEEK_END)
        self.errors.seek(max(0, size - 4000))
        text = self.errors.read().decode("utf-8", "backslashreplace")
        self.errors.close()
        return "\n".join(text.rstrip("\n").split("\n")[-TOLD:])


class Driver:
    """A program under test. Buffers: it answers only when its input has ended."""

    def __init__(self, words, timeout):
        self.words, self.timeout = words, timeout
        self.buffers, self.grace, self.slowest, self.banner = False, STAYS, 0.0, ""
        self.lock = threading.Lock()

    def meet(self):
        """Whether it says something unasked, and whether it answers before its input ends."""
        first = Process(self.words)
        if first.until(1, 0.15):
            self.banner = first.lines[0]
        first.feed(["pool 0 64"])
        first.last = time.monotonic()
        came = first.until(1 + bool(self.banner), min(self.timeout, 1.5))
        if not came and not first.ended:
            first.close_input()
            first.last = time.monotonic()
            if first.until(1, self.timeout):
                waited = first.slowest
                again = Process(self.words)
                again.feed(["pool 0 64"])
                self.buffers = not again.until(1, min(self.timeout, 2 * waited + 2))
                again.stop()
                again.errors.close()
        first.stop()
        first.errors.close()

    def run(self, lines, timeout=None):
        """What it answers to a history, in a process of its own."""
        limit = self.timeout if timeout is None else timeout
        process = Process(self.words)
        process.feed(lines, then_close=self.buffers)
        came = process.until(len(lines), limit)
        hung = not came and not process.ended and len(process.part) <= LONGEST_LINE
        with self.lock:
            self.slowest = max(self.slowest, process.slowest)
        status = process.end(0.0 if hung else self.grace)
        if status is None and came:
            self.grace = 0.02  # it does not end with its input; it is not waited for again
        rest, errors = process.part, process.said()
        answers, trouble = process.lines[: len(lines)], ""
        if not came:
            trouble = ("it gave no answer within %g s" % limit if hung else "its line has no end" if len(rest) > LONGEST_LINE else
                       status_words(status) + (", and its last line has no newline: %.60r" % rest.decode("utf-8", "backslashreplace") if rest else "") if status is not None else "its output ended")
        elif len(process.lines) > len(lines):
            trouble = "it wrote more lines than it was given commands: %.80r" % process.lines[len(lines)]
        elif status is not None and status < 0:
            trouble = status_words(status)
        return Ran(answers, trouble, errors, process.slowest)


# Comparing.

CLIENT_FIELDS = ("version", "count", "members", "sessions", "maint", "marked", "delete", "owed", "job", "taken", "acked", "list", "id")
NODE_FIELDS = ("node", "state", "store", "create", "members", "version", "kept", "transfer", "empty", "next")
LOOK_FIELDS = ("written", "assembled", "tick", "due", "once", "link", "io", "got")
MESSAGES = "messages"
NAMES = ("MARK", "CLEAR", "MAP_CHECK", "POOL_INFO", "FILL", "MAP_DISABLE", "ENABLE", "MAP_READY", "MAP_SEND", "MAP_DONE", "MAP_GET_VER", "LAST_IO", "LEAVE")
FIELDS = tuple(dict.fromkeys(CLIENT_FIELDS + NODE_FIELDS + LOOK_FIELDS)) + ("answer", "refusal", "row", "record", MESSAGES) + NAMES
HEADS = ("ok", "refused", "done", "idle", "unreadable", "clean", "dirty", "look", "record", "none")


class Speaks:
    """What a driver speaks of: which commands, by their forms, and whether it gives messages; the fields that are compared, where they were named."""

    def __init__(self, only=None, named=None):
        self.only, self.named, self.messages, self.sync = only, named, False, True
        self.forms, self.nodes, self.given = only, list(range(16)), {}

    def hear(self, line, answer):
        """An answer that it gave."""
        if " | " in answer and answer.startswith("ok"):
            self.messages = True
        for name in fields(answer) if answer.startswith(("ok", "look")) else ():
            self.given[name] = True

    def looks_at(self, what):
        return self.named is None or what in self.named

    def messages_of(self, answer):
        """The messages that are compared."""
        found = sent(answer)
        if self.named is None or MESSAGES in self.named:
            return found
        return [m for m in found if m.split()[0] in self.named]

    def compares_messages(self, answer):
        named = self.named is None or MESSAGES in self.named or any(n in self.named for n in NAMES)
        return named and (self.messages or " | " in answer)


class Otherwise(NamedTuple):
    """How an answer differs: in what, what the rules say, what the driver says."""
    what: str
    rules: str
    driver: str


def plain(name, value):
    return value.rstrip(".") if name == "sessions" else value


def otherwise(rules, said, speaks):
    """How what a driver said differs from what the rules say; None where it does not, as far as it speaks."""
    if said == rules:
        return None
    words = said.split(" ")
    head = words[0]
    if head not in HEADS:
        return Otherwise("answer", rules, said or "an empty line")
    own = rules.split(" ")[0]
    if own in ("clean", "dirty") or head in ("clean", "dirty"):
        return differing(speaks, "row" if head in ("clean", "dirty") and own in ("clean", "dirty") else "answer", rules, said)
    if own == "record" or head == "record":
        return differing(speaks, "record", rules, said)
    if head != own:
        return differing(speaks, "answer", rules, said)
    if own == "refused":
        return differing(speaks, "refusal", rules, said) if len(words) > 1 else None
    if own not in ("ok", "look"):
        return Otherwise("answer", rules, said)
    wanted, given = fields(rules), fields(said)
    for name, value in given.items():
        if speaks.looks_at(name) and plain(name, wanted.get(name, "")) != plain(name, value):
            return Otherwise(name, "%s=%s" % (name, wanted[name]) if name in wanted else "no %s" % name, "%s=%s" % (name, value))
    if any("=" not in w for w in said.split(" | ")[0].split(" ")[1:]):
        return Otherwise("answer", rules, said)
    if own == "ok" and speaks.compares_messages(said) and speaks.messages_of(rules) != speaks.messages_of(said):
        return Otherwise(MESSAGES, told(speaks.messages_of(rules)), told(speaks.messages_of(said)))
    return None


def told(found):
    return " | ".join(found) or "no message"


def differing(speaks, what, rules, said):
    return Otherwise(what, rules, said) if what == "answer" or speaks.looks_at(what) else None


class Finding(NamedTuple):
    """Where a driver differs: at which command of the history, how, and what came."""
    at: int
    what: str
    rules: str       # the part that differs
    driver: str
    answer: str      # the driver's whole line; "" where none came
    errors: str = ""


class Ended(NamedTuple):
    """Where the comparison ended, since a command that the driver does not speak of changed what it speaks of."""
    at: int
    unspoken: int


TROUBLE = "no answer"
TOO_MUCH = "too much"
DIED = "its end"


def unspoken(answers):
    return [k for k, a in enumerate(answers) if a.strip() == UNSPOKEN]


def changes(line):
    """Whether a command can change anything."""
    found = read(line)
    return isinstance(found, str) or found.form.kind != LOOK


def judged(lines, rules, ran, speaks, without):
    """The first difference of a history, or where the comparison ended, or None. Without: a function that says what the rules answer when some of the commands are left out."""
    skipped = [k for k in unspoken(ran.answers) if changes(lines[k])]
    other = without(skipped) if skipped else None
    for k, (line, wanted, said) in enumerate(zip(lines, rules, ran.answers)):
        if said.strip() == UNSPOKEN:
            continue
        if other is not None and otherwise_alone(other[k], wanted, said, speaks):
            return Ended(k, max(s for s in skipped if s < k))
        found = otherwise(wanted, said, speaks)
        if found:
            return Finding(k, found.what, found.rules, found.driver, said, ran.errors)
    if len(ran.answers) < len(lines):
        return Finding(len(ran.answers), TROUBLE, rules[len(ran.answers)], ran.trouble, "", ran.errors)
    if ran.trouble:
        return Finding(len(lines) - 1, TOO_MUCH if "more lines" in ran.trouble else DIED, "the end", ran.trouble, ran.answers[-1], ran.errors)
    return None


def otherwise_alone(left_out, whole, said, speaks):
    """Whether the rules answer otherwise where the commands that the driver does not speak of are left out, in what it gives here."""
    if left_out == whole:
        return False
    if left_out.split(" ")[0] != whole.split(" ")[0] or not whole.startswith(("ok", "look")):
        return True
    a, b, given = fields(left_out), fields(whole), fields(said)
    return any(a.get(name) != b.get(name) for name in given) or speaks.compares_messages(said) and speaks.messages_of(left_out) != speaks.messages_of(whole)
