"""What the rules say to a history: a line for each command; `./lab [FILE]` runs it.

The lines `> ANSWER`, which are expected answers, are not handed to the program. What is typed or comes through a pipe is handed on as it comes, and what is answered is written as it comes.
Of a line that the program can't read, standard error says which it is, why, and what was perhaps meant; then the exit status is 2, unless `> unreadable` stands after it.
"""
import collections
import itertools
import os
import stat
import subprocess
import sys
import tempfile
import threading

from bench.history import UNREADABLE, Wrong, read
from programs.build import command, standard_input

PIECE = 65536
EXPECTED, COMMENT = b">", b"#"
SLIP = b"> " + UNREADABLE.encode()  # on the line after a command that is not to be read


def is_command(line):
    return bool(line) and not line.startswith((EXPECTED, COMMENT))


MOST_SLIPS = 20  # that are told one by one


def say_slips(name, slips):
    for at, line in slips[:MOST_SLIPS]:
        say_slip(name, at, line)
    if len(slips) > MOST_SLIPS:
        print("lab: %s: %d more lines can't be read" % (name, len(slips) - MOST_SLIPS), file=sys.stderr, flush=True)


def say_slip(name, at, line):
    text = line.decode("utf-8", "surrogateescape")
    found = read(text)
    print("lab: %s:%d: %s: %.80s" % (name, at, found if isinstance(found, str) else UNREADABLE, text), file=sys.stderr, flush=True)


def pieces(source):
    """What a file descriptor gives, as soon as it does."""
    while True:
        data = os.read(source, PIECE)
        if not data:
            return
        yield data


def lines_of(source):
    """Whole lines, without their ends, as soon as they are there: a list for each piece that was read. A last one that no newline ends comes with the others' end."""
    rest = b""
    for data in pieces(source):
        *whole, rest = (rest + data).split(b"\n")
        if whole:
            yield whole
    if rest:
        yield [rest]


def write_all(to, data):
    while data:
        data = data[os.write(to, data):]


class Answers:
    """Hands answers on as they come, and says which of them, counted from 0, are `unreadable`."""

    def __init__(self, out):
        self.out, self.count, self.part = out, 0, b""

    def hand_on(self, data):
        write_all(self.out, data)
        data = self.part + data
        *whole, self.part = data.split(b"\n")
        found = [self.count + k for k, line in enumerate(whole) if line == SLIP[2:]] if SLIP[2:] in data else []
        self.count += len(whole)
        return found


# A file: it is there as a whole.

def without_expected(file):
    """The file as the program reads it: itself, where no answer is expected in it."""
    start = file.tell()
    if not any(line.startswith(EXPECTED) for line in file):
        file.seek(start)
        return file
    file.seek(start)
    kept = tempfile.TemporaryFile()
    kept.writelines(line for line in file if not line.startswith(EXPECTED))
    kept.seek(0)
    return kept


def slips_in(file, start, unread):
    """Of the commands with these numbers, from 0: place, line, and whether it was to be so."""
    file.seek(start)
    unread, number, before = set(unread), -1, None
    for at, line in enumerate(itertools.chain(file, [b""]), 1):
        line = line.rstrip(b"\n")
        if before and number in unread and line.rstrip() != SLIP:
            yield before
        before = (at, line) if is_command(line) else None
        number += before is not None


def answer_file(name, file, program, out):
    start = file.tell()
    given = without_expected(file)
    os.lseek(given.fileno(), given.tell(), os.SEEK_SET)
    unread, answers = [], Answers(out)
    with subprocess.Popen(program, stdin=given, stdout=subprocess.PIPE) as process:
        for data in pieces(process.stdout.fileno()):
            unread += answers.hand_on(data)
    demand_end(process)
    slips = list(slips_in(file, start, unread)) if unread else []
    say_slips(name, slips)
    return 2 if slips else 0


# A pipe, or what is typed: it comes line by line.

class Feed(threading.Thread):
    """Hands lines on to the program as they come, and keeps the commands that are not answered yet, with their places."""

    def __init__(self, source, to):
        super().__init__(daemon=True)
        self.source, self.to = source, to
        self.commands, self.expected = collections.deque(), set()  # places of lines that say that the command before is not to be read

    def run(self):
        at = 0
        try:
            for lines in lines_of(self.source):
                handed = []
                for at, line in enumerate(lines, at + 1):
                    if line.rstrip() == SLIP:
                        self.expected.add(at)
                    if is_command(line):
                        self.commands.append((at, line))
                    if not line.startswith(EXPECTED):
                        handed.append(line + b"\n")
                write_all(self.to.fileno(), b"".join(handed))
        except BrokenPipeError:
            pass  # the program has ended
        finally:
            self.to.close()


def answer_stream(name, source, program, out):
    answers, answered, slips = Answers(out), 0, []
    with subprocess.Popen(program, stdin=subprocess.PIPE, stdout=subprocess.PIPE) as process:
        feed = Feed(source, process.stdin)
        feed.start()
        for data in pieces(process.stdout.fileno()):
            for number in answers.hand_on(data):
                while answered <= number:
                    at, line = feed.commands.popleft()
                    answered += 1
                slips.append(at)
                if at + 1 not in feed.expected:
                    say_slip(name, at, line)
            while answered < answers.count:
                feed.commands.popleft()
                answered += 1
        process.stdin = None  # the feed closes it
    demand_end(process)
    return 2 if any(at + 1 not in feed.expected for at in slips) else 0


def demand_end(process):
    if process.returncode:
        raise Wrong("the program was ended (%d)" % process.returncode)


def answer(words, program=None, out=1):
    """The history in a file, or on standard input."""
    if len(words) > 1:
        raise Wrong("one FILE at a time (./lab --help says what there is)")
    path = words[0] if words else "-"
    try:
        file = standard_input() if path == "-" else open(path, "rb")
    except OSError as e:
        raise Wrong("%s can't be read: %s" % (path, e.strerror)) from None
    with file:
        kind = os.fstat(file.fileno()).st_mode
        if stat.S_ISDIR(kind):
            raise Wrong("standard input can't be read: it is a directory")
        work = answer_file if stat.S_ISREG(kind) else answer_stream
        return work("standard input" if path == "-" else path, file if stat.S_ISREG(kind) else file.fileno(), program or command("lab"), out)
