"""What the scripts around the lab share: the commands of the language, histories with the answers that are expected in them, and one run of the program for many histories.

A history is one command a line (docs/HISTORIES.md). A line `> ANSWER` right after a command is the answer that is expected of it; it is never handed to the program.
"""
import argparse
import difflib
import functools
import os
import subprocess
import sys
from typing import NamedTuple, Optional

from programs.build import Wrong, command, standard_input

FRESH = "pool 0 4096"  # as the lab is before the first `pool` line
UNREADABLE = "unreadable"
LONGEST = 255  # bytes of a line that the lab reads


# The language. A word in capitals is a number. Kinds: what the command is for.
CLIENT, NODE, DELIVER, SETUP, LOOK = "client event", "node event", "delivery", "sets the lab up", "looks"
REMOVING = 5  # among the states of `poke session`


class Form(NamedTuple):
    words: tuple    # as in docs/HISTORIES.md
    kind: str
    name: str       # its words without the numbers; a node's event by its own word
    limits: tuple   # of each number the first and the last that can be read

    def __str__(self):
        return " ".join(self.words)


# One row a command, as in docs/HISTORIES.md. A number that is a case or a place has its last value after a colon (or first-last); N and M are nodes and members; any other number
# is handed on as it is, however large. The test of the bench compares the rows with that page.
COMMANDS = [
    ("pool SYNC:1 CHUNKS:65535", SETUP), ("auto ON:1", SETUP), ("cut LEN:1-1024", SETUP),
    ("join_create ID", CLIENT), ("join_assemble ID SET VERSION", CLIENT), ("enable ID", CLIENT), ("maintenance ID", CLIENT), ("link_down ID", CLIENT),
    ("store_check ID", CLIENT), ("rejoin ID", CLIENT), ("remove ID MODE:1", CLIENT), ("write CHUNK REACHED", CLIENT), ("synced MEMBER CHUNK N", CLIENT),
    ("try", CLIENT), ("extend", CLIENT), ("answer NUMBER KIND:2 VERSION", CLIENT),
    ("tick", CLIENT), ("check_answer NUMBER MEMBER EMPTY:1", CLIENT),
    ("node N register_create", NODE), ("node N register_add SET VERSION", NODE), ("node N unregister DELETE:1", NODE), ("node N join_create SET", NODE),
    ("node N join_assemble", NODE), ("node N leave DELETE:1", NODE), ("node N enable1 VERSION SET", NODE), ("node N enable0", NODE), ("node N fault", NODE),
    ("node N write CHUNK SET VERSION", NODE), ("node N synced MEMBER CHUNK", NODE), ("node N map_ready KEEP:1", NODE), ("node N give_part OFFSET LEN", NODE),
    ("node N take_part OFFSET LEN:2048 M", NODE), ("node N take M", NODE), ("node N map_done ENABLE:1 VERSION SET", NODE), ("node N map_disable", NODE),
    ("node N map_get_ver", NODE), ("node N last_io CHOSEN", NODE), ("node N pool_info OP:3 MEMBER", NODE), ("node N fill MEMBER VERSION", NODE),
    ("node N map_check", NODE), ("node N next MEMBER CHUNK", NODE),
    ("deliver", DELIVER), ("deliver_check", DELIVER),
    ("row client M", LOOK), ("row N M", LOOK), ("staging N M", LOOK), ("look", LOOK), ("look N", LOOK), ("record", LOOK),
    ("byte client I:8191 V:255", SETUP), ("byte N I:8191 V:255", SETUP), ("staging_byte N I:8191 V:255", SETUP),
    ("lend client LEN:8192", SETUP), ("lend N LEN:8192", SETUP), ("lend_staging N LEN:8192", SETUP),
    ("poke version V", SETUP), ("poke count V:65535", SETUP), ("poke chunks V:65535", SETUP), ("poke members SET:65535", SETUP),
    ("poke written V:1", SETUP), ("poke assembled V:1", SETUP), ("poke session ID:15 STATE:6 MAINT:1 MARK:1 MODE:1 OWED:1", SETUP),
    ("poke_node N STATE:4 STORE:1 CREATE:1 MEMBERS:65535 VERSION TRANSFER:2", SETUP), ("poke_got N GOT:65535", SETUP),
    ("poke due SET:65535", SETUP), ("poke once SET:65535", SETUP), ("poke tick V:4294967295", SETUP), ("summary N I:95 V", SETUP),
]


def limit(word):
    """The first and the last value that can be read of a number in a row of the table."""
    name, _, values = word.partition(":")
    first, _, last = (values or {"N": "15", "M": "15"}.get(name, "18446744073709551615")).rpartition("-")
    return int(first or 0), int(last)


def form(row, kind):
    words = row.split()
    name = " ".join(w for w in words if w[0].islower() and w != "node")
    return Form(tuple(w.partition(":")[0] for w in words), kind, name, tuple(limit(w) for w in words if w[0].isupper()))


def skeleton(words):
    """The words of a command, each number as `#`."""
    return tuple("#" if w.isupper() or is_number(w) else w for w in words)


def is_number(word):
    return word.isascii() and word.isdigit()


FORMS = {skeleton(f.words): f for f in (form(*row) for row in COMMANDS)}


class Read(NamedTuple):
    """A line as the lab reads it."""
    form: Form
    numbers: tuple


@functools.lru_cache(maxsize=65536)
def read(line):
    """The command that a line is, or in words why it is none."""
    if len(line.encode("utf-8", "surrogateescape")) > LONGEST:
        return "longer than %d bytes" % LONGEST
    words = line.split(" ")
    found = FORMS.get(skeleton(words))
    if found is None or any(w.isupper() for w in words):
        return no_command(line, words)
    numbers = tuple(int(w) for w in words if is_number(w))
    for name, number, (first, last) in zip((w for w in found.words if w.isupper()), numbers, found.limits):
        if not first <= number <= last:
            return "%s is %d to %d, not %d" % (name, first, last, number)
    if found.name == "poke session" and (any(numbers[4:]) and numbers[1] != REMOVING or any(numbers[2:]) and numbers[1] == 0):
        return "MODE and OWED are of a REMOVING session, and no session has any of the four"
    return Read(found, numbers)


def no_command(line, words):
    """Why a line is no command: what a person does not see in it, or the commands that are near."""
    if line.startswith("\ufeff"):
        return "the line begins with a byte order mark"
    if line.endswith("\r"):
        return "the line ends with a carriage return"
    if "\t" in line:
        return "there is a tab in the line"
    if line != line.strip() or "" in words:
        return "a space or another mark too many"
    near = nearest(words)
    return "no command; meant is perhaps: %s" % "; ".join(near) if near else "no command"


def nearest(words):
    """The commands that were perhaps meant: those with the same word, else those with a word that is spelt much like it."""
    at_node = words[0] == "node" and len(words) > 2
    word = words[2] if at_node else words[0]
    known = {}
    for form in FORMS.values():
        if ("node" in form.words) == at_node:
            for own in form.words:
                if own[0].islower() and own != "node":
                    known.setdefault(own, []).append(str(form))
    if not at_node:
        known["node"] = ["node N EVENT .."]
    found = [word] if word in known else difflib.get_close_matches(word.lower().replace("-", "_"), known, n=1, cutoff=0.66 if len(word) == 3 else 0.75)
    return [form for own in found for form in known[own]]


# Answers.

def fields(answer):
    """The fields of an accepted line, or of a look."""
    return dict(w.split("=", 1) for w in answer.split(" | ")[0].split() if "=" in w)


def sent(answer):
    """The messages of a client's line, as they are written."""
    return answer.split(" | ")[1:]


def messages(answer):
    """The messages of a client's line: (words, number or None)."""
    for part in sent(answer):
        words = part.split()
        number = words.pop()[1:] if words[-1].startswith("#") else None
        yield words, number


def ranges(answer):
    """The ranges of a row's answer, (first, last) each."""
    found = []
    for part in answer.split()[1:]:
        first, _, last = part.partition("-")
        found.append((int(first), int(last or first)))
    return found


def chunks(answer):
    """The chunks of a row's answer."""
    return {c for first, last in ranges(answer) for c in range(first, last + 1)}


# Histories.

class Command(NamedTuple):
    at: int                   # its line in the file, from 1
    text: str
    expected: Optional[str]   # on the line after it
    read: object              # Read, or why the lab does not read it


class History(NamedTuple):
    name: str
    lines: list       # of the file, as they are
    commands: list


def parse(name, text):
    """A history with what is expected in it."""
    lines = text.split("\n")
    commands, after = [], False  # after: the line before is a command that nothing is expected of yet
    for at, line in enumerate(lines, 1):
        if line.startswith(">"):
            commands[-1:] = [expecting(name, at, line, commands[-1] if after else None)]
            after = False
        elif line and not line.startswith("#"):
            commands.append(Command(at, line, None, read(line)))
            after = True
        else:
            after = False
    return History(name, lines, commands)


def expecting(name, at, line, command):
    if command is None:
        raise Wrong("%s:%d: an expected answer stands right after its command: %s" % (name, at, line))
    if not line.startswith("> ") or not line[2:].strip():
        raise Wrong("%s:%d: an expected answer is written `> ANSWER`: %s" % (name, at, line))
    return command._replace(expected=line[2:].strip())


def demand_commands(history):
    """A line that is no command is a slip of the pen, unless `unreadable` is what is expected of it."""
    for c in history.commands:
        if isinstance(c.read, str) and c.expected != UNREADABLE:
            raise Wrong("%s:%d: %s: %.80s" % (history.name, c.at, c.read, c.text))


def load(path):
    """The history in a file; `-` is standard input. Bytes that are no text are kept as they are."""
    try:
        if path == "-":
            data = standard_input().read()
        else:
            with open(path, "rb") as f:
                data = f.read()
    except OSError as e:
        raise Wrong("%s: %s" % (path, e.strerror))
    return parse("standard input" if path == "-" else path, data.decode("utf-8", "surrogateescape"))


def store(path, lines):
    try:
        with open(path, "wb") as f:
            f.write("\n".join(lines).encode("utf-8", "surrogateescape"))
    except OSError as e:
        raise Wrong("%s: %s" % (path, e.strerror))


# Runs of the program.

def asking(program):
    """A function that runs a program on a history, and hands back what it answers, a line each."""
    def run(text):
        try:
            done = subprocess.run(program, input=text.encode("utf-8", "surrogateescape"), stdout=subprocess.PIPE, check=True)
        except (OSError, subprocess.CalledProcessError) as e:
            raise Wrong("%s could not be run: %s" % (program[0], e))
        return done.stdout.decode("utf-8", "surrogateescape").split("\n")[:-1]

    return run


def run_lab(text):
    """What the lab answers to a history; tests put another function in its place."""
    return asking(command("lab"))(text)


def answers_to(scripts, run):
    """The answers to several lists of commands, by one run of the program. Each begins with a fresh lab."""
    if not scripts:
        return []
    text = "".join("%s\n%s\n" % (FRESH, "\n".join(lines)) if lines else "%s\n" % FRESH for lines in scripts)
    said = run(text)
    wanted = sum(len(lines) + 1 for lines in scripts)
    if len(said) != wanted:
        raise Wrong("%d answers came to %d commands" % (len(said), wanted))
    at, found = 0, []
    for lines in scripts:
        found.append(said[at + 1 : at + 1 + len(lines)])
        at += 1 + len(lines)
    return found


def asked(histories, run):
    """The answers to the commands of each history. Where a run fails, each half of it is tried alone: one history that the program fails at, in whose place an error is handed back, does not keep it from the others."""
    try:
        return answers_to([[c.text for c in h.commands] for h in histories], run)
    except Wrong as e:
        if len(histories) < 2:
            return [Wrong("%s: %s" % (h.name, e)) for h in histories]
        half = len(histories) // 2
        return asked(histories[:half], run) + asked(histories[half:], run)


def loaded(things, unreadable=False):
    """The histories in files, or those that are there already; in the place of one that is none, the error. Unreadable: lines that are no command are let be."""
    found = []
    for thing in things:
        try:
            history = load(thing) if isinstance(thing, str) else thing
            if not unreadable:
                demand_commands(history)
            found.append(history)
        except Wrong as e:
            found.append(e)
    return found


def to_spread(paths):
    """Paths as other processes can load them: what is on standard input is read here. With each, how large it is."""
    things = [load(path) if path == "-" else path for path in paths]
    return things, [file_size(thing) if isinstance(thing, str) else sum(map(len, thing.lines)) for thing in things]


def file_size(path):
    try:
        return os.path.getsize(path)
    except OSError:
        return 0  # loading it will say why


def build_for(things):
    """Builds the lab before the work is spread, so that it is done once; not for files that are not there."""
    if any(not isinstance(thing, str) or os.path.isfile(thing) for thing in things):
        command("lab")


def whole(word):
    if not is_number(word):
        raise argparse.ArgumentTypeError("%s is no whole number" % word)
    return int(word)


def complain(error):
    print("lab: %s" % error, file=sys.stderr, flush=True)


def answers_of(history, run):
    """The answers to one history's commands."""
    return answers_to([[c.text for c in history.commands]], run)[0]
