"""./audit: a client's log against the rules (docs/AUDIT.md), a record a line, eight numbers with single spaces between them.

  ./audit [FILE]    `accepted N` (N records), or `record K`: the first that is not so; no FILE, or -: standard input
  ./audit --prove   proves the program

Standard error says why: what is wrong with a line that is no record; of one that is, which number is another by the rules, or with which number they refuse its event: the lab, asked the
same events (docs/HISTORIES.md). Exit status: 0 accepted, 1 `record K`, 2 where the file can't be read or a word is wrong.
"""
import itertools
import os
import re
import shutil
import stat
import subprocess
import sys
import tempfile

from programs.build import Wrong, command, standard_input
from programs.refusals import number_of, why

NAMES = ("sequence", "kind", "member", "set", "number", "version", "count", "causes")
FIELDS = len(NAMES)
MOST_ASKED = 200000  # records that the lab is asked for a reason: some seconds
EVENTS = {  # each kind as a line of a history, of the record's member, set and number and of the awaited message's number
    1: "join_create {member}",
    2: "join_assemble {member} {set} {number}",
    3: "enable {member}",
    4: "maintenance {member}",
    5: "link_down {member}",
    6: "store_check {member}",
    7: "remove {member} 0",
    8: "remove {member} 1",
    9: "write {number} {set}",
    10: "try",
    11: "answer {awaited} 1 0",
    12: "answer {awaited} 2 {number}",
    13: "answer {awaited} 0 0",
    14: "rejoin {member}",
    15: "extend",
}
LAST_KIND = len(EVENTS)
LONGEST = 255
MOST = 2**64 - 1


def marks(line):
    """Of a line of bytes, what a person does not see: a carriage return, a tab, a byte order mark."""
    if line.startswith(b"\xef\xbb\xbf"):
        return "it begins with a byte order mark"
    if line.endswith(b"\r"):
        return "it ends with a carriage return"
    return "there is a tab in it" if b"\t" in line else ""


def reason(number, line):
    """Why a line is no record with this place in the log; nothing where the rules have to say it."""
    words = line.split(b" ")
    if marks(line):
        return marks(line)
    if not line:
        return "the line is empty"
    if len(line) > LONGEST:
        return "longer than %d bytes" % LONGEST
    if b"" in words:
        return "a space too many"
    for word in words:
        if not word.isdigit() or int(word) > MOST:
            return "no number: %s" % word.decode("utf-8", "replace")
    if len(words) != FIELDS:
        return "%d numbers, a record has %d" % (len(words), FIELDS)
    if int(words[0]) != number:
        return "sequence %d, its place is %d" % (int(words[0]), number)
    return "no kind has the number %d" % int(words[1]) if not 1 <= int(words[1]) <= LAST_KIND else ""


def by_the_rules(records):
    """What the rules say of the last of these records, those before it being as they say: a refusal in words, or the numbers that are others."""
    lab = subprocess.Popen(command("lab"), stdin=subprocess.PIPE, stdout=subprocess.PIPE, text=True, bufsize=1)

    def ask(line):
        lab.stdin.write(line + "\n")
        lab.stdin.flush()
        return lab.stdout.readline().rstrip("\n")

    with lab:
        ask("pool 0 4096")
        awaited, answer = 0, ""
        for record in records:
            answer = ask(EVENTS[record[1]].format(awaited=awaited, **dict(zip(NAMES, record))))
            sent = re.search(r" #(\d+)", answer)
            awaited = int(sent.group(1)) if sent else awaited
        if number_of(answer):
            return why(number_of(answer))
        said = [int(word) for word in ask("record").split()[1:]]
    other = ["%s %d, the rules say %d" % (name, got, meant) for name, got, meant in zip(NAMES, records[-1], said) if got != meant]
    return "; ".join(other)


def opened(path):
    """The log as a file that can be read twice: a pipe is read to its end first."""
    try:
        log = standard_input() if path == "-" else open(path, "rb")
        if not stat.S_ISREG(os.fstat(log.fileno()).st_mode):
            kept = tempfile.TemporaryFile()
            shutil.copyfileobj(log, kept)
            kept.seek(0)
            return kept
        return log
    except OSError as e:
        raise Wrong("%s: %s" % ("standard input" if path == "-" else path, e.strerror)) from None


def work(words):
    if len(words) > 1 or words and words[0].startswith("-") and words[0] != "-":
        raise Wrong("usage: ./audit [FILE]")
    log = opened(words[0] if words else "-")
    start = os.lseek(log.fileno(), 0, os.SEEK_CUR)
    done = subprocess.run(command("audit"), stdin=log, stdout=subprocess.PIPE)
    answer = done.stdout.decode("ascii", "replace")
    sys.stdout.write(answer)
    if done.returncode or not answer:
        raise Wrong("the program was ended (%d)" % done.returncode)
    if answer.startswith("accepted "):
        return 0
    number = int(re.match(r"record (\d+)", answer).group(1))
    log.seek(start)
    lines = [line.rstrip(b"\n") for line in itertools.islice(log, max(0, number - MOST_ASKED), number)]
    line = lines[-1] if lines else b""
    found = reason(number, line)
    sys.stdout.flush()
    if not found and number <= MOST_ASKED:
        found = by_the_rules([[int(word) for word in one.split()] for one in lines])
    print("audit: record %d: %s: %.80s" % (number, found or "not what the rules say", line.decode("utf-8", "replace")), file=sys.stderr)
    return 1
