"""The gate's test of the bench around the lab (`./lab --check`, `--cover`, `--generate`, `--page`); it says nothing where all is well.

  python3 -m bench.test        with kept answers; the program is compiled for it, not proved (some seconds, once), and asked a few lines
  python3 -m bench.test keep   runs the lab on the small histories that are tried here, and keeps its answers in bench/test.kept
  python3 -m bench.test real   the same tests with the lab itself, and what needs too many answers to be kept: a thousand histories of each kind

The kept answers are the proved program's, of small histories with the looks that the scripts put between their commands. The large ones are crates/lab/stdin and crates/lab/stdout, which
the gate compares with what the program writes.
"""
import contextlib
import hashlib
import html.parser
import io
import json
import os
import re
import select
import subprocess
import sys
import tempfile
import threading

import bench.answers
import bench.chart
import bench.check
import bench.cover
import bench.driver
import bench.generate
import bench.history
import bench.log
import bench.page
import bench.spread
import bench.trace
import bench.why
from bench.history import FORMS, UNREADABLE, Wrong, parse, read
from programs import build, refusals
from tools import matrix
from tools.crates import ROOT

KEPT = os.path.join(ROOT, "bench", "test.kept")
EXAMPLES = os.path.join(ROOT, "examples")
GUIDE = os.path.join(ROOT, "docs", "LAB.md")


def same(got, wanted, what):
    if got != wanted:
        sys.exit("bench.test: %s: %.600r, not %.600r" % (what, got, wanted))


def wrong(what, words, work):
    """The work must end with an error that has these words in it."""
    try:
        work()
    except Wrong as e:
        same([w for w in words if w not in str(e)], [], "%s: words missing in %s" % (what, e))
    else:
        sys.exit("bench.test: %s: no error" % what)


# Runs of the lab: kept ones, or its own.

class Lab:
    """Answers histories, and counts how often it was asked."""

    def __init__(self, mode):
        self.mode, self.asked, self.runs = mode, 0, {}
        if mode == "kept":
            with open(KEPT, encoding="ascii") as f:
                for run in f.read().split("\n\n"):
                    pairs = [line.split("\t") for line in run.split("\n") if line]
                    self.runs["".join(c + "\n" for c, _ in pairs)] = [a for _, a in pairs]

    def __call__(self, text):
        self.asked += 1
        if self.mode == "kept":
            if text not in self.runs:
                sys.exit("bench.test: no answers are kept for a run that begins %.200r; where the lab is built, python3 -m bench.test keep" % text)
            return self.runs[text]
        answers = bench.history.run_lab(text)
        if self.mode == "keep":
            self.runs[text] = answers
        return answers

    def keep(self):
        with open(KEPT, "w", encoding="ascii") as f:
            f.write("\n\n".join("\n".join("%s\t%s" % pair for pair in zip(text.split("\n"), answers)) for text, answers in self.runs.items()) + "\n")


def no_lab(text):
    sys.exit("bench.test: the lab was asked where it should not be: %.200r" % text)


# Small histories.

CHECKED = """# Two legs, one of them lost.
pool 0 64
> done
join_create 0
> ok .. sessions=C
enable 0
> ok version=1 count=1 members=1 sessions=N............... maint=0 marked=0 delete=0 owed=0 job=none
join_create 16
> refused 3

join_create 1
> ok .. sessions=NC .. | POOL_INFO 0 0 1
enable 1
write 7 1
> ok version=2 .. acked=1 list=2 .. MARK 0 7 2 2
link_down 0
> ok version=3 count=0 members=3 sessions=FF maint=0 marked=1 delete=0 owed=0 job=none
"""

# Where nodes get events that the lab does not show: a source that does not give its map, a receiver without store, messages by auto and not, parts, a client that refuses the answer.
HIDDEN = """pool 0 64
auto 1
node 0 register_create
join_create 0
node 0 join_create 1
node 0 enable1 1 1
enable 0
node 1 register_create
join_create 1
node 1 join_create 3
enable 1
# Node 1 is not enabled, so it does not take the mark.
write 5 3
link_down 1
node 1 join_assemble
store_check 1
deliver
# The source leaves: its map is not given, and node 1 takes nothing.
node 0 leave 0
deliver
auto 0
node 0 join_assemble
node 0 enable1 2 3
cut 1000
try
deliver
lend client 100
deliver
deliver
lend client 8192
deliver
synced 1 5 0
synced 1 6 0
remove 1 0
answer 9 1 0
deliver
link_down 0
look
nonsense 1
"""
SYNC = """pool 1 64
join_create 2
link_down 2
rejoin 2
write 1 4
remove 2 1
deliver
"""
POKED = """pool 0 100
poke session 1 6 1 1 0 0
poke members 2
store_check 1
rejoin 1
poke_node 3 4 1 0 8 5 1
poke_got 3 1024
byte 2 1030 3
node 3 take_part 1024 1024 2
node 3 take 2
node 3 map_ready 0
staging_byte 3 0 1
node 3 take 2
poke_node 4 2 0 0 16 1 0
node 4 fault
extend
link_down 20
pool 0 8
"""


# Questions to a node: is its own row empty, where is the next dirty chunk; then one whose summary was spoiled, and mended.
ASKED = """pool 0 64
node 0 register_add 3 1
node 0 join_assemble
node 0 enable1 1 3
node 0 map_check
node 0 write 7 2 1
node 0 next 1 0
node 0 next 1 7
node 0 next 1 8
node 0 next 1 64
node 0 next 16 0
node 0 write 9 3 1
node 0 map_check
summary 0 11 0
node 0 next 1 0
node 0 write 8 2 1
node 0 fault
byte 0 512 1
node 0 next 1 0
"""


def example(name):
    with open(os.path.join(EXAMPLES, name + ".history"), encoding="utf-8") as f:
        return f.read()


@contextlib.contextmanager
def files(**texts):
    """Histories in files of their own; their paths, in this order."""
    with tempfile.TemporaryDirectory() as folder:
        paths = []
        for name, text in texts.items():
            paths.append(os.path.join(folder, name + ".history"))
            with open(paths[-1], "wb") as f:
                f.write(text if isinstance(text, bytes) else text.encode())
        yield paths


def content(path):
    with open(path, "rb") as f:
        return f.read()


# The language.

def commands_in_the_document():
    """The commands of docs/HISTORIES.md, each as its words, numbers as `#`."""
    with open(os.path.join(ROOT, "docs", "HISTORIES.md"), encoding="utf-8") as f:
        rows = [line for line in f if line.startswith("| `")]
    return {bench.history.skeleton(text.split()) for line in rows for text in line.split("|")[1].split("`")[1::2]}


def try_language():
    """The table of commands is that of docs/HISTORIES.md, and reads what the lab reads."""
    same(sorted(commands_in_the_document() ^ (set(FORMS) | {("auto", "#")})), [], "commands of docs/HISTORIES.md alone, or of COMMANDS in bench/history.py alone")
    with open(os.path.join(ROOT, "docs", "HISTORIES.md"), encoding="utf-8") as f:
        same(refusals.table() in f.read(), True, "whether docs/HISTORIES.md has the table of refusals as programs/refusals.py has it: %s" % refusals.table())
    same(sorted(refusals.ORDER), list(range(1, 20)), "the refusals of events")
    for line, why in [("joincreate 1", "join_create ID"), ("join_create", "join_create ID"), ("link-down 1", "perhaps: link_down ID"), ("node 1 wirte 3 4 5", "perhaps: node N write CHUNK SET VERSION"), ("noed 1 fault", "node N"),
                      ("Enable 1", "perhaps: enable ID"), ("sing 1", "no command"), ("try\t", "a tab"), ("\ufefftry", "a byte order mark"), ("node 1 write 3", "node N write CHUNK SET VERSION"), (" try", "a space"), ("try ", "a space"),
                      ("try\r", "carriage return"), ("write  1 2", "a space"), ("node 16 fault", "N is 0 to 15"), ("remove 1 2", "MODE is 0 to 1"), ("cut 0", "LEN is 1 to 1024"),
                      ("join_create 18446744073709551616", "ID is 0 to"), ("join_create ID", "no command"), ("join_create ²", "no command"), ("poke session 1 2 0 0 0 1", "REMOVING"),
                      ("row client 16", "M is 0 to 15"), ("# " * 0 + "write 1 " + "0" * 300, "longer than 255")]:
        found = read(line)
        same(isinstance(found, str) and why in found, True, "%r is no command, for `%s`, which is said: %s" % (line, why, found))
    same(read("node 3 write 0005 18446744073709551615 2").numbers, (3, 5, 2**64 - 1, 2), "the numbers of a line")


def whole():
    """The gate's own history, and the answers that it has."""
    with open(matrix.STDIN, encoding="ascii") as f:
        history = f.read()
    with open(matrix.STDOUT, encoding="ascii") as f:
        return history, f.read().split("\n")[:-1]


def try_reading():
    """Of the lines of crates/lab/stdin, exactly those that can't be read are unreadable. One that is stale, as `matrix.py check` says, may have answers of an older language."""
    history, answers = whole()
    if history != matrix.history():
        return
    commands = parse("stdin", history).commands
    same(len(commands), len(answers), "commands and answers of the gate's history")
    for c, answer in zip(commands, answers):
        same(answer != UNREADABLE, not isinstance(c.read, str), "whether line %d is read: %s" % (c.at, c.text))


# check

def try_fitting():
    line = "ok version=2 count=1 members=3 sessions=NF.............. maint=0 marked=0 delete=0 owed=0 job=none acked=1 list=2 | MARK 0 7 2 2"
    for expected, answer, fits in [
        (line, line, True), ("ok .. sessions=NF", line, True), ("ok .. sessions=NF..", line, True), ("ok .. sessions=N", line, False), ("ok .. sessions=NFC", line, False),
        ("ok sessions=NF", line, False), ("ok", line, False), ("ok ..", line, True), (".. | MARK 0 7 2 2", line, True), (".. MARK 0 7 2", line, True), ("ok .. MARK 0 7 2 .. 2", line, True),
        ("ok .. MARK 0 7 2 .. 2 .. 2", line, False), ("ok .. list=2 .. version=2", line, False), ("ok .. version=2 .. list=2", line, True), ("ok .. version=", line, False),
        ("version=2 ..", line, False), (".. version=2 members=3", line, False), ("refused 3", "refused 3", True), ("refused 3", "refused 33", False), ("refused ..", "refused 33", True),
        ("refused .. 3", "refused 33", False), ("..", "", True), ("dirty .. 7", "dirty 0-3 7 9", True), ("dirty 7", "dirty 7 9", False), (line.replace("..............", ""), line, True),
    ]:
        same(bench.check.fits(expected, answer), fits, "whether %r fits %r" % (answer, expected))


def checked(lab, *words, wrong=None):
    """The status of a check and what it says; what it says on standard error goes to `wrong`, and there should be nothing where that is left out."""
    said, errors = [], []
    status = bench.check.check(list(words), lab, said.append, errors.append)
    same([str(e) for e in errors] if wrong is None else [], [], "what a check says on standard error")
    if wrong is not None:
        wrong += [str(e) for e in errors]
    return status, said


def try_check(lab):
    with files(first=CHECKED, second="write 1 1\n> refused 11\npoke chunks 70000\n> unreadable\n", third=CHECKED.replace("refused 3", "refused 4"), fourth="# nothing\n") as paths:
        before, warned = lab.asked, []
        status, said = checked(lab, *paths, wrong=warned)
        same((status, lab.asked - before), (1, 1), "the status of a check with a difference, by one run of the lab")
        same(warned, ["%s: nothing is expected in it, so nothing was checked" % paths[3]], "what is said of a file with nothing in it")
        same(said, ["passed %s: 7 of 8 commands checked" % paths[0], "passed %s: 2 of 2 commands checked" % paths[1],
                    "differs %s:8: join_create 16" % paths[2], "    expected: refused 4", "    came:     refused 3", "passed %s: 0 of 0 commands checked" % paths[3],
                    "3 passed, 1 differ; 18 commands, 16 checked"], "what a check says")
        status, said = checked(lab, "-q", paths[0], paths[2])
        same((status, len(said), said[0], said[-1]), (1, 4, "differs %s:8: join_create 16" % paths[2], "1 passed, 1 differ; 16 commands, 14 checked"), "a quiet check")
        same(checked(lab, "--update", paths[0])[1], ["kept %s: expected answers that changed: 0" % paths[0]], "an update that changes nothing")
        same(content(paths[0]).decode(), CHECKED, "a file that an update leaves")


def try_update(lab):
    old = CHECKED.replace("sessions=NC .. |", "sessions=NN .. |").replace("refused 3", "refused 4").replace("> done", "> ok ..").replace("lost.", "lost \udcff").encode("utf-8", "surrogateescape")
    with files(old=old, every="pool 0 64\ntry\n> refused ..") as paths:
        same(checked(lab, "--update", *paths), (0, ["updated %s: expected answers that changed: 3" % paths[0], "updated %s: expected answers that changed: 1" % paths[1]]), "an update")
        same(content(paths[0]).decode("utf-8", "surrogateescape"), CHECKED.replace("lost.", "lost \udcff"), "a file after an update")
        same(content(paths[1]).decode(), "pool 0 64\ntry\n> ok version=1 count=0 members=0 sessions=................ maint=0 marked=0 delete=0 owed=0 job=none", "one that was no answer's part")
        same(checked(lab, "--expect", paths[1]), (0, ["updated %s: expected answers that changed: 1" % paths[1]]), "answers written in")
        same(content(paths[1]).decode().split("\n")[:3], ["pool 0 64", "> done", "try"], "a file with answers written in")
        same(checked(lab, *paths)[0], 0, "a check after an update")


# A driver of one's own, in a few lines: it refuses everything but `pool`.
DRIVER = "import sys\nfor line in sys.stdin:\n    print('done' if line.startswith('pool') else 'refused 9')\n"


def try_driver():
    """Another program can be asked; and one that fails, or is not there, is an error."""
    with files(driver=DRIVER, first="pool 0 64\n> done\ntry\n> refused 9\n", second="try\n> ok ..\n") as paths:
        program = "'%s' '%s'" % (sys.executable, paths[0])
        status, said = checked(no_lab, "--with", program, *paths[1:])
        same((status, said[1:3], said[-1]), (1, ["differs %s:1: try" % paths[2], "    expected: ok .."], "1 passed, 1 differ; 3 commands, 3 checked"), "a check of another program")
        wrong("a program that is not there", ["/nowhere could not be run"], lambda: checked(no_lab, "--with", "/nowhere x", paths[1]))
        for what, failing, word in [("fails", "sh -c 'exit 3'", "could not be run"), ("says too little", "true", "0 answers came to 3 commands")]:
            errors = []
            status, said = checked(no_lab, "--with", failing, paths[1], wrong=errors)
            same((status, said, paths[1] in errors[0] and word in errors[0]), (2, ["0 passed, 0 differ, 1 could not be checked; 0 commands, 0 checked"], True), "a program that %s: %s" % (what, errors))


def try_large_check():
    """The gate's whole history, with its answers as what is expected, and with one of them changed."""
    history, answers = whole()
    commands = parse("stdin", history).commands
    text = "".join("%s\n> %s\n" % (c.text, a) for c, a in zip(commands, answers))
    last = len(commands) - 1
    with files(good=text, bad=text[: -len(answers[-1]) - 1] + "dirty 4095\n") as paths:
        status, said = checked(lambda fed: ["done"] + answers, paths[0])
        same((status, said[-1]), (0, "1 passed, 0 differ; %d commands, %d checked" % (last + 1, last + 1)), "the gate's history checked")
        status, said = checked(lambda fed: ["done"] + answers, paths[1])
        same((status, said[:2]), (1, ["differs %s:%d: %s" % (paths[1], 2 * last + 1, commands[last].text), "    expected: dirty 4095"]), "the gate's history with another last answer")


def try_errors():
    """What is wrong is said with the file and the line, before the lab is run, and with status 2."""
    for name, text, at, word in [("first", "> done\n", 1, "right after its command"), ("twice", "try\n> ok\n> ok\n", 3, "right after its command"), ("apart", "try\n\n> ok\n", 3, "right after"),
                                 ("empty", "try\n>\n", 2, "`> ANSWER`"), ("blank", "try\n>  \n", 2, "`> ANSWER`"), ("close", "try\n>ok\n", 2, "`> ANSWER`"), ("slip", "pool 0 64\n\nlink-down 1\n", 3, "no command"),
                                 ("numbers", "write 1\n> ok ..\n", 1, "write CHUNK REACHED")]:
        with files(**{name: text}) as paths:
            place = "%s:%d: " % (paths[0], at)
            errors = []
            same(checked(no_lab, *paths, wrong=errors)[0], 2, "the status of a check of %s" % name)
            same((bench.cover.cover(paths, no_lab, no_lab, errors.append)), 2, "the status of a cover of %s" % name)
            for error in errors:
                same(place in str(error) and word in str(error), True, "%s: what is said of it: %s" % (name, error))
            if text.find(">") >= 0 and name != "numbers":
                wrong(name, [place, word], lambda: bench.page.make(paths, no_lab))
    with files(empty="# nothing\n") as paths:
        wrong("a page of nothing", [paths[0], "no command"], lambda: bench.page.make(paths, no_lab))
        for words, part in [(["--check", paths[0] + "x"], paths[0] + "x: No such file"), (["--cover", os.path.dirname(paths[0])], "Is a directory"), (["--page", "/nowhere"], "/nowhere: No such file"),
                            (["--generate", "strange", "1", "1"], "invalid choice"), (["--generate", "system", "x", "1"], "x is no whole number"), (["--check"], "FILE"), (["--chart", paths[0], paths[0]], "unrecognized arguments"), ([paths[0], paths[0]], "one FILE"),
                            (["--sing"], "no such option here: --sing"), (["--log", "--sing"], "--sing"), (["/nowhere"], "/nowhere can't be read"), (["--generate", "wide", "1", "-1"], "COUNT"),
                            (["--generate", "wide", "1"], "COUNT"), (["--check", "--sing", paths[0]], "--sing"), (["--page"], "FILE"), (["--cover"], "FILE"),
                            (["--check", "--update", "-"], "standard input"), (["--generate", "system", "1", "1", "--into", paths[0]], paths[0])]:
            done = subprocess.run([os.path.join(ROOT, "lab")] + words, stdin=subprocess.DEVNULL, stdout=subprocess.PIPE, stderr=subprocess.PIPE, universal_newlines=True)
            same((done.returncode, done.stdout if words[0] != "--check" else "", part in done.stderr), (2, "", True), "./lab %s: %s" % (" ".join(words), done.stderr))
    with files(bytes=b"try\n> ok\nno \xff command\n") as paths:
        done = subprocess.run([os.path.join(ROOT, "lab"), "--check", paths[0]], stdin=subprocess.DEVNULL, stdout=subprocess.DEVNULL, stderr=subprocess.PIPE, env=dict(os.environ, LC_ALL="C", PYTHONUTF8="0"))
        same((done.returncode, b"lab: %s:3: no command: no \xff command\n" % paths[0].encode() in done.stderr), (2, True), "an error about bytes that are no text: %s" % done.stderr)
    for what in ("--check", "--cover", "--generate", "--page", ""):
        done = subprocess.run([os.path.join(ROOT, "lab")] + [what] * bool(what) + ["--help"], stdin=subprocess.DEVNULL, stdout=subprocess.PIPE, universal_newlines=True)
        same((done.returncode, "./lab " + what in done.stdout), (0, True), "./lab %s --help" % what)
    wrong("a lab that dies", ["3 answers came to 4 commands"], lambda: bench.history.answers_to([["try", "try", "try"]], lambda text: ["done"] * 3))


# What is typed, and what comes through a pipe.

# In the lab's place: it answers each line before it reads the next.
AT_ONCE = """import sys
for line in iter(sys.stdin.readline, ""):
    if line[0] not in "#\\n":
        print({"pool 0 64": "done", "join_create 16": "refused 3", "deliver": "idle"}.get(line.strip(), "unreadable"), flush=True)
"""
DIALOGUE = [("pool 0 64\n", "done\n"), ("# a comment\n\njoin_create 16\n", "refused 3\n"), ("> refused 3\ndeliver\n", "idle\n"), ("no command\n", "unreadable\n"), ("> unreadable\ndeliver", "")]


def answered(source):
    """The next line that is answered, if it comes soon."""
    came = ""
    while not came.endswith("\n") and select.select([source], [], [], 20)[0]:
        came += os.read(source, 100).decode()
    return came


def try_dialogue(program):
    """What is typed is answered before the next line is; expected answers are handed on to nobody."""
    (inside, typing), (answering, out), ended, slips = os.pipe(), os.pipe(), [], []
    with put(bench.answers, say_slip=lambda *slip: slips.append(slip)):
        work = threading.Thread(target=lambda: ended.append(bench.answers.answer_stream("here", inside, program, out)), daemon=True)
        work.start()
        for line, answer in DIALOGUE:
            os.write(typing, line.encode())
            same(answered(answering) if answer else "", answer, "what a dialogue answers to %r" % line)
        os.close(typing)
        same(answered(answering), "idle\n", "the answer to a last line that no newline ends")
        work.join(20)
    same((ended, slips in ([], [("here", 7, b"no command")])), ([0], True), "the status of a dialogue, and what is said of a line before it is known that it is not to be read: %s" % slips)


SLIPS = "pool 0 64\n> done\nlink-down 1\n\n# a comment\ntry \n> ok ..\nlook\r\nnonsense\n> unreadable\njoin_create 16\n"
SLIPPED = ["done", UNREADABLE, UNREADABLE, UNREADABLE, UNREADABLE, "refused 3"]


def try_slips():
    """Of each line that the lab can't read standard error says which, and why; from a file, from one on standard input and from a pipe. The lab itself is asked, compiled and not proved."""
    with files(slips=SLIPS, good=SLIPS.replace("link-down 1", "try").replace("try ", "try").replace("\r", "")) as paths:
        for way, name in [([paths[0]], paths[0]), (["-"], "standard input"), ([], "standard input")]:
            with open(paths[0], "rb") as f:
                done = subprocess.run([os.path.join(ROOT, "lab")] + way, stdout=subprocess.PIPE, stderr=subprocess.PIPE, **({"stdin": f} if way else {"input": SLIPS.encode()}))
            same((done.returncode, done.stdout.decode().split("\n")[:-1]), (2, SLIPPED), "./lab %s with slips: %s" % (" ".join(way), done.stderr))
            same([line for line in done.stderr.decode().split("\n")[:-1] if "not proved" not in line and "compiling" not in line],
                 ["lab: %s:%s" % (name, said) for said in ("3: no command; meant is perhaps: link_down ID: link-down 1", "6: a space or another mark too many: try ", "8: the line ends with a carriage return: look\r")], "what is said of slips")
        done = subprocess.run([os.path.join(ROOT, "lab"), paths[1]], stdout=subprocess.PIPE, stderr=subprocess.DEVNULL, universal_newlines=True)
        same((done.returncode, done.stdout.split("\n")[-3:-1]), (0, [UNREADABLE, "refused 3"]), "./lab on a history where one line is not to be read")
    same([(line, at) for at, line in bench.answers.slips_in(io.BytesIO(SLIPS.encode()), 0, [1, 2, 4])], [(b"link-down 1", 3), (b"try ", 6)], "slips in a file")
    answers = bench.answers.Answers(os.open(os.devnull, os.O_WRONLY))
    same([answers.hand_on(data) for data in (b"done\nunread", b"able\nunreadable", b" x\n\nunreadable\n")], [[], [1], [4]], "answers in pieces")


def try_why():
    said = []
    same((bench.why.tell(["3"], said.append), said), (0, ["refused 3: an id above 15, or a bit above 15 in a set"]), "./lab --why 3")
    bench.why.tell([], said.append)
    same(len(said), 1 + len(refusals.REFUSALS), "./lab --why")
    for words in (["0"], ["x"], ["22"], ["1", "2"]):
        wrong("./lab --why", ["number"], lambda: bench.why.tell(words))


# Many files.

class Terminal(io.StringIO):
    def isatty(self):
        return True


def try_spread():
    """Work that is spread over processes comes back in order; progress is shown on a terminal, and nowhere else."""
    same(bench.spread.cut("abcdef", [50000, 1, 1, 60000, 49999, 2], 2), [["a"], ["b", "c"], ["d"], ["e"], ["f"]], "runs of neighbours")
    same([len(run) for run in bench.spread.cut(range(64), [100000] * 64, 2)], [4] * 16, "runs of large things")
    here = os.getpid()
    same(list(bench.spread.results(lambda run: [os.getpid() != here, sum(run)], [[1, 2], [3], [4, 5]], 2)), [[True, 3], [True, 3], [True, 9]], "work by other processes")
    shown, hidden = Terminal(), io.StringIO()
    for stream in (shown, hidden):
        progress = bench.spread.Progress(5, "files", stream)
        progress.add(1)
        progress.began -= bench.spread.QUIET
        progress.add(2)
        progress.clear()
    same((shown.getvalue(), hidden.getvalue()), ("\r\033[Klab: 3 of 5 files\r\033[K", ""), "progress")


@contextlib.contextmanager
def put(module, **values):
    """Other values in a module, for a while."""
    before = {name: getattr(module, name) for name in values}
    for name, value in values.items():
        setattr(module, name, value)
    try:
        yield
    finally:
        for name, value in before.items():
            setattr(module, name, value)


def echo(text):
    return ["done" if line.startswith("pool") else "refused %d" % len(line) for line in text.split("\n")[:-1]]


def try_many():
    """Forty files over two processes, some of them bad: these are told of, the others are checked and counted, as by one process."""
    texts = {"f%02d" % k: "pool 0 64\n> done\ntry\n> refused %d\n" % (3 if k != 7 else 4) for k in range(40)}
    texts.update(f11="tyr\n", f13="> done\n", f17="try\n")
    with files(**texts) as paths, put(bench.spread, LEAST=1, cores=lambda: 2), put(bench.check, run_lab=echo, build_for=len):
        found = []
        for lab in (None, echo):
            errors = []
            status, said = checked(lab, *paths, paths[0] + "x", wrong=errors)
            found.append((status, said, errors))
        same(found[0], found[1], "a check by two processes")
        same((status, len(said), said[7:9], said[-1]), (2, 41, ["differs %s:3: try" % paths[7], "    expected: refused 4"], "37 passed, 1 differ, 3 could not be checked; 75 commands, 74 checked"), "a check of many files")
        same([e.split(": ", 1) for e in errors], [[paths[11] + ":1", "no command; meant is perhaps: try: tyr"], [paths[13] + ":1", "an expected answer stands right after its command: > done"],
                                                  [paths[17], "nothing is expected in it, so nothing was checked"], [paths[0] + "x", "No such file or directory"]], "what is said of bad files")
    failing = []

    def fails_at_one(text):
        failing.append(text)
        return echo(text)[:-1] if "tick" in text else echo(text)

    with files(a="try\n> refused 3\n", b="tick\n> refused 4\n", c="try\n> refused 3\n") as paths:
        errors = []
        same(checked(fails_at_one, *paths, wrong=errors), (2, ["passed %s: 1 of 1 commands checked" % paths[0], "passed %s: 1 of 1 commands checked" % paths[2], "2 passed, 0 differ, 1 could not be checked; 2 commands, 2 checked"]),
             "a program that fails at one file")
        same(errors, ["%s: 1 answers came to 2 commands" % paths[1]], "what is said of it")
    counted = []
    with files(a="try\n", b="tyr\n", c="write 1 1\n") as paths, put(bench.spread, LEAST=1, cores=lambda: 2), put(bench.cover, run_lab=lambda text: ["refused 9" if w[0] in ("try", "write") else "look" if w[0] == "look" else "done" for w in map(str.split, text.split("\n")[:-1])], build_for=len):
        for lab in (None, bench.cover.run_lab):
            said, errors = [], []
            status = bench.cover.cover(paths, lab, said.append, errors.append)
            counted.append((status, said, [str(e) for e in errors]))
    same(counted[0], counted[1], "a cover by two processes")
    same((counted[0][0], "Files: 2. Histories: 2. Commands: 2;" in counted[0][1][0], counted[0][2]), (2, True, ["%s:1: no command; meant is perhaps: try: tyr" % paths[1]]), "a cover with a bad file")
    with put(bench.spread, LEAST=1, cores=lambda: 2), put(bench.generate, run_lab=echo, command=len):
        said, alone = [], []
        bench.generate.generate(["system", "3", "9", "--expect"], None, said.append)
        bench.generate.generate(["system", "3", "9", "--expect"], echo, alone.append)
        same(said, alone, "histories with answers by two processes")


# trace

def traced(lab, *texts):
    return bench.trace.trace([parse("history %d" % k, text) for k, text in enumerate(texts, 1)], lab)


def hidden(steps, text):
    """What the nodes got at the steps with that command: lines and answers."""
    return [["node %d %s %s" % (e.node, " ".join([e.read.form.name] + [str(n) for n in e.read.numbers[1:]]), e.answer.split(" kept")[0].replace("ok node=%d " % e.node, "")) for e in s.nodes]
            for s in steps if s.command.text == text]


def try_trace(lab):
    steps, poked, sync = traced(lab, HIDDEN, POKED, SYNC)
    same(hidden(steps, "write 5 3"), [["node 0 write 5 0 1 state=NORMAL store=1 create=0 members=3 version=1", "node 1 write 5 0 1 refused 9"]], "marks that auto hands over")
    delivered = hidden(steps, "deliver")
    same(delivered[:2], [["node 1 map_ready 0 state=NO_IO store=1 create=0 members=3 version=0"], ["node 0 give_part 0 1024 refused 9", "node 1 map_disable state=NO_IO store=1 create=0 members=3 version=0"]],
         "a map that is not given")
    same(delivered[3][:2], ["node 0 give_part 0 1000 state=NORMAL store=1 create=0 members=3 version=2", "node 1 take 0 state=NO_IO store=1 create=0 members=3 version=0"], "a map in parts")
    same([s.event.numbers for s in steps if s.command.text == "deliver" and s.event], [(1, 1, 0), (2, 0, 0), (3, 1, 0), (4, 1, 0), (4, 0, 0), (4, 0, 0), (5, 1, 0)], "deliveries as answers")
    same([s.answer[:9] for s in steps if s.command.text == "deliver"][2:6], ["ok versio", "refused 2", "refused 2", "ok versio"], "answers that the client refuses")
    same([s.dirty for s in steps if s.command.text.startswith("synced")], [False, False], "chunks that were not dirty")
    same([(s.command.text, s.answer, s.event, s.nodes) for s in steps[-1:]], [("nonsense 1", UNREADABLE, None, [])], "a line that the lab does not read")
    same([bench.cover.session_row(s.before, 1).words for s in poked[3:5]], ["FAILED in maintenance, marked", "RECONNECTING in maintenance, marked"], "states put in")
    same([(e.before.transfer, e.before.got, e.after.transfer, e.after.got, e.answer[:10]) for s in poked for e in s.nodes if e.node == 3],
         [(1, 1024, 1, 2048, "ok node=3 "), (1, 2048, 1, 2048, "refused 16"), (1, 2048, 1, 0, "ok node=3 "), (1, 0, 2, 8192, "ok node=3 ")], "a transfer's bytes")
    same([bench.cover.node_row(e.before).words for s in poked for e in s.nodes if e.node == 4], ["CREATED without store"], "a node's state that no row has")
    same([bench.cover.session_row(s.before, 2).words for s in sync], ["none, no member", "none, no member", "NORMAL", "FAILED, cause link", "NORMAL", "NORMAL", "REMOVING (disassemble), LEAVE owed"], "a sync pool")


def try_messages():
    """Which node events a message is, as docs/HISTORIES.md says under auto and deliver."""
    for message, events in [
        ("POOL_INFO 3 0 1", "node 3 pool_info 0 1"), ("MARK 0 7 2 2", "node 0 write 7 2 2"), ("CLEAR 0 1 7", "node 0 synced 1 7"), ("MAP_CHECK 1 4", "node 1 map_check"), ("FILL 0 2 1", "node 0 fill 2 1"),
        ("MAP_DISABLE 2", "node 2 map_disable"), ("ENABLE 1 0", "node 1 enable0"), ("ENABLE 1 1 5 3", "node 1 enable1 5 3"), ("MAP_READY 1 0", "node 1 map_ready 0"),
        ("MAP_SEND 0 1", "node 0 give_part 0 1000; node 1 take 0"), ("MAP_DONE 1 1 5 7", "node 1 map_done 1 5 7"), ("MAP_GET_VER 2", "node 2 map_get_ver"), ("LAST_IO 2 0", "node 2 last_io 0"),
        ("LEAVE 1 0", "node 1 leave 1"), ("LEAVE 1 1", "node 1 leave 0"),
    ]:
        same("; ".join(told.line for told in bench.trace.handed(message.split(), 1000)), events, "the node events of %s" % message)


def try_disagreement():
    """Should a node answer otherwise in the second run, that is an error and no trace."""
    answers = [["done", "done", "refused 9"], ["done", "done", "refused 3"]]
    wrong("two runs that disagree", ["history 1:2", "refused 3"], lambda: traced(lambda text: answers.pop(0), "pool 0 64\nnode 0 fault\n"))


# The periodic map check, with answers written by hand.
TICKS = [("pool 0 64", "done"), ("poke session 0 2 0 0 0 0", "done"), ("poke session 1 2 0 0 0 0", "done"), ("poke members 3", "done"), ("poke count 2", "done"),
         ("tick", "ok version=1 count=2 members=3 sessions=NN.............. maint=0 marked=0 delete=0 owed=0 job=none | MAP_CHECK 0 1 | MAP_CHECK 1 1"),
         ("look", "look written=0 assembled=0 link=0 io=0 tick=1 due=3 once=0"),
         ("deliver_check", "ok version=1 count=2 members=3 sessions=NN.............. maint=0 marked=0 delete=0 owed=0 job=none"),
         ("look", "look written=0 assembled=0 link=0 io=0 tick=1 due=2 once=1"),
         ("check_answer 2 1 0", "refused 13"), ("look", "look written=0 assembled=0 link=0 io=0 tick=1 due=2 once=1")]


def try_ticks():
    """Ticks and their answers are traced and counted; before a map check the node's own row is looked at."""
    runs = [["done"] + [a for _, a in TICKS], ["done", "done", "clean", "ok node=0 state=NORMAL store=1 create=0 members=3 version=1 kept=- transfer=0 empty=1"]]
    fed = []

    def lab(text):
        fed.append(text)
        return runs[len(fed) - 1]

    (steps,) = traced(lab, "".join(line + "\n" for line, _ in TICKS if line != "look"))
    same(fed[0].split("\n")[1:-1], [line for line, _ in TICKS], "the first run of a history with ticks")
    same(fed[1].split("\n")[1:-1], ["pool 0 64", "row 0 0", "node 0 map_check"], "its second run")
    same([s.event and s.event.numbers for s in steps[-3:]], [(), (1, 0, 1), (2, 1, 0)], "ticks and their answers")
    same(bench.page.Happened(steps[-2]).arrows, [(0, [bench.page.CLIENT], "tick 1: empty", bench.page.ANSWERED)], "an answer to a tick on the page")
    cover = bench.cover.Cover()
    cover.add(steps)
    same(sorted(row.words for _, row, column in cover.pairs if column == bench.cover.CLIENT_COLUMNS["tick"][0][0]), ["NORMAL", "none, no member"], "who meets a tick")
    same(cover.numbers["client"][13], 1, "a check's answer that is refused")


# cover

def block_lab(pairs, column):
    """A lab that knows the answers to the lines of one block of the matrix; a look that a script puts in shows nothing new, and a row that is asked about has its chunk."""
    row = "clean" if column.endswith("row empty") else "dirty %d" % (matrix.CHUNK if pairs[-1][0].startswith("synced") else matrix.MAP + 6)

    def lab(text):
        said, left = ["done"], list(pairs)
        for line in text.split("\n")[1:-1]:
            if line.startswith(("look", "row")):
                said.append(row if line.startswith("row") else "look got=0" if " " in line else "look")
                continue
            while left[0][0] != line:
                left.pop(0)
            said.append(left.pop(0)[1])
        return said

    return lab


def try_columns():
    """The columns that events are told apart by are those of the matrix, and one more."""
    for table, events in ((bench.cover.CLIENT_COLUMNS, matrix.client_events(2, 2)), (bench.cover.NODE_COLUMNS, matrix.NODE_EVENTS)):
        named = {column for tests in table.values() for column, _ in tests}
        same(sorted(named - {column for column, *_ in events}), ["synced, clean for 1"] if table is bench.cover.CLIENT_COLUMNS else [], "columns that the matrix has not")
        same(sorted({column for column, *_ in events} - named), [], "columns of the matrix that no event has")
    kinds = {bench.history.CLIENT: bench.cover.CLIENT_COLUMNS, bench.history.NODE: bench.cover.NODE_COLUMNS}
    same([f.name for f in FORMS.values() if f.kind in kinds and f.name not in kinds[f.kind]], [], "events without a column")


def kept_blocks(mode):
    """The blocks of the matrix, each with the answers to its lines: the gate's own, which matrix.py compares with its page. With the lab itself, today's."""
    history, answers = whole()
    if mode == "real":
        history = matrix.history()
        answers = bench.history.run_lab(history)
    start = history.index(matrix.FIRST)
    at = len(parse("before", history[:start]).commands)
    found = {}
    for block in history[start + len(matrix.FIRST):].split("# ")[1:]:
        lines = block.split("\n")[1:-1]
        found[tuple(lines)] = answers[at : at + len(lines)]
        at += len(lines)
    return found


def try_cells(mode):
    """Each cell of the matrix, with its answers, is counted as that cell. The matrix's EMPTY node has no member, so that being told of one is another event for it."""
    kept, tried = kept_blocks(mode), 0
    for table, row, column, lines, line, looks in matrix.blocks():
        answers = kept.get(tuple(lines + [line] + looks))
        if answers is None or row == "EMPTY" and column in ("POOL_INFO, add-assemble", "fill", "fill, a lower version"):
            continue
        tried += 1
        steps = traced(block_lab(list(zip(lines + [line], answers)), column), "\n".join(lines + [line]))[0]
        cover = bench.cover.Cover()
        if table[0] == "client":
            cover.client(steps[-1])
        else:
            cover.node(steps[-1].nodes[0])
        found = {(r.words, c) for _, r, c in cover.pairs}
        same((row, column) in found, True, "%s counted as itself, and not only as %s: %s, %s" % (line, sorted(found), row, column))
        if table[0] == "node" or line.startswith(("answer", "check_answer")):
            same(len({c for _, c in found}), 1, "the columns of %s" % line)
    same(tried > 3000, True, "whether enough cells were tried: %d" % tried)


def try_by_poke():
    """Which pairs are said to be brought about by no event, by table and why: each row of that list stands for some, and the others are led to."""
    cells = [(bench.cover.CLIENT_TABLES[sync], row[0], column) for sync in (0, 1) for row in bench.cover.SESSION_ROWS[sync] for column, *_ in matrix.client_events(2, 2)]
    cells += [(bench.cover.NODE_TABLE, row, column) for row, _ in matrix.NODES for column, *_ in matrix.NODE_EVENTS]
    whys = {bench.cover.only_by_poke(*cell) for cell in cells}
    same(whys, {why for _, _, _, why in bench.cover.ONLY_BY_POKE} | {""}, "the reasons that are used")
    same({row for _, row, _ in bench.generate.DRIVEN["client"]} - set(bench.generate.WAYS), set(), "rows without a way to them")
    same({row for row, _ in bench.generate.DRIVEN["node"]} - set(bench.generate.NODE_WAYS), set(), "rows of a node without a way to them")


def try_writes():
    """Which columns a write has for a session, where it reached some and not others."""
    pool = bench.trace.Pool(letters="NNNF" + "." * 12, members=15)
    for reached, i, wanted in [(7, 0, "all"), (6, 0, "1 not"), (6, 1, "all"), (5, 3, "1 not"), (7, 3, "all, 1 not"), (0, 0, "none"), (0, 3, "none"), (8, 3, "all"), (8, 0, "1 not"), (2**20, 0, "1 not")]:
        met = bench.cover.Met((9, reached), pool=pool, id=i)
        found = [column[len("write, "):-len(" reached")] for column, meant in bench.cover.CLIENT_COLUMNS["write"] if meant(met)]
        same(", ".join(found), wanted, "the columns of a write that reached %d, for %d" % (reached, i))


class Tags(html.parser.HTMLParser):
    """The tags that are open, the texts by tag, and what a page would load."""

    def __init__(self, text):
        super().__init__()
        self.open, self.texts, self.loads = [], {}, []
        self.feed(text)
        self.close()

    def handle_starttag(self, tag, attrs):
        self.loads += [value for name, value in attrs if name in ("src", "href", "action", "data")]
        if tag not in ("meta", "input", "br", "link", "rect", "line", "path"):
            self.open.append(tag)

    def handle_endtag(self, tag):
        same(tag, self.open.pop() if self.open else None, "a tag that is closed")

    def handle_data(self, data):
        self.texts.setdefault(self.open[-1] if self.open else "", []).append(data)


def alone(text):
    """The tags of a page that loads nothing."""
    tags = Tags(text)
    same((tags.open, tags.loads), ([], []), "tags left open, and what a page loads")
    same(re.findall(r"https?://(?!www\.w3\.org/2000/svg)[^ \"]*|@import|url\(|fetch\(|XMLHttpRequest|import\(", text), [], "what a page would load")
    return tags


def covered(lab, *words):
    said = []
    same(bench.cover.cover(list(words), lab, said.append), 0, "the status of a cover")
    return "".join(said)


def try_cover(lab):
    with files(lost=example("leg-lost"), hidden=HIDDEN, poked=POKED, sync=SYNC) as paths:
        text = covered(lab, "--unreadable", *paths)
        for line in ["Files: 4. Histories: 5. Commands: 88; client events: 42; node events: 46, of them messages that auto and deliver handed over: 25.", "Unreadable: 1.",
                     "| 2 | 2 | - | a map, staging map or dump is not 8,192 bytes, or has a bit set past the chunk count |", "| 3 | 1 | - | an id above 15, or a bit above 15 in a set |",
                     "## Client, sync pool", "**an id above 15** (no row of docs/MATRIX.md)", "**FAILED in maintenance, marked** (no row of docs/MATRIX.md)",
                     "- Client, sync pool, 26: a sync pool takes no write, so none fails by one"]:
            same(line in text, True, "%r in what a cover says" % line)
        pairs = [("Client, non-sync pool", row, line) for row, line in [
            ("CREATED", "| enable | 4 | - |"), ("FAILED, cause link", "| store check good | 2 | - |"), ("FAILED, cause link", "| rejoin good | never | never |"),
            ("none, no member", "| join create | 4 | - |"), ("none, no member", "| extend | - | 11: 1 |"), ("NORMAL", "| link down | 3 | - |"), ("NORMAL", "| synced, dirty for 1 | 1 | - |"),
            ("RECONNECTING", "| answer, failed | 2 | 2: 1 |"), ("RECONNECTING", "| synced, clean for 1 | - | 12: 2 |"), ("REMOVING (delete), LEAVE owed", "| answer, another number | - | 13: 1 |")]]
        pairs += [("Client, sync pool", "FAILED, cause link", "| rejoin good | 1 | - |"), ("Client, sync pool", "NORMAL", "| write, all reached | - | 5: 1 |")]
        pairs += [("Node", row, line) for row, line in [("NORMAL", "| write | 4 | - |"), ("CREATED", "| write | - | 9: 1 |"), ("NO_IO, a part taken", "| take the second part | 1 | - |"),
                                                        ("NO_IO, MAP_READY taken", "| take a map, part by part | 3 | - |"), ("REGISTERED", "| give a part | - | 9: 1 |")]]
        for table, row, line in pairs:
            part = text.partition("\n## %s\n" % table)[2].partition("\n## ")[0].partition("\n**%s**" % row)[2].partition("\n**")[0]
            same([found for found in part.split("\n") if found.split(" |")[0] == line.split(" |")[0]], [line], "the pair of %s in %s" % (row, table))
        brief = covered(lab, "--unreadable", "--brief", *paths)
        same((text.startswith(brief), "\n## Node\n" in brief), (True, False), "a brief cover")
        page = alone(covered(lab, "--unreadable", "--html", *paths))
        same(page.texts["h2"], ["Client, non-sync pool", "Client, sync pool", "Node", "Refusals"], "the parts of a cover's page")
        same(page.texts["td"].count("never") > 100 and "refused 12: 2" in page.texts["small"], True, "the cells of a cover's page")


def try_questions(lab):
    """What is asked of a node counts by what there was to find, and by whether its summaries were true."""
    with files(asked=ASKED) as paths:
        text = covered(lab, *paths)
    part = text.partition("\n## Node\n")[2].partition("\n**NORMAL**")[2].partition("\n**")[0]
    for line in ["| map check | 1 | - |", "| map check, its own row empty | 1 | - |", "| next dirty chunk | 3 | - |", "| next dirty chunk, none | 1 | 3: 1 |", "| next dirty chunk, a start past the last | - | 4: 1 |",
                 "| next dirty chunk, the root's bit clear | - | 18: 1 |", "| write | 2 | - |", "| write, the root's bit clear | - | 18: 1 |", "| fault | - | 18: 1 |"]:
        same(line in part.split("\n"), True, "%r among what a NORMAL node met: %s" % (line, part))
    same("| 18 | - | 3 | a node's summary disagrees with its map |" in text, True, "the count of 18")


# chart and log

CHART = """                                  client        node 0        node 1

# Two legs, one of them lost.
pool 0 64                         |             |             |
join_create 0                     [C]           |             |
enable 0                          [N]           |             |
join_create 16                    |             |             |     refused 3
join_create 1                     [NC]          |             |
                                  |------------>|             |     POOL_INFO 0 1
enable 1                          [NN]          |             |
write 7 1                         [NF]          |             |     acked=1 list=2
                                  |------------>|             |     MARK 7 2 2
link_down 0                       [FF]          |             |
"""


def try_chart(lab):
    with files(checked=CHECKED) as paths:
        said = []
        same((bench.chart.draw(paths, lab, said.append), "".join(said)), (0, CHART), "a chart")


def try_log():
    """The records that are new, of the last pool alone."""
    commands = parse("log", "pool 0 64\njoin_create 0\nlook\npool 0 64\njoin_create 3\njoin_create 16\nenable 3\n").commands
    answers = "done|none|ok 1|record 1 1 0 0 0 1 0 0|look|record 1 1 0 0 0 1 0 0|done|none|ok 2|record 1 1 3 0 0 1 0 0|refused 3|record 1 1 3 0 0 1 0 0|ok 3|record 2 3 3 0 0 1 1 0".split("|")
    same(bench.log.log(commands, answers), ["1 1 3 0 0 1 0 0", "2 3 3 0 0 1 1 0"], "a log")


# The way through in docs/LAB.md.

def guide():
    with open(GUIDE, encoding="utf-8") as f:
        return f.read()


@contextlib.contextmanager
def inside(folder):
    """The names of files are those that a person types there."""
    before = os.getcwd()
    os.chdir(folder)
    try:
        yield
    finally:
        os.chdir(before)


def try_guide(lab):
    """The two histories of the page, checked, updated and covered, say what stands there."""
    named = re.findall(r"cat > (mine/\S+) <<'END'\n(.*?)END\n", guide(), re.S)
    with tempfile.TemporaryDirectory() as folder, inside(folder):
        os.mkdir("mine")
        for name, text in named:
            with open(name, "w", encoding="utf-8") as f:
                f.write(text)
        names = [name for name, _ in named]
        status, said = checked(lab, *names)
        same((len(names), status, "```text\n%s\n```" % "\n".join(said) in guide()), (2, 1, True), "the check of docs/LAB.md: %s" % said)
        checked(lab, "--update", names[1])
        same("\n> ok .. sessions=NN .. job=none\n" in content(names[1]).decode(), True, "the update of docs/LAB.md")
        table = [line for line in covered(lab, "--brief", *names).split("\n## ")[0].split("\n") if line.startswith("|")]
        same("```text\n%s\n```" % "\n".join(table) in guide(), True, "the cover of docs/LAB.md: %s" % table)


# generate

def made(kind, seed, count):
    return list(bench.generate.histories(kind, seed, count))


def try_chance():
    """The numbers are splitmix64's, whatever runs this."""
    chance = bench.driver.Chance("x")
    chance.state = 1234567
    same([chance.below(2**64) for _ in range(3)], [6457827717110365317, 3203168211198807973, 9817491932198370423], "splitmix64")
    chance.state = 1234567
    same([chance.below(100) for _ in range(5)], [35, 17, 53, 24, 88], "numbers below 100")
    same(bench.driver.Chance("system", 1, 2).state, int(hashlib.sha256(b"system 1 2").hexdigest()[:16], 16), "a seed")


def try_generate():
    """Histories are the same for the same seed, in any process; each line is a command; the first ones do not hang on how many there are."""
    program = "import sys; sys.path.insert(0, %r); sys.dont_write_bytecode = True; from bench import generate; generate.generate(sys.argv[1:])" % ROOT
    for kind in sorted(bench.generate.KINDS):
        few = made(kind, 7, 12)
        same(few[:5], made(kind, 7, 5), "the first histories of %s" % kind)
        same(few == made(kind, 8, 12), False, "whether another seed gives the same")
        for salt in ("0", "1"):
            done = subprocess.run([sys.executable, "-c", program, kind, "7", "12"], stdout=subprocess.PIPE, env=dict(os.environ, PYTHONHASHSEED=salt), universal_newlines=True)
            same(done.stdout, "".join("\n".join(lines) + "\n" for lines in few), "%s in another process" % kind)
        for k, lines in enumerate(few, 1):
            same((lines[0], lines[1].split()[0]), ("# %s 7 %d" % (kind, k), "pool"), "how a history begins")
            for line in lines[1:]:
                same(isinstance(read(line), str), False, "whether the lab does not read %r" % line)
        same(kind == "hostile" or sum("link_down" in line for lines in few for line in lines) > 9, True, "whether legs are lost in %s" % kind)
    wide = [line for lines in made("wide", 1, 12) for line in lines]
    same({"join_create %d" % i for i in range(16)} - set(wide), set(), "sixteen members")
    hostile = {n for lines in made("hostile", 1, 60) for line in lines[1:] for n in read(line).numbers}
    same({16, 2**63 - 34, 2**64 - 1} - hostile, set(), "hostile numbers")


def try_turns():
    """A thousand histories come to every cell that they can come to."""
    for kind, table in bench.generate.CELLS.items():
        for what, cells in table.items():
            order = bench.generate.order(kind, 3, what)
            same([bench.generate.in_turn(kind, 3, what, k) for k in (1, 2, len(cells), len(cells) + 1)], [order[0], order[1], order[-1], order[0]], "cells in turn")
            same((len(cells) <= 1000, sorted(order) == sorted(cells)), (True, True), "whether all %d cells come in turn" % len(cells))
            same(order == cells, False, "whether a seed has an order of its own")


def try_expect():
    """Answers are written in, and a check with the same answers passes. What they are does not matter here."""
    def lab(text):
        return ["ok line=%d" % len(line) for line in text.split("\n")[:-1]]

    said, count = [], 11
    with tempfile.TemporaryDirectory() as folder:
        same(bench.generate.generate(["system", "3", str(count), "--expect", "--into", folder], lab, said.append), 0, "generate")
        same(said, ["11 histories in %s\n" % folder], "what generate says")
        names = sorted(os.listdir(folder))
        same((len(names), names[0], names[-1]), (count, "system-3-01.history", "system-3-11.history"), "the files of generate")
        texts = [content(os.path.join(folder, name)).decode() for name in names]
        same([[line for line in text.split("\n")[:-1] if not line.startswith(">")] for text in texts], made("system", 3, count), "histories without their answers")
        status, said = checked(lab, *(os.path.join(folder, name) for name in names))
        commands = sum(len(lines) - 1 for lines in made("system", 3, count))
        same((status, said[-1]), (0, "11 passed, 0 differ; %d commands, %d checked" % (commands, commands)), "a check of generated histories")


# page

def drawn(lab, text, name="page"):
    """The data of a page, read from it."""
    with files(**{name: text}) as paths:
        said = []
        same(bench.page.make(paths, lab, said.append), 0, "the status of a page")
    page = "".join(said)
    tags = alone(page)
    same(page.isascii(), True, "whether a page can be written in any encoding")
    return json.loads(tags.texts["script"][0])


def at(series, key, k):
    found = [place for when, place in series["of"].get(key, []) if when <= k]
    return series["values"][found[-1] if found else 0]


def try_page(lab):
    text = example("leg-lost") + "# </script><!-- a comment that would end the data\nrow 0 1\n"
    data = drawn(lab, text)
    lines = text.split("\n")
    same((data["name"], data["nodes"]), ("page.history", [0, 1]), "the name of a page and its nodes")
    same([c[:2] for c in data["commands"]], [[c.at, c.text] for c in parse("", text).commands], "commands and their lines")
    same(data["commands"][0][4], ["# A leg is lost and comes back.", "# Two nodes make a pool of 64 chunks. Messages that are not awaited reach their", "nodes at once."], "comments")
    same(data["commands"][-1][4], ["# </script><!-- a comment that would end the data"], "a comment")
    place = {c[1]: k for k, c in enumerate(data["commands"])}
    delivers = [k for k, c in enumerate(data["commands"]) if c[1] == "deliver"]
    write, synced = place["write 7 1"], place["synced 1 7 0"]
    same(data["commands"][write][5:], [[[-1, [0], "MARK 7 2 2", 0]], [], ["MARK 7 2 2 to 0: taken"]], "a write")
    same(data["commands"][place["write 5 3"]][5], [[-1, [0, 1], "MARK 5 0 1", 0]], "a message to two nodes")
    same(data["commands"][place["link_down 1"]][6], [[-1, "NF"]], "a session that changes")
    same(data["commands"][delivers[1]][5], [[0, [1], "the map", 3], [1, [-1], "#2: good", 2], [-1, [1], "MAP_DONE 1 2 3 #3", 1]], "a map that is sent")
    same(data["commands"][delivers[2]][6], [[-1, "NN"], [1, "NORMAL"]], "a leg that is back")
    rows = data["rows"]
    same([at(rows, key, k) for k in (write - 1, write, delivers[1], delivers[2], synced) for key in ("client 1", "0 1", "1 1", "-2 1")],
         ["", "", "", ""] + ["7", "7", "", ""] + ["7", "7", "", "7"] + ["7", "7", "7", ""] + ["7", "", "", ""], "rows of the client, of both nodes, and of staging")
    pool, sessions, members, chunks = data["pools"][data["commands"][place["link_down 1"]][3]]
    same((dict(map(tuple, pool))["version"], sessions[:3], members, chunks), ("2", ["NORMAL", "FAILED (link)", ""], 3, 64), "the pool")
    same([dict(map(tuple, data["pools"][data["commands"][k][3]][0]))["awaited"] for k in (delivers[0], delivers[2])], ["MAP_SEND 0 1 #2", "nothing"], "what is awaited")
    same([at(data["states"], "1", k)[0] for k in (0, place["node 1 register_create"], write, delivers[0], delivers[2])], ["EMPTY", "REGISTERED, marked create", "NORMAL", "NO_IO", "NORMAL"], "a node's states")
    same(lines[data["commands"][synced][0] - 1], "synced 1 7 0", "a command's line")


def try_page_of_pokes(lab):
    data = drawn(lab, HIDDEN)
    delivers = [c for c in data["commands"] if c[1] == "deliver"]
    same(delivers[1][5], [[0, [-1], "#2: failed (refused 9)", 2], [-1, [1], "MAP_DISABLE", 0]], "a map that is not given")
    same([c for c in data["commands"] if c[1] == "write 5 3"][0][5], [[-1, [0, 1], "MARK 5 0 1 (1: refused 9)", 0]], "a mark that a node refuses")
    same(data["commands"][-1][2:], [UNREADABLE, len(data["pools"]) - 1, [], [], [], []], "a line that the lab does not read")
    data = drawn(lab, POKED)
    place, last = {c[1]: k for k, c in enumerate(data["commands"])}, len(data["commands"]) - 1
    same([at(data["states"], "3", place[c])[4] for c in ("poke_node 3 4 1 0 8 5 1", "poke_got 3 1024", "node 3 take_part 1024 1024 2", "node 3 map_ready 0")],
         ["0 bytes", "1024 bytes", "2048 bytes", "0 bytes"], "a transfer")
    same([at(data["rows"], key, k) for k in (last - 1, last) for key in ("2 2", "-4 2", "-4 0")], ["48-49", "48-49", "0", "", "", ""], "rows that bytes were put into, and a fresh pool")
    same([at(data["states"], "3", k)[0] for k in (last - 1, last)], ["NO_IO", "EMPTY"], "a node, and a fresh one")
    series = bench.page.Series("")
    for k, value in ((3, "a"), (3, "b"), (5, "b"), (6, "a")):
        series.put("x", k, value)
    same([at(series.data(), "x", k) for k in range(8)], ["", "", "", "b", "b", "b", "a", "a"], "values that change")
    same(series.of, {"x": [[3, 2], [6, 1]]}, "values that change twice at one command, or do not")


# With the lab itself.

def try_expected_lines():
    """Expected answers are passed over by ./lab, ./lab --chart and ./lab --log too."""
    plain = "".join(line + "\n" for line in CHECKED.split("\n") if not line.startswith(">"))
    for option in ([], ["--chart"], ["--log"]):
        with files(plain=plain, kept=CHECKED) as paths:
            without, kept = [subprocess.run([os.path.join(ROOT, "lab")] + option + [path], stdout=subprocess.PIPE, check=True).stdout for path in paths]
            same(kept, without, "./lab %s with expected answers in the history" % " ".join(option))


def try_thousands(lab):
    """A thousand histories of each kind leave no pair out but those that no event brings about."""
    for kind in sorted(bench.generate.KINDS):
        cover = bench.cover.Cover()
        for steps in bench.trace.trace([parse(kind, "\n".join(lines)) for lines in made(kind, 1, 1000)], lab):
            cover.add(steps)
        for table in bench.cover.tables(cover):
            missing = [(row.words, c) for row, columns in bench.cover.never(cover, table).items() for c in columns]
            same([pair for pair in missing if not bench.cover.only_by_poke(table.name, *pair)], [], "pairs that a thousand %s histories leave out" % kind)
            pairs = [(row.words, c) for row in table.rows[: table.known[0]] for c in table.columns[: table.known[1]]]
            by_poke = [pair for pair in pairs if bench.cover.only_by_poke(table.name, *pair)]
            same(missing, [] if kind == "hostile" else by_poke, "pairs that no event of a thousand %s histories brings about" % kind)
        occur = [bench.cover.share(cover, table)[1] for table in bench.cover.tables(cover)]
        numbers = ", ".join(str(n) for n, _ in bench.cover.missing_numbers(cover)) or "none"
        line = "| `%s` | %s | %d | %d | %d | %s |" % (kind, format(cover.commands, ","), *occur, numbers)
        same(line in guide(), True, "a line of docs/LAB.md: %s" % line)


def try_written_out(lab):
    """A history answers the same with its deliveries and messages written out as node events and answers."""
    histories = [parse(name, example(name)) for name in ("leg-lost", "assembled", "receiver-fails", "removal-halts", "stale-leg")] + [parse("hidden", HIDDEN)]
    histories += [parse(kind, "\n".join(lines)) for kind in sorted(bench.generate.KINDS) for lines in made(kind, 5, 60)]
    for history, steps in zip(histories, bench.trace.trace(histories, lab)):
        pairs = [pair for step in steps for pair in written_out(step)]
        (answers,) = bench.history.answers_to([[line for line, _ in pairs]], lab)
        same([(line, a) for (line, _), a in zip(pairs, answers)], pairs, "%s written out" % history.name)


def written_out(step):
    """The lines that do what a step does, with auto off, each with its answer."""
    def line(event):
        return "node %d %s" % (event.node, " ".join([event.read.form.name] + [str(n) for n in event.read.numbers[1:]])), event.answer

    events = [line(e) for e in step.nodes if not e.own]
    text = step.command.text
    if step.answer in (UNREADABLE, "idle"):
        return []
    if text != "deliver":
        return [("auto 0" if text == "auto 1" else text, step.answer)] + events
    count = len([t for t in bench.trace.handed(step.before.awaited, 1)]) if step.event.numbers[1] or step.before.awaited[0] != "MAP_SEND" else 1 + (len(events) > 1 and " take " in events[1][0])
    return events[:count] + [("answer %d %d %d" % step.event.numbers, step.answer)] + events[count:]


def main():
    mode = sys.argv[1] if len(sys.argv) == 2 else "kept" if len(sys.argv) == 1 else ""
    if mode not in ("kept", "keep", "real"):
        sys.exit(__doc__)
    lab = Lab(mode)
    for test in (try_language, try_reading, try_fitting, try_driver, try_large_check, try_errors, try_messages, try_disagreement, try_ticks, try_columns, try_by_poke, try_writes):
        test()
    for test in (try_chance, try_generate, try_turns, try_expect, try_log, try_slips, try_why, try_spread, try_many):
        test()
    try_dialogue([sys.executable, "-c", AT_ONCE])
    try_dialogue(build.command("lab"))
    try_cells(mode)
    for test in (try_check, try_update, try_trace, try_cover, try_questions, try_chart, try_guide, try_page, try_page_of_pokes):
        test(lab)
    if mode == "keep":
        same(build.is_proved("lab", build.sources_changed(["lab"])), True, "whether the lab is proved, whose answers are to be kept (./lab --prove)")
        lab.keep()
    if mode == "real":
        try_expected_lines()
        try_written_out(lab)
        try_thousands(lab)


if __name__ == "__main__":
    main()
