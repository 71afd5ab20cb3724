"""Tests of `./lab --against` (bench/against.py), which the gate runs (python3 -m bench.test_against): comparing, drivers that misbehave, and a few of the gallery's wrong drivers, found and made short.

The gallery's drivers run in this process, and the lab is the one that is compiled with no proof.
"""
import os
import subprocess
import sys
import tempfile

from bench import against, model, search, shrink, wrong
from bench.gallery import Here
from bench.under_test import Ended, Finding, Ran, Speaks, judged, otherwise
from tools.crates import ROOT

EXAMPLE = os.path.join(ROOT, "examples", "driver-under-test.py")


def same(got, wanted, what):
    if got != wanted:
        sys.exit("bench.test_against: %s: %.600r, not %.600r" % (what, got, wanted))


def asked(driver, *words):
    """The status of --against and what it says, and the files that it leaves."""
    said = []
    with tempfile.TemporaryDirectory() as folder:
        status = against.against(["driver", "--into", folder, "-q", *words], said.append, said.append, driver)
        files = {}
        for name in sorted(os.listdir(folder)):
            with open(os.path.join(folder, name), encoding="utf-8") as f:
                files[name] = f.read()
    return status, "\n".join(said).replace(folder, "."), files


def try_comparing():
    line = "ok version=2 count=1 members=3 sessions=NF.............. maint=0 marked=0 delete=0 owed=0 job=none acked=1 list=2 | MARK 0 7 2 2"
    speaks, talks = Speaks(), Speaks()
    talks.messages = True
    for rules, said, who, what in [
        (line, line, talks, None), (line, "ok", speaks, None), (line, "ok version=2", speaks, None), (line, "ok version=3", speaks, "version"), (line, "ok sessions=NF", speaks, None),
        (line, "ok sessions=NN", speaks, "sessions"), (line, "ok version=2", talks, "messages"), (line, "ok version=2 | MARK 0 7 2 2", speaks, None), (line, "ok | MARK 0 7 2 3", speaks, "messages"),
        (line, "refused 9", speaks, "answer"), (line, "ok taken=1", speaks, "taken"), (line, "ok strange=1", speaks, "strange"), (line, "ok then", speaks, "answer"), (line, "", speaks, "answer"),
        (line, "Driver 1.0", speaks, "answer"), ("refused 9", "refused 9", speaks, None), ("refused 9", "refused", speaks, None), ("refused 9", "refused 7", speaks, "refusal"), ("refused 9", line, speaks, "answer"),
        ("clean", "dirty 1", speaks, "row"), ("dirty 1-2", "dirty 1", speaks, "row"), ("done", "idle", speaks, "answer"), ("look written=0 tick=1", "look tick=2", speaks, "tick"), ("none", "record 1 2", speaks, "record"),
        (line, "ok version=3 count=1", Speaks(None, ["count"]), None), (line, "ok | MARK 1 1 1 1", Speaks(None, ["count"]), None), (line, "ok | MARK 1 1 1 1", Speaks(None, ["MARK"]), "messages"), ("refused 9", "refused 8", Speaks(None, ["count"]), None),
    ]:
        found = otherwise(rules, said, who)
        same(found and found.what, what, "in what %r differs from %r" % (said, rules))


def try_unspoken():
    """A command that is not spoken of is no difference; one that changes what is spoken of ends the comparison."""
    lines, rules = ["pool 0 64", "tick", "link_down 0"], ["done", "ok", "ok version=2"]
    ran = Ran(["done", "?", "ok version=2"], "", "", 0)
    same(judged(lines, rules, ran, Speaks(), lambda gone: ["done", "", "ok version=2"]), None, "a command that changes nothing that is spoken of")
    same(judged(lines, rules, ran, Speaks(), lambda gone: ["done", "", "ok version=1"]), Ended(2, 1), "a command that does")
    same(judged(lines, rules, ran._replace(answers=["done", "?", "ok count=0"]), Speaks(), lambda gone: ["done", "", "ok version=1"]).at, 2, "a field that the rules do not have")
    same(judged(lines, rules, Ran(["done"], "it ended with status 3", "", 0), Speaks(), None), Finding(1, "no answer", "ok", "it ended with status 3", "", ""), "a driver that says too little")


def try_shrinking():
    """What is needed stays, and what is not goes; numbers become smaller."""
    lab = search.Dialogue()
    lines = ["pool 0 4096"] + ["join_create %d" % i for i in (3, 7, 9)] + ["enable 7", "write 5 128", "link_down 3", "try", "tick", "link_down 7", "look"]

    def test(candidates):
        """A session that was NORMAL is lost."""
        found = []
        for c in candidates:
            _, answers = search.play(lab, c)
            at = next((k for k, (line, a) in enumerate(zip(c, answers)) if line.startswith("link_down") and "version=2" in a), None)
            found.append(c[: at + 1] if at is not None else None)
        return found

    work = shrink.Shrink(test([lines])[0], test, lab)
    same(work.done(), ["pool 0 1", "join_create 0", "enable 0", "link_down 0"], "a history made shorter")
    lab.close()


def try_right():
    """No difference where there is none: the rules once more in Python, each kind."""
    for kind in ("client", "node", "both"):
        status, said, _ = asked(Here(model.Driver), "--kind", kind, "--histories", "25")
        same((status, "no difference" in said), (0, True), "the model, as kind %s: %s" % (kind, said))


IN_THE_GATE = ("quiet-maintenance", "early-done", "kept-mark", "short-count", "rejoin-after-io", "stale-sync")


def try_gallery(names=IN_THE_GATE):
    same(len(wrong.TWELVE), 12, "the drivers that were asked for")
    for name in names:
        _, most, make = wrong.GALLERY[name]
        status, said, files = asked(Here(make()), "--histories", "120")
        same((status, len(files)), (1, 1), "%s: %s" % (name, said))
        (text,) = files.values()
        commands = [line for line in text.split("\n") if line and line[0] not in "#>"]
        same(len(commands) <= most, True, "whether a history of %d commands is short enough for %s: %s" % (len(commands), name, commands))


def try_report():
    """The report has what a person needs to see it again, and the file passes a check by the rules."""
    status, said, files = asked(Here(wrong.GALLERY["quiet-maintenance"][2]()), "--histories", "10")
    for part in ("## `maintenance 0`: version", "the rules say | `version=2`", "the driver says | `version=1`", "the event meets | NORMAL", "./lab --check ./regress-maintenance-version.history", "./lab --page ./regress-maintenance-version.history > page.html", "--histories 0"):
        same(part in said, True, "whether %r is in the report: %s" % (part, said))
    same(files, {"regress-maintenance-version.history": """# driver differs at: maintenance 0
# the rules say:   version=2
# the driver says: version=1
# found by: ./lab --against driver --kind both --seed 1 --histories 0
#
pool 0 1
> done
join_create 0
> ok version=1 count=0 members=1 sessions=C............... maint=0 marked=0 delete=0 owed=0 job=none
enable 0
> ok version=1 count=1 members=1 sessions=N............... maint=0 marked=0 delete=0 owed=0 job=none
maintenance 0
> ok version=2 count=0 members=1 sessions=R............... maint=1 marked=1 delete=0 owed=0 job=none | ENABLE 0 0
"""}, "the file")


# Drivers in processes of their own, that misbehave.

def driver_file(folder, text, mode=0o755, name="driver"):
    path = os.path.join(folder, name)
    with open(path, "w", encoding="utf-8") as f:
        f.write(text)
    os.chmod(path, mode)
    return path


PYTHON = "#!%s -S\n" % sys.executable
ANSWERS = PYTHON + """import sys
%s
for k, line in enumerate(iter(sys.stdin.readline, "")):
    %s
    print("done" if line.startswith("pool") else "?"%s)
"""


def try_processes():
    """A driver that ends, hangs, says too much, or buffers; and what can't be started."""
    with tempfile.TemporaryDirectory() as folder:
        def run(text, *words):
            said = []
            path = driver_file(folder, text)
            status = against.against([path, "--into", folder, "-q", "--timeout", "1.5", "--shrink", "2", "--histories", "3", *words], said.append, said.append)
            return status, "\n".join(said)

        for what, text, part in [
            ("ends", ANSWERS % ("", "if line.startswith('link'): sys.exit(3)", ", flush=True"), "it ended with status 3"),
            ("is killed", ANSWERS % ("import os", "if line.startswith('link'): os.abort()", ", flush=True"), "it was ended by SIGABRT"),
            ("hangs", ANSWERS % ("import time", "if line.startswith('link'): time.sleep(60)", ", flush=True"), "it gave no answer within 1.5 s"),
            ("has a banner", ANSWERS % ("print('Driver 1.0', flush=True)", "", ", flush=True"), "a line before any command: Driver 1.0"),
            ("says two lines", ANSWERS % ("", "line.startswith('link') and print('?')", ", flush=True"), "it wrote more lines than it was given commands"),
            ("says garbage", ANSWERS % ("", "line.startswith('link') and (sys.stdout.buffer.write(b'\\xff\\x00\\n'), sys.stdout.flush()) and next(sys.stdin)", ", flush=True"), "\\xff"),
        ]:
            status, said = run(text)
            same((status, part in said), (1, True), "a driver that %s: %s" % (what, said))
        status, said = run(ANSWERS % ("import os; sys.stdout = open(1, 'w', 65536)", "if line.startswith('link'): os.abort()", ""))
        same((status, "it was ended by SIGABRT" in said, "## `link_down 0`" in said), (1, True, True), "a driver that buffers, and ends: %s" % said)
        status, said = run(ANSWERS % ("sys.stdout = open(1, 'w', 65536)", "", ""))
        same((status, "answers only when its input ends" in said, "no difference" in said), (0, True, True), "a driver that buffers: %s" % said)
        for what, path, part in [
            ("a folder", folder, "it is a directory"), ("no file", os.path.join(folder, "nobody"), "there is no such program"), ("no program", driver_file(folder, "x", 0o644, "text"), "it is not executable"),
            ("no interpreter", driver_file(folder, "#!/nowhere/at/all\n", name="script"), "can't be started"), ("nothing", "''", "can't be started"), ("an open quote", "'x", "can't be read"),
        ]:
            done = subprocess.run([os.path.join(ROOT, "lab"), "--against", path], stdin=subprocess.DEVNULL, stdout=subprocess.PIPE, stderr=subprocess.PIPE, text=True)
            same((done.returncode, done.stdout, part in done.stderr), (2, "", True), "--against %s: %s" % (what, done.stderr))
        for words, part in [(["--only", "sing"], "no such command: sing"), (["--fields", "sing"], "no such field: sing"), (["--for", "soon"], "soon is no time"), (["--kind", "sing"], "invalid choice"), (["--into", "/nowhere"], "no such folder")]:
            done = subprocess.run([os.path.join(ROOT, "lab"), "--against", EXAMPLE] + words, stdin=subprocess.DEVNULL, stdout=subprocess.PIPE, stderr=subprocess.PIPE, text=True)
            same((done.returncode, part in done.stderr), (2, True), "--against %s: %s" % (words, done.stderr))


def try_example():
    """The example is right in what it speaks of, and one with a bug is found."""
    with open(EXAMPLE, encoding="utf-8") as f:
        text = f.read()
    said = []
    with tempfile.TemporaryDirectory() as folder:
        same(against.against([EXAMPLE, "--into", folder, "-q", "--histories", "12"], said.append, said.append), 0, "the example: %s" % said)
        path = driver_file(folder, text.replace('in "CF")', 'in "F")'))
        same((against.against([path, "--into", folder, "-q", "--histories", "60"], said.append, said.append), os.listdir(folder).count("regress-write-list.history")), (1, 1), "the example with a bug: %s" % said)
        kept = os.path.join(folder, "regress-write-list.history")
        for program, status in (([], 0), (["--with", path], 1), (["--with", EXAMPLE], 0)):
            done = subprocess.run([os.path.join(ROOT, "lab"), "--check", *program, kept], stdout=subprocess.PIPE, stderr=subprocess.DEVNULL, text=True)
            same(done.returncode, status, "a check of what was found, with %s: %s" % (program or "the lab", done.stdout))


def run_all():
    for test in (try_comparing, try_unspoken, try_shrinking, try_right, try_gallery, try_report, try_processes, try_example):
        test()


if __name__ == "__main__":
    run_all()
