"""The gate's test of how the programs are built and run; it says nothing where all is well.

  python3 -m programs.test

The programs are compiled for it, not proved: some seconds, once (what is proved of them, rt ci says). The inputs of programs/cases/ are tried on them, then what a person types: wrong words, folders for files,
files that are not there; then, in a copy of the repository, that a program older than its sources is not used in silence, and `--prove` with another `rt` in the place of the kit's.
"""
import os
import resource
import shutil
import stat
import subprocess
import sys
import tempfile
import time

from programs import audit, build
from tools.crates import ROOT

CASES = os.path.join(ROOT, "programs", "cases")
NOT_PROVED = "compiled, not proved on this machine: ./%s --prove proves it ("


def same(got, wanted, what):
    if got != wanted:
        sys.exit("programs.test: %s: %.600r, not %.600r" % (what, got, wanted))


def content(*path):
    try:
        with open(os.path.join(*path), "rb") as f:
            return f.read()
    except FileNotFoundError:
        return b""


def typed(words, data=b"", folder=ROOT, **more):
    """What is typed, with what on standard input: exit status, standard output, standard error without the line that says how the program was built."""
    done = subprocess.run([os.path.join(folder, words[0])] + words[1:], input=data, stdout=subprocess.PIPE, stderr=subprocess.PIPE, **more)
    said = done.stderr.decode("utf-8", "replace").split("\n")
    return done.returncode, done.stdout, "\n".join(line for line in said if NOT_PROVED % words[0] not in line and "compiling the program" not in line)


# The programs themselves.

def program_of(case):
    return next(name for name in ("status", "compare", "audit") if case.startswith(name))


def try_cases():
    """Each case's input gives its output, as rt runs a program: args a word a line, data/ where it runs."""
    for case in sorted(os.listdir(CASES)):
        name, here = program_of(case), os.path.join(CASES, case)
        words = content(here, "args").decode().split("\n")[:-1]
        command = build.runner(build.compiled(name, build.sources_changed([name])))
        with tempfile.TemporaryDirectory() as folder:
            if os.path.isdir(os.path.join(here, "data")):
                shutil.copytree(os.path.join(here, "data"), folder, dirs_exist_ok=True)
            done = subprocess.run(command + words, input=content(here, "stdin"), cwd=folder, stdout=subprocess.PIPE, stderr=subprocess.PIPE)
        same((done.returncode, done.stdout), (0, content(here, "stdout")), "case %s" % case)
        same(done.stderr, b"refused 20\n" if case == "statusrefused" else b"", "what case %s says on standard error" % case)


# What a person types.

LOG = b"1 1 0 0 0 1 0 0\n2 1 1 0 0 1 0 0\n3 3 0 0 0 1 1 0\n4 3 1 0 0 1 2 0\n5 5 1 0 0 2 1 4\n"


def try_typed():
    """Exit status 0 same or accepted, 1 different or `record K`, 2 what can't be read; and words that say why."""
    with tempfile.TemporaryDirectory() as folder:
        empty, other, short, nowhere = (os.path.join(folder, name) for name in ("empty", "other", "short", "nowhere"))
        for path, data in ((empty, bytes(8192)), (other, b"\1" + bytes(8191)), (short, bytes(8191))):
            with open(path, "wb") as f:
                f.write(data)
        for words, data, status, out, said in [
            (["status", empty, "3", "100", "65536"], b"", 0, b"\0\x64\0\0\0\0\0\0", ""),
            (["status", empty, "16", "100", "65536"], b"", 2, b"", "refused 3\nstatus: refused 3: an id above 15"),
            (["status", short, "3", "100", "65536"], b"", 2, b"", "refused 2"),
            (["status", nowhere, "3", "100", "65536"], b"", 2, b"", "status: %s: No such file or directory" % nowhere),
            (["status", folder, "3", "100", "65536"], b"", 2, b"", "status: %s: Is a directory" % folder),
            (["status", "read", "100", "65536"], b"\0\x64\0\0\0\0\0\0", 0, bytes(512), ""),
            (["status", "read", "100", "65536"], b"\0\x64\0\0\0\0\0", 2, b"", "refused 20"),
            (["status"], b"", 2, b"", "usage: status"),
            (["compare", empty, empty], b"", 0, b"same\n", ""),
            (["compare", empty, other], b"", 1, b"0 0 2\n", ""),
            (["compare", empty, short], b"", 2, b"refused 2\n", "%s: 8191 bytes" % short),
            (["compare", empty, nowhere], b"", 2, b"", "compare: %s: No such file or directory" % nowhere),
            (["compare", folder, empty], b"", 2, b"", "compare: %s: Is a directory" % folder),
            (["compare", empty], b"", 2, b"", "usage: ./compare FIRST SECOND"),
            (["audit"], LOG, 0, b"accepted 5\n", ""),
            (["audit", "-"], b"", 0, b"accepted 0\n", ""),
            (["audit"], LOG.replace(b"2 1 4\n", b"2 2 4\n"), 1, b"record 5\n", "audit: record 5: count 2, the rules say 1: 5 5 1 0 0 2 2 4"),
            (["audit"], LOG.replace(b"3 3 0", b"3 3 5"), 1, b"record 3\n", "audit: record 3: refused 7: "),
            (["audit"], LOG.replace(b"\n", b"\r\n"), 1, b"record 1\n", "audit: record 1: it ends with a carriage return"),
            (["audit", empty], b"", 1, b"record 1\n", "audit: record 1: longer than 255 bytes"),
            (["audit", nowhere], b"", 2, b"", "audit: %s: No such file or directory" % nowhere),
            (["audit", folder], b"", 2, b"", "audit: %s: Is a directory" % folder),
            (["audit", "--sing"], b"", 2, b"", "usage: ./audit [FILE]"),
            (["library", "--sing"], b"", 2, b"", "usage: ./library"),
        ]:
            found = typed(words, data)
            same((found[0], found[1], said in found[2] and bool(said) == bool(found[2])), (status, out, True), "./%s: %s" % (" ".join(words), found[2]))
        for name in ("status", "compare", "audit", "lab"):
            same((typed([name, "--help"])[0], b"./%s" % name.encode() in typed([name, "--help"])[1]), (0, True), "./%s --help" % name)
        for name in ("status", "audit", "lab"):
            with subprocess.Popen([os.path.join(ROOT, name)] + ["read", "1", "4096"] * (name == "status"), stdin=os.open(folder, os.O_RDONLY), stdout=subprocess.PIPE, stderr=subprocess.PIPE) as process:
                out, said = process.communicate()
            same((process.returncode, out, b"Is a directory" in said), (2, b"", True), "./%s with a folder on standard input: %s" % (name, said))


def try_reasons():
    """Why a line is no record."""
    for line, why in [(b"", "empty"), (b"\xef\xbb\xbf1 1 0 0 0 1 0 0", "byte order mark"), (b"1\t1 0 0 0 1 0 0", "a tab"), (b"1  1 0 0 0 1 0 0", "a space"), (b"1 1 0 0 0 1 0", "7 numbers"), (b"1 1 0 0 0 1 0 0 0", "9 numbers"),
                      (b"1 one 0 0 0 1 0 0", "no number: one"), (b"1 1 0 0 0 1 0 18446744073709551616", "no number"), (b"2 1 0 0 0 1 0 0", "sequence 2, its place is 1"), (b"1 16 0 0 0 1 0 0", "no kind"), (b"1 1 0 0 0 1 0 0", "")]:
        found = audit.reason(1, line)
        same(why in found and bool(why) == bool(found), True, "why %r is no record: %s" % (line, found))


# Which program is run.

RT = """#!/bin/sh
# In the place of the kit's: proves nothing.
crate=$(basename "$PWD")
case $1 in
lib | run)
	[ -z "${FAILS-}" ] || { echo 'rt: some words'; exit 1; }
	mkdir -p out
	if [ $1 = run ]; then
		[ -e out/$crate ] || cp ../../target/quick/$crate out/$crate
		echo "rt: running out/$crate; and so on" >&2
		exit 1 # the program's own
	fi
	echo $crate >out/lib$crate.a ;;
*) exec %s "$@" ;;
esac
"""


def try_built(name="compare"):
    """In a copy of the repository: compiled at the first use and said so; compiled anew after an edit; proved with progress, then used in silence; after an edit no more."""
    with tempfile.TemporaryDirectory() as folder:
        copy = os.path.join(folder, "copy")
        shutil.copytree(ROOT, copy, symlinks=True, ignore=shutil.ignore_patterns(".git", "target", "out", "docs/landings", "must-fail", "stdin", "stdout"))
        os.mkdir(os.path.join(folder, "bin"))
        with open(os.path.join(folder, "bin", "rt"), "w", encoding="utf-8") as f:
            f.write(RT % shutil.which("rt"))
        os.chmod(f.name, 0o755)
        with open(os.path.join(folder, "map"), "wb") as f:
            f.write(bytes(8192))
        other = dict(os.environ, PATH=os.path.join(folder, "bin") + os.pathsep + os.environ["PATH"])
        quick, proved = (os.path.join(copy, "target", part, name) for part in ("quick", "bin"))
        crates = build.in_turn([name])
        source = os.path.join(copy, "crates", crates[0], "src", "lib.rt")

        def run(*words, **more):
            done = subprocess.run([os.path.join(copy, name)] + list(words or (f.name, f.name)), stdout=subprocess.PIPE, stderr=subprocess.PIPE, universal_newlines=True, env=dict(other, **more))
            return done.returncode, done.stdout, done.stderr

        def edit():
            os.utime(source)  # as an edit does
            time.sleep(0.02)  # a clock's step

        used = lambda: sum(resource.getrusage(resource.RUSAGE_CHILDREN)[:2])
        began, before = time.monotonic(), used()
        status, out, said = run()
        took = min(time.monotonic() - began, used() - before)  # by its own processor time where other work stands in its way
        same((status, out, "compiling" in said, NOT_PROVED % name in said), (0, "same\n", True, True), "the first run: %s" % said)
        same(took < 30, True, "whether the first answer came within 30 seconds, not %d" % took)
        status, out, said = run()
        same((status, out, "compiling" in said, NOT_PROVED % name in said), (0, "same\n", False, True), "the second run: %s" % said)
        edit()
        same("compiling" in run()[2], True, "whether a compiled program that is older than its sources is compiled anew")
        same(os.stat(quick).st_mtime_ns >= os.stat(source).st_mtime_ns, True, "whether it is newer then")
        status, out, said = run("--prove", FAILS="1")
        same((status, "some words" in said, "NOT PROVED" in said, os.path.exists(proved)), (1, True, True, False), "a proof that fails: %s" % said)
        status, out, said = run("--prove")
        same((status, ["%s: crate %d of %d: %s" % (name, k, len(crates), c) for k, c in enumerate(crates, 1) if "crate %d of %d: %s" % (k, len(crates), c) not in said]), (0, []), "the progress of a proof: %s" % said)
        same(run(), (0, "same\n", ""), "a run of the proved program")
        edit()
        status, out, said = run()
        same((status, out, "the proved program is older than its sources" in said and NOT_PROVED % name in said), (0, "same\n", True), "a run after an edit: %s" % said)
        same((run("--prove")[0], run()), (0, (0, "same\n", "")), "a proof of what rt finds unchanged, and a run after it")
        os.remove(os.path.join(copy, "target", "stamp", name))
        same(NOT_PROVED % name in run()[2], True, "whether a program that rt did not pass is not taken for proved")
        for what, archives in (("the first time", 2), ("again", 0), ("after an edit", 2)):
            if what == "after an edit":
                edit()
            done = subprocess.run([os.path.join(copy, "library")], stdout=subprocess.PIPE, stderr=subprocess.PIPE, universal_newlines=True, env=other)
            same((done.returncode, done.stdout, done.stderr.count("library: archive ")), (0, os.path.join(copy, "target", "library") + "\n", archives), "./library %s: %s" % (what, done.stderr))
        same(sorted(os.listdir(os.path.join(copy, "target", "library"))), ["libmunzolkheg_client.a", "libmunzolkheg_node.a", "lines.h", "munzolkheg.h"], "the library")
        os.chmod(os.path.join(folder, "bin", "rt"), stat.S_IRUSR)
        done = subprocess.run([sys.executable, "-B", os.path.join(copy, "programs"), name, f.name, f.name], stdout=subprocess.PIPE, stderr=subprocess.PIPE, universal_newlines=True, env=dict(other, PATH=os.path.join(folder, "bin")))
        same((done.returncode, done.stdout, "the Rattle kit is not here" in done.stderr), (2, "", True), "a run without rt: %s" % done.stderr)


def main():
    if len(sys.argv) != 1:
        sys.exit(__doc__)
    try_reasons()
    try_cases()
    try_typed()
    try_built()


if __name__ == "__main__":
    main()
