"""A program to run: the proved one where it is as new as its sources, else one that is compiled in seconds with no proof, and then it is said so on standard error.

What a program is made of is read from crates.txt: src/, specs/ and proofs/ of its crates. target/bin/NAME is the proved program, target/quick/NAME the one that is only compiled.
"""
import fcntl
import functools
import math
import os
import re
import shutil
import stat
import subprocess
import sys
import tempfile
import time

from tools.check_times import seconds
from tools.crates import ROOT, depths, graph, made_of

TARGET = os.path.join(ROOT, "target")
QUICK = os.path.join(TARGET, "quick")


class Wrong(Exception):
    """What a person typed or wrote that can't be worked with, or what is not here: said in one line, with exit status 2."""


def standard_input():
    """Standard input as bytes; whoever started the program may have closed it."""
    if sys.stdin is None:
        raise Wrong("standard input is closed")
    return sys.stdin.buffer


def say(name, words):
    print("%s: %s" % (name, words), file=sys.stderr, flush=True)


# The kit.

@functools.lru_cache(maxsize=None)
def kit():
    """The kit's folder."""
    try:
        said = subprocess.run(["rt", "doc"], stdout=subprocess.PIPE, check=True, universal_newlines=True).stdout
    except (OSError, subprocess.CalledProcessError):
        raise Wrong("the Rattle kit is not here: `rt` could not be run") from None
    return os.path.dirname(os.path.realpath(said.split("\n")[0]))


def runner(path):
    """The words that run a program, an x86-64 program, over the kit's C library."""
    there = os.path.join(kit(), "toolchain", "lib")
    return [os.path.join(there, "ld-linux-x86-64.so.2"), "--library-path", there, path]


# What is newer.

def latest(path):
    """When a file, or anything in a folder, was last changed."""
    try:
        found = os.stat(path)
    except FileNotFoundError:
        return 0
    newest = found.st_mtime_ns
    if stat.S_ISDIR(found.st_mode):
        for entry in os.scandir(path):
            newest = max(newest, latest(entry.path) if entry.is_dir() else entry.stat().st_mtime_ns)
    return newest


def sources_changed(names):
    """When the sources of some programs or crates were last changed."""
    parts = [os.path.join(ROOT, "crates", crate, part) for crate in made_of(names, graph()) for part in ("src", "specs", "proofs")]
    return max(latest(path) for path in parts + [os.path.join(ROOT, "crates.txt")])


def is_new(path, changed):
    """Whether what was built is there, and as new as its sources."""
    return os.path.exists(path) and os.stat(path).st_mtime_ns >= changed


def built_from(path, changed):
    """What was built is as new as its sources were when it was begun, whatever has been edited since, and whatever clock they have their times from."""
    os.utime(path, ns=(changed, changed))


# Compiled.

# What `rt try` compiles and links, run with the checks that it puts into the code, and throws away: here it is compiled fast to run, without the memory checks that the compiler could put in besides, and kept.
CLANG = """#!/bin/sh
for word; do
	shift
	case $word in -fsanitize=address) ;; -O0) set -- "$@" -O1 ;; *) set -- "$@" "$word" ;; esac
done
exec "{kit}/toolchain/bin/clang" "$@"
"""
LINKER = """#!/bin/sh
"{kit}/toolchain/bin/ld.lld" "$@" || exit
while [ $# -gt 1 ]; do [ "$1" != -o ] || cp "$2" "{mine}/program"; shift; done
exit 1
"""
# `rt try` also looks whether a name of the crate is reserved; `rt check` says that.
RATTLE = """#!/bin/sh
case " $* " in *" --start "*) exit 1 ;; esac
exec "{kit}/bin/rattle" "$@"
"""
EMPTY_ARCHIVE = "!<arch>\n"
OTHER = {"toolchain/bin/clang": CLANG, "toolchain/bin/ld.lld": LINKER, "bin/rattle": RATTLE, "c/asan.a": EMPTY_ARCHIVE}
COPIED = ("bin/rt", "bin/rtlib.py")  # they look for the kit from where they are


def kit_of_our_own(mine):
    """A folder like the kit, but for a compiler and a linker that keep what `rt try` would throw away."""
    for folder in {os.path.dirname(path) for path in OTHER}:
        os.makedirs(os.path.join(mine, folder))
    for folder in ("", "bin", "c", "toolchain", "toolchain/bin"):
        for name in os.listdir(os.path.join(kit(), folder)):
            path = os.path.join(folder, name)
            there, here = os.path.join(kit(), path), os.path.join(mine, path)
            if path in OTHER:
                with open(here, "w", encoding="utf-8") as f:
                    f.write(OTHER[path].format(kit=kit(), mine=mine))
                os.chmod(here, 0o755)
            elif path in COPIED:
                shutil.copy(there, here)
            elif not os.path.isdir(here):
                os.symlink(there, here)


def compile_quickly(name, changed):
    """Compiles a program as `rt try` does, with no proof, and keeps it as target/quick/NAME."""
    with tempfile.TemporaryDirectory(dir=QUICK, prefix=name + ".") as mine:
        kit_of_our_own(mine)
        done = subprocess.run([sys.executable, "-B", os.path.join(mine, "bin", "rt"), "try", "--steps", "1"], cwd=os.path.join(ROOT, "crates", name), stdin=subprocess.DEVNULL,
                              stdout=subprocess.PIPE, stderr=subprocess.STDOUT, universal_newlines=True, errors="replace")
        made = os.path.join(mine, "program")
        if not os.path.exists(made):
            sys.stderr.write("".join(line + "\n" for line in done.stdout.split("\n")[-20:] if line))
            raise Wrong("the program could not be compiled")
        os.chmod(made, 0o755)
        built_from(made, changed)
        os.replace(made, os.path.join(QUICK, name))


def compiled(name, changed):
    """The compiled program, made anew where it is older than its sources. Two that want it at once wait for each other."""
    path = os.path.join(QUICK, name)
    os.makedirs(QUICK, exist_ok=True)
    with open(os.path.join(QUICK, name + ".lock"), "w", encoding="utf-8") as lock:
        fcntl.flock(lock, fcntl.LOCK_EX)
        if not is_new(path, changed):
            say(name, "compiling the program: some seconds, once")
            compile_quickly(name, changed)
    return path


# Proved.

def minutes(names):
    """How long a proof from nothing takes, by the times of docs/CHECK-TIMES.md: the crates are proved one after the other."""
    times = seconds()
    count = math.ceil(sum(times.get(crate, 0) for crate in made_of(names, graph())) / 60)
    return "%d minute%s" % (count, "" if count == 1 else "s")


def cores():
    return len(os.sched_getaffinity(0))


def in_turn(names):
    """The crates that these are made of, each after those that it rests on."""
    depth = depths(graph())
    return sorted(made_of(names, graph()), key=depth.get)


def made_by_rt(crate, file):
    """A file that rt leaves with a crate: the program NAME, the archive libNAME.a."""
    return os.path.join(ROOT, "crates", crate, "out", file)


def prove_crate(crate, log):
    """Whether a crate is proved. A library is built for those above it, a static one as an archive; a program is built and run once, on nothing, since rt builds none without running it."""
    folder = os.path.join(ROOT, "crates", crate)
    is_program = os.path.exists(os.path.join(folder, "src", "main.rt"))
    began = time.monotonic()
    done = subprocess.run(["rt", "run" if is_program else "lib"], cwd=folder, stdin=subprocess.DEVNULL, stdout=subprocess.PIPE, stderr=subprocess.STDOUT, universal_newlines=True, errors="replace")
    log.write(done.stdout)
    proved = "rt: running out/%s;" % crate in done.stdout if is_program else not done.returncode
    log.write("%s %s (%d s)\n" % (crate, "proved" if proved else "not proved", round(time.monotonic() - began)))
    log.flush()
    return proved


def prove(what, names):
    """Proves crates and all they rest on, and says how far it is."""
    crates = in_turn(names)
    os.makedirs(TARGET, exist_ok=True)
    say(what, "proving %d crates, from nothing some %s" % (len(crates), minutes(names)))
    kit()
    with open(os.path.join(TARGET, what + ".log"), "w+", encoding="utf-8", errors="replace") as log:
        for k, crate in enumerate(crates, 1):
            if not prove_crate(crate, log):
                log.seek(0)
                sys.stderr.writelines(log.readlines()[-20:])
                say(what, "NOT PROVED (target/%s.log has all of it)" % what)
                return False
            say(what, "crate %d of %d: %s" % (k, len(crates), crate))
    return True


def proved_program(name):
    return os.path.join(TARGET, "bin", name)


def stamp_of(name):
    """A file that is there where the proved program is one that rt passed."""
    return os.path.join(TARGET, "stamp", name)


def is_proved(name, changed):
    """Whether the proved program is there and as new as its sources."""
    return is_new(proved_program(name), changed) and os.path.exists(stamp_of(name))


def prove_program(name):
    """What `./NAME --prove` does; the exit status."""
    changed = sources_changed([name])
    for path in (proved_program(name), stamp_of(name)):
        os.makedirs(os.path.dirname(path), exist_ok=True)
    if not prove(name, [name]):
        return 1
    mine = proved_program(name) + ".new"  # the old one may be running
    shutil.copy(made_by_rt(name, name), mine)
    built_from(mine, changed)
    os.replace(mine, proved_program(name))
    open(stamp_of(name), "w", encoding="utf-8").close()
    say(name, "proved: target/bin/%s is used from now on" % name)
    return 0


@functools.lru_cache(maxsize=None)
def program(name):
    """The words that run a program, which is built where it has to be."""
    changed = sources_changed([name])
    if is_proved(name, changed):
        return tuple(runner(proved_program(name)))
    path = compiled(name, changed)
    old = "the proved program is older than its sources; this one is " if os.path.exists(proved_program(name)) else ""
    say(name, "%scompiled, not proved on this machine: ./%s --prove proves it (%s)" % (old, name, minutes([name])))
    return tuple(runner(path))


def command(name, words=()):
    if not shutil.which("rt"):
        raise Wrong("the Rattle kit is not here: there is no `rt` on the PATH")
    return list(program(name)) + list(words)


def main(name, work):
    """Runs a script's work; the exit status is what it hands back, 2 after an error. Bytes that are no text are written as they came."""
    for stream in (sys.stdout, sys.stderr):
        stream.reconfigure(encoding="utf-8", errors="surrogateescape")
    try:
        status = work()
        sys.stdout.flush()
    except Wrong as e:
        say(name, e)
        status = 2
    except BrokenPipeError:
        os.dup2(os.open(os.devnull, os.O_WRONLY), 1)  # whoever read it has seen enough
        status = 1
    except OSError as e:
        say(name, e)
        status = 2
    except KeyboardInterrupt:
        status = 130
    sys.exit(status)
