"""./library: the library for C (docs/LIBRARY.md).

  ./library           builds target/library/libmunzolkheg_client.a, target/library/libmunzolkheg_node.a and their header, munzolkheg.h, and says where they are
  ./library --built   builds nothing: says where they are if they are there and as new as their sources, else exit status 1

It is built by proving it: some minutes the first time, and whenever its sources have changed; it says how far it is. Exit status: 0, 1 where it is not proved, 2 where a word is wrong.
"""
import os
import shutil

from programs.build import ROOT, TARGET, Wrong, built_from, is_new, made_by_rt, prove, say, sources_changed

THERE = os.path.join(TARGET, "library")
HEADERS = ("munzolkheg.h", "lines.h")
SIDES = {"client": "library_client", "node": "library_node"}  # each archive, and its crate


def path_of(side):
    return os.path.join(THERE, "libmunzolkheg_%s.a" % side)


def build(sides):
    """Whether these archives were proved and made."""
    changed = sources_changed([SIDES[side] for side in sides])
    if not prove("library", [SIDES[side] for side in sides]):
        return False
    for k, side in enumerate(sides, 1):
        say("library", "archive %d of %d: %s" % (k, len(sides), side))
        shutil.copy(made_by_rt(SIDES[side], "lib%s.a" % SIDES[side]), path_of(side))
        built_from(path_of(side), changed)
    return True


def work(words):
    if words not in ([], ["--built"]):
        raise Wrong("usage: ./library [--built]")
    old = [side for side, crate in SIDES.items() if not is_new(path_of(side), sources_changed([crate]))]
    if words and old:
        return 1
    os.makedirs(THERE, exist_ok=True)
    for name in HEADERS:
        shutil.copy(os.path.join(ROOT, "c", name), THERE)
    if old and not build(old):
        return 1
    if os.uname().machine != "x86_64":
        say("library", "the archives link into x86-64 programs only: build your test for x86-64 and run it under an emulator, or compare histories with ./lab (docs/LIBRARY.md)")
    print(THERE)
    return 0
