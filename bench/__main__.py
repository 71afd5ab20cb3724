"""./lab WORD.. runs `python3 bench WORD..`."""
import importlib
import os
import sys

sys.path[0] = os.path.dirname(os.path.dirname(os.path.abspath(__file__)))
from programs.build import Wrong, main, prove_program

USAGE = """\
usage: ./lab [FILE]                      what the rules say to a history: a line for each command (no FILE, or -: standard input)
       ./lab --why [N]                   what the refusal N is given for; without N all of them
       ./lab --chart [FILE]              its messages as a sequence chart
       ./lab --log [FILE]                the log of its client, a record a line, for ./audit; of several pools the last one's
       ./lab --check FILE..              compares the answers with those expected, the lines `> ANSWER` after commands; --update rewrites them
       ./lab --cover FILE..              which pairs of state and event occur, and which never do
       ./lab --generate KIND SEED COUNT  many histories; KIND is system, hostile or wide
       ./lab --page FILE                 a history as one page for a browser
       ./lab --against DRIVER            looks for the shortest history on which a driver differs from the rules (docs/DRIVERS.md)
       ./lab --simulate SEED             a pool under faults, with its data: nothing is lost, unless a promise is broken (docs/SIMULATION.md)
       ./lab --prove                     proves the program, which is else only compiled
Those from --chart to --simulate say more with --help after them. The commands of a history: docs/HISTORIES.md; the way through: docs/LAB.md.
Exit status: 0; 1 where a check differs; 2 where a file, a line of it or a word can't be read.
"""
OPTIONS = {"--check": "check", "--cover": "cover", "--generate": "generate", "--page": "make", "--against": "against", "--simulate": "simulate", "--chart": "draw", "--log": "write_log", "--why": "tell"}  # of each module the function that does what was typed


def work():
    option, *words = sys.argv[1:] or [""]
    if option in ("--help", "-h"):
        sys.stdout.write(USAGE)
        return 0
    if option == "--prove" and not words:
        return prove_program("lab")
    if option in OPTIONS:
        return getattr(importlib.import_module("bench." + option[2:]), OPTIONS[option])(words)
    if option.startswith("-") and option != "-":
        raise Wrong("no such option here: %s (./lab --help says what there is)" % option)
    return importlib.import_module("bench.answers").answer(sys.argv[1:])


main("lab", work)
