"""./NAME WORD.. runs `python3 programs NAME WORD..`."""
import importlib
import os
import sys

sys.path[0] = os.path.dirname(os.path.dirname(os.path.abspath(__file__)))
from programs.build import main, prove_program

name, *words = sys.argv[1:]
module = importlib.import_module("programs." + name)


def work():
    if words in (["--help"], ["-h"]):
        print(module.__doc__, end="")
        return 0
    if words == ["--prove"] and name != "library":
        return prove_program(name)
    return module.work(words)


main(name, work)
