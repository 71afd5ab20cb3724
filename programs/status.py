"""./status: a member's row of a map file as block status descriptors, and back.

  ./status MAP MEMBER CHUNKS CHUNK_SIZE   writes the member's row of the map file as block status descriptors to standard output
  ./status read CHUNKS CHUNK_SIZE         reads descriptors from standard input and writes the 512 bytes of the row
  ./status --prove                        proves the program

Exit status: 0, or 2 after a refusal (a line `refused N` on standard error), and where a file can't be read or a word is wrong.
"""
import subprocess
import sys

from programs.build import Wrong, command
from programs.refusals import number_of, why


def work(words):
    if words[:1] != ["read"] and words:
        demand_file(words[0])
    # The program has no exit status of its own: it failed where it said something on standard error.
    sys.stdout.flush()
    done = subprocess.run(command("status", words), stderr=subprocess.PIPE)
    said = done.stderr.decode("utf-8", "surrogateescape")
    sys.stderr.write(said)
    if number_of(said.strip()):
        sys.stderr.write("status: %s\n" % why(number_of(said.strip())))
    if done.returncode:
        raise Wrong("the program was ended (%d)" % done.returncode)
    return 2 if said else 0


def demand_file(path):
    """A file that can be opened, and is no folder; else why not."""
    try:
        with open(path, "rb"):
            pass
    except OSError as e:
        raise Wrong("%s: %s" % (path, e.strerror)) from None
