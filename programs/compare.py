"""./compare: two map dumps, files of any names.

  ./compare FIRST SECOND   a line MEMBER CHUNK WHICH for each difference (WHICH 1: dirty in the first only, 2: in the second only), or `same`, or `refused 2`
  ./compare --prove        proves the program

Exit status: 0 same, 1 different, 2 where a file can't be read or is no dump, or a word is wrong.
"""
import os
import subprocess
import sys
import tempfile

from programs.build import Wrong, command
from programs.refusals import number_of, why
from programs.status import demand_file

NAMES = ("first.map", "second.map")  # which the program opens where it runs
MAP_BYTES = 8192


def work(words):
    if len(words) != 2:
        raise Wrong("usage: ./compare FIRST SECOND")
    for path in words:
        demand_file(path)
    with tempfile.TemporaryDirectory() as folder:
        for path, name in zip(words, NAMES):
            os.symlink(os.path.abspath(path), os.path.join(folder, name))
        done = subprocess.run(command("compare"), cwd=folder, stdin=subprocess.DEVNULL, stdout=subprocess.PIPE, stderr=subprocess.PIPE, close_fds=False)
    answer, said = (data.decode("utf-8", "surrogateescape") for data in (done.stdout, done.stderr))
    for path, name in zip(words, NAMES):
        said = said.replace(name + ":", path + ":")
    sys.stdout.write(answer)
    if said or done.returncode or not answer:
        raise Wrong(said.strip() or "the program was ended (%d)" % done.returncode)
    number = number_of(answer.strip())
    if number:
        lengths = "; ".join("%s: %d bytes" % (path, os.path.getsize(path)) for path in words if os.path.isfile(path) and os.path.getsize(path) != MAP_BYTES)
        raise Wrong(why(number) + (" (%s)" % lengths if lengths else ""))
    return 0 if answer == "same\n" else 1
