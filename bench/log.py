"""The log of a history's client, a record a line, for `./audit` (docs/AUDIT.md); `./lab --log` runs it.

A history may hold several pools: the log is that of the last one. Exit status: 0, or 2 where the file is missing or is no history.
"""
import argparse
import sys

from bench.history import answers_to, load, run_lab

RECORD = "record "


def log(commands, answers):
    """The records, by the answers to each command and to the look for a record after it. A record that was there already is left out."""
    found = []
    for command, answer, record in zip(commands, answers[::2], answers[1::2]):
        if command.text.split(" ")[0] == "pool" and answer == "done":
            found = []
        if record.startswith(RECORD) and int(record.split()[1]) > len(found):
            found.append(record[len(RECORD):])
    return found


def arguments(words):
    parser = argparse.ArgumentParser(prog="./lab --log", description=__doc__, formatter_class=argparse.RawDescriptionHelpFormatter)
    parser.add_argument("file", metavar="FILE", nargs="?", default="-", help="a history; `-`, or none, is standard input")
    return parser.parse_args(words)


def write_log(words, run=run_lab, write=sys.stdout.write):
    commands = load(arguments(words).file).commands
    (answers,) = answers_to([[line for c in commands for line in (c.text, "record")]], run)
    write("".join(line + "\n" for line in log(commands, answers)))
    return 0
