#!/usr/bin/env python3
"""A driver to copy (docs/DRIVERS.md): it reads the commands of a history, one a line, and answers each with a line.

This one is a client that can make legs, enable them, lose them and write. It answers `?` to all else, and of its answers it gives the fields that it has: version, count, sessions, and of a write
acked and list. In the place of Pool goes your own driver: call it, and say what it did.

    ./lab --against examples/driver-under-test.py
"""
import sys


class Pool:
    def __init__(self, chunks):
        self.chunks, self.version, self.written = chunks, 1, False
        self.sessions = ["."] * 16  # and C, N, F

    def say(self, more=""):
        return "ok version=%d count=%d sessions=%s%s" % (self.version, self.sessions.count("N"), "".join(self.sessions).rstrip("."), more)

    def lost(self, i):
        self.version += self.sessions[i] == "N"
        self.sessions[i] = "F"

    def join_create(self, i):
        if i > 15:
            return "refused 3"
        if self.sessions[i] != ".":
            return "refused 8"
        if self.written:
            return "refused 17"
        self.sessions[i] = "C"
        return self.say()

    def enable(self, i):
        if i > 15:
            return "refused 3"
        if self.sessions[i] == ".":
            return "refused 7"
        if self.sessions[i] != "C":
            return "refused 9"
        if self.written:
            return "refused 17"
        self.sessions[i] = "N"
        return self.say()

    def link_down(self, i):
        if i > 15:
            return "refused 3"
        if self.sessions[i] == ".":
            return "refused 7"
        if self.sessions[i] == "F":
            return "refused 9"
        self.lost(i)
        return self.say()

    def write(self, chunk, reached):
        if reached > 65535:
            return "refused 3"
        if chunk >= self.chunks:
            return "refused 4"
        normal = [i for i in range(16) if self.sessions[i] == "N"]
        if not normal or any(reached >> i & 1 and i not in normal for i in range(16)):
            return "refused 11"
        for i in normal:
            if not reached >> i & 1:
                self.lost(i)
        missed = sum(1 << i for i in range(16) if self.sessions[i] in "CF") if reached else 0
        self.written = self.written or reached > 0
        return self.say(" acked=%d list=%d" % (reached > 0, missed))


def main():
    pool = Pool(4096)
    for line in sys.stdin:
        name, *numbers = line.split()
        if name == "pool" and numbers[0] == "0" and 1 <= int(numbers[1]) <= 4096:
            pool = Pool(int(numbers[1]))
            answer = "done"
        elif name in ("join_create", "enable", "link_down", "write"):
            answer = getattr(pool, name)(*map(int, numbers))
        else:
            answer = "?"
        print(answer, flush=True)


main()
