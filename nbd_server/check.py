"""Real NBD clients beside the lab: do they see the chunks that `./lab` prints? No part of the gate, which needs no package.

  python3 -m nbd_server.check

For each row tried, a map file with that row is served by `./nbd`. `nbdinfo` (libnbd) and `qemu-img` (QEMU) read its dirty bitmap, and the chunks that they report are compared with what `./lab`
prints for the same bytes. And the other way: a bitmap that QEMU itself made and exports (`qemu-nbd --bitmap`) is read by `nbdinfo`, turned into a row by `./status read`, and compared with what was written.
What needs a program that is not here is said to be not run. The exit status is 1 where something differs.
"""
import contextlib
import json
import os
import shutil
import socket
import struct
import subprocess
import sys
import tempfile
import time

from bench.history import chunks as dirty_chunks
from tools.crates import ROOT

MEMBER = 3
CONTEXT = "qemu:dirty-bitmap:member-%d" % MEMBER
PACKAGE = {"nbdinfo": "libnbd-bin", "qemu-img": "qemu-utils", "qemu-io": "qemu-utils", "qemu-nbd": "qemu-utils"}

# Words, chunks, chunk size, dirty chunks.
ROWS = [
    ("empty row", 100, 65536, set()),
    ("full row", 100, 65536, set(range(100))),
    ("alternating chunks", 4096, 4096, set(range(0, 4096, 2))),
    ("last chunk only", 100, 65536, {99}),
    ("1 MiB chunks, 4,096 of them, full", 4096, 1 << 20, set(range(4096))),
    ("1 MiB chunks, 4,096 of them, empty", 4096, 1 << 20, set()),
    ("1 MiB chunks, 4,096 of them, all but the last", 4096, 1 << 20, set(range(4095))),
    ("1,021 chunks, no multiple of 8", 1021, 32768, {0, 7, 8, 9, 500, 1015, 1016, 1020}),
]
MADE_BY_QEMU = [
    ("empty row", 100, 65536, set()),
    ("full row", 100, 65536, set(range(100))),
    ("alternating chunks", 64, 65536, set(range(1, 64, 2))),
    ("101 chunks, no multiple of 8", 101, 65536, {3, 4, 20, 100}),
]


def run(*command, data=None):
    return subprocess.run(command, input=data, stdout=subprocess.PIPE, check=True).stdout


def row(dirty):
    """The 512 bytes of a row."""
    made = bytearray(512)
    for k in dirty:
        made[k // 8] |= 1 << k % 8
    return bytes(made)


def map_of(chunks, dirty):
    """A map with that row; every other row holds the other chunks, so that a row taken for another is seen."""
    other = row(set(range(chunks)) - dirty)
    return b"".join(row(dirty) if m == MEMBER else other for m in range(16))


def ranges(dirty):
    """Runs of chunks: first, and how many."""
    found = []
    for k in sorted(dirty):
        if found and sum(found[-1]) == k:
            found[-1] = (found[-1][0], found[-1][1] + 1)
        else:
            found.append((k, 1))
    return found


def lab(rows):
    """The dirty chunks of each row, as ./lab prints them."""
    lines = []
    for _, chunks, _, dirty in rows:
        lines += ["pool 0 %d" % chunks] + ["byte 0 %d %d" % (i, v) for i, v in enumerate(map_of(chunks, dirty)) if v] + ["row 0 %d" % MEMBER]
    said = run(os.path.join(ROOT, "lab"), data="".join(line + "\n" for line in lines).encode()).decode().split("\n")
    return [chunks_printed(line) for line in said if line and line != "done"]


def chunks_printed(line):
    if line.split()[0] not in ("clean", "dirty"):
        sys.exit("nbd-check: ./lab says " + line)
    return dirty_chunks(line)


def chunks_of(extents, chunks, chunk_size):
    """The dirty chunks of extents (start, length, dirty), which must cover the volume in order and in whole chunks; else what is wrong."""
    at, found = 0, set()
    for start, length, dirty in extents:
        if start != at or length % chunk_size or length <= 0:
            return "an extent of %d at %d, after %d" % (length, start, at)
        at += length
        if dirty:
            found.update(range(start // chunk_size, at // chunk_size))
    return found if at == chunks * chunk_size else "%d bytes covered" % at


@contextlib.contextmanager
def until_done(*command, **more):
    """A server that is ended afterwards."""
    with subprocess.Popen(command, **more) as process:
        try:
            yield process
        finally:
            process.terminate()


@contextlib.contextmanager
def nbd(path, chunks, chunk_size):
    """./nbd with the map; its URI."""
    command = [os.path.join(ROOT, "nbd"), "map", str(MEMBER), str(chunks), str(chunk_size), "--socket", path]
    with until_done(*command, stdout=subprocess.PIPE) as server:
        ready = server.stdout.readline().decode().split()
        if ready[:1] != ["ready"]:
            sys.exit("nbd-check: ./nbd did not start")
        yield ready[1]


def nbdinfo(uri, context):
    """Extents as libnbd reads them: (start, length, flags)."""
    return [(e["offset"], e["length"], e["type"]) for e in json.loads(run("nbdinfo", "--json", "--map=" + context, uri))]


def qemu_img(path):
    """Extents as QEMU reads them. It takes the context's flags for those of base:allocation, so a dirty extent shows as one without data."""
    options = "driver=nbd,server.type=unix,server.path=%s,export=volume,x-dirty-bitmap=%s" % (path, CONTEXT)
    return [(e["start"], e["length"], not e["data"]) for e in json.loads(run("qemu-img", "map", "--output=json", "--image-opts", options))]


def read_by_clients(programs):
    """Rows of ours, read by the clients: (words, what the client saw, what the lab prints)."""
    here = [p for p in ("nbdinfo", "qemu-img") if p in programs]
    for (words, chunks, chunk_size, dirty), printed in zip(ROWS, lab(ROWS) if here else []):
        with open("map", "wb") as f:
            f.write(map_of(chunks, dirty))
        path = os.path.abspath("ours")
        with nbd(path, chunks, chunk_size) as uri:
            for program in here:
                extents = nbdinfo(uri, CONTEXT) if program == "nbdinfo" else qemu_img(path)
                yield "%s, %s" % (program, words), chunks_of(extents, chunks, chunk_size), printed


def connected(path):
    """Waits until a server listens."""
    for _ in range(100):
        with socket.socket(socket.AF_UNIX) as sock:
            if sock.connect_ex(path) == 0:
                return
        time.sleep(0.1)
    sys.exit("nbd-check: qemu-nbd did not start")


def descriptors(extents):
    """Extents as descriptors, as they came. One that does not fit 32 bits comes in two."""
    cut = [piece for _, length, flags in extents for piece in ([(length, flags)] if length < 2**32 else [(2**31, flags), (length - 2**31, flags)])]
    return b"".join(struct.pack(">II", *piece) for piece in cut)


def made_by_qemu():
    """Bitmaps of QEMU's own making, read by libnbd and then by `status read`: (words, the row's bytes, those of the chunks that were written)."""
    for number, (words, chunks, chunk_size, dirty) in enumerate(MADE_BY_QEMU):
        disk, path = os.path.abspath("disk%d" % number), os.path.abspath("theirs%d" % number)
        run("qemu-img", "create", "-q", "-f", "qcow2", disk, str(chunks * chunk_size))
        run("qemu-img", "bitmap", "--add", "-g", str(chunk_size), "-f", "qcow2", disk, "dirty")
        for first, count in ranges(dirty):
            run("qemu-io", "-f", "qcow2", "-c", "write %d %d" % (first * chunk_size, count * chunk_size), disk)
        run("qemu-img", "bitmap", "--disable", "-f", "qcow2", disk, "dirty")
        with until_done("qemu-nbd", "--read-only", "--persistent", "--format=qcow2", "--bitmap=dirty", "--socket=" + path, disk):
            connected(path)
            extents = nbdinfo("nbd+unix:///?socket=" + path, "qemu:dirty-bitmap:dirty")
        yield "status read, " + words, run(os.path.join(ROOT, "status"), "read", str(chunks), str(chunk_size), data=descriptors(extents)), row(dirty)


def results(programs):
    """All that can be compared with the programs that are here."""
    yield from read_by_clients(programs)
    if programs == set(PACKAGE):
        yield from made_by_qemu()


def compare(found):
    """How many are the same, and how many are not."""
    counts = [0, 0]
    for words, seen, wanted in found:
        counts[seen != wanted] += 1
        print("nbd-check: %s: %s" % (words, "same" if seen == wanted else "DIFFERENT: %.200r, not %.200r" % (seen, wanted)), flush=True)
    return counts


def main():
    if len(sys.argv) != 1:
        sys.exit(__doc__)
    programs = {p for p in PACKAGE if shutil.which(p)}
    for p in sorted(set(PACKAGE) - programs):
        print("nbd-check: %s is not here (Debian package %s)" % (p, PACKAGE[p]))
    with tempfile.TemporaryDirectory(prefix="nbd", dir="/tmp") as folder:  # a Unix socket's path is short
        os.chdir(folder)
        try:
            good, bad = compare(results(programs))
        except subprocess.CalledProcessError as wrong:
            sys.exit("nbd-check: %s" % wrong)
        finally:
            os.chdir(ROOT)
    left = [what for what, needs in (("nbdinfo", {"nbdinfo"}), ("qemu-img", {"qemu-img"}), ("status read", set(PACKAGE))) if not needs <= programs]
    if left:
        print("nbd-check: not run: " + ", ".join(left))
    if good + bad:
        print("nbd-check: %d the same, %d different" % (good, bad))
    sys.exit(bad != 0)


if __name__ == "__main__":
    main()
