"""Work on many things, spread over all processors, with its progress on standard error where that is a terminal."""
import multiprocessing
import signal
import sys
import time

from programs.build import cores

LEAST = 50000      # bytes of histories that are worth a run of the program of their own
QUIET = 1          # seconds before progress is shown


class Progress:
    """How many of how many are done, on one line that is written over."""

    def __init__(self, total, what, stream=None):
        self.total, self.what, self.done, self.began, self.shown = total, what, 0, time.monotonic(), False
        self.stream = sys.stderr if stream is None else stream

    def add(self, count):
        self.done += count
        if self.stream.isatty() and time.monotonic() - self.began >= QUIET:
            self.stream.write("\r\033[Klab: %d of %d %s" % (self.done, self.total, self.what))
            self.stream.flush()
            self.shown = True

    def clear(self):
        if self.shown:
            self.stream.write("\r\033[K")
            self.stream.flush()
            self.shown = False


def cut(things, weights, workers):
    """The things as runs of neighbours: some for each worker, so that none is idle long, and none too small to be worth it."""
    most = max(LEAST, sum(weights) // (8 * workers))
    runs, heavy = [[]], 0
    for thing, weight in zip(things, weights):
        if runs[-1] and heavy + weight > most:
            runs.append([])
            heavy = 0
        runs[-1].append(thing)
        heavy += weight
    return runs


def spread(work, things, weights, what, workers=None):
    """What `work` makes of each run of neighbours, in their order. It is handed a list, and hands back what can be sent from process to process. Workers: how many at a time, else one for each processor."""
    workers = workers or cores()
    runs = cut(things, weights, workers)
    progress = Progress(len(things), what)
    try:
        for run, made in zip(runs, results(work, runs, min(workers, len(runs)))):
            progress.clear()
            yield made
            progress.add(len(run))
    finally:
        progress.clear()


shared = None  # the work, which a forked process has from its parent: it need not be one that can be sent


def call(run):
    return shared(run)


def results(work, runs, workers):
    global shared
    if workers < 2:
        yield from map(work, runs)
        return
    shared = work
    with multiprocessing.get_context("fork").Pool(workers, signal.signal, (signal.SIGINT, signal.SIG_IGN)) as pool:
        yield from pool.imap(call, runs)
