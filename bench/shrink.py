"""A history made shorter, and its numbers smaller, as long as it shows what it is to show.

The test is handed many histories at a time, and hands back for each the history as far as it is needed, or None where it shows nothing: so one run of the lab serves a batch, and drivers run
side by side. The first line, `pool ..`, stays. First the way to some command is made anew, by the shortest events that give its sessions the states they have there; then commands go, whole
runs and removals first, then by halves, quarters and so on down to one and to pairs; then ids, chunks, sets, versions and counts become smaller.
"""
import itertools
import time

from bench.history import fields, read
from bench.search import Numbers, followed, play
from bench.trace import ids

IDS, SETS, CHUNKS = ("ID", "MEMBER", "CHOSEN", "N", "M"), ("SET", "REACHED", "MEMBERS"), ("CHUNK",)
PAIRS_UP_TO = 18   # commands: of more, pairs are not tried
SHORT = 24         # commands: of more, it is not looked sooner
LOW, TOP = 2**62, 2**63 - 34  # versions that are near the limit, and the highest that is brought
INSTEAD = (("rejoin ", "store_check "), ("maintenance ", "link_down "))  # events that are as good, and allow more


class Shrink:
    def __init__(self, lines, test, lab, seconds=30.0, batch=4):
        self.lines, self.ask, self.lab, self.batch = list(lines), test, lab, batch
        self.known = {}  # what became of histories that were tried
        self.until, self.tried = time.monotonic() + seconds, 0

    def over(self):
        return time.monotonic() > self.until

    def test(self, candidates):
        candidates = [self.at_the_limit(c) for c in candidates]
        new = [c for c in {tuple(c): c for c in candidates}.values() if tuple(c) not in self.known]
        self.tried += len(new)
        self.known.update(zip(map(tuple, new), self.ask(new)))
        return [self.known[tuple(c)] for c in candidates]

    def first_that_shows(self, candidates):
        """The first of some histories that shows it; all of a batch are tried at once."""
        for some in batches(candidates, self.batch):
            if self.over():
                return None
            found = next((c for c in self.test(some) if c is not None), None)
            if found is not None:
                return found
        return None

    def all_that_show(self, candidates):
        found = []
        for some in batches(candidates, self.batch):
            if self.over():
                return found
            found += [(c, shown) for c, shown in zip(some, self.test(some)) if shown is not None]
        return found

    def at_the_limit(self, lines):
        """A history whose versions are at the limit, with them raised by what the commands that went had raised them."""
        high = [(k, word) for k, line in enumerate(lines) for word in line.split(" ") if word.isdigit() and LOW < int(word) < 2**63]
        if not high:
            return lines
        far = last_version(self.lab, self.lines) - last_version(self.lab, lines)
        if not 0 < far < 64:
            return lines
        return [" ".join(str(min(int(w) + far, TOP)) if w.isdigit() and LOW < int(w) < 2**63 else w for w in line.split(" ")) for line in lines]

    def take(self, lines):
        if lines is not None:
            self.lines = lines
        return lines is not None

    # Another way to the same states.

    def rebuild(self):
        """The first commands give way to those that make each session anew, at every place where no job is in hand."""
        pools = followed(self.lab, self.lines)
        found = []
        for k in range(len(self.lines) - 1, 1, -1):
            if pools[k].job == "none":
                lines = self.lines[:1] + anew(pools[k]) + self.lines[k:]
                if len(lines) < len(self.lines):
                    found.append(lines)
        self.take(self.first_that_shows(sorted(found, key=len)))

    def drop_jobs(self):
        """Whole runs and removals go, or fail at their first answer."""
        pools = followed(self.lab, self.lines)
        found, k = [], 1
        while k < len(self.lines) - 1:
            last = k
            while last + 1 < len(pools) and pools[last + 1].job != "none":
                last += 1
            if last > k and last < len(self.lines) - 1:
                found += [self.lines[:k] + self.lines[last + 1 :], self.lines[: k + 1] + ["answer @ 0 0"] + self.lines[last + 1 :]]
            k = last + 1
        return self.take(self.first_that_shows([c for c in found if len(c) < len(self.lines)]))

    def join_parts(self):
        """The parts of a map are taken by one command."""
        found, k = [], 1
        while k < len(self.lines) - 1:
            words, last = self.lines[k].split(" "), k
            while words[2:3] == ["take_part"] and last + 1 < len(self.lines) and self.lines[last + 1].split(" ")[:3] == words[:3]:
                last += 1
            if last > k:
                found.append(self.lines[:k] + ["node %s take %s" % (words[1], words[5])] + self.lines[last + 1 :])
            k = last + 1
        self.take(self.first_that_shows(found))

    def simpler(self):
        """An event gives way to one that asks less."""
        for old, new in INSTEAD:
            self.take(self.first_that_shows([self.lines[:k] + [new + line[len(old) :]] + self.lines[k + 1 :] for k, line in enumerate(self.lines[:-1]) if line.startswith(old)]))

    def look_sooner(self):
        """What a last look shows is there sooner, or in the staging map."""
        words = self.lines[-1].split(" ")
        if words[0] == "row" and words[1] != "client" and len(self.lines) <= SHORT:
            found = [self.lines[:k] + ["%s %s %s" % (name, *words[1:])] for k in range(2, len(self.lines)) for name in ("row", "staging")]
            self.take(self.first_that_shows(found))

    # Fewer commands.

    def without(self, gone):
        return [line for k, line in enumerate(self.lines) if k not in gone]

    def drop(self):
        """Commands go, in runs of neighbours; those that can go alone are tried together first."""
        size = max(1, (len(self.lines) - 1) // 2)
        while size:
            runs = [set(range(k, min(k + size, len(self.lines) - 1))) for k in range(1, len(self.lines) - 1, size)]
            shown = self.all_that_show([self.without(run) for run in runs])
            alone = [run for run in runs if any(c == self.without(run) for c, _ in shown)]
            if len(alone) > 1:
                together = self.first_that_shows([self.without(set().union(*alone)), self.without(set().union(*alone[: len(alone) // 2])), self.without(set().union(*alone[len(alone) // 2 :]))])
                if not self.take(together):
                    self.take(min((s for _, s in shown), key=len))
            elif shown:
                self.take(shown[0][1])
            if not shown or size == 1 and len(alone) == 1:
                size //= 2
            size = min(size, max(1, (len(self.lines) - 1) // 2)) if size else 0
            if self.over():
                return

    def drop_pairs(self):
        while len(self.lines) <= PAIRS_UP_TO:
            places = range(1, len(self.lines) - 1)
            if not self.take(self.first_that_shows([self.without({a, b}) for a, b in itertools.combinations(places, 2)])):
                return

    # Smaller numbers.

    def named(self):
        """Each number of each line: place, place among its words, what it is, and the number."""
        numbers = Numbers()
        for k, line in enumerate(self.lines):
            found = read(numbers.resolved(line))
            if isinstance(found, str):
                continue
            for at, (name, word) in enumerate(zip(found.form.words, line.split(" "))):
                if name.isupper():
                    yield k, at, name, word

    def changed(self, changes):
        """The history with some of its words changed: (line, place) to the word."""
        lines = [line.split(" ") for line in self.lines]
        for (k, at), word in changes.items():
            lines[k][at] = str(word)
        return [" ".join(words) for words in lines]

    def renamed(self, old, new):
        """One id in the place of another, everywhere, the two changing places."""
        changes = {}
        for k, at, name, word in self.named():
            if name in IDS and word in (str(old), str(new)):
                changes[k, at] = new if word == str(old) else old
            if name in SETS:
                n = int(word)
                a, b = n >> old & 1, n >> new & 1
                if a != b:
                    changes[k, at] = n ^ (1 << old | 1 << new)
        return self.changed(changes)

    def drop_quiet(self):
        """What was refused, and looks, go together."""
        _, answers = play(self.lab, self.lines)
        quiet = {k for k, (line, answer) in enumerate(zip(self.lines, answers)) if 0 < k < len(self.lines) - 1 and (answer.startswith("refused ") or line.startswith(("look", "row", "record", "staging ")))}
        self.take(self.first_that_shows([self.without(quiet)]) if quiet else None)

    def drop_ids(self):
        """All that is said of an id goes."""
        def silent(i):
            gone, changes = set(), {}
            for k, at, name, word in self.named():
                if name in IDS and word == str(i) and k:
                    gone.add(k)
                if name in SETS and int(word) >> i & 1:
                    changes[k, at] = int(word) & ~(1 << i)
            return [line for k, line in enumerate(self.changed(changes)) if k not in gone]

        found = [silent(i) for i in range(15, -1, -1)]
        shown = [i for i, c in zip(range(15, -1, -1), found) if c != self.lines and len(c) > 1 and self.first_that_shows([c]) is not None]
        for i in shown:
            self.take(self.first_that_shows([silent(i)]))

    def lower_ids(self):
        used = sorted({int(word) for _, _, name, word in self.named() if name in IDS and int(word) < 16} | {b for _, _, name, word in self.named() if name in SETS for b in range(16) if int(word) >> b & 1}, reverse=True)
        kept = self.lines
        for new, old in enumerate(reversed(used)):
            self.lines = self.renamed(old, new) if old > new else self.lines
        together, self.lines = self.lines, kept
        if self.take(self.first_that_shows([together])):
            return
        for old in used:
            if old:
                self.take(self.first_that_shows([self.renamed(old, new) for new in range(old)]))

    def lower_chunks(self):
        for chunk in sorted({int(word) for _, _, name, word in self.named() if name in CHUNKS}, reverse=True):
            places = [(k, at) for k, at, name, word in self.named() if name in CHUNKS and word == str(chunk)]
            smaller = [c for c in (0, 1, chunk // 2, chunk - 1) if 0 <= c < chunk]
            self.take(self.first_that_shows([self.changed(dict.fromkeys(places, c)) for c in dict.fromkeys(smaller)]))

    def lower(self):
        """Each number alone; then those that can be lower together."""
        for _ in range(3):
            candidates = {}
            for k, at, name, word in self.named():
                for smaller in lower_words(name, word):
                    candidates.setdefault((k, at), []).append(smaller)
            flat = [((k, at), word) for (k, at), words in candidates.items() for word in words]
            shown = self.all_that_show([self.changed({place: word}) for place, word in flat])
            texts = {tuple(c) for c, _ in shown}
            good = {}
            for place, word in flat:
                if place not in good and tuple(self.changed({place: word})) in texts:
                    good[place] = word
            if not good or self.over():
                return
            if not self.take(self.first_that_shows([self.changed(good)])):
                for place, word in good.items():
                    self.take(self.first_that_shows([self.changed({place: word})]) if place[0] < len(self.lines) else None)

    def done(self):
        """The shortest that was found."""
        self.drop_quiet()
        for _ in range(2):
            met = set()  # of two that are equally short each step may lead to the other
            while tuple(self.lines) not in met and not self.over():
                met.add(tuple(self.lines))
                self.rebuild()
                self.drop_ids()
                while self.drop_jobs():
                    pass
                self.drop()
                self.join_parts()
                self.simpler()
                self.look_sooner()
                self.drop_pairs()
                self.lower_ids()
            self.lower_chunks()
            self.lower()
            self.drop_quiet()
        return self.lines


def anew(pool):
    """Commands that give each session the state it has."""
    letters, lines = pool.letters, []
    there = [i for i in range(16) if letters[i] != "."]
    if pool.sync:
        return ["join_create %d" % i for i in there] + ["link_down %d" % i for i in there if letters[i] == "F"]
    first = [i for i in there if letters[i] == "N"]
    marked, failed = ids(pool.marked), [i for i in there if pool.io >> i & 1]
    for i in first + [i for i in there if i not in first]:
        lines.append("join_create %d" % i)
        if letters[i] == "N" or i in failed or i in marked or pool.maint >> i & 1:
            lines.append("enable %d" % i)
    if failed or pool.written and first:
        lines.append("write 0 %d" % sum(1 << i for i in first))
    for i in there:
        if pool.maint >> i & 1:
            lines.append("maintenance %d" % i)
        if letters[i] == "F" and i not in failed and i not in marked:
            lines.append("link_down %d" % i)
    lines += ["link_down %d" % i for i in marked]
    for i in there:
        if letters[i] == "R" and not pool.maint >> i & 1:
            lines += ["store_check %d" % i] + (["answer @ 0 0"] if first else [])
        if letters[i] == "X":
            lines += ["remove %d %d" % (i, not pool.delete >> i & 1)] + ([] if pool.owed >> i & 1 else ["answer @ 1 0"]) + ["answer @ 0 0"]
    return lines


def last_version(lab, lines):
    """The pool's version before the last command, as the last answer that has one says."""
    _, answers = play(lab, lines[:-1])
    return next((int(fields(a)["version"]) for a in reversed(answers) if a.startswith("ok version=")), 0)


def lower_words(name, word):
    """Smaller words for a number, the smallest first."""
    if word.startswith("@"):
        return []
    n = int(word)
    if name in SETS:
        found = [0] + [n & ~(1 << b) for b in range(n.bit_length()) if n >> b & 1] if n else []
    elif name == "CHUNKS":
        found = [1, 8, 64, n // 2]
    else:
        found = [0, 1, 16, n // 2]
    return [w for w in dict.fromkeys(found) if 0 <= w < n][:8]


def batches(things, size):
    return (things[k : k + size] for k in range(0, len(things), size))
