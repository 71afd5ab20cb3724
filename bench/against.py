"""Looks for the shortest history on which a driver differs from the rules; `./lab --against './driver'` runs it (docs/DRIVERS.md).

A driver is a program that reads the commands of a history on standard input, one a line, and answers each with a line: `?` where it does not speak of a command, and of an answer only the
fields that it has. Each history is run in a process of its own. A driver that ends, hangs or says too little is a finding like any other.

What is found is made shorter and written as regress-NAME.history, with what the rules say as `>` lines, for ./lab --check and ./lab --page; on standard output stands a report in Markdown.
Exit status: 0 no difference was found, 1 one was, 2 the driver can't be started or a word is wrong.
"""
import argparse
import collections
import concurrent.futures
import os
import re
import shlex
import sys
import time
from typing import NamedTuple

from bench import cover
from bench.history import COMMANDS, LOOK, NODE, Wrong, complain, form, parse, read, run_lab, store, whole
from bench.search import KINDS, Dialogue, Numbers, Search, form_name, play, relative
from bench.shrink import Shrink
from bench.trace import trace
from bench.under_test import DIED, FIELDS, MESSAGES, TOO_MUCH, TROUBLE, UNSPOKEN, Driver, Ended, Finding, Speaks, fields, judged, words_of
from programs.build import command, cores
from programs.refusals import number_of, why

NAMES = {form_name(form(*row)): form(*row) for row in COMMANDS}
CLIENT_ONLY = {name for name, f in NAMES.items() if f.kind == "client event"} | {"pool", "look", "record", "row client", "byte N"}
NODE_ONLY = {name for name, f in NAMES.items() if f.kind == NODE} | {"pool", "cut", "row N", "staging N", "look N"}
PROBED = """pool 0 64|join_create 0|enable 0|join_create 1|enable 1|write 7 1|look|record|row client 1|store_check 1|answer @ 1 0|answer @ 1 0|answer @ 1 0|tick|check_answer @ 1 1|link_down 1|rejoin 1|link_down 1
store_check 1|answer @ 0 0|remove 1 0|answer @ 1 0|answer @ 1 0|extend|answer @ 0 0|maintenance 0|enable 0|try|byte 0 512 1|synced 1 0 0|row 0 1|join_assemble 2 7 1|byte client 0 1"""
PROBED_NODE = """pool 0 64|cut 1024|node {n} register_create|node {n} join_create {set}|node {n} enable1 1 {set}|node {n} write 7 2 1|row {n} 1|node {n} synced 1 7|node {n} map_check|node {n} next 1 0|node {n} enable0|node {n} fault
node {n} map_ready 1|node {n} take_part 0 1024 {n}|node {n} give_part 0 1024|node {n} take {n}|staging {n} 1|look {n}|node {n} map_done 1 1 {set}|node {n} map_disable|node {n} map_get_ver|node {n} last_io 1|node {n} pool_info 0 2
node {n} fill 1 1|node {n} join_assemble|node {n} leave 0|node {n} unregister 1|node {n} register_add {set} 1"""
PROBED_BOTH = """pool 0 64|auto 1|deliver|deliver_check
poke version 1|poke count 0|poke chunks 64|poke members 0|poke written 0|poke assembled 0|poke due 0|poke once 0|poke tick 0|poke session 0 0 0 0 0 0|poke_node 0 0 0 0 0 0 0|poke_got 0 0|summary 0 0 0
lend client 8192|lend 0 8192|lend_staging 0 8192|staging_byte 0 0 0"""
PROBED_SYNC = "pool 1 64|join_create 0|link_down 0|store_check 0|remove 0 1|answer @ 1 0"


def probes(text):
    return text.replace("\n", "|").split("|")


class Against:
    def __init__(self, given, driver, out, wrong):
        self.given, self.driver, self.out, self.wrong = given, driver, out, wrong
        self.speaks = Speaks(given.only, given.fields)
        self.lab = Dialogue()
        self.histories = self.commands = self.pairs = 0
        self.ended, self.groups, self.known = collections.Counter(), {}, {}  # known: the group of an event, a field and a state's pair, as they were met
        self.began, self.shown = time.monotonic(), False
        self.workers = concurrent.futures.ThreadPoolExecutor(max(2, cores()))

    # Running and judging.

    def play_without(self, lines, gone):
        """What the rules answer when some commands are left out; in their places nothing."""
        gone = set(gone)
        _, answers = play(self.lab, [line for k, line in enumerate(lines) if k not in gone])
        answers = iter(answers)
        return ["" if k in gone else next(answers) for k in range(len(lines))]

    def judge(self, lines, rules, ran):
        for line, answer in zip(lines, ran.answers):
            self.speaks.hear(line, answer)
        found = judged(lines, rules, ran, self.speaks, lambda gone: self.play_without(lines, gone))
        if self.driver.buffers and isinstance(found, Finding) and found.what == TROUBLE:
            return found._replace(at=len(lines) - 1, rules=rules[-1])  # what it had answered was lost with it
        return found

    def cause(self, lines, finding):
        """What a difference is told apart by while it is made shorter: the event, and in what it differs."""
        return "" if finding.what in (TROUBLE, TOO_MUCH, DIED) else event_of(lines[finding.at]), finding.what

    # What the driver speaks of.

    def meet(self):
        """Whether it can be talked to, and what it speaks of: a short history of each kind is tried, and is the first that is compared."""
        self.driver.meet()
        if self.driver.banner:
            return ["pool 0 64"], Finding(0, TOO_MUCH, "nothing before a command was given", "a line before any command: %.80s" % self.driver.banner, self.driver.banner)
        if self.driver.buffers:
            self.wrong("the driver answers only when its input ends, so it is handed whole histories; where it flushes each line, what it hangs or ends at is told at once")
        spoken, unspoken, found = set(), set(), None
        self.speaks.nodes = self.nodes_spoken_of()
        n = self.speaks.nodes[0]
        for text in (PROBED, PROBED_NODE.format(n=n, set=3 | 1 << n), PROBED_BOTH, PROBED_SYNC):
            lines, rules = play(self.lab, [line for line in probes(text) if self.given.only is None or form_name(read(line.replace("@", "1")).form) in self.given.only])
            if len(lines) < 2:
                continue
            ran = self.driver.run(lines)
            for line, answer in zip(lines, ran.answers):
                (unspoken if answer.strip() == UNSPOKEN else spoken).add(form_name(read(line).form))
            if text == PROBED_SYNC and ran.answers[:1] == [UNSPOKEN]:
                self.speaks.sync = False
                continue
            finding = self.judge(lines, rules, ran)
            if found is None and isinstance(finding, Finding):
                found = lines, finding
            self.commands += len(ran.answers)
        self.speaks.forms = {name for name in NAMES if name not in unspoken - spoken and (self.given.only is None or name in self.given.only)}
        if not spoken and unspoken:
            raise Wrong("the driver answers `?` to every command: it speaks of nothing")
        return found

    def nodes_spoken_of(self):
        """A node's driver may be that of one node."""
        if self.given.only is not None and not any(name.startswith("node ") for name in self.given.only):
            return list(range(16))
        answers = self.driver.run(["pool 0 64"] + ["node %d fault" % n for n in range(16)]).answers[1:]
        return [n for n, a in enumerate(answers) if a.strip() != UNSPOKEN] or list(range(16))

    def kind(self):
        if self.given.kind:
            return self.given.kind
        forms = self.speaks.forms or kind_names("both")
        client, node = any(n in forms for n in ("join_create", "join_assemble", "link_down", "write")), any(n.startswith("node ") for n in forms)
        return "both" if client and node else "node" if node else "client"

    def say_what_it_speaks_of(self, kind):
        missing = sorted(set(NAMES) & kind_names(kind) - self.speaks.forms)
        self.note("the driver speaks of %d of %d commands of kind %s%s%s" % (len(kind_names(kind) & self.speaks.forms), len(kind_names(kind)), kind, ", not of " + ", ".join(missing[:12]) + (" .." if len(missing) > 12 else "") if missing else "",
                  "" if self.speaks.messages else "; of no messages" if kind != "node" else ""))

    def note(self, words):
        self.clear()
        if not self.given.quiet:
            self.wrong(words)

    # Progress.

    def progress(self):
        if sys.stderr.isatty() and time.monotonic() - self.began > 1:
            sys.stderr.write("\r\033[Klab: %d histories, %d commands, %d pairs of state and event, %d s" % (self.histories, self.commands, self.pairs, time.monotonic() - self.began))
            sys.stderr.flush()
            self.shown = True

    def clear(self):
        if self.shown:
            sys.stderr.write("\r\033[K")
            sys.stderr.flush()
            self.shown = False

    # The search.

    def over(self):
        return self.given.histories is not None and self.histories >= self.given.histories or self.given.seconds is not None and time.monotonic() - self.began > self.given.seconds

    def searched(self, search):
        """Each history with what became of it, in turn; drivers run while the next histories are made."""
        ahead = collections.deque()
        last = self.given.histories
        try:
            while True:
                while len(ahead) < 2 * self.workers._max_workers and (last is None or search.made < last):
                    lines = search.next()
                    if self.given.history is not None and search.made < self.given.history:
                        self.histories += 1
                        continue
                    lines, rules = play(self.lab, lines)
                    ahead.append((search.made, lines, rules, self.workers.submit(self.driver.run, lines)))
                if not ahead or self.over():
                    return
                number, lines, rules, running = ahead.popleft()
                ran = running.result()
                self.histories, self.pairs = number, len(search.met.pairs)
                self.commands += len(ran.answers)
                yield number, lines, self.judge(lines, rules, ran)
                if self.given.history is not None:
                    return
        finally:
            for *_, running in ahead:
                running.cancel()

    def search(self):
        found = self.meet()
        kind = self.kind()
        if found:
            self.report(kind, 0, *found)
            if not self.given.all:
                return
        self.say_what_it_speaks_of(kind)
        search = Search(kind, self.given.seed, self.speaks, self.lab, run_lab)
        for number, lines, finding in self.searched(search):
            self.progress()
            if isinstance(finding, Ended):
                self.ended[lines[finding.unspoken].split(" ")[0]] += 1
            elif finding:
                self.report(kind, number, lines, finding)
                if not self.given.all:
                    return

    # What is found.

    def test_for(self, cause, limit, last):
        """Whether histories show a cause. One in which the rules answer no such event as they did (`last`: taken, or refused with which number) is not tried."""
        def may_show(lines, rules):
            return not cause[0] or any(head(answer) == last and event_of(line) == cause[0] for line, answer in zip(lines, rules))

        def test(candidates):
            played = [(lines, *play(self.lab, lines)) for lines in candidates]
            running = [self.workers.submit(self.driver.run, resolved, limit) if may_show(resolved, rules) else None for _, resolved, rules in played]
            found = []
            for (lines, resolved, rules), run in zip(played, running):
                finding = self.judge(resolved, rules, run.result()) if run else None
                found.append(lines[: finding.at + 1] if isinstance(finding, Finding) and self.cause(resolved, finding) == cause else None)
            return found

        return test

    def as_far_as_needed(self, lines, limit):
        """The first commands of a history at which a driver that buffers ends or hangs: by halving."""
        low, high = 0, len(lines)
        while low + 1 < high:
            middle = (low + high) // 2
            if self.driver.run(lines[:middle], limit).trouble:
                high = middle
            else:
                low = middle
        return lines[:high]

    def relative(self, lines):
        """Answers by `@`, so that they stay what they are when commands are left out."""
        numbers, found = Numbers(), []
        self.lab.ask("pool 0 4096")
        for line in lines:
            base = numbers.tick if line.startswith("check_answer ") else numbers.awaited
            found.append(relative(line, base) if line.startswith(("answer ", "check_answer ")) else line)
            numbers.note(line, self.lab.ask(line))
        return found

    def report(self, kind, number, lines, finding):
        cause = self.cause(lines, finding)
        met = cause + (self.pair(lines, finding),)
        if met in self.known:
            self.known[met].count += 1
            return
        self.clear()
        limit = min(self.driver.timeout, max(0.3, 20 * self.driver.slowest)) if "within" in finding.driver else self.driver.timeout
        shorter, tried, took = lines[: finding.at + 1], 0, time.monotonic()
        if self.driver.buffers and finding.what == TROUBLE:
            shorter = self.as_far_as_needed(shorter, limit)
        if not self.given.as_it_is and len(shorter) > 1:
            _, said = play(self.lab, shorter)
            shrink = Shrink(self.relative(shorter), self.test_for(cause, limit, head(said[-1])), self.lab, self.given.shrink)
            shorter, tried = shrink.done(), shrink.tried
        took = time.monotonic() - took
        resolved, rules = play(self.lab, shorter)
        for _ in range(2):
            ran = self.driver.run(resolved)
            again = finding if self.driver.banner else self.judge(resolved, rules, ran)
            if isinstance(again, Finding):
                break
        flaky = not isinstance(again, Finding)
        if flaky:
            resolved, rules = play(self.lab, lines[: finding.at + 1])
            again = finding
        pair = self.pair(resolved, again)
        group = self.groups.get(cause + (pair,))
        self.known[met] = group or Group(cause, number, resolved, rules, ran, again, flaky, tried, took, pair)
        if group:
            group.count += 1  # another way to what was found before
            return
        self.groups[cause + (pair,)] = self.known[met]
        self.write(kind, self.known[met])

    def pair(self, lines, finding):
        """The state that the event met, as docs/MATRIX.md has it."""
        try:
            (steps,) = trace([parse("found", "\n".join(lines[: finding.at + 1]))], run_lab)
        except Wrong:
            return ""
        step = steps[-1]
        if step.command.read.form.kind == NODE and step.nodes:
            return cover.node_row(step.nodes[-1].before).words
        if step.event:
            rows = [row.words for i, row in cover.meeting(step.before, step.event.form.name, step.event.numbers) if row.words != "none, no member" or cover.NAMES_SESSION.get(step.event.form.name) is not None]
            return "; ".join(dict.fromkeys(rows))
        return ""

    def write(self, kind, group):
        group.file = name = self.file_name(group)
        lines = regress(self.given, kind, group, self.speaks)
        store(name, lines + [""])
        for line in report_lines(self.given, kind, group, name):
            self.out(line)

    def file_name(self, group):
        event, what = group.cause
        base = "regress-" + "-".join(re.sub(r"[^A-Za-z0-9_]+", "-", w) for w in (event, what) if w).strip("-")
        name, k = os.path.join(self.given.into, base + ".history"), 1
        while os.path.exists(name):
            k += 1
            name = os.path.join(self.given.into, "%s-%d.history" % (base, k))
        return name


def head(answer):
    """An answer as far as shorter histories keep it: taken, or refused with which number; a row, clean or not."""
    return answer if answer.startswith("refused ") else {"clean": "row", "dirty": "row"}.get(answer.split(" ")[0], answer.split(" ")[0])


def event_of(line):
    """The event that a line is, as differences are told apart by it; the looks at rows are one."""
    found = read(line)
    if isinstance(found, str):
        return line
    return "row" if found.form.kind == LOOK and found.form.name in ("row", "staging") else form_name(found.form)


class Group:
    """A cause, with the shortest history that shows it."""

    def __init__(self, cause, number, lines, rules, ran, finding, flaky, tried, took, pair):
        self.cause, self.number, self.lines, self.rules, self.ran, self.finding = cause, number, lines, rules, ran, finding
        self.flaky, self.tried, self.took, self.pair, self.count, self.file = flaky, tried, took, pair, 1, ""


def kind_names(kind):
    return CLIENT_ONLY if kind == "client" else NODE_ONLY if kind == "node" else set(NAMES)


def replay(given, kind, number):
    """The very command that finds it again."""
    words = ["./lab", "--against", shlex.quote(given.driver), "--kind", kind, "--seed", str(given.seed)] + (["--history", str(number)] if number else ["--histories", "0"])
    words += ["--only", ",".join(given.typed_only)] if given.typed_only else []
    words += ["--fields", ",".join(given.fields)] if given.fields else []
    return " ".join(words)


def expected_line(rules, said, speaks):
    """What is expected of a command: the whole answer, or of a driver that gives a part of it, the same part, so that it passes once it is mended."""
    if said is not None and said.strip() == UNSPOKEN:
        return None
    if not rules.startswith(("ok ", "look ")):
        return rules
    given = fields(said) if said is not None and said.startswith(("ok", "look")) else speaks.given
    wanted = fields(rules)
    parts = [".. %s=%s" % (name, wanted[name]) for name in wanted if name in given]
    has_messages = " | " not in rules or speaks.compares_messages(said or "")
    if len(parts) == len(wanted) and has_messages:
        return rules
    return " ".join([rules.split(" ")[0]] + (parts or [".."]) + ([".. | " + rules.split(" | ", 1)[1]] if " | " in rules and has_messages else []))


def regress(given, kind, group, speaks):
    """The lines of the file."""
    finding, event = group.finding, group.lines[group.finding.at]
    lines = ["# %s differs at: %s" % (given.driver, event), "# the rules say:   %s" % finding.rules, "# the driver says: %s" % (finding.driver or finding.answer), "# found by: %s" % replay(given, kind, group.number), "#"]
    lines = [line.replace("\n", " ") for line in lines]
    for k, (line, rules) in enumerate(zip(group.lines, group.rules)):
        lines.append(line)
        said = group.ran.answers[k] if k < len(group.ran.answers) else None
        expected = expected_line(rules, said, speaks)
        lines += ["> " + expected] if expected else []
    return lines


def report_lines(given, kind, group, name):
    """The report, in Markdown."""
    finding, event = group.finding, group.lines[group.finding.at]
    yield "## `%s`: %s" % (event, finding.what)
    yield ""
    yield "Driver: `%s`. Found in history %d of kind %s, seed %d; %d commands%s." % (given.driver, group.number, kind, given.seed, len(group.lines),
                                                                                    " after %d tries in %.1f s" % (group.tried, group.took) if group.tried else "")
    if group.flaky:
        yield "**It did not differ when it was run again: the driver does not answer the same each time.** This is the history as it was found."
    yield ""
    yield "| | |"
    yield "|---|---|"
    yield "| the rules say | `%s` |" % cell(finding.rules)
    yield "| the driver says | `%s` |" % cell(finding.driver or finding.answer)
    refusal = number_of(finding.rules) if finding.rules.startswith("refused ") else 0
    if refusal:
        yield "| which is | %s |" % why(refusal)
    if group.pair:
        yield "| the event meets | %s |" % group.pair
    yield "| again | `%s` |" % cell(replay(given, kind, group.number))
    yield "| to keep | `./lab --check %s`, with the driver `./lab --check --with %s %s` |" % (name, shlex.quote(given.driver), name)
    yield "| to look at | `./lab --page %s > page.html` |" % name
    yield ""
    yield "```text"
    for k, (line, rules) in enumerate(zip(group.lines, group.rules)):
        yield line
        yield "    " + rules
        if k == finding.at:
            yield "    the driver: " + (finding.answer if finding.answer else finding.driver)
    yield "```"
    if finding.errors and finding.what in (TROUBLE, DIED):
        yield ""
        yield "Its standard error ends:"
        yield ""
        yield "```text"
        yield from finding.errors.split("\n")
        yield "```"
    yield ""


def cell(text):
    return text.replace("|", "\\|")


def summary(against):
    """What was done, and with --all each cause."""
    yield "%d histories, %d commands, %d pairs of state and event, in %.0f s: %s" % (against.histories, against.commands, against.pairs, time.monotonic() - against.began, "no difference" if not against.groups else
                                                                                    "1 cause" if len(against.groups) == 1 else "%d causes" % len(against.groups))
    if against.given.all and against.groups:
        yield from ["", "| event | differs in | the event meets | histories | commands of the shortest | file |", "|---|---|---|---|---|---|"]
        for group in against.groups.values():
            yield "| `%s` | %s | %s | %d | %d | %s |" % (group.lines[group.finding.at], group.finding.what, group.pair, group.count, len(group.lines), group.file)
    if against.ended:
        yield "%d histories were compared only up to where a command that the driver does not speak of had changed what it speaks of: %s" % (sum(against.ended.values()), ", ".join("%s %d" % pair for pair in against.ended.most_common(6)))


# What is typed.

def seconds(word):
    found = re.fullmatch(r"(\d+(?:\.\d+)?)(s|m|h|)", word)
    if not found:
        raise argparse.ArgumentTypeError("%s is no time: 60s, 5m" % word)
    return float(found.group(1)) * {"": 1, "s": 1, "m": 60, "h": 3600}[found.group(2)]


def only(words):
    """The commands that are named: `client`, `node`, or commands; a node's are `node write`."""
    found = {"pool"}
    for word in words:
        if word in ("client", "node"):
            found |= CLIENT_ONLY if word == "client" else NODE_ONLY
        elif word in NAMES:
            found.add(word)
        elif any(name.split(" ")[0] == word for name in NAMES if not name.startswith("node ")):
            found |= {name for name in NAMES if name.split(" ")[0] == word}
        else:
            raise Wrong("no such command: %s (docs/HISTORIES.md has them; a node's is `node write`)" % word)
    return found


def listed(word):
    return [w.strip() for w in word.split(",") if w.strip()]


def arguments(words):
    parser = argparse.ArgumentParser(prog="./lab --against", description=__doc__, formatter_class=argparse.RawDescriptionHelpFormatter, allow_abbrev=False)
    parser.add_argument("driver", metavar="DRIVER", help="the program, with its words")
    parser.add_argument("--only", metavar="COMMANDS", type=listed, help="client, node, or commands with commas between them: only these are given to it; where it is left out, those that it does not answer with `?`")
    parser.add_argument("--fields", metavar="FIELDS", type=listed, help="only these fields are compared: version,sessions,.., refusal, row, record, messages, or messages by name (MARK,..)")
    parser.add_argument("--kind", choices=KINDS, help="client, node, both, or system, wide, hostile as ./lab --generate has them; where it is left out, by what the driver speaks of")
    parser.add_argument("--seed", metavar="N", type=whole, default=1, help="another number, other histories (1)")
    parser.add_argument("--for", metavar="TIME", dest="seconds", type=seconds, help="how long to look: 60s, 5m (60s, where --histories is not given either)")
    parser.add_argument("--histories", metavar="N", type=whole, help="how many histories to try")
    parser.add_argument("--history", metavar="K", type=whole, help="only the K-th history of this kind and seed")
    parser.add_argument("--timeout", metavar="S", type=seconds, default=5.0, help="how long an answer may take (5s); of a driver that answers only when its input ends, a whole history")
    parser.add_argument("--all", action="store_true", help="go on after a difference; one report for each event, field and state")
    parser.add_argument("--into", metavar="DIR", default=".", help="where regress-NAME.history is written (here)")
    parser.add_argument("--shrink", metavar="TIME", type=seconds, default=30.0, help="how long to make a history shorter (30s)")
    parser.add_argument("--as-it-is", action="store_true", help="do not make it shorter")
    parser.add_argument("-q", "--quiet", action="store_true", help="nothing on standard error but what is wrong")
    given = parser.parse_args(words)
    given.typed_only = given.only
    given.only = only(given.only) if given.only else None
    for name in given.fields or ():
        if name not in FIELDS:
            raise Wrong("no such field: %s; there are %s" % (name, ", ".join(FIELDS)))
    if given.seconds is None and given.histories is None and given.history is None:
        given.seconds = 60.0
    if not os.path.isdir(given.into):
        raise Wrong("%s: there is no such folder" % given.into)
    return given


def against(words, out=print, wrong=complain, driver=None):
    """Tests hand over a driver of their own, which runs in no process."""
    given = arguments(words)
    driver = driver or Driver(words_of(given.driver), given.timeout)
    command("lab")
    work = Against(given, driver, out, wrong)
    try:
        work.search()
    finally:
        work.clear()
        work.workers.shutdown(wait=True, cancel_futures=True)
        work.lab.close()
    for line in summary(work):
        out(line)
    return 1 if work.groups else 0
