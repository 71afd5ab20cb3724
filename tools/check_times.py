"""docs/CHECK-TIMES.md from measured times, and what the gate will take by it.

  python3 -m tools.check_times measure >LOG   proves each crate from nothing and tries its must-fail edits, one after the other, on a copy of the tree: as long as a whole run of the gate, and longer
  python3 -m tools.check_times LOG            writes the page
  python3 -m tools.check_times estimate       what the tree as it stands takes by the page's times, and a warning where that is beyond the budget
"""
import glob
import os
import re
import resource
import shutil
import subprocess
import sys
import tempfile
import time

from tools.crates import ROOT, depths, graph

PAGE = os.path.join(ROOT, "docs", "CHECK-TIMES.md")
BUDGET = 60  # minutes of CPU time
UNKNOWN = 10  # seconds, of a crate that the page has not

# Whole runs of the gate, with an older kit: what was in, crates and edits that passed, minutes and seconds, minutes of CPU time (0: not measured).
EARLIER = [
    ("the base as first proved", 176, "29:49", 0),
    ("document 01 to the letter, C-23, C-14; other checks beside it", 215, "44:25", 56),
    ("C-22, C-21, NBD, C-11, C-24", 286, "38:55", 62),
    ("C-12, C-13, C-19, C-20; other checks beside it", 330, "50:23", 79),
    ("C-17, C-16, C-18, C-15, the bench, the C library; other checks beside its first half hour", 480, "85:56", 139),
    ("the rooms of the crates; alone", 224, "25:33", 40),
]

# Measured apart, with an older kit: from nothing and alone on two cores.
FIRST_ANSWER = "The first answer of `./lab` in a fresh clone: below 20 seconds, by the program compiled without proof. The proved lab from nothing (45 crates): 12 minutes and 5 seconds, 17.5 minutes of CPU time; the last five crates stand one on the other."


def lines(crate, folder, ending):
    total = 0
    for path in glob.glob(os.path.join(ROOT, "crates", crate, folder, "**", "*" + ending), recursive=True):
        with open(path, encoding="utf-8") as f:
            total += sum(1 for _ in f)
    return total


def timed(words, folder):
    """Seconds and seconds of CPU time of a command that has to pass."""
    used = lambda: sum(resource.getrusage(resource.RUSAGE_CHILDREN)[:2])
    began, before = time.monotonic(), used()
    done = subprocess.run(words, cwd=folder, stdin=subprocess.DEVNULL, stdout=subprocess.PIPE, stderr=subprocess.STDOUT, universal_newlines=True, errors="replace")
    if done.returncode:
        sys.exit("check_times: %s in %s:\n%s" % (" ".join(words), folder, "\n".join(done.stdout.split("\n")[-20:])))
    return round(time.monotonic() - began), round(used() - before)


def measure():
    uses = graph()
    depth = depths(uses)
    with tempfile.TemporaryDirectory() as tree:
        shutil.copytree(os.path.join(ROOT, "crates"), os.path.join(tree, "crates"), ignore=shutil.ignore_patterns("out"))
        shutil.copy(os.path.join(ROOT, "crates.txt"), tree)
        for crate in sorted(uses, key=lambda c: (depth[c], c)):
            folder = os.path.join(tree, "crates", crate)
            is_program = os.path.exists(os.path.join(folder, "src", "main.rt"))
            print("%s proved (%d s, %d s of CPU time)" % (crate, *timed(["rt", "check" if is_program else "lib"], folder)), flush=True)
            count = len(glob.glob(os.path.join(folder, "must-fail", "*.edit")))
            if count:
                print("%s edits: %d (%d s, %d s of CPU time)" % (crate, count, *timed(["rt", "must-fail", crate, "--anew"], tree)), flush=True)


def read(log):
    """Of a log: the seconds of CPU time of each crate and of each crate's edits, and the wall seconds of all."""
    proved = {c: int(cpu) for c, cpu in re.findall(r"^(\w+) proved \(\d+ s, (\d+) s of CPU time\)$", log, re.M)}
    edits = {c: (int(n), int(cpu)) for c, n, cpu in re.findall(r"^(\w+) edits: (\d+) \(\d+ s, (\d+) s of CPU time\)$", log, re.M)}
    if set(proved) != set(graph()):
        sys.exit("check_times: the log has not the time of every crate")
    return proved, edits, sum(int(wall) for wall in re.findall(r"\((\d+) s, \d+ s of CPU time\)$", log, re.M))


def page(proved, edits, wall):
    of_edits = sum(s for _, s in edits.values())
    out = [
        "# Check times",
        "",
        "**The gate's budget is %d minutes of CPU time.** The gate says at its start what the tree as it stands takes by the times below (`tools/check_times.py estimate`), and warns where that is beyond." % BUDGET,
        "",
        "Made by `tools/check_times.py`: %d crates proved from nothing and %d must-fail edits tried, one after the other, took %d:%02d minutes, %d minutes of CPU time; %d minutes of them are proofs, %d must-fail edits." % (
            len(proved), sum(n for n, _ in edits.values()), *divmod(wall, 60), round((sum(proved.values()) + of_edits) / 60), round(sum(proved.values()) / 60), round(of_edits / 60)),
        "Seconds are of CPU time. Lines: code with contracts, definitions and statements, proofs and laws.",
        "",
        "| whole runs of the gate, with an older kit | passed | minutes | CPU minutes |",
        "|---|---|---|---|",
    ]
    out += ["| %s | %d | %s | %s |" % (what, passed, then, cpu_then or "") for what, passed, then, cpu_then in EARLIER]
    out += [""]
    if FIRST_ANSWER:
        out += [FIRST_ANSWER, ""]
    dear = sorted(proved.items(), key=lambda c: -c[1])[:10]
    out += ["The ten dearest crates: " + ", ".join("`%s` %d" % c for c in dear) + ".", ""]
    dear = sorted(edits.items(), key=lambda e: -e[1][1] / e[1][0])[:10]
    out += ["The ten crates with the dearest edits, each edit: " + ", ".join("`%s` %d" % (c, round(s / n)) for c, (n, s) in dear) + ".", ""]
    out += ["| crate | seconds | code | definitions | proofs | edits |", "|---|---|---|---|---|---|"]
    for crate, s in proved.items():
        out.append("| %s | %d | %d | %d | %d | %d |" % (crate, max(1, s), lines(crate, "src", ".rt"), lines(crate, "specs", ".antt"), lines(crate, "proofs", ".antt"), edits.get(crate, (0, 0))[0]))
    out += ["", "| must-fail edits of | edits | seconds |", "|---|---|---|"]
    out += ["| %s | %d | %d |" % (c, n, s) for c, (n, s) in edits.items()]
    return "\n".join(out) + "\n"


def seconds():
    """Each crate's check, by the page."""
    times = {}
    with open(PAGE, encoding="utf-8") as f:
        for line in f:
            row = re.match(r"\| (\w+) \| (\d+) \| \d+ \| \d+ \| \d+ \| \d+ \|", line)
            if row:
                times[row.group(1)] = int(row.group(2))
    return times


def estimate():
    times = seconds()
    crates = [d for d in os.listdir(os.path.join(ROOT, "crates")) if os.path.isdir(os.path.join(ROOT, "crates", d, "src"))]
    proofs = sum(times.get(c, UNKNOWN) for c in crates)
    edits = sum(times.get(c, UNKNOWN) * len(glob.glob(os.path.join(ROOT, "crates", c, "must-fail", "*.edit"))) for c in crates)
    minutes = (proofs + edits) / 60
    print("check_times: by the last times measured some %d minutes of CPU time, %d of proofs and %d of edits; the budget is %d" % (round(minutes), round(proofs / 60), round(edits / 60), BUDGET))
    if minutes > BUDGET:
        print("check_times: WARNING: beyond the budget: whoever adds pays by taking away (docs/ARCHITECTURE.md)")


def main():
    if len(sys.argv) != 2:
        sys.exit(__doc__)
    if sys.argv[1] == "estimate":
        return estimate()
    if sys.argv[1] == "measure":
        return measure()
    with open(sys.argv[1], encoding="utf-8", errors="replace") as f:
        text = page(*read(f.read()))
    with open(PAGE, "w", encoding="utf-8") as f:
        f.write(text)


if __name__ == "__main__":
    main()
