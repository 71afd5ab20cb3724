"""The rooms: a crate's prefix says what it holds and what it may use. crates.txt is made from what the crates name, and held to the rooms.

  python3 -m tools.layers write   writes crates.txt: by room, in each lowest first and the slowest check first; and the table of crates in docs/ARCHITECTURE.md
  python3 -m tools.layers check   says whether both are those that this script makes, and whether each crate uses only what its room may; some 2 seconds

A crate depends on those that it names, and, where it has code, on those of the types within the types that it names: the borrow checker wants them named. Of a crate with code the check finds most proofs
itself, in what crates.txt lists: what stands there besides is kept, if its room may use it. Any other crate lists what it names and nothing else.
"""
import os
import re
import sys

from tools.crates import ROOT, depths, graph, statics
from tools.check_times import seconds

KIT = ("io", "check", "bytes")

# Each room: its crates (a prefix with _, or a name), what it holds, and the rooms that it may use beside itself.
ROOMS = [
    ("laws_words", "laws of words, bits, tests and loops; nothing to believe", ""),
    ("rules_", "what must be believed about the rules: types and definitions; in proofs/ worked rows, and the base's laws", "laws_words"),
    ("laws_", "laws about the rules; nothing to believe", "laws_words rules_"),
    ("theorem_", "statements in the documents' words, and their proofs; no code below", "laws_words rules_ laws_ model_"),
    ("model_", "the simplified pool of the proof of C-15; nothing to believe", "laws_words rules_ laws_ theorem_"),
    ("map_", "numbers, sets, chunks, maps, rows, summaries: code", "laws_words rules_"),
    ("text_", "bytes, words and lines, in and out", "laws_words"),
    ("client_", "the client's events by group: code on values", "laws_words rules_ laws_ map_"),
    ("node_", "the node's events by group: code on values, and on the bytes", "laws_words rules_ laws_ map_"),
    ("event", "an event as a value", "laws_words rules_ map_"),
    ("client", "the face of the client: the type Client, a method an event", "laws_words rules_ laws_ map_ client_ event"),
    ("node", "the face of the node: the type StorageNode, a method an event", "laws_words rules_ laws_ map_ node_ event"),
    ("event_", "any event, and any question, as one function: what lab and library share", "laws_words rules_ laws_ map_ event client client_ node node_"),
    ("audit_", "logs of a client, judged; the program is audit", "laws_words rules_ laws_ theorem_ map_ text_ event event_ client client_"),
    ("audit", "the program", "rules_ audit_ text_"),
    ("lab_", "histories: lines to commands, one client with sixteen nodes, answers in words", "laws_words rules_ laws_ map_ text_ event event_ client client_ node node_ audit_"),
    ("lab", "the program", "rules_ map_ text_ event event_ client client_ node node_ audit_ lab_"),
    ("compare_", "two dumps of maps compared; the program is compare", "laws_words rules_ map_ text_"),
    ("compare", "the program", "compare_"),
    ("status_", "a row as NBD block status, and back; the program is status", "laws_words rules_ map_ text_"),
    ("status", "the program", "status_"),
    ("library_", "what is exported to C", "laws_words rules_ laws_ map_ event event_ client client_ node node_"),
]
PAGE = os.path.join(ROOT, "docs", "ARCHITECTURE.md")
START, END = "| crate | what is there |\n", "\n<!-- end of the table -->"
HEAD = "# Each crate, then what it uses. Made by tools/layers.py from what the crates name; what a room may use stands there.\n"
PATH = re.compile(r"Rattle\.([a-z0-9_]+)\.(?:specs|proofs)")
NAMED = re.compile(r"(?<![\w:.])([a-z_0-9]+)::")
USED = re.compile(r"(?m)^\s*use ([a-z_0-9]+)(?:::[a-z_0-9]+)*::(\{[^}]*\}|[A-Z]\w*);")
OF_STD = re.compile(r"(?m)^\s*use std::(\{[^}]*\}|\w+);")
EXPORT = "#[unsafe(no_mangle)]"  # a crate that exports to C is a static library
TYPE = re.compile(r"pub (?:struct|enum) \w+(?:<[^>]*>)?\s*(\{.*?\n\}|\(.*?\);)", re.S)
FUNCTION = re.compile(r'(?m)^\s*(?:pub )?(?:extern "C" )?fn ')


def room_of(crate):
    """The room whose name it is, or the longest prefix."""
    fit = [r for r in ROOMS if r[0] == crate or r[0].endswith("_") and crate.startswith(r[0])]
    return max(fit, key=lambda r: len(r[0])) if fit else None


def texts(crate, *tops):
    """The files of a crate, without their comments."""
    for top in tops:
        for folder, _, files in os.walk(os.path.join(ROOT, "crates", crate, top)):
            for name in sorted(files):
                if name.endswith((".rt", ".antt")):
                    with open(os.path.join(folder, name), encoding="utf-8") as f:
                        yield name, re.sub(r"(?m)^\s*(--|//).*$", "", f.read())


def names(crate, crates):
    """The crates, and libraries of the kit, that it names."""
    found = set()
    for name, text in texts(crate, "src", "specs", "proofs"):
        found |= set(PATH.findall(text))
        if name.endswith(".rt"):
            found |= set(NAMED.findall(text)) - set(re.findall(r"\w+", " ".join(OF_STD.findall(text))))  # after `use std::io;` io:: is a module of std
    return {d for d in found - {crate} if d in crates or d in KIT}


def in_types(crate, crates):
    """The crates whose types stand within its types."""
    found = set()
    for _, text in texts(crate, "src"):
        uses = {word: used for used, listed in USED.findall(text) for word in re.findall(r"\b[A-Z]\w*", listed)}
        for body in TYPE.findall(text):
            found |= {uses[w] for w in re.findall(r"\b[A-Z]\w*", body) if w in uses}
            found |= set(NAMED.findall(body))
    return {d for d in found if d in crates and d != crate}


def is_static(crate):
    return any(EXPORT in text for _, text in texts(crate, "src"))


def within(crate, types):
    todo, found = list(types[crate]), set()
    while todo:
        d = todo.pop()
        if d not in found:
            found.add(d)
            todo += types[d]
    return found


def made():
    """Each crate with what it uses."""
    listed = graph()
    crates = sorted(d for d in os.listdir(os.path.join(ROOT, "crates")) if os.path.isdir(os.path.join(ROOT, "crates", d)))
    types = {c: in_types(c, crates) for c in crates}
    uses = {}
    for c in crates:
        uses[c] = names(c, crates)
        if any(FUNCTION.search(text) for _, text in texts(c, "src")):
            for d in [d for d in uses[c] if d in types]:
                uses[c] |= within(d, types) - {c}
            uses[c] |= {d for d in listed.get(c, ()) if d in types}
    return uses


def ordered(uses, times):
    """By room, in each lowest first and the slowest check first; the place of each."""
    depth = depths(uses)
    return {c: i for i, c in enumerate(sorted(uses, key=lambda c: (ROOMS.index(room_of(c)), depth[c], -times.get(c, 0), c)))}


def text_of(uses):
    """crates.txt."""
    order = ordered(uses, seconds())
    out, room = [HEAD], None
    for c in order:
        if room_of(c) != room:
            room = room_of(c)
            out.append("# %s: %s\n" % (room[0].rstrip("_"), room[1]))
        own = sorted((d for d in uses[c] if d in uses), key=order.get)
        out.append(" ".join([c + (" staticlib:" if is_static(c) else ":")] + own + [d for d in KIT if d in uses[c]]) + "\n")
    return "".join(out)


def first_line(crate):
    for name in ("lib.rt", "main.rt"):
        path = os.path.join(ROOT, "crates", crate, "src", name)
        if os.path.exists(path):
            with open(path, encoding="utf-8") as f:
                line = f.readline()
            return line[3:].strip() if line.startswith("// ") else ""
    return ""


def table(uses):
    """The table of crates, each with the first line of its code."""
    out, room = [START, "|---|---|\n"], None
    for c in ordered(uses, {}):
        if room_of(c) != room:
            room = room_of(c)
            may = ", ".join("`%s`" % (r + "*" if r.endswith("_") else r) for r in room[2].split())
            out.append("| **%s** | **%s**%s |\n" % (room[0] + "*" if room[0].endswith("_") else room[0], room[1], "; may use " + may if may else ""))
        out.append("| `%s` | %s |\n" % (c, first_line(c)))
    return "".join(out)


def wrong_rooms(uses):
    found = []
    for c in uses:
        if not room_of(c):
            found.append("%s is in no room" % c)
    for c in uses if not found else []:
        own, may = room_of(c), room_of(c)[2].split()
        for d in uses[c]:
            if d in uses and room_of(d) != own and room_of(d)[0] not in may:
                found.append("%s uses %s: %s may not use %s" % (c, d, own[0], room_of(d)[0]))
    return found


def main():
    if sys.argv[1:] not in (["write"], ["check"]):
        sys.exit(__doc__)
    uses = made()
    wrong = wrong_rooms(uses)
    if wrong:
        sys.exit("\n".join("layers: " + w for w in wrong))
    with open(PAGE, encoding="utf-8") as f:
        page = f.read()
    start, end = page.index(START), page.index(END)
    page_now, text = page[:start] + table(uses) + page[end:], text_of(uses)
    path = os.path.join(ROOT, "crates.txt")
    if sys.argv[1] == "write":
        for p, t in ((path, text), (PAGE, page_now)):
            with open(p, "w", encoding="utf-8") as f:
                f.write(t)
        return
    listed = {c: sorted(u) for c, u in graph().items()}
    if listed != {c: sorted(u) for c, u in uses.items()} or statics() != [c for c in listed if is_static(c)]:
        sys.exit("layers: crates.txt does not list what the crates use (python3 -m tools.layers write)")
    if page_now != page:
        sys.exit("layers: docs/ARCHITECTURE.md has not the table of crates (python3 -m tools.layers write)")
    print("layers: %d crates, each uses what its room may" % len(uses))


if __name__ == "__main__":
    main()
