"""The places that docs/DESIGN-PASS.md counts, point by point, in the code of crates/*/src: python3 -m tools.places [POINT].

Each point has one or more patterns; a place is a line (or a declaration) that fits one of them. A place that stays has its reason in a comment beside it; the count doesn't read it.
"""
import pathlib
import re
import sys

ROOT = pathlib.Path(__file__).resolve().parent.parent


def sources():
    for path in sorted((ROOT / "crates").glob("*/src/**/*.rt")):
        yield path.relative_to(ROOT), path.read_text(encoding="utf-8")


def lines(pattern):
    """Each line of code that fits the pattern; comments are passed over."""
    seek = re.compile(pattern)
    for path, text in sources():
        for number, line in enumerate(text.split("\n"), 1):
            if not line.lstrip().startswith("//") and seek.search(line):
                yield f"{path}:{number}: {line.strip()}"


def declarations(pattern, keep):
    """Each declaration that begins with the pattern, up to its closing brace, if keep says so of its body."""
    seek = re.compile(pattern + r"[^{;]*\{(.*?)\n\}", re.M | re.S)
    for path, text in sources():
        for found in seek.finditer(text):
            if keep(found.group(0)):
                number = text.count("\n", 0, found.start()) + 1
                yield f"{path}:{number}: {found.group(0).splitlines()[0].strip()}"


def variants(body):
    inside = body[body.index("{") + 1 : body.rindex("}")]
    return [line.strip().rstrip(",") for line in inside.split("\n") if line.strip() and not line.strip().startswith("//")]


def like_option(body):
    """One variant bare, the other with one field."""
    names = variants(body)
    bare = [name for name in names if "(" not in name]
    return len(names) == 2 and len(bare) == 1


def like_result(body):
    """A variant that carries a refusal's number, or two that carry one field each."""
    names = variants(body)
    one = [name for name in names if re.fullmatch(r"\w+\([^,]*\)", name)]
    return any(name.startswith("Refused(") for name in names) or (len(names) == 2 and len(one) == 2)


def flag_beside_a_value(body):
    fields = variants(body)
    return any(re.match(r"(pub )?(known|right|wrong|go): bool", field) for field in fields)


def true_or_false(body):
    """A match whose arms say true and false and at most one thing beside."""
    arms = re.findall(r"=> (.*?),?$", body, re.M)
    plain = [arm for arm in arms if arm in ("true", "false")]
    return "match " in body and len(arms) > 1 and len(plain) >= len(arms) - 1


FN = r"^ *(?:pub(?:\(\w+\))? )?fn "

POINTS = {
    "1 own enums of the shape of Option": lambda: declarations(r"^ *(?:pub )?enum ", like_option),
    "1 own enums of the shape of Result": lambda: declarations(r"^ *(?:pub )?enum ", like_result),
    "1 a flag with a value beside it": lambda: declarations(r"^ *(?:pub )?struct ", flag_beside_a_value),
    "1 numbers for refusals": lambda: lines(FN + r"\w*refusal\("),
    "1 codes of names": lambda: lines(r"^pub const (?!MEMBERS|ANSWER)[A-Z_0-9]+: u64 = \d{1,3};"),
    "1 other numbers for kinds": lambda: lines(r"\b(kind|which|tag|name): u64\b"),
    "2 copies of a library's function": lambda: lines(FN + r"(least|larger|wide\w*|when|choose|minus|power|one|low\d*)\("),
    "2 functions of one name in several crates": lambda: twins(),
    "2 functions that differ in a number": lambda: lines(FN + r"(put\d(_in)?|put32|get32|names_\w)\("),
    "3 loops that count an index": lambda: lines(r"^ *while "),
    "4 matches that only say true or false": lambda: declarations(FN, true_or_false),
    "4 equality by hand": lambda: lines(FN + r"(same|is_same|state_number|word|same_\w+)\("),
    "4 conversions by hand": lambda: lines(FN + r"\w+_(of|in|number|word)\(\w+: (u64|Mode|Op|State|Cause)[,)]"),
    "5 a buffer and a place that travel together": lambda: lines(r"out: &mut \[u8\], at: usize"),
    "5 the maps of the lab that travel together": lambda: lines(r"^ *(maps: &|.*\bmaps: &).*,|^fn .*\bmaps: &"),
    "5 a number for the lent maps beside a node": lambda: lines(FN + r"\w+\(n: Node, lent: u64"),
    "6 parallel arrays, a length beside an array": lambda: lines(r"\bsums: &|\b(held|count): (u64|usize),"),
    "7 chains of names and tests": lambda: lines(r"\blet r = first\(|\bfirst\($|\bfirst\(.*, first\("),
}


def twins():
    """Functions whose name and whose parameters' types stand in more than one crate."""
    seen = {}
    for path, text in sources():
        crate = path.parts[1]
        for found in re.finditer(r"^ *(?:pub )?fn (\w+)\(([^)]*)\)", text, re.M):
            types = tuple(part.split(":", 1)[-1].strip() for part in found.group(2).split(",") if part.strip())
            number = text.count("\n", 0, found.start()) + 1
            seen.setdefault((found.group(1), types), []).append((crate, f"{path}:{number}: {found.group(0).strip()}"))
    for places in seen.values():
        if len({crate for crate, _ in places}) > 1:
            for _, place in places:
                if " main(" not in place:
                    yield place


def main(argv):
    wanted = argv[0] if argv else None
    for name, places in POINTS.items():
        if wanted and not name.startswith(wanted):
            continue
        found = list(places())
        print(f"{len(found):4} {name}")
        if wanted:
            for place in found:
                print("     " + place)


if __name__ == "__main__":
    main(sys.argv[1:])
