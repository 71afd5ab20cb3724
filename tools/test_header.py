"""The gate's test of tools/header.py; it says nothing where all is well.

  python3 -m tools.test_header
"""
import re
import sys

from tools import header


def same(got, wanted, what):
    if got != wanted:
        sys.exit("tools.test_header: %s: %r, not %r" % (what, got, wanted))


# Definitions otherwise than they are: the crate's file, what stands there, what would.
OTHERWISE = [
    ("library_answer/specs/Words.antt", "3 ∷ id ∷ 0", "3 ∷ 0 ∷ id"),
    ("library_answer/specs/Words.antt", "get_or o 1 0 ∷ get_or o 2 0", "get_or o 2 0 ∷ get_or o 1 0"),
    ("library_answer/specs/Words.antt", "7 ∷ set ∷ tick", "8 ∷ set ∷ tick"),
    ("library_client/specs/Library.antt", "(eqb k 16) (Event.Synced a b 0)", "(eqb k 16) (Event.Synced b a 0)"),
    ("library_client/src/lib.rt", "map: &mut [u8],\n    other: &[u8],", "other: &[u8],\n    map: &mut [u8],"),
    ("library_client_words/specs/ClientWords.antt", "∷ c.check.due\n    ∷ c.check.once", "∷ c.check.once\n    ∷ c.check.due"),
    ("library_client_words/specs/PoolWords.antt", "pick s.mark 16 0", "pick s.mark 128 0"),
    ("library_client_words/specs/PoolWords.antt", "phase_tag (Phase.Gather s) = 4", "phase_tag (Phase.Gather s) = 5"),
    ("library_node/specs/Library.antt", "eqb k 14 || eqb k 17", "eqb k 14"),
    ("event_words/specs/NodeWords.antt", "state_word State.NoIo = 4", "state_word State.NoIo = 5"),
    ("event_words/specs/Calls.antt", "pick event 0 2", "pick event 0 3"),
    ("event/specs/OfClient.antt", "lent_of value.Event.Extend own other = pool.Lent.some own", "lent_of value.Event.Extend own other = pool.Lent.none"),
    ("rules_base/specs/Refusals.antt", "1 ∷ 2 ∷ 18", "1 ∷ 18 ∷ 2"),
    ("rules_base/specs/Limits.antt", "map_bytes = 8192", "map_bytes = 8193"),
]


def main():
    """The header is what the definitions say, and another definition would make another one, or none."""
    with open(header.HEADER, encoding="utf-8") as f:
        text = f.read()
    parts = header.blocks()
    same(header.made(text, parts) == text, True, "whether c/munzolkheg.h is what tools/header.py makes")
    for at, number in [(m.start(1), m.group(1)) for m in re.finditer(r"MZK_\w+ = (\d+)", text)]:
        by_hand = text[:at] + str(int(number) + 1) + text[at + len(number):]
        same(header.made(by_hand, parts) == by_hand, False, "whether a number changed by hand in the header passes, at %d" % at)
    content = header.content
    for path, was, would in OTHERWISE:
        same(content(*path.split("/")).count(was), 1, "how often %s has %s" % (path, was))
        header.content = lambda *parts: content(*parts).replace(was, would) if "/".join(parts) == path else content(*parts)
        try:
            same(header.made(text, header.blocks()) == text, False, "whether the header stays the same if %s had %s" % (path, would))
        except header.Wrong:
            pass
    header.content = content


if __name__ == "__main__":
    main()
