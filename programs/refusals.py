"""The refusals in words: one table, for `./lab --why`, the bench, the other programs, and docs/HISTORIES.md, which the gate compares with it."""

# 1 to 15 as document 01 has them, with what document 02 added; 16 to 21 are document 02's.
REFUSALS = {
    1: "the state value breaks a state rule",
    2: "a map, staging map or dump is not 8,192 bytes, or has a bit set past the chunk count",
    3: "an id above 15, or a bit above 15 in a set",
    4: "a chunk that is not below the chunk count",
    5: "the event is not for this kind of pool",
    6: "a job is in hand that bars the event",
    7: "the id has no session",
    8: "the id has a session",
    9: "the transition, or at a node the state, is not allowed",
    10: "a membership test does not hold",
    11: "at a write, sync or extend, no session is NORMAL; or a reached set names an id that is not",
    12: "at the client, the chunk can't be synced",
    13: "not the number that is awaited, or no such answer is",
    14: "a version above 2^63 - 34, in a node's write or fill above 2^63 - 17",
    15: "no map transfer in hand, or MAP_DONE before a whole map was taken",
    16: "a part of length 0 or above 1,024, one that does not start where the last ended, one past byte 8,192, or one with a bit past the chunk count",
    17: "join create after an acknowledged write; or enable from CREATED after one, or once the pool was assembled",
    18: "a node's summary disagrees with its map",
    19: "at extend, no id is left",
    20: "of ./status: the chunk count, the chunk size or the descriptors do not fit a volume",
    21: "a version record with a version of 2^63 or more, or a flag above 1; no program gives it",
}
ORDER = (1, 2, 18, 3, 4, 5, 6, 7, 8, 9, 17, 10, 11, 19, 12, 13, 14, 15, 16)  # of an event's refusals the first that applies
REFUSED = "refused "


def number_of(answer):
    """The number of a refusal; 0 for another line."""
    return int(answer[len(REFUSED):]) if answer.startswith(REFUSED) else 0


def why(number):
    """A number in words, as a line."""
    return "refused %d: %s" % (number, REFUSALS[number])


def table():
    """The table of docs/HISTORIES.md."""
    return "".join(["| number | given exactly when |\n", "|---|---|\n"] + ["| %d | %s |\n" % row for row in REFUSALS.items()])
