"""A refusal's number in words; `./lab --why N` runs it, and without N it says all of them (docs/HISTORIES.md has the same table)."""
from bench.history import Wrong, is_number
from programs.refusals import REFUSALS, why


def tell(words, out=print):
    if len(words) > 1:
        raise Wrong("./lab --why takes one number")
    if words and not (is_number(words[0]) and int(words[0]) in REFUSALS):
        raise Wrong("no refusal has the number %s: they are 1 to %d" % (words[0], max(REFUSALS)))
    for number in [int(w) for w in words] or REFUSALS:
        out(why(number))
    return 0
