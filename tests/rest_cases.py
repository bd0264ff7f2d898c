"""Rest tables at their edges (request 4), and inputs with what is to be printed for them, from the prose alone.

A table passes if it has sixteen entries, none over 64 and none less than the one before it; 21 if not. After the k-th
`again` of a job come as many steps `rested` as entry k says, beyond 16 as entry 16 does.
"""

from text_to_bin import table_bytes

BUILT_IN = bytes([0, 1, 1, 2, 2, 4, 4, 8, 8, 16, 16, 16, 32, 32, 32, 32])
PASSING = {
    "the built-in one": BUILT_IN,
    "all 0": bytes(16),
    "all 1": bytes([1] * 16),
    "all 64": bytes([64] * 16),
    "1 to 16": bytes(range(1, 17)),
    "64 at last": bytes([0] * 15 + [64]),
    "64 from the second on": bytes([0] + [64] * 15),
    "49 to 64": bytes(range(49, 65)),
}
FAILING = {
    "no bytes": b"",
    "15 of 0": bytes(15),
    "17 of 0": bytes(17),
    "32 of 0": bytes(32),
    "all 65": bytes([65] * 16),
    "65 from the eighth on": bytes([0] * 7 + [65] * 9),
    "65 at last": bytes([64] * 15 + [65]),
    "255 at last": bytes([0] * 15 + [255]),
    "falling at first": bytes([1] + [0] * 15),
    "falling in the middle": bytes([0] * 7 + [2, 1] + [2] * 7),
    "falling at last": bytes([64] * 15 + [63]),
    "falling all along": bytes(range(16, 0, -1)),
}
PAIRS = table_bytes([False, False], [([0, 1], 0)])  # two leave trays and a rule of both
AGAINS = 20


def lined(lines):
    return "".join(line + "\n" for line in lines).encode()


def case(rests):
    """Desk 1 holds item 0 while desk 2 misses it again and again; then it matches, and desk 2 ends."""
    lines = ["a 0 0 7 1", "a 1 1 7 1", "a 2 1 7 1", *["s 1"] * 3]
    words = ["item 0", "item 1", "item 2", "looked 0", "looked 1", "claimed 0"]
    for k in range(1, AGAINS + 1):
        passed = ["missed", "again", *["rested"] * rests[min(k, 16) - 1]]
        lines += ["s 2"] * len(passed)
        words += passed
    lines += [*["s 1"] * 3, *["s 2"] * 4, "s 0"]
    words += ["matched 0", "consumed 0", "consumed 1"]
    # a pass that finds nothing claimed; then desk 2 is idle; desk 0 has item 0 in hand
    words += ["missed", "ended", "refused 13", "refused 13", "looked 0"]
    words += ["match 0 rule 0 cents 2 items 0 1", "open 2 pending", "quiet no"]
    return lined(lines), lined(words)


def cases():
    """(name, rest table, table, input, printout)"""
    for name, rests in PASSING.items():
        yield (name, rests, PAIRS, *case(rests))
