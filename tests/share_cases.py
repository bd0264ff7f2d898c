"""Inputs at the edges of the shares (request 13), each with what is to be printed for it, from the prose alone.

A desk's first 16 accepted adds are its own, the adds past these use the 512 common ones; 26 where neither is left.
"""

from text_to_bin import table_bytes

DESKS = range(32)
ONE = table_bytes([False], [])  # a leave tray and no rule: one step ends a job
ALONE = table_bytes([False], [([0], 0)])  # each item matches by itself
PAIRS = table_bytes([False, True], [([0, 1], 1)])  # 01's table P
TOO_MUCH = "1000000000000"


class Script:
    """Lines, and the words for each; `ends` are the words of the steps after an add to tray 0, {} being the item."""

    def __init__(self, table=ONE, ends=("ended",)):
        self.table, self.ends = table, ends
        self.lines, self.words = [], []
        self.items = 0

    def say(self, line, *words):
        """The line as often as there are words."""
        self.lines += [line] * len(words)
        self.words += words

    def item(self, desk, tray=0, prop=7):
        self.say(f"a {desk} {tray} {prop} 1", f"item {self.items}")
        self.items += 1

    def add(self, desk, count=1):
        for number in range(self.items, self.items + count):
            self.item(desk)
            for word in self.ends:
                self.say(f"s {desk}", word.format(number))

    def refuse(self, *desks):
        for desk in desks:
            self.say(f"a {desk} 0 7 1", "refused 26")
            self.say(f"s {desk}", "refused 13")

    def case(self, name, *matches):
        """With the matches, whose items are not open; the board is quiet."""
        taken = {number for _, items in matches for number in items}
        for number, (cents, items) in enumerate(matches):
            self.words.append(f"match {number} rule 0 cents {cents} items " + " ".join(map(str, items)))
        self.words += [f"open {number} pending" for number in range(self.items) if number not in taken]
        self.words.append("quiet yes")
        return name, self.table, lined(self.lines), lined(self.words)


def lined(lines):
    return "".join(line + "\n" for line in lines).encode()


def alone(script, first):
    """528 of one desk, then each other desk's 16; a desk that has them is refused, and the first stays so."""
    script.add(first, 528)
    script.refuse(first, first, first)
    for desk in DESKS:
        if desk != first:
            script.add(desk, 16)
            script.refuse(desk, first)
    assert script.items == 1024
    script.refuse(*DESKS)


def alone_cases():
    for first in (0, 5, 31):
        script = Script()
        alone(script, first)
        yield script.case(f"desk {first} alone, then the others")
    script = Script(ALONE, ("looked {}", "matched {}", "consumed {}"))
    alone(script, 0)
    yield script.case("matched items give nothing back", *[(1, [number]) for number in range(1024)])


def order_of_adds_cases():
    script = Script()
    for desk in DESKS:
        script.add(desk, 16)
    script.add(7, 512)
    script.refuse(*DESKS)
    yield script.case("every share, then all common ones to one desk")
    script = Script()
    for number in range(1024):
        script.add(number % 32)
    script.refuse(*DESKS)
    yield script.case("the desks in turn")
    script = Script()
    for number in range(31 * 16 + 512):
        script.add(number % 31)
    script.refuse(*range(31))
    for desk in range(16):
        script.refuse(desk)
        script.add(31)
    script.refuse(*DESKS)
    yield script.case("31 desks get 1,008, item 1,023 needs the last")
    script = Script()
    script.add(0, 527)
    script.add(1, 17)
    script.refuse(1, 0)
    script.add(2, 16)
    script.refuse(2)
    yield script.case("the last common one to another desk")


def refusals_cases():
    """8, 9, 10 and 11 come before 26, and 26 where it alone is left."""
    script = Script()
    script.add(0, 527)
    script.item(0)
    script.say(f"a 32 1 7 {TOO_MUCH}", "refused 8")
    script.say("a 32 0 7 1", "refused 8")
    script.say(f"a 0 1 7 {TOO_MUCH}", "refused 9")
    script.say("a 0 0 7 1", "refused 9")
    script.say("s 0", "ended")
    script.say(f"a 0 1 7 {TOO_MUCH}", "refused 10")
    script.say("a 0 1 7 1", "refused 10")
    script.say(f"a 0 0 7 {TOO_MUCH}", "refused 11")
    script.say(f"a 0 0 7 -{TOO_MUCH}", "refused 11")
    script.say("a 0 0 7 999999999999", "refused 26")
    script.say("a 0 0 7 -999999999999 4294967295 65535", "refused 26")
    script.say("a 0 0 7 1 0 65536", "refused 16")
    script.refuse(0)
    script.add(1)
    yield script.case("26 after 8, 9, 10 and 11")


def noisy_cases():
    """Refused adds and steps, before and between, move no tally."""
    script = Script()
    for desk, tally in [(3, 528), *[(desk, 16) for desk in DESKS if desk != 3]]:
        for _ in range(tally):
            script.say(f"s {desk}", "refused 13")
            script.say(f"a {desk} 1 7 1", "refused 10")
            script.say(f"a {desk} 0 7 {TOO_MUCH}", "refused 11")
            script.say(f"a {desk} 0 7", "refused 16")
            script.item(desk)
            script.say(f"a {desk} 0 7 1", "refused 9")
            script.say(f"s {desk}", "ended")
        script.say(f"a {desk} 0 7 1", *["refused 26"] * (tally + 4))
    yield script.case("refused adds move no tally")


def blocked_cases():
    """A desk that waits with the last of its items is refused 9 until that is matched, then 26."""
    script = Script(PAIRS, ("looked {}", "missed", "ended"))
    script.add(0, 527)
    script.item(0, 1, 8)
    script.say("s 0", "missed", "ended", "refused 13")
    script.say("a 0 0 7 1", "refused 9")
    script.item(1, 0, 8)
    script.say("s 1", "looked 528", "looked 527", "claimed 528", "claimed 527")
    script.say("s 1", "woke 527", "freed 528", "signalled 527")
    script.say("s 0", "resumed", "looked 528", "looked 527", "claimed 528")
    script.say("a 0 0 7 1", "refused 9")
    script.say("s 0", "matched 0", "consumed 528", "consumed 527")
    script.refuse(0, 0)
    script.add(1, 15)
    script.refuse(1, 0)
    yield script.case("a desk that waits, then matches", (2, [528, 527]))


def cases():
    """(name, table, input, printout)"""
    for some in (alone_cases, order_of_adds_cases, refusals_cases, noisy_cases, blocked_cases):
        yield from some()
