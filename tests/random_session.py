"""Random but useful input, the same for the same seed.

    python3 tests/random_session.py SEED N [RULES.BIN]   N lines for that table
    python3 tests/random_session.py table SEED FILE      a random accepted table

The lines are chosen while the oracle follows them, so most adds go to idle
desks and most steps to desks with work; a few are refused or unreadable.
Crowded sessions, of tests that ask for them, begin on a board whose common
items are used up but for a few.
"""

import random
import sys

import oracle
from text_to_bin import table_bytes

UNREADABLE = (
    b"", b"a", b"s", b"s ", b" s 0", b"s 0 ", b"s  0", b"s -0", b"s 65536", b"s 0\r", b"S 0",
    b"a 0 0 0", b"a 0 0 0 0 0 0 0", b"a 0  0 0 0", b"a 0 0 0 -", b"a 0 0 0 +1", b"a 0 0 0 --1",
    b"a -1 0 0 0", b"a 0 65536 0 0", b"a 65536 0 0 0", b"a 0 0 4294967296 0",
    b"a 0 0 0 0000000000000000000", b"a 0 0 0 1234567890123456789", b"s " + b"0" * 79,
    b"x 1 2 3 4", b"s 1 2", b"s \xff", b"a 0 0 0 1.5", b"s\t0", b"q",
    b"a 0 0 0 0 4294967296", b"a 0 0 0 0 00004294967296", b"a 0 0 0 0 18446744073709551616", b"a 0 0 0 0 ",
    b"a 0 0 0 0 -0", b"a 0 0 0 0 -1", b"a 0 0 0 0 +1", b"a 0 0 0 0 x", b"a 0 0 0 0 1x", b"a 0 0 0 0 1.5",
    b"a 0 0 0 0  1", b"a 0 0 0 0 1 ", b"a 0 0 0 0 1\r", b"a 0 0 0 0\t1", b"a 0 0 0 0 " + b"0" * 71,
    b"a 0 0 0 0 1 65536", b"a 0 0 0 0 1 00065536", b"a 0 0 0 0 1 4294967296", b"a 0 0 0 0 1 18446744073709551616",
    b"a 0 0 0 0 1 -0", b"a 0 0 0 0 1 -1", b"a 0 0 0 0 1 +1", b"a 0 0 0 0 1 x", b"a 0 0 0 0 1 1x", b"a 0 0 0 0 1 1.5",
    b"a 0 0 0 0 1  2", b"a 0 0 0 0  2", b"a 0 0 0 0 1 2 ", b"a 0 0 0 0 1 2\r", b"a 0 0 0 0 1\t2", b"a 0 0 0 0 x 2",
    b"a 0 0 0 0 1 2 3", b"a 0 0 0 0 1 2 3 4", b"a 0 0 0 0 4294967296 2", b"a 0 0 0 0 1 " + b"0" * 69,
)  # fmt: skip

# The habits of days: from the random numbers and the number of items so far.
DAYS = (
    lambda rng, items: 0,
    lambda rng, items: 20_454,
    lambda rng, items: rng.randrange(2),
    lambda rng, items: 1 + rng.randrange(4),
    lambda rng, items: rng.randrange(oracle.MOST_U32 + 1),
    lambda rng, items: rng.choice((0, 1, oracle.MOST_U32 - 1, oracle.MOST_U32)),
    lambda rng, items: 1 + items // 3,
    lambda rng, items: oracle.MOST_U32 - items // 3,
)

# The habits of units.
UNITS = (
    lambda rng: 0,
    lambda rng: 12,
    lambda rng: rng.randrange(2),
    lambda rng: rng.randrange(2),
    lambda rng: 1 + rng.randrange(3),
    lambda rng: rng.choice((0, 256)),
    lambda rng: rng.choice((0, oracle.MOST_U16)),
    lambda rng: oracle.MOST_U16 - rng.randrange(2),
    lambda rng: rng.randrange(oracle.MOST_U16 + 1),
)

LAST_BYTES = (oracle.ANY, oracle.ANY, oracle.PROPERTY, oracle.UNIT)


def random_table(seed):
    """The bytes of a table with 1 to 16 trays and 0 to 32 rules."""
    rng = random.Random(f"table {seed}")
    if rng.random() < 0.03:
        return largest_table(rng)
    trays = rng.choice((1, 2, 2, 3, 3, 4, 4, 5, 6, 8, 12, 16))
    count = rng.choice((0, 1, 1, 2, 2, 3, 4, 5, 6, 8, 12, 20, 32))
    waiting_share = rng.choice((0, 0.3, 0.5, 0.5, 0.7, 1))
    waiting = [rng.random() < waiting_share for _ in range(trays)]
    longest = rng.choice((2, 3, 3, 4, 4, 8))
    rules = []
    for _ in range(count):
        length = rng.randint(1 if rng.random() < 0.15 else min(2, longest), longest)
        members = [rng.randrange(trays) for _ in range(length)]
        rules.append((members, rng.choice(LAST_BYTES)))
    return table_bytes(waiting, rules)


def crowded_table(seed):
    """The same with a last tray, leave, that no rule names: an add to it ends with one step."""
    table = oracle.read_table(random_table(seed))
    waiting = table.waiting[:15]
    rules = [([tray % len(waiting) for tray in rule.members], rule.same) for rule in table.rules]
    return table_bytes([*waiting, False], rules)


def largest_table(rng):
    """A table of 412 bytes, the most there can be."""
    rules = [([rng.randrange(16) for _ in range(8)], rng.choice(LAST_BYTES)) for _ in range(32)]
    return table_bytes([rng.random() < 0.5 for _ in range(16)], rules)


def random_rests(seed):
    """The bytes of a rest table that passes."""
    rng = random.Random(f"rests {seed}")
    most = rng.choice((0, 0, 1, 2, 5, 20, oracle.MOST_RESTS, oracle.MOST_RESTS))
    if rng.random() < 0.2:
        return bytes([most] * 16)
    first = rng.randrange(17)  # the entries before it are 0, so that many `again` are reached in few steps
    return bytes([0] * first + sorted(rng.choice((rng.randint(0, most), most)) for _ in range(16 - first)))


def write_random_table(seed, path):
    with open(path, "wb") as file:
        file.write(random_table(seed))


def past_share(desk):
    return desk.tally >= oracle.SHARE


class Session:
    """Chooses line after line, with the oracle's board beside it."""

    def __init__(self, seed, table_data, rest_data=None):
        self.rng = random.Random(f"session {seed}")
        self.board = oracle.open_board(table_data, rest_data)
        self.trays = len(self.board.table.waiting)
        desks = self.rng.choice((3, 6, 12, 32))
        self.favoured = self.rng.sample(range(oracle.DESKS), desks)
        self.properties = self.rng.choice((1, 2, 2, 3, 5))
        self.days = self.rng.choice((None, *DAYS))
        self.units = self.rng.choice((None, *UNITS))
        self.adding = self.rng.choice((0.1, 0.2, 0.35, 0.5))
        self.run_on = self.rng.choice((0.0, 0.3, 0.7, 0.95))
        self.last = None  # the desk stepped last
        self.draining = False  # steps only, until the board is quiet
        self.crowded = False  # hardly any common items are left

    def line(self):
        chosen = self.choose()
        oracle.answer(self.board, chosen)
        return chosen

    def crowd(self):
        """The lines of some desks, one or all, that add and run until the common items are used up but for a few."""
        few = self.rng.choice((0, 0, 1, 2, 5, 20))
        desks = self.rng.sample(range(oracle.DESKS), self.rng.choice((1, 1, 2, 3, 12, 32)))
        lines = []
        while self.board.common_used() < oracle.COMMON - few:
            desk = self.rng.choice(desks)
            lines.append(self.add_line(desk, self.leave_tray()))
            oracle.answer(self.board, lines[-1])
            while not oracle.at_rest(self.board.desks[desk]):
                lines.append(b"s %d" % desk)
                oracle.answer(self.board, lines[-1])
        self.favoured = desks[:2] + self.rng.sample(range(oracle.DESKS), self.rng.choice((3, 10, 30)))
        self.crowded = True
        return lines

    def may_add(self, desk):
        spent = past_share(desk) and self.board.common_used() >= oracle.COMMON
        return desk.place == oracle.IDLE and not spent

    def leave_tray(self):
        """Mostly the last one of a crowded table."""
        leave = [tray for tray, waiting in enumerate(self.board.table.waiting) if not waiting]
        return self.rng.choice(leave) if self.rng.random() < 0.05 else leave[-1]

    def choose(self):
        dice = self.rng.random()
        if dice < 0.01:
            return self.rng.choice(UNREADABLE)
        if dice < 0.03 and not self.draining:
            return self.odd_line()
        if dice < 0.1 and self.crowded and not self.draining:
            return self.add_line(self.rng.choice(self.desks_at(past_share)), self.tray())
        idle = self.desks_at(self.may_add)
        busy = self.desks_at(lambda desk: not oracle.at_rest(desk))
        if busy and (self.draining or not idle or self.rng.random() >= self.adding):
            return self.step_line(busy)
        if idle and not self.draining:
            return self.add_line(self.rng.choice(idle), self.tray())
        return b"s %d" % self.rng.randrange(oracle.DESKS)

    def desks_at(self, wanted):
        """The favoured desks that are as wanted; if none is, any such desk."""
        desks = [number for number in range(oracle.DESKS) if wanted(self.board.desks[number])]
        return [number for number in desks if number in self.favoured] or desks

    def add_line(self, desk, tray):
        return self.add(desk, tray, self.property(), self.cents()) + self.day_and_unit()

    def tray(self):
        """A tray of some rule, often the one that the rule is shortest of."""
        dice = self.rng.random()
        if dice < 0.2 or not self.board.table.rules:
            return self.rng.randrange(self.trays)
        members = self.rng.choice(self.board.table.rules).members
        if dice < 0.5:
            return self.rng.choice(members)
        return min(members, key=self.pending)

    def pending(self, tray):
        items = self.board.items
        return sum(item.tray == tray and item.status == oracle.PENDING for item in items)

    def add(self, desk, tray, prop, cents):
        return b"a %d %d %d %d" % (desk, tray, prop, cents)

    def step_line(self, busy):
        if self.last not in busy or self.rng.random() >= self.run_on:
            self.last = self.rng.choice(busy)
        return b"s %d" % self.last

    def property(self):
        if self.rng.random() < 0.02:
            return 2**32 - 1
        return self.rng.randrange(self.properties)

    def day_and_unit(self):
        """The end of a line: a day or none, and after a day a unit or none, some with leading zeros."""
        if self.days is None or self.rng.random() < 0.05:
            return b""
        day = self.field(self.days(self.rng, len(self.board.items)), 20)
        if self.units is None or self.rng.random() < 0.05:
            return day
        return day + self.field(self.units(self.rng), 8)

    def field(self, number, most_zeros):
        zeros = b"0" * self.rng.choice((0, 0, 0, 0, 1, 3, most_zeros))
        return b" %s%d" % (zeros, number)

    def cents(self):
        dice = self.rng.random()
        if dice < 0.03:
            return self.rng.choice((oracle.MOST_CENTS, -oracle.MOST_CENTS, 0))
        return self.rng.randint(-100_000, 100_000)

    def odd_line(self):
        """A line that reads and is mostly refused, or is oddly written."""
        desk, tray = self.rng.randrange(oracle.DESKS), self.rng.randrange(self.trays)
        too_much = oracle.MOST_CENTS + self.rng.choice((1, 10**15))
        return self.rng.choice((
            b"s %d" % desk,
            b"s %d" % self.rng.choice((32, 33, 255, 65535)),
            b"s %08d" % desk,
            b"a %04d %03d %d %d" % (desk, tray, self.property(), self.cents()),
            b"a %d %d %d -0" % (desk, tray, self.property()),
            (b"a %d %d %d 5 " % (desk, tray, self.property())).ljust(80, b"0"),
            (b"a %d %d %d 5 " % (desk, tray, self.property())).ljust(81, b"0"),
            self.add(desk, tray, self.property(), self.cents()) + b" 4294967295",
            (b"a %d %d %d 5 20454 " % (desk, tray, self.property())).ljust(80, b"0"),
            (b"a %d %d %d 5 20454 " % (desk, tray, self.property())).ljust(81, b"0"),
            self.add(desk, tray, self.property(), self.cents()) + b" 20454 65535",
            self.add(desk, tray, self.property(), self.cents()) + b" 20454 65536",
            self.add(desk, tray, self.property(), self.cents()),
            self.add(32 + desk, tray, self.property(), self.cents()),
            self.add(desk, self.trays, self.property(), self.cents()),
            self.add(desk, 65535, self.property(), too_much),
            self.add(desk, tray, self.property(), too_much),
            self.add(desk, tray, self.property(), -too_much),
        ))  # fmt: skip


def random_input(seed, lines, table_data, crowded=False, rest_data=None):
    """Half of the sessions end with steps only, so that many end quiet. Crowded ones have more lines, before these."""
    session = Session(seed, table_data, rest_data)
    tail = min(lines // 3, 400) if session.rng.random() < 0.5 else 0
    chosen = [line + b"\n" for line in session.crowd()] if crowded else []
    for number in range(lines):
        session.draining = number >= lines - tail
        chosen.append(session.line() + b"\n")
    return b"".join(chosen)


def main(arguments):
    if len(arguments) == 3 and arguments[0] == "table":
        write_random_table(arguments[1], arguments[2])
    elif len(arguments) in (2, 3):
        path = arguments[2] if len(arguments) == 3 else "rules.bin"
        try:
            session = random_input(arguments[0], int(arguments[1]), oracle.table_file(path))
        except oracle.Refused as refused:
            sys.exit(f"{path}: table refused {refused.number}")
        sys.stdout.buffer.write(session)
    else:
        sys.exit("usage: random_session.py SEED N [RULES.BIN] | random_session.py table SEED FILE")


if __name__ == "__main__":
    main(sys.argv[1:])
