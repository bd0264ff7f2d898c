"""A plain reading of the matching board (paper 01, and requests 2, 4, 8 and 13 of paper 02).

    python3 tests/oracle.py RULES.BIN < INPUT

prints what the program prints for that table and that input.
"""

import re
import sys

# --- limits ---------------------------------------------------------------

DESKS = 32
SHARE = 16  # items of each desk's own
COMMON = 512  # the other items that a board takes
MOST_MATCHES = 1024
MOST_CENTS = 999_999_999_999
MOST_U32 = 4_294_967_295  # a property, a day
MOST_U16 = 65_535  # a unit
MOST_TABLE_BYTES = 412
MOST_LINE_BYTES = 80
MOST_RESTS = 64
BUILT_IN_RESTS = (0, 1, 1, 2, 2, 4, 4, 8, 8, 16, 16, 16, 32, 32, 32, 32)

# --- the status of an item -------------------------------------------------

PENDING, CLAIMED, WOKEN, CONSUMED = "pending", "claimed", "woken", "consumed"

# --- the place of a desk in its work ---------------------------------------

IDLE, BLOCKED = "idle", "blocked"
LOOK, CLAIM, REVERT = "look", "claim", "revert"
CONSUME, TELL = "consume", "tell"
WAKE, FREE, SIGNAL = "wake", "free", "signal"
PASS_END, REST = "pass end", "rest"


class Refused(Exception):
    """A call, a line or a table refused; holds the number."""

    def __init__(self, number):
        super().__init__(number)
        self.number = number


# --- the table --------------------------------------------------------------

ANY, PROPERTY, UNIT = 0, 1, 2  # a rule's last byte: equal properties are wanted; equal properties and equal units


class Rule:
    def __init__(self, members, same):
        self.members = members
        self.same = same


class Table:
    def __init__(self, waiting, rules):
        self.waiting = waiting  # one bool a tray
        self.rules = rules

    def names_waiting(self, rule):
        return any(self.waiting[tray] for tray in rule.members)


def u16(data, at):
    return data[at] + 256 * data[at + 1]


def read_table(data):
    """The table of these bytes, or Refused 1 to 7, in 01's order."""
    if len(data) < 12:
        raise Refused(1)
    trays, rules, members = u16(data, 0), u16(data, 2), u16(data, 4)
    if not 1 <= trays <= 16 or rules > 32 or members > 256:
        raise Refused(2)
    tray_at, rule_at, member_at = 12, 12 + trays, 12 + trays + 4 * rules
    offsets = (u16(data, 6), u16(data, 8), u16(data, 10))
    if offsets != (tray_at, rule_at, member_at) or len(data) != member_at + members:
        raise Refused(3)

    waiting = []
    for byte in data[tray_at:rule_at]:
        if byte > 1:
            raise Refused(4)
        waiting.append(byte == 1)

    spans = []
    due = 0  # where the next rule must start
    for at in range(rule_at, member_at, 4):
        first, count, same = u16(data, at), data[at + 2], data[at + 3]
        if first != due or not 1 <= count <= 8 or same > UNIT:
            raise Refused(5)
        due = first + count
        spans.append((first, due, same))
    if due != members:
        raise Refused(6)

    member_bytes = data[member_at:]
    for tray in member_bytes:
        if tray >= trays:
            raise Refused(7)
    return Table(waiting, [Rule(list(member_bytes[a:b]), same) for a, b, same in spans])


def read_rests(data):
    """The rest table of these bytes, or Refused 21."""
    falls = any(entry > following for entry, following in zip(data, data[1:]))
    if len(data) != 16 or falls or max(data) > MOST_RESTS:
        raise Refused(21)
    return tuple(data)


# --- the board ----------------------------------------------------------------


class Item:
    def __init__(self, tray, prop, cents, day, unit):
        self.tray = tray
        self.prop = prop
        self.cents = cents
        self.day = day
        self.unit = unit
        self.status = PENDING
        self.match = None  # once consumed
        self.waker = None  # once woken


class Match:
    def __init__(self, rule, items, cents):
        self.rule = rule
        self.items = items
        self.cents = cents


class Desk:
    def __init__(self):
        self.place = IDLE
        self.tally = 0  # how many adds of it were accepted
        self.own = None  # the desk's own item
        self.waker = None  # the item that woke the own item last
        self.signal = False
        self.slip = None
        self.match = None  # the match being consumed
        self.matched = None  # the match this desk made of its own item
        self.hand = None  # the item in hand
        self.rule = None  # the rule of the pass
        self.at = 0  # the member due, or the rests left
        self.chosen = []
        self.mark = False  # the retry mark
        self.agains = 0


class Board:
    def __init__(self, table, rests=BUILT_IN_RESTS):
        self.table = table
        self.rests = rests
        self.items = []
        self.matches = []
        self.desks = [Desk() for _ in range(DESKS)]

    # the calls

    def add(self, desk_number, tray, prop, cents, day, unit):
        if desk_number >= DESKS:
            raise Refused(8)
        desk = self.desks[desk_number]
        if desk.place != IDLE:
            raise Refused(9)
        if tray >= len(self.table.waiting):
            raise Refused(10)
        if abs(cents) > MOST_CENTS:
            raise Refused(11)
        if desk.tally >= SHARE and self.common_used() >= COMMON:
            raise Refused(26)
        number = len(self.items)
        self.items.append(Item(tray, prop, cents, day, unit))
        desk.tally += 1
        desk.own = number
        desk.slip = desk.waker = desk.matched = None
        desk.signal = False
        self.begin_job(desk, number)
        return f"item {number}"

    def step(self, desk_number):
        if desk_number >= DESKS:
            raise Refused(8)
        desk = self.desks[desk_number]
        if at_rest(desk):
            raise Refused(13)
        return STEPS[desk.place](self, desk)

    def quiet(self):
        return all(at_rest(desk) for desk in self.desks)

    def common_used(self):
        """How many adds went past the shares of their desks, whatever became of the items."""
        return sum(max(desk.tally - SHARE, 0) for desk in self.desks)

    # jobs, passes and rules

    def begin_job(self, desk, hand):
        desk.hand = hand
        desk.agains = 0
        self.begin_pass(desk)

    def begin_pass(self, desk):
        desk.mark = False
        self.begin_rule(desk, 0)

    def next_rule(self, desk):
        self.begin_rule(desk, desk.rule + 1)

    def begin_rule(self, desk, first):
        """Go to the first rule from this one on that names the hand's tray."""
        tray = self.items[desk.hand].tray
        desk.at = 0
        desk.chosen = []
        for number in range(first, len(self.table.rules)):
            if tray in self.table.rules[number].members:
                desk.rule = number
                desk.place = LOOK
                return
        desk.rule = None
        desk.place = PASS_END

    def end_job(self, desk):
        if not self.table.waiting[self.items[desk.own].tray]:
            go_idle(desk, None)
        elif self.waker_is_due(desk):
            self.begin_job(desk, desk.waker)
        elif desk.matched is not None:
            go_idle(desk, desk.matched)
        else:
            desk.place = BLOCKED

    def waker_is_due(self, desk):
        waker = desk.waker
        return waker is not None and waker != desk.hand and self.items[waker].status != CONSUMED

    # small questions

    def members(self, desk):
        return self.table.rules[desk.rule].members

    def is_waiting(self, number):
        return self.table.waiting[self.items[number].tray]

    def fits(self, desk, number, tray):
        """Is it an item of the tray, with the hand's property and unit where these are wanted?"""
        item, hand, same = self.items[number], self.items[desk.hand], self.table.rules[desk.rule].same
        if item.tray != tray or (same != ANY and item.prop != hand.prop):
            return False
        return same != UNIT or item.unit == hand.unit

    def fires(self, desk):
        """Does the last claim make a match (or else wake a desk)?"""
        rule = self.table.rules[desk.rule]
        return self.is_waiting(desk.hand) or not self.table.names_waiting(rule)

    def to_tell(self, desk):
        """The waiting items of the match other than the hand, in order."""
        return [n for n in desk.chosen if self.is_waiting(n) and n != desk.hand]

    def woken_member(self, desk):
        """The position of the first member of a waiting tray."""
        return [self.table.waiting[tray] for tray in self.members(desk)].index(True)

    def set_signal(self, number):
        for desk in self.desks:
            if desk.place != IDLE and desk.own == number:
                desk.signal = True

    # the steps: each does one and answers its words

    def look(self, desk):
        number = self.found(desk)
        if number is None:
            return self.miss(desk)
        desk.chosen.append(number)
        desk.at += 1
        if desk.at == len(self.members(desk)):
            desk.place, desk.at = CLAIM, 0
        return f"looked {number}"

    def found(self, desk):
        members = self.members(desk)
        tray = members[desk.at]
        if desk.at == members.index(self.items[desk.hand].tray):
            return desk.hand
        fitting = [
            number
            for number, item in enumerate(self.items)
            if item.status == PENDING and number not in desk.chosen and self.fits(desk, number, tray)
        ]
        return min(fitting, key=lambda number: (self.items[number].day, number), default=None)

    def miss(self, desk):
        tray = self.members(desk)[desk.at]
        for number, item in enumerate(self.items):
            if item.status == CLAIMED and self.fits(desk, number, tray):
                desk.mark = True
        self.next_rule(desk)
        return "missed"

    def claim(self, desk):
        number = desk.chosen[desk.at]
        last = desk.at == len(desk.chosen) - 1
        fires = last and self.fires(desk)
        full = fires and len(self.matches) >= MOST_MATCHES
        if self.items[number].status != PENDING or full:
            return self.lose(desk, number)
        self.items[number].status = CLAIMED
        if fires:
            return self.make_match(desk)
        if last:
            desk.place, desk.at = WAKE, 0
        else:
            desk.at += 1
        return f"claimed {number}"

    def lose(self, desk, number):
        desk.mark = True
        if desk.at == 0:
            self.next_rule(desk)
        else:
            desk.chosen = desk.chosen[: desk.at]  # the claims made
            desk.place, desk.at = REVERT, 0
        return f"lost {number}"

    def revert(self, desk):
        number = desk.chosen[desk.at]
        self.items[number].status = PENDING
        desk.at += 1
        if desk.at == len(desk.chosen):
            self.next_rule(desk)
        return f"reverted {number}"

    def make_match(self, desk):
        number = len(self.matches)
        cents = sum(self.items[n].cents for n in desk.chosen)
        self.matches.append(Match(desk.rule, list(desk.chosen), cents))
        desk.match = number
        if desk.hand == desk.own:
            desk.matched = number
        desk.place, desk.at = CONSUME, 0
        return f"matched {number}"

    def consume(self, desk):
        number = desk.chosen[desk.at]
        self.items[number].status = CONSUMED
        self.items[number].match = desk.match
        desk.at += 1
        if desk.at == len(desk.chosen):
            desk.place, desk.at = TELL, 0
            if not self.to_tell(desk):
                self.end_job(desk)
        return f"consumed {number}"

    def tell(self, desk):
        told = self.to_tell(desk)
        number = told[desk.at]
        self.set_signal(number)
        desk.at += 1
        if desk.at == len(told):
            self.end_job(desk)
        return f"told {number}"

    def wake(self, desk):
        number = desk.chosen[self.woken_member(desk)]
        self.items[number].status = WOKEN
        self.items[number].waker = desk.hand
        desk.place, desk.at = FREE, 0
        return f"woke {number}"

    def free(self, desk):
        woken = self.woken_member(desk)
        to_free = desk.chosen[:woken] + desk.chosen[woken + 1 :]
        number = to_free[desk.at]
        self.items[number].status = PENDING
        desk.at += 1
        if desk.at == len(to_free):
            desk.place, desk.at = SIGNAL, 0
        return f"freed {number}"

    def signalled(self, desk):
        number = desk.chosen[self.woken_member(desk)]
        self.set_signal(number)
        self.end_job(desk)
        return f"signalled {number}"

    def pass_end(self, desk):
        if not desk.mark or self.items[desk.hand].status in (CONSUMED, WOKEN):
            self.end_job(desk)
            return "ended"
        desk.agains += 1
        rests = self.rests[min(desk.agains, 16) - 1]
        if rests == 0:
            self.begin_pass(desk)
        else:
            desk.mark = False
            desk.place, desk.at = REST, rests
        return "again"

    def rest(self, desk):
        desk.at -= 1
        if desk.at == 0:
            self.begin_pass(desk)
        return "rested"

    def unblock(self, desk):
        desk.signal = False
        item = self.items[desk.own]
        if item.status == CONSUMED:
            go_idle(desk, item.match)
            return f"answered {item.match}"
        if item.status == WOKEN:
            item.status = PENDING
            desk.waker = item.waker
            self.begin_job(desk, desk.own)
            return "resumed"
        return "ended"


STEPS = {
    LOOK: Board.look,
    CLAIM: Board.claim,
    REVERT: Board.revert,
    CONSUME: Board.consume,
    TELL: Board.tell,
    WAKE: Board.wake,
    FREE: Board.free,
    SIGNAL: Board.signalled,
    PASS_END: Board.pass_end,
    REST: Board.rest,
    BLOCKED: Board.unblock,
}


def open_board(table_bytes, rest_bytes=None):
    """An empty board, or Refused 1 to 7, then 21; with the built-in rests where no bytes are given."""
    table = read_table(table_bytes)
    return Board(table, BUILT_IN_RESTS if rest_bytes is None else read_rests(rest_bytes))


def at_rest(desk):
    return desk.place == IDLE or (desk.place == BLOCKED and not desk.signal)


def go_idle(desk, slip):
    desk.place = IDLE
    desk.signal = False
    desk.slip = slip


# --- the lines ------------------------------------------------------------------

ADD_LINE = re.compile(rb"a ([0-9]+) ([0-9]+) ([0-9]+) (-?[0-9]{1,18})(?: ([0-9]+)(?: ([0-9]+))?)?")
STEP_LINE = re.compile(rb"s ([0-9]+)")


def split_lines(data):
    lines = data.split(b"\n")
    if lines[-1] == b"":  # a final line feed, or no input
        lines.pop()
    return lines


def at_most(digits, limit):
    number = int(digits)
    if number > limit:
        raise Refused(16)
    return number


def read_line(line):
    """('a', desk, tray, property, cents, day, unit) or ('s', desk), or Refused 16."""
    if len(line) > MOST_LINE_BYTES:
        raise Refused(16)
    add = ADD_LINE.fullmatch(line)
    if add:
        desk, tray, prop, cents, day, unit = add.groups(default=b"0")
        numbers = at_most(desk, 65_535), at_most(tray, 65_535), at_most(prop, MOST_U32), int(cents)
        return ("a", *numbers, at_most(day, MOST_U32), at_most(unit, MOST_U16))
    step = STEP_LINE.fullmatch(line)
    if step:
        return ("s", at_most(step.group(1), 65_535))
    raise Refused(16)


# --- the printout ----------------------------------------------------------------


def answer(board, line):
    """The words printed for one line; the board takes the call."""
    try:
        call, *numbers = read_line(line)
        return board.add(*numbers) if call == "a" else board.step(*numbers)
    except Refused as refused:
        return f"refused {refused.number}"


def closing_lines(board):
    for number, match in enumerate(board.matches):
        items = " ".join(str(n) for n in match.items)
        yield f"match {number} rule {match.rule} cents {match.cents} items {items}"
    for number, item in enumerate(board.items):
        if item.status != CONSUMED:
            yield f"open {number} {item.status}"
    yield "quiet yes" if board.quiet() else "quiet no"


def printout(table_bytes, input_bytes, rest_bytes=None):
    """All lines that the program prints, as bytes; it has the built-in rests, others are for tests of boards."""
    try:
        board = open_board(table_bytes, rest_bytes)
    except Refused as refused:
        return b"refused %d\n" % refused.number
    words = [answer(board, line) for line in split_lines(input_bytes)]
    words.extend(closing_lines(board))
    return "".join(line + "\n" for line in words).encode("ascii")


def table_file(path):
    """The file's first 413 bytes; an absent file is 0 bytes."""
    try:
        with open(path, "rb") as file:
            return file.read(MOST_TABLE_BYTES + 1)
    except OSError:
        return b""


def main(arguments):
    if len(arguments) != 1:
        sys.exit("usage: python3 oracle.py RULES.BIN < INPUT")
    sys.stdout.buffer.write(printout(table_file(arguments[0]), sys.stdin.buffer.read()))


if __name__ == "__main__":
    main(sys.argv[1:])
