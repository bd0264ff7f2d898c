"""Checks printouts by 01's pool, from the printed words only.

    python3 tests/pool_check.py FIRST LAST N [crowded | rests]

For each seed: a random table, N random lines, the oracle's printout; then the
pool is kept by the words printed, and on a quiet board no rule can be met; what
is left of each desk's share and of the common items is kept so too, and the
rests of each desk are counted. What days, units, shares and rests decided is
counted beside the words. With `rests` each board has a random rest table.
"""

import sys
from collections import Counter, namedtuple

import oracle
import random_session

Item = namedtuple("Item", "tray prop cents unit")


def common(item, same):
    """What must be equal in the items of a rule with this last byte."""
    return {0: (), 1: (item.prop,), 2: (item.prop, item.unit)}[same]


def meets(rule, numbers, items):
    if len(set(numbers)) != len(numbers) or len(numbers) != len(rule.members):
        return False
    if [items[n].tray for n in numbers] != rule.members:
        return False
    return len({common(items[n], rule.same) for n in numbers}) == 1


def can_be_met(members, same, pool, items):
    need, groups = Counter(members), {}
    for n in pool:
        groups.setdefault(common(items[n], same), Counter())[items[n].tray] += 1
    return any(all(group[tray] >= many for tray, many in need.items()) for group in groups.values())


def left_by_unit(table, pool, items):
    """Would the pool meet a rule that wants equal units if it wanted equal properties alone?"""
    return any(rule.same == oracle.UNIT and can_be_met(rule.members, 1, pool, items) for rule in table.rules)


class Watched(oracle.Board):
    """Counts what days and units decided.

    Of days: older items before lower numbers, lower numbers of equal days, and extremes. Of units: items of the hand's
    property and another unit that the unit alone kept from being taken or from setting the mark, those that were taken
    by rules that want the property alone, and extremes.
    """

    def __init__(self, table, rests):
        super().__init__(table, rests)
        self.seen = Counter()

    def found(self, desk):
        number = super().found(desk)
        if number is None:
            self.weigh_miss(desk)
        elif number != desk.hand:
            self.weigh(desk, number)
            self.weigh_unit(desk, number)
        return number

    def same(self, desk):
        return self.table.rules[desk.rule].same

    def of_other_units(self, desk, status):
        """Day and number of the items of the member's tray with this status, the hand's property and another unit."""
        hand, tray = self.items[desk.hand], self.members(desk)[desk.at]
        return [
            (item.day, number)
            for number, item in enumerate(self.items)
            if (item.tray, item.status, item.prop) == (tray, status, hand.prop) and item.unit != hand.unit
        ]

    def weigh_miss(self, desk):
        if self.same(desk) == oracle.UNIT:
            tray = self.members(desk)[desk.at]
            claimed = [number for number, item in enumerate(self.items) if item.status == oracle.CLAIMED]
            marked = any(self.fits(desk, number, tray) for number in claimed)
            self.seen["unit missed"] += self.of_other_units(desk, oracle.PENDING) != []
            self.seen["unit unmarked"] += not marked and self.of_other_units(desk, oracle.CLAIMED) != []

    def weigh_unit(self, desk, number):
        item, hand, same = self.items[number], self.items[desk.hand], self.same(desk)
        if same == oracle.PROPERTY:
            assert item.prop == hand.prop
            self.seen["unit not asked"] += item.unit != hand.unit
        elif same == oracle.UNIT:
            assert (item.prop, item.unit) == (hand.prop, hand.unit)
            earlier = [rank for rank in self.of_other_units(desk, oracle.PENDING) if rank < (item.day, number)]
            self.seen["unit passed over"] += earlier != []
            self.seen["first unit"] += item.unit == 0
            self.seen["last unit"] += item.unit == oracle.MOST_U16

    def weigh(self, desk, number):
        day, tray = self.items[number].day, self.members(desk)[desk.at]
        for other, item in enumerate(self.items):
            if item.status == oracle.PENDING and other not in desk.chosen and self.fits(desk, other, tray):
                assert (day, number) <= (item.day, other)
                self.seen["older"] += other < number
                self.seen["tie"] += other > number and item.day == day > 0
        self.seen["first day"] += day == 0
        self.seen["last day"] += day == oracle.MOST_U32


class Shares:
    """What is left to each desk and to all, by the words printed for their adds; counts what that decided."""

    def __init__(self):
        self.own, self.common = [16] * 32, 512
        self.seen = Counter()

    def hear(self, desk, answer):
        if answer.startswith("item"):
            self.take(desk)
        spent = desk < 32 and not self.own[desk] and not self.common
        assert answer != "refused 12"
        if answer == "refused 26":
            assert spent, desk
        elif answer in ("refused 9", "refused 10", "refused 11"):
            self.seen[answer[8:] + " before 26"] += spent

    def take(self, desk):
        if self.own[desk]:
            self.own[desk] -= 1
            self.seen["own past the common"] += not self.common
        else:
            assert self.common, desk
            self.common -= 1
            self.seen["common"] += 1
        self.seen["all used"] += not any(self.own) and not self.common


class Rests:
    """The rests that each desk has still to spend, by the words printed for it; counts where they came from."""

    # said when a job begins, or by the last steps of one
    BOUNDS = ("item", "resumed", "ended", "signalled", "consumed", "told", "answered")

    def __init__(self, rests):
        self.rests = rests
        self.agains, self.due = Counter(), Counter()
        self.seen = Counter()

    def hear(self, desk, word):
        if word == "rested":
            self.due[desk] -= 1
            assert self.due[desk] >= 0, desk
            return
        assert not self.due[desk], (desk, word)
        if word == "again":
            self.again(desk)
        elif word in self.BOUNDS:
            self.agains[desk] = 0

    def again(self, desk):
        self.agains[desk] += 1
        k = self.agains[desk]
        rests = self.rests[min(k, 16) - 1]
        self.due[desk] = rests
        self.seen["again 1" if k == 1 else "again to 15" if k < 16 else "again 16" if k == 16 else "again past 16"] += 1
        self.seen["rests of 0" if rests == 0 else "rests of 64" if rests == 64 else "other rests"] += 1
        self.seen["rests unlike the built-in"] += rests != oracle.BUILT_IN_RESTS[min(k, 16) - 1]


def decided(table, calls, rests):
    board = Watched(table, rests)
    for line in calls:
        oracle.answer(board, line)
    return board.seen


def shared(calls, answers):
    shares = Shares()
    for line, answer in zip(calls, answers):
        if line.startswith(b"a") and answer != "refused 16":
            shares.hear(int(line.split()[1]), answer)
    return shares.seen


def rested(calls, answers, rests):
    heard = Rests(rests)
    for line, answer in zip(calls, answers):
        if not answer.startswith("refused"):
            heard.hear(int(line.split()[1]), answer.split()[0])
    return heard.seen


def check(seed, lines, crowded=False, rests=None):
    """With the built-in rests where none are given."""
    data = random_session.crowded_table(seed) if crowded else random_session.random_table(seed)
    table = oracle.read_table(data)
    session = random_session.random_input(seed, lines, data, crowded, rests)
    calls = oracle.split_lines(session)
    out = oracle.printout(data, session, rests).decode().split("\n")[:-1]
    answers, rest = out[: len(calls)], out[len(calls) :]
    matches = [line.split() for line in rest if line.startswith("match")]
    spent = oracle.BUILT_IN_RESTS if rests is None else rests
    words = decided(table, calls, spent) + shared(calls, answers) + rested(calls, answers, spent)
    items, pool, own, made = [], set(), {}, 0
    for line, words_printed in zip(calls, answers):
        word, *number = words_printed.split()
        words[words_printed if word == "refused" else word] += 1
        if word == "item":
            assert int(number[0]) == len(items)
            desk, tray, prop, cents, _, unit = [*map(int, line.split()[1:]), 0, 0][:6]
            items.append(Item(tray, prop, cents, unit))
            pool.add(int(number[0]))
            own[desk] = int(number[0])
        elif word == "matched":
            assert int(number[0]) == made
            match = matches[made]
            rule, cents = int(match[3]), int(match[5])
            numbers = [int(n) for n in match[7:]]
            assert set(numbers) <= pool and meets(table.rules[rule], numbers, items)
            assert cents == sum(items[n].cents for n in numbers)
            pool -= set(numbers)
            made += 1
        elif word == "answered":
            mine = own[int(line.split()[1])]
            assert table.waiting[items[mine].tray]
            holders = [k for k, m in enumerate(matches) if str(mine) in m[7:]]
            assert holders == [int(number[0])], (holders, number)
    assert made == len(matches)
    if rest[-1] == "quiet yes":
        words["quiet"] += 1
        words["quiet after 26"] += words["refused 26"] > 0
        assert not any(can_be_met(rule.members, rule.same, pool, items) for rule in table.rules), seed
        words["unit left"] += left_by_unit(table, pool, items)
        assert sorted(pool) == [int(l.split()[1]) for l in rest if l.startswith("open")]
    return words


def main(arguments):
    crowded, given = arguments[3:] == ["crowded"], arguments[3:] == ["rests"]
    first, last, lines = map(int, arguments[:3])
    total = Counter()
    for seed in range(first, last):
        total += check(seed, lines, crowded, random_session.random_rests(seed) if given else None)
    for word, count in sorted(total.items()):
        print(word, count)


if __name__ == "__main__":
    main(sys.argv[1:])
