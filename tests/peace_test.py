"""Steps desks alone where no other desk holds a claimed item, and counts their steps (request 12).

    python3 tests/peace_test.py [SESSIONS]

The schedule with the most steps alone that is known, on target/bin/gevnyusto and, with rest tables that the program
cannot be given, on tests/oracle.py; then SESSIONS random sessions (default 100), each left at twenty points with each
desk in peace alone, and half as many with rest tables of their own, on the oracle. That no other desk holds a claimed
item is compared with that this desk holds all that are claimed. The last line is `peace: N passed, M failed`.
"""

import collections
import copy
import sys

import oracle
import random_session
from program_test import printed
from text_to_bin import table_bytes

MOST_STEPS = 1628  # proved, for every rest table that passes
SEEN_STEPS = 1515  # by the schedule below with no rests, and as many more as the last entry of its rest table says
TABLES = 60  # random rest tables, for that schedule


def held(board, number):
    """The items that a desk has claimed and not put back, consumed, woken or freed, by its place."""
    desk = board.desks[number]
    if desk.place == oracle.CLAIM:
        return desk.chosen[: desk.at]
    if desk.place in (oracle.REVERT, oracle.CONSUME, oracle.WAKE):
        return desk.chosen[desk.at :]
    if desk.place == oracle.FREE:
        woken = board.woken_member(desk)
        return [n for place, n in enumerate(desk.chosen) if place != woken][desk.at :]
    return []


def in_peace(board, number):
    return not any(held(board, other) for other in range(oracle.DESKS) if other != number)


def all_claimed_held(board, number):
    claimed = [n for n, item in enumerate(board.items) if item.status == oracle.CLAIMED]
    return sorted(held(board, number)) == claimed


class Schedule:
    """Lines, and the oracle's board that follows them."""

    def __init__(self, table, rests=None):
        self.board = oracle.open_board(table, rests)
        self.lines = []
        self.spare = iter(range(1, oracle.DESKS))

    def say(self, line):
        self.lines.append(line)
        return oracle.answer(self.board, line)

    def step(self, desk):
        return self.say(b"s %d" % desk)

    def run(self, desk):
        while not oracle.at_rest(self.board.desks[desk]):
            self.step(desk)

    def add(self, desk, tray, prop):
        self.say(b"a %d %d %d 0" % (desk, tray, prop))

    def leave(self, tray, prop):
        """An item whose desk takes no step of its own accord."""
        desk = next(self.spare)
        self.add(desk, tray, prop)
        return desk


# The trays of the schedule with the most steps: one that wakes, six that help it, desk 0's own, one that only a desk
# of another property finds, five of the rule that takes it away.
WAKES, HELPS, OWN, OTHER, LAST = 0, [1, 2, 3, 4, 5, 6], 7, 8, [9, 10, 11, 12, 13]


def worst_table():
    waiting = [False] * 7 + [True] * 7
    rules = [([WAKES, *HELPS[:5], OTHER, OWN], oracle.PROPERTY)] * 30
    rules += [([OTHER, WAKES, *LAST, OWN], oracle.ANY), ([WAKES, *HELPS, OWN], oracle.ANY)]
    return table_bytes(waiting, rules)


def longest_rest(board, desk):
    """Is the desk about to spend as many rests as there can be?"""
    most = max(board.rests)
    return desk.agains > 0 and (most == 0 or (desk.place == oracle.REST and desk.at == most))


def worst_schedule(table, rests=None):
    """Desk 0 is left resting, its item woken twice, with a pass of lost claims and three more before it."""
    schedule = Schedule(table, rests)
    board, desk = schedule.board, schedule.board.desks[0]
    schedule.add(0, OWN, 1)
    schedule.run(0)
    for tray in HELPS:
        schedule.leave(tray, 1)
    schedule.run(schedule.leave(WAKES, 1))
    schedule.step(0)  # resumed
    schedule.leave(OTHER, 1)
    rival = schedule.leave(WAKES, 2)
    while board.desks[rival].place != oracle.CLAIM:
        schedule.step(rival)
    for _ in range(4):
        schedule.step(rival)  # holds claims, so that desk 0 tries again and again
    while not longest_rest(board, desk):
        schedule.step(0)
    schedule.run(rival)  # wakes desk 0's item once more
    for tray in HELPS[:5]:
        schedule.leave(tray, 2)
    for tray, prop in ((OTHER, 2), (OTHER, 2), (OWN, 3)):
        schedule.leave(tray, prop)
    for tray in LAST + LAST[:4]:
        schedule.leave(tray, 3)
    return schedule


def steps_alone(schedule, desk):
    """How many steps the desk takes before it is refused 13, and whether three more are refused so."""
    count = 0
    while count <= MOST_STEPS and schedule.step(desk) != "refused 13":
        count += 1
    return count, [schedule.step(desk) for _ in range(3)] == ["refused 13"] * 3


def on_program(table, schedule):
    lines = b"".join(line + b"\n" for line in schedule.lines)
    return printed(table, lines) == oracle.printout(table, lines)


def worst_cases():
    table = worst_table()
    schedule = worst_schedule(table)
    yield "worst schedule: in peace", in_peace(schedule.board, 0) and all_claimed_held(schedule.board, 0)
    count, stays = steps_alone(schedule, 0)
    print(f"peace: {count} steps alone on the program, with its own rest table")
    yield "worst schedule: steps", count == SEEN_STEPS + 32 and stays
    yield "worst schedule: program", on_program(table, schedule)


def worst_rests_cases():
    """The same by the oracle, with other rest tables: no rests, sixteen of 64, and random ones."""
    table, seen = worst_table(), collections.Counter()
    tables = [bytes(16), bytes([64] * 16), *map(random_session.random_rests, range(TABLES))]
    for rests in tables:
        schedule = worst_schedule(table, rests)
        count, stays = steps_alone(schedule, 0)
        seen[count] += 1
        peace = in_peace(schedule.board, 0) and all_claimed_held(schedule.board, 0)
        yield f"worst schedule: rests {list(rests)}", count == SEEN_STEPS + rests[-1] <= MOST_STEPS and stays and peace
    steps = f"{min(seen)} to {max(seen)} steps alone"
    print(f"peace: {steps} with {len(set(tables))} rest tables (by the oracle); proved: at most {MOST_STEPS}")
    yield "worst schedule: all lengths of rests", {SEEN_STEPS, SEEN_STEPS + 64} < set(seen)


def left_alone(schedule, seen):
    """Steps each desk that is in peace alone, from a copy; whether all went well, and the copy with the most steps."""
    good, most, longest = True, 0, None
    for desk in range(oracle.DESKS):
        peace, place = in_peace(schedule.board, desk), schedule.board.desks[desk].place
        good = good and peace == all_claimed_held(schedule.board, desk)
        seen["in peace" if peace else "not in peace"] += 1
        if peace and not oracle.at_rest(schedule.board.desks[desk]):
            alone = copy.deepcopy(schedule)
            count, stays = steps_alone(alone, desk)
            good = good and 1 <= count <= MOST_STEPS and stays
            seen[place] += 1
            if count > most:
                most, longest = count, alone
    return good, most, longest


def left_at_points(seed, table, seen, rests=None):
    """A session left after every 20th line: whether all went well, the most steps alone, and the copy with them."""
    schedule, good, longest = Schedule(table, rests), True, (0, None)
    session = random_session.random_input(seed, 400, table, rest_data=rests)
    for number, line in enumerate(oracle.split_lines(session), 1):
        schedule.say(line)
        if number % 20 == 0:
            well, count, alone = left_alone(schedule, seen)
            good = good and well
            longest = max(longest, (count, alone), key=lambda run: run[0])
    return (good, *longest)


def summed_up(name, most, seen):
    """Prints what occurred; whether all that can occur did."""
    print(f"peace: {name}, {most} steps alone at most; " + ", ".join(f"{k} {seen[k]}" for k in sorted(seen)))
    return all(seen[key] for key in ("in peace", "not in peace", *oracle.STEPS))


def random_cases(sessions):
    """The longest run alone of each session is played on the program."""
    seen, most = collections.Counter(), 0
    for seed in range(sessions):
        table = random_session.random_table(seed)
        good, count, alone = left_at_points(seed, table, seen)
        most = max(most, count)
        yield f"random session {seed}", good and (alone is None or on_program(table, alone))
    yield "all that can occur occurred", summed_up("random sessions", most, seen)


def rests_cases(sessions):
    """Every fifth session has sixteen rests of 64, the others random tables."""
    seen, most = collections.Counter(), 0
    for seed in range(sessions):
        rests = random_session.random_rests(seed) if seed % 5 else bytes([64] * 16)
        table = random_session.random_table(seed)
        good, count, _ = left_at_points(seed, table, seen, rests)
        most = max(most, count)
        yield f"random session {seed}, rests {list(rests)}", good
    yield "all occurred with other rests", summed_up("other rest tables", most, seen)


def main():
    sessions = int(sys.argv[1]) if len(sys.argv) > 1 else 100
    passed = failed = 0
    for cases in (worst_cases(), worst_rests_cases(), random_cases(sessions), rests_cases(max(1, sessions // 2))):
        for name, good in cases:
            if good:
                passed += 1
            else:
                failed += 1
                print(f"peace: failed: {name}")
    print(f"peace: {passed} passed, {failed} failed")
    sys.exit(1 if failed else 0)


if __name__ == "__main__":
    main()
