"""Holds what is written down to what the independent readings of 01 say.

    python3 tests/oracles_test.py

The printouts of the two test programs to their oracles, and the oracle's own printouts to the pool of the join
calculus, over random tables and lines; each word, a quiet board and what days, units, shares and rests decide must
occur. Then the two flats, whose rents cross where the unit is not asked for, and the shares and the rest tables at
their edges. The last line is 'oracles: N passed, M failed'.
"""

import subprocess
import sys
from collections import Counter
from pathlib import Path

import oracle
import pool_check
import random_session
import rest_cases
import share_cases
import text_to_bin

ROOT = Path(__file__).resolve().parent.parent
SEEDS, CROWDED, RESTING, LINES = 400, 60, 400, 400
WORDS = (
    "item looked missed claimed lost reverted matched consumed told woke freed signalled again ended rested answered"
    " resumed quiet"
).split()
WORDS += ["older", "tie", "first day", "last day", "first unit", "last unit"]
WORDS += ["unit passed over", "unit not asked", "unit missed", "unit unmarked", "unit left"]
SHARES = ["refused 26", "9 before 26", "10 before 26", "11 before 26", "common", "own past the common", "all used"]
SHARES += ["matched", "quiet after 26"]
RESTS = ["again 1", "again to 15", "again 16", "again past 16", "rests of 0", "rests of 64", "other rests"]
RESTS += ["rests unlike the built-in", "rested", "matched", "told", "signalled", "quiet"]
FLATS = ROOT / "examples" / "two-flats"


def printout(crate):
    folder = ROOT / "crates" / crate
    said = subprocess.run([sys.executable, "oracle.py"], cwd=folder, capture_output=True, check=True).stdout
    return said == (folder / "stdout").read_bytes()


def pool(name, checked, words):
    total = sum(checked, Counter())
    print(f"oracles: {name},", ", ".join(f"{word} {total[word]}" for word in words))
    return all(total[word] for word in words)


def plain_pool():
    return pool("pool", (pool_check.check(seed, LINES) for seed in range(SEEDS)), WORDS)


def crowded_pool():
    return pool("crowded pool", (pool_check.check(seed, LINES, True) for seed in range(CROWDED)), SHARES)


def resting_pool():
    tables = [random_session.random_rests(seed) for seed in range(RESTING)]
    checked = (pool_check.check(seed, LINES, rests=rests) for seed, rests in enumerate(tables))
    return pool(f"{len(set(tables))} rest tables, pool", checked, RESTS)


def flats_cross():
    """By property alone, flat 2's payment takes flat 1's rent."""
    text = (FLATS / "table.txt").read_text().replace("same unit", "same property")
    printed = oracle.printout(text_to_bin.convert(text), (FLATS / "input").read_bytes())
    return b"match 0 rule 0 cents -25000 items 2 0" in printed.splitlines()


def shares():
    wrong = [name for name, table, lines, wanted in share_cases.cases() if oracle.printout(table, lines) != wanted]
    for name in wrong:
        print(f"oracles: shares, {name}")
    return not wrong


def number_of(table, rests):
    """The number that refuses a board, or 0."""
    try:
        oracle.open_board(table, rests)
    except oracle.Refused as refused:
        return refused.number
    return 0


def rest_tables():
    """Those that pass, none given, and those that do not, which the rule table's refusals come before."""
    passing = [number_of(rest_cases.PAIRS, rests) for rests in (None, *rest_cases.PASSING.values())]
    failing = [number_of(rest_cases.PAIRS, rests) for rests in rest_cases.FAILING.values()]
    first = [number_of(b"", rests) for rests in (None, *rest_cases.PASSING.values(), *rest_cases.FAILING.values())]
    return (set(passing), set(failing), set(first)) == ({0}, {21}, {1})


def rests():
    wrong = [name for name, rests, *case, wanted in rest_cases.cases() if oracle.printout(*case, rests) != wanted]
    for name in wrong:
        print(f"oracles: rests, {name}")
    return not wrong


def main():
    tests = {
        "printout of edges": lambda: printout("edges"),
        "printout of table_edges": lambda: printout("table_edges"),
        f"{SEEDS} printouts by the pool": plain_pool,
        f"{CROWDED} printouts of crowded boards by the pool": crowded_pool,
        f"{RESTING} printouts with other rest tables by the pool": resting_pool,
        "two flats by property alone": flats_cross,
        "shares at their edges": shares,
        "rest tables that pass and that do not": rest_tables,
        "rests at their edges": rests,
    }
    failed = 0
    for name, test in tests.items():
        try:
            right = test()
        except (AssertionError, subprocess.CalledProcessError) as error:
            print(f"oracles: {name}: {error!r}")
            right = False
        if not right:
            print(f"oracles: failed: {name}")
            failed += 1
    print(f"oracles: {len(tests) - failed} passed, {failed} failed")
    return failed > 0


if __name__ == "__main__":
    sys.exit(main())
