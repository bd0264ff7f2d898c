"""Runs target/bin/tablemerge and compares what it writes with a merge written from requests 1 and 8 alone.

    python3 tests/tablemerge_test.py [PAIRS]

The example, every line on standard error, each last byte of a rule, each refusal in its place, and PAIRS random pairs
of tables and maps (default 600), some of them damaged. Then the law, on target/bin/gevnyusto: sessions that add only to
trays of the first table which no rule of the second names give one printout under the first table and under the merged
one, and other sessions need not. The last line is `tablemerge: N passed, M failed`.
"""

import collections
import itertools
import pathlib
import random
import subprocess
import sys
import tempfile

import oracle
import program_test
import random_session
from text_to_bin import convert, table_bytes

ROOT = pathlib.Path(__file__).resolve().parent.parent
PROGRAM = ROOT / "target" / "bin" / "tablemerge"
EXAMPLE = ROOT / "examples" / "two-offices"
CRATE = ROOT / "crates" / "tablemerge"
FILES = ("first.bin", "second.bin", "map.txt")
WHEN = {
    1: "under 12 bytes",
    2: "T, R or M out of range",
    3: "offsets or length wrong",
    4: "byte over 1",
    5: "wrong first member, count not 1 to 8, or last byte over 2",
    6: "member counts do not sum to M",
    7: "tray number T or more",
}
GROUNDS = ("17 count", "17 no tray", "17 twice", "17 kinds", "18 trays", "18 rules")


# --- the merge, from request 1 ------------------------------------------------
# A map is a list of words: `new`, or the number of a tray.


class Refused(Exception):
    """A merge turned away: the number with its ground, and the whole line."""

    def __init__(self, number, ground, words):
        super().__init__(number)
        self.ground = f"{number} {ground}"
        self.line = f"refused {number}: {words}"


def read(data, which):
    try:
        return oracle.read_table(data[:413])
    except oracle.Refused as refused:
        raise Refused(refused.number, which, f"the {which} table: {WHEN[refused.number]}") from None


def some(count, one):
    return f"{count} {one}" if count == 1 else f"{count} {one}s"


def check_map(first, second, words):
    if len(words) != len(second.waiting):
        counts = f"{some(len(words), 'word')}, the second table {some(len(second.waiting), 'tray')}"
        raise Refused(17, "count", f"the map has {counts}")
    taken = {}
    for place, word in enumerate(words):
        if word == "new":
            continue
        tray, start = int(word), f"the map: word {place + 1}: "
        if tray >= len(first.waiting):
            raise Refused(17, "no tray", f"{start}the first table has no tray {word}")
        if tray in taken:
            raise Refused(17, "twice", f"{start}tray {tray} of the first is taken already by word {taken[tray] + 1}")
        taken[tray] = place
        own, other = ("waiting" if waiting else "leave" for waiting in (first.waiting[tray], second.waiting[place]))
        if own != other:
            raise Refused(17, "kinds", f"{start}tray {tray} of the first is {own}, tray {place} of the second {other}")


def becomes(first, words):
    """The merged table's tray for each tray of the second."""
    following = iter(range(len(first.waiting), len(first.waiting) + len(words)))
    return [next(following) if word == "new" else int(word) for word in words]


def merge(first_bytes, second_bytes, words):
    first, second = read(first_bytes, "first"), read(second_bytes, "second")
    check_map(first, second, words)
    targets = becomes(first, words)
    waiting = first.waiting + [second.waiting[place] for place, word in enumerate(words) if word == "new"]
    rules = [(rule.members, rule.same) for rule in first.rules]
    rules += [([targets[tray] for tray in rule.members], rule.same) for rule in second.rules]
    if len(rules) > 32:
        raise Refused(18, "rules", "the merged table would have more than 32 rules")
    if len(waiting) > 16:
        raise Refused(18, "trays", "the merged table would have more than 16 trays")
    return table_bytes(waiting, rules)


def complaint(line):
    return b"", line.encode() + b"\n"


def merge_says(first, second, words):
    """What standard output and standard error get, and what occurred."""
    try:
        return (merge(first, second, words), b""), "merged"
    except Refused as refused:
        return complaint(refused.line), refused.ground


def own_trays(first_bytes, second_bytes, words):
    """The trays of the first that no rule of the second names after the map."""
    first, second = oracle.read_table(first_bytes), oracle.read_table(second_bytes)
    targets = becomes(first, words)
    named = {targets[tray] for rule in second.rules for tray in rule.members}
    return [tray for tray in range(len(first.waiting)) if tray not in named]


# --- the program --------------------------------------------------------------


def merged(first, second, text, arguments=FILES, stdin=b"", stdout=subprocess.PIPE):
    """What the program writes in a folder with these files; one that is None is not there.

    Standard input, which only /dev/stdin as an argument reads, comes byte by byte.
    """
    pipes = {"stdin": subprocess.PIPE, "stdout": stdout, "stderr": subprocess.PIPE, "bufsize": 0}
    with tempfile.TemporaryDirectory() as folder:
        for name, data in zip(FILES, (first, second, text)):
            if data is not None:
                (pathlib.Path(folder) / name).write_bytes(data)
        with subprocess.Popen([PROGRAM, *arguments], cwd=folder, **pipes) as run:
            for byte in stdin:
                run.stdin.write(bytes([byte]))
            return run.communicate(timeout=60)


# --- tables for the cases -----------------------------------------------------

PAIR = table_bytes([False, True], [([0, 1], 1)])
THREE = table_bytes([True, False, False], [([0, 1, 2], 0), ([1], 2)])
ONE = table_bytes([False], [])
WIDE = table_bytes([False] * 16, [([0], 0)])
LONG = table_bytes([False, True], [([0], 0)] * 20)
FULL = table_bytes([False] * 16, [([7] * 8, 2)] * 32)


def with_byte(data, at, byte):
    return data[:at] + bytes([byte]) + data[at + 1 :]


# PAIR has its trays at 12 and 13, its rule from 14 to 17, its members at 18 and 19.
DAMAGED = {
    1: PAIR[:11],
    2: with_byte(PAIR, 0, 17),
    3: PAIR[:-1],
    4: with_byte(PAIR, 13, 2),
    5: with_byte(PAIR, 17, 3),
    6: with_byte(PAIR, 16, 1),
    7: with_byte(PAIR, 19, 2),
}


# --- the example --------------------------------------------------------------


def example_cases():
    first, second, text, rules = ((EXAMPLE / name).read_bytes() for name in (*FILES, "rules.bin"))
    yield "example", merged(first, second, text), (rules, b"")
    yield "example: the merge of this test", merge(first, second, ["new", "0"]), rules
    for name, data in (("first", first), ("second", second)):
        yield f"example: {name}.txt", convert((EXAMPLE / f"{name}.txt").read_text()), data
    for name, data in zip(FILES, (first, second, text)):
        yield f"example: {name} of the crate's run", (CRATE / "data" / name).read_bytes(), data
    yield "example: what the crate's run writes", (CRATE / "stdout").read_bytes(), rules


# --- arguments and files ------------------------------------------------------


def argument_cases():
    files = (PAIR, PAIR, b"0 1")
    good = (merge(PAIR, PAIR, ["0", "1"]), b"")

    def with_path(place, path, stdin=b""):
        return merged(*files, (*FILES[:place], path, *FILES[place + 1 :]), stdin)

    for count in (0, 1, 2, 4):
        wanted = complaint("usage: tablemerge FIRST SECOND MAP > rules.bin")
        yield f"{count} arguments", merged(*files, (FILES * 2)[:count]), wanted
    for place in range(3):
        for path in ("nothing-there", "/", "", "x" * 4095):
            got = with_path(place, path)
            yield f"argument {place + 1}: {path[:20]!r}", got, complaint(f"cannot read {path}")
        wanted = complaint(f"argument {place + 1} is longer than 4095 bytes")
        yield f"argument {place + 1}: 4,096 bytes", with_path(place, "x" * 4096), wanted
        yield f"argument {place + 1}: a pipe", with_path(place, "/dev/stdin", files[place]), good
    yield "the first file before the second", merged(None, None, None), complaint("cannot read first.bin")
    yield "the second file before the map", merged(PAIR, None, None), complaint("cannot read second.bin")
    yield "the map's file before a refusal", merged(b"", b"", None), complaint("cannot read map.txt")
    with open("/dev/full", "wb") as full:
        yield "no room for the table", merged(*files, stdout=full), (None, b"cannot write the table\n")


def size_cases():
    for data in (FULL + b"\0", FULL + bytes(100_000)):
        wanted = complaint(f"refused 3: the first table: {WHEN[3]}")
        yield f"first table of {len(data)} bytes", merged(data, PAIR, b"0 1"), wanted
        wanted = complaint(f"refused 3: the second table: {WHEN[3]}")
        yield f"second table of {len(data)} bytes", merged(PAIR, data, b"0 1"), wanted
    yield "a table of 412 bytes", merged(FULL, ONE, b"3"), (FULL, b"")
    most, more = table_bytes([False] * 15, [([7] * 8, 2)] * 31), table_bytes([False] * 2, [([0] * 8, 2)])
    yield "a merge that makes 412 bytes", merged(most, more, b"7 new"), (FULL, b"")


# --- the last bytes of rules --------------------------------------------------


def last_byte_cases():
    for own, other in itertools.product(range(3), repeat=2):
        first, second = table_bytes([False, True], [([0, 1], own)]), table_bytes([False], [([0, 0], other)])
        joined = table_bytes([False, True], [([0, 1], own), ([0, 0], other)])
        apart = table_bytes([False, True, False], [([0, 1], own), ([2, 2], other)])
        yield f"last bytes {own} and {other}, joined", merged(first, second, b"0"), (joined, b"")
        yield f"last bytes {own} and {other}, apart", merged(first, second, b"new"), (apart, b"")
    for byte in (3, 4, 128, 255):
        wrong = with_byte(PAIR, 17, byte)
        for name, pair in (("first", (wrong, PAIR)), ("second", (PAIR, wrong))):
            wanted = complaint(f"refused 5: the {name} table: {WHEN[5]}")
            yield f"last byte {byte} in the {name}", merged(*pair, b"0 1"), wanted


# --- the map's text -----------------------------------------------------------


def text_cases():
    texts = {
        "blanks": b"  1   new 0  ",
        "tabs": b"\t1\tnew\t\t0",
        "lines": b"1\nnew\n0\n",
        "carriage returns": b"1\r\nnew\r0\r\n\r",
        "comments": b"# 1 2 3\n1 #new\n   new# new\n#\n0 # 5 \r 6",
        "a comment without a line feed": b"1 new 0#",
        "leading zeros": b"001 new 00000000000000000000000000",
        "4,096 bytes": b"1 new 0 #" + b"x" * 4087,
    }
    for name, text in texts.items():
        yield f"map: {name}", merged(PAIR, THREE, text), (merge(PAIR, THREE, ["1", "new", "0"]), b"")
    for text in (b"1 new 0 #" + b"x" * 4088, b"\n" * 100_000):
        wanted = complaint("the map is longer than 4096 bytes")
        yield f"map: {len(text)} bytes", merged(PAIR, THREE, text), wanted

    def unreadable(number, word):
        return complaint(f"the map: word {number}: expected a number or new, not {word}")

    for word in ("xyz", "New", "NEW", "newer", "ne", "-1", "+1", "1.", "1x", "x1", "0x1", "1,", "/", ":", "\x01", "\v"):
        yield f"map: {word!r}", merged(PAIR, THREE, f"1 {word} 0".encode()), unreadable(2, word)
    yield "map: a zero byte", merged(PAIR, THREE, b"\0"), unreadable(1, "\0")
    yield "map: a long word", merged(PAIR, THREE, b"x" * 4096), unreadable(1, "x" * 4096)
    yield "map: the first wrong word", merged(PAIR, THREE, b"1 a b"), unreadable(2, "a")
    yield "map: word 2,048", merged(PAIR, THREE, b"0 " * 2047 + b"y"), unreadable(2048, "y")
    yield "map: a wrong word before a refusal", merged(b"", b"", b"x"), unreadable(1, "x")


# --- refusals in their places -------------------------------------------------


def placed():
    """What is to occur, two tables and a map."""
    for number, data in DAMAGED.items():
        yield f"{number} first", data, PAIR, "0 1"
        yield f"{number} first", data, DAMAGED[8 - number], "9"  # before the second's
        yield f"{number} second", PAIR, data, "0 1"
        yield f"{number} second", PAIR, data, "9 9 9"  # before 17
    for text in ("", "1", "1 0", "1 0 new new", "0 " * 2048):
        yield "17 count", PAIR, THREE, text
    yield "17 count", PAIR, ONE, ""
    yield "17 count", LONG, LONG, "0"  # before 18
    for tray in (2, 9, 16, 253, 254, 255, 256, 257, 300, 511, 65536, 2**32, 2**64, 2**64 + 1, 10**100, "0255"):
        yield "17 no tray", PAIR, THREE, f"new new {tray}"
        yield "17 no tray", PAIR, THREE, f"{tray} 0 0"
    yield "17 no tray", WIDE, WIDE, "new " * 15 + "16"  # before 18
    yield "17 twice", PAIR, THREE, "new 0 0"
    yield "17 twice", PAIR, THREE, "1 0 1"
    yield "17 twice", WIDE, WIDE, "0 0" + " new" * 14  # before 18
    for text in ("0 new new", "new 1 new", "new new 1"):
        yield "17 kinds", PAIR, THREE, text
    yield "17 kinds", LONG, LONG, "1 0"  # before 18
    yield "18 trays", WIDE, ONE, "new"
    yield "18 trays", WIDE, PAIR, "0 new"
    yield "18 rules", LONG, LONG, "0 1"
    yield "18 rules", FULL, FULL, " ".join(map(str, range(16)))
    yield "18 rules", LONG, table_bytes([False] * 15, [([0], 0)] * 13), "new " * 15  # and the trays
    for text in ("1 new 0", "new new new", "1 0 new"):
        yield "merged", PAIR, THREE, text
    yield "merged", WIDE, ONE, "15"
    yield "merged", LONG, table_bytes([True], [([0], 1)] * 12), "1"


def placed_cases():
    for ground, first, second, text in placed():
        wanted, occurred = merge_says(first, second, text.split())
        got = merged(first, second, text.encode())
        yield f"{ground}: {text[:30]!r}, {wanted[1][:80]}", (got, ground), (wanted, occurred)


# --- random pairs -------------------------------------------------------------


def damaged(rng, data):
    """Cut, made longer, or with another byte: in the header, as the last rule's count, or anywhere behind it."""
    dice, members = rng.random(), data[10] + 256 * data[11]
    if dice < 0.2:
        return data[: rng.randrange(len(data))]
    if dice < 0.25:
        return data + bytes(rng.randrange(1, 500))
    if dice < 0.4:
        return with_byte(data, rng.randrange(12), rng.randrange(256))
    if dice < 0.5:
        return with_byte(data, members - 2, rng.randrange(1, 9))
    return with_byte(data, rng.randrange(12, len(data)), rng.choice((0, 1, 2, 3, 8, 9, 16, 255)))


def random_map(rng, first, second):
    """Words that join trays of one kind or make new ones, and a few that are wrong."""
    free = rng.sample(range(len(first.waiting)), len(first.waiting))
    joins = rng.choice((0.2, 0.5, 0.9))
    words = []
    for waiting in second.waiting:
        fit = [tray for tray in free if first.waiting[tray] == waiting]
        if fit and rng.random() < joins:
            free.remove(fit[0])
            words.append("0" * rng.choice((0, 0, 0, 1, 2)) + str(fit[0]))
        else:
            words.append("new")
    while rng.random() < 0.25:
        wrong = rng.choice(("new", *range(len(first.waiting) + 1), 255, "0300", 10**9))
        words[rng.randrange(len(words))] = str(wrong)
    return (words * 3)[: rng.randrange(20)] if rng.random() < 0.08 else words


def random_text(rng, words):
    gaps = (" ", "  ", "\t", "\n", "\r\n", " # 1 new x\n", "#\n\n")
    return "".join(word + rng.choice(gaps) for word in ("", *words)).encode()


def random_pair(rng, seed):
    """Two accepted tables and a map."""
    first, second = (random_session.random_table(f"{seed} {side}") for side in ("first", "second"))
    return first, second, random_map(rng, oracle.read_table(first), oracle.read_table(second))


def random_cases(pairs):
    seen = collections.Counter()
    for seed in range(pairs):
        rng = random.Random(f"merge {seed}")
        first, second, words = random_pair(rng, seed)
        dice = rng.random()
        if dice < 0.25:
            first = damaged(rng, first)
        if 0.2 < dice < 0.5:
            second = damaged(rng, second)
        wanted, occurred = merge_says(first, second, words)
        seen[occurred] += 1
        if occurred == "merged":
            seen.update(f"last byte {rule.same}" for rule in oracle.read_table(wanted[0]).rules)
        yield f"random pair {seed}", merged(first, second, random_text(rng, words)), wanted
    print("tablemerge: random pairs, " + ", ".join(f"{key} {seen[key]}" for key in sorted(seen)))
    wanted = {"merged", *GROUNDS, *(f"{number} {which}" for number in WHEN for which in ("first", "second"))}
    wanted |= {f"last byte {byte}" for byte in range(3)}
    yield "all that can occur occurred", sorted(wanted - set(seen)), []


# --- the law ------------------------------------------------------------------


class Session(random_session.Session):
    """Adds to some trays only, refused adds too."""

    def __init__(self, seed, table, trays):
        super().__init__(seed, table)
        self.only = trays

    def choose(self):
        while True:
            line = super().choose()
            try:
                call, *numbers = oracle.read_line(line)
            except oracle.Refused:
                return line
            if call == "s" or numbers[1] in self.only:
                return line


def printouts(seed, first, both, trays):
    """One session, made for the merged table, under both tables."""
    session = Session(seed, both, trays)
    lines = b"".join(session.line() + b"\n" for _ in range(300))
    return program_test.printed(first, lines), program_test.printed(both, lines)


def random_merges():
    """A seed, the first table and the merged one, and the trays of the law, which are some and not all of the first."""
    for seed in itertools.count():
        first, second, words = random_pair(random.Random(f"law {seed}"), f"law {seed}")
        (both, _), occurred = merge_says(first, second, words)
        if occurred == "merged":
            own = own_trays(first, second, words)
            if 0 < len(own) < tray_count(first):
                yield seed, first, both, own


def tray_count(table):
    return len(oracle.read_table(table).waiting)


def matches_by_unit(table, printout):
    rules = oracle.read_table(table).rules
    chosen = [int(line.split()[3]) for line in printout.splitlines() if line.startswith(b"match ")]
    return sum(rules[number].same == oracle.UNIT for number in chosen)


def law_cases(sessions):
    """For each merge a session in the law and two outside of it: to all trays of the first, and to all there are."""
    seen = collections.Counter()
    for seed, first, both, own in itertools.islice(random_merges(), sessions):
        under_first, under_both = printouts(seed, first, both, own)
        seen["in the law"] += 1
        seen["matches in the law"] += under_first.count(b"\nmatch ")
        seen["matches by unit in the law"] += matches_by_unit(first, under_first)
        yield f"the law, {seed}", under_both, under_first
        for name, table in (("to the first's trays", first), ("to all trays", both)):
            under_first, under_both = printouts(seed, first, both, range(tray_count(table)))
            seen[f"{name}, alike" if under_first == under_both else f"{name}, not alike"] += 1
    print("tablemerge: sessions, " + ", ".join(f"{key} {seen[key]}" for key in sorted(seen)))
    yield "there were matches in the law", seen["matches in the law"] > 0, True
    yield "there were matches by unit in the law", seen["matches by unit in the law"] > 0, True
    yield "a tray that the second names matters", seen["to the first's trays, not alike"] > 0, True
    yield "a tray past the first's matters", seen["to all trays, not alike"] > 0, True


def main():
    pairs = int(sys.argv[1]) if len(sys.argv) > 1 else 600
    for program in (PROGRAM, program_test.PROGRAM):
        if not program.exists():
            sys.exit(f"tablemerge_test.py: no program {program}")
    passed = failed = 0
    fixed = (example_cases(), argument_cases(), size_cases(), last_byte_cases(), text_cases(), placed_cases())
    for cases in (*fixed, random_cases(pairs), law_cases(100)):
        for name, got, wanted in cases:
            if got == wanted:
                passed += 1
            else:
                failed += 1
                print(f"tablemerge: failed: {name}")
    print(f"tablemerge: {passed} passed, {failed} failed")
    sys.exit(1 if failed else 0)


if __name__ == "__main__":
    main()
