"""Runs target/bin/gevnyusto and compares each printout.

    python3 tests/program_test.py [SESSIONS]

The examples, odd files and odd inputs, the run of table P with units and after lines that look like closes, the shares
at their edges, the built-in rests, files that cannot be read or written, and SESSIONS random sessions (default 300),
each on its own random table, and a tenth as many on crowded boards, against tests/oracle.py; of the crowded ones some
line must be refused 26. The last line is `program: N passed, M failed`.
"""

import os
import pathlib
import random
import subprocess
import sys
import tempfile

import check_examples
import oracle
import random_session
import rest_cases
import share_cases

ROOT = pathlib.Path(__file__).resolve().parent.parent
PROGRAM = ROOT / "target" / "bin" / "gevnyusto"
TABLE_P = (ROOT / "examples" / "table-p" / "rules.bin").read_bytes()
TABLE_OF_UNITS = TABLE_P[:17] + b"\2" + TABLE_P[18:]  # P, with a rule that wants equal units too
RUN_OF_P = (ROOT / "examples" / "table-p" / "input").read_bytes()
DAY_LINE = b"a 0 0 7 5000"
DAYS = (b"", b" 0", b" 1", b" 4294967295", b" 004294967295", b" " + b"0" * 40)
UNREADABLE_DAYS = (
    b" ", b" 4294967296", b" 04294967296", b" 99999999999", b" -1", b" -0", b" +1", b" x", b" 1x", b" 0x1", b" 1 ",
    b"  1", b" 1\r", b"\t1", b" " + b"9" * 67,
)  # fmt: skip
UNIT_LINE = DAY_LINE + b" 20454"
ONE_UNIT = ((b"", b""), (b"", b" 0 0"), (b" 5 0", b" 9"), (b" 0 7", b" 1 07"), (b" 3 65535", b" 0 65535"))
TWO_UNITS = ((b" 0 1", b" 0 2"), (b"", b" 0 1"), (b" 0 1", b""), (b" 0 256", b""), (b" 0 65535", b" 0 32767"))
UNITS = (b"", b" 0", b" 1", b" 255", b" 256", b" 65535", b" 00000065535", b" " + b"0" * 40)
UNREADABLE_UNITS = (
    b" ", b" 65536", b" 00065536", b" 65537", b" 4294967295", b" 4294967296", b" 18446744073709551616", b" -1", b" -0",
    b" +1", b" x", b" 1x", b" 0x1", b" 1.5", b" 1 ", b"  1", b" 1 2", b" 1 2 3", b" 1\r", b"\t1", b" " + b"9" * 61,
)  # fmt: skip
CLOSES = (b"c", b"c 5", b"c 0", b"c 4294967295", b"c 0 5", b"close", b"close 5", b"C 5", b"2 5", b"s 0 5")


def with_end(lines, *ends):
    """The lines, where adds have these ends, the first add the first end and so on."""
    ends = iter(ends)
    return b"".join(line + next(ends) + b"\n" if line.startswith(b"a") else line + b"\n" for line in lines.splitlines())


def printed(table, lines):
    """What the program prints in a folder with that `rules.bin`, or with none."""
    with tempfile.TemporaryDirectory() as folder:
        if table is not None:
            (pathlib.Path(folder) / "rules.bin").write_bytes(table)
        run = subprocess.run([PROGRAM], cwd=folder, input=lines, capture_output=True, timeout=120)
        return run.stdout + run.stderr


def example_cases():
    for folder in sorted(check_examples.EXAMPLES.iterdir()):
        yield f"example {folder.name}: its files", list(check_examples.faults(folder)), []
        wanted = (folder / "printout").read_bytes()
        got = printed((folder / "rules.bin").read_bytes(), (folder / "input").read_bytes())
        yield f"example {folder.name}", got, wanted


def odd_cases():
    tables = {"no file": None, "an empty file": b"", "one byte less": TABLE_P[:-1], "one byte more": TABLE_P + b"\0"}
    tables["413 bytes"] = TABLE_P + bytes(413 - len(TABLE_P))
    tables["a long file"] = TABLE_P + bytes(100_000)
    tables["a full table"] = random_session.largest_table(random.Random(0))
    tables["a full table and one byte"] = tables["a full table"] + b"\0"
    for byte in (0, 2, 3, 255):
        tables[f"last byte {byte}"] = TABLE_P[:17] + bytes([byte]) + TABLE_P[18:]
    for name, table in tables.items():
        yield name, printed(table, RUN_OF_P), oracle.printout((table or b"")[:413], RUN_OF_P)
    inputs = {"no input": b"", "a line feed": b"\n", "no last line feed": RUN_OF_P.rstrip(b"\n")}
    inputs["a line of 80 bytes"] = b"s " + b"0" * 78 + b"\n"
    inputs["a line of 81 bytes"] = b"s " + b"0" * 79 + b"\n"
    inputs["a line of 20,000 bytes"] = b"s " + b"0" * 20_000 + b"\ns 0\n"
    inputs["unreadable lines"] = b"\n".join(random_session.UNREADABLE)
    inputs["unreadable days"] = b"\n".join(DAY_LINE + day for day in UNREADABLE_DAYS)
    inputs["days"] = b"".join(DAY_LINE + day + b"\ns 0\ns 0\ns 0\n" for day in DAYS) + RUN_OF_P
    inputs["an add of 80 bytes"] = (DAY_LINE + b" ").ljust(79, b"0") + b"7\n"
    inputs["an add of 81 bytes"] = (DAY_LINE + b" ").ljust(80, b"0") + b"7\n"
    inputs["the run with days"] = with_end(RUN_OF_P, b" 20454", b" 20454")
    inputs["units"] = b"".join(UNIT_LINE + unit + b"\ns 0\ns 0\ns 0\n" for unit in UNITS) + RUN_OF_P
    inputs["an add with a unit of 80 bytes"] = (UNIT_LINE + b" ").ljust(79, b"0") + b"7\n"
    inputs["an add with a unit of 81 bytes"] = (UNIT_LINE + b" ").ljust(80, b"0") + b"7\n"
    inputs["5,000 line feeds"] = b"\n" * 5_000
    inputs["lines over the ends of reads"] = b"s 0\na 0 0 1 5\ns 12345\n" * 2_000
    inputs["four megabytes"] = b"s 0\na 0 0 1 5\ns 12345\n" * 180_000 + RUN_OF_P
    for name, lines in inputs.items():
        yield name, printed(TABLE_P, lines), oracle.printout(TABLE_P, lines)


def unit_cases():
    """01's run of P, with units: by property alone it goes as without them, else only where they are equal."""
    run = (ROOT / "examples" / "table-p" / "printout").read_bytes()
    words = ["item 0", "missed", "ended", "refused 13", "item 1", "looked 1", "missed", "ended", *["refused 13"] * 12]
    unmatched = "".join(line + "\n" for line in (*words, "open 0 pending", "open 1 pending", "quiet yes")).encode()
    for units, wanted in ((ONE_UNIT, run), (TWO_UNITS, unmatched)):
        for ends in units:
            lines = with_end(RUN_OF_P, *ends)
            yield f"the run, {ends}", printed(TABLE_OF_UNITS, lines), wanted
            yield f"the run by property, {ends}", printed(TABLE_P, lines), run
    unreadable = b"\n".join(UNIT_LINE + unit for unit in UNREADABLE_UNITS)
    wanted = b"refused 16\n" * len(UNREADABLE_UNITS) + b"quiet yes\n"
    yield "unreadable units", printed(TABLE_P, unreadable), wanted


def close_cases():
    """A close is a host's call: a line that would be one is unreadable, and no day is closed by it."""
    run = (ROOT / "examples" / "table-p" / "printout").read_bytes()
    yield "closes", printed(TABLE_P, b"\n".join(CLOSES)), b"refused 16\n" * len(CLOSES) + b"quiet yes\n"
    for line in CLOSES:
        yield f"the run after {line}", printed(TABLE_P, line + b"\n" + RUN_OF_P), b"refused 16\n" + run


def edge_cases():
    for name, table, lines, wanted in share_cases.cases():
        yield f"shares, {name}", printed(table, lines), wanted
    lines, wanted = rest_cases.case(rest_cases.BUILT_IN)
    yield "the built-in rests", printed(rest_cases.PAIRS, lines), wanted


def failing_cases():
    """What cannot be read or written is said on standard error, and no printout passes for a whole one."""
    with tempfile.TemporaryDirectory() as folder:
        (pathlib.Path(folder) / "rules.bin").write_bytes(TABLE_P)
        with open("/dev/full", "wb") as full:
            run = subprocess.run(
                [PROGRAM], cwd=folder, input=RUN_OF_P, stdout=full, stderr=subprocess.PIPE, timeout=120
            )
        yield "a full device", run.stderr, b"standard output: No space left on device\n"
        unreadable = os.open(folder, os.O_RDONLY)
        run = subprocess.run([PROGRAM], cwd=folder, stdin=unreadable, capture_output=True, timeout=120)
        os.close(unreadable)
        yield "unreadable input", (run.stdout, run.stderr), (b"", b"standard input: Is a directory\n")
    with tempfile.TemporaryDirectory() as folder:
        (pathlib.Path(folder) / "rules.bin").mkdir()
        run = subprocess.run([PROGRAM], cwd=folder, input=RUN_OF_P, capture_output=True, timeout=120)
        yield "an unreadable table", (run.stdout, run.stderr), (b"refused 1\n", b"rules.bin: Is a directory\n")


def random_cases(count):
    for seed in range(count):
        table = random_session.random_table(seed)
        lines = random_session.random_input(seed, 400, table)
        yield f"random session {seed}", printed(table, lines), oracle.printout(table, lines)


def crowded_cases(count):
    refused = 0
    for seed in range(count):
        table = random_session.crowded_table(seed)
        lines = random_session.random_input(seed, 400, table, crowded=True)
        got = printed(table, lines)
        refused += got.splitlines().count(b"refused 26")
        yield f"crowded session {seed}", got, oracle.printout(table, lines)
    print(f"program: {refused} lines of {count} crowded sessions refused 26")
    yield "26 in crowded sessions", refused > 0, True


def all_cases(count):
    for cases in (example_cases, odd_cases, unit_cases, close_cases, edge_cases, failing_cases):
        yield from cases()
    yield from random_cases(count)
    yield from crowded_cases(max(1, count // 10))


def main():
    count = int(sys.argv[1]) if len(sys.argv) > 1 else 300
    passed = failed = 0
    for name, got, wanted in all_cases(count):
        if got == wanted:
            passed += 1
        else:
            failed += 1
            print(f"program: failed: {name}")
    print(f"program: {passed} passed, {failed} failed")
    sys.exit(1 if failed else 0)


if __name__ == "__main__":
    main()
