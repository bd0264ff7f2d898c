"""Checks every folder of examples: bytes, printout and what the README quotes.

    python3 tests/check_examples.py
"""

import pathlib
import re
import sys

import oracle
import text_to_bin

EXAMPLES = pathlib.Path(__file__).resolve().parent.parent / "examples"


def faults(folder):
    data = (folder / "rules.bin").read_bytes()
    printed = (folder / "printout").read_bytes()
    if text_to_bin.convert((folder / "table.txt").read_text()) != data:
        yield "rules.bin is not table.txt"
    if oracle.printout(data, (folder / "input").read_bytes()) != printed:
        yield "printout differs"
    lines = printed.decode().splitlines()
    if lines[-1] != "quiet yes":
        yield "not quiet"
    readme = (folder / "README.md").read_text()
    quoted = re.findall(r"^    (.+)$", readme, re.MULTILINE)
    words = (
        "item|looked|missed|ended|claimed|lost|reverted|matched|consumed|told|woke|freed|signalled|resumed|answered|"
        "refused"
    )
    quoted += re.findall(rf"`((?:{words})(?: \d+)?)`", readme)
    for quote in quoted:
        if quote not in lines:
            yield f"README quotes {quote!r}"


def main():
    found = 0
    for folder in sorted(EXAMPLES.iterdir()):
        for fault in faults(folder):
            print(f"{folder.name}: {fault}")
            found += 1
    sys.exit(1 if found else 0)


if __name__ == "__main__":
    main()
