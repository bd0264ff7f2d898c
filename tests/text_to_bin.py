"""Turns a table written as text into table bytes.

    python3 tests/text_to_bin.py TABLE.TXT RULES.BIN

A line is `tray NAME leave`, `tray NAME waiting`, or `rule NAME = A + B + C`,
which may end with `same property` or with `same unit`: then all its items must
have one property, or one property and one unit. A `#` starts a comment; blank
lines are passed over. Trays and rules are numbered in the order of their lines.
"""

import re
import sys

NAME = r"[A-Za-z0-9_-]+"
TRAY_LINE = re.compile(rf"tray\s+({NAME})\s+(leave|waiting)")
RULE_LINE = re.compile(rf"rule\s+({NAME})\s*=\s*({NAME}(?:\s*\+\s*{NAME})*)(?:\s+same\s+(property|unit))?")
LAST_BYTES = {None: 0, "property": 1, "unit": 2}


def read_text(text):
    """([(tray name, waiting)], [(rule name, members, last byte)])"""
    trays, rules, tray_numbers, rule_names = [], [], {}, set()
    for number, line in enumerate(text.splitlines(), 1):
        line = line.split("#")[0].strip()
        if not line:
            continue
        tray, rule = TRAY_LINE.fullmatch(line), RULE_LINE.fullmatch(line)
        if tray:
            name, sort = tray.groups()
            if name in tray_numbers:
                raise ValueError(f"line {number}: tray {name} is there already")
            tray_numbers[name] = len(trays)
            trays.append((name, sort == "waiting"))
        elif rule:
            name, sum_of_names, same = rule.groups()
            if name in rule_names:
                raise ValueError(f"line {number}: rule {name} is there already")
            rule_names.add(name)
            names = [part.strip() for part in sum_of_names.split("+")]
            unknown = [part for part in names if part not in tray_numbers]
            if unknown:
                raise ValueError(f"line {number}: no tray {unknown[0]}")
            if len(names) > 8:
                raise ValueError(f"line {number}: over 8 members")
            rules.append((name, [tray_numbers[part] for part in names], LAST_BYTES[same]))
        else:
            raise ValueError(f"line {number}: neither a tray nor a rule")
    return trays, rules


def u16(number):
    return number.to_bytes(2, "little")


def table_bytes(waiting, rules):
    """The bytes of trays (a bool each) and rules (members, last byte)."""
    members = [tray for names, _ in rules for tray in names]
    if not 1 <= len(waiting) <= 16 or len(rules) > 32 or len(members) > 256:
        raise ValueError("trays must be 1 to 16, rules at most 32, members at most 256")
    rule_at = 12 + len(waiting)
    counts = (len(waiting), len(rules), len(members))
    offsets = (12, rule_at, rule_at + 4 * len(rules))
    header = b"".join(u16(number) for number in counts + offsets)
    records, first = b"", 0
    for names, same in rules:
        records += u16(first) + bytes([len(names), same])
        first += len(names)
    return header + bytes(int(w) for w in waiting) + records + bytes(members)


def convert(text):
    trays, rules = read_text(text)
    return table_bytes([w for _, w in trays], [(names, same) for _, names, same in rules])


def main(arguments):
    if len(arguments) != 2:
        sys.exit("usage: python3 text_to_bin.py TABLE.TXT RULES.BIN")
    with open(arguments[0], encoding="ascii") as file:
        data = convert(file.read())
    with open(arguments[1], "wb") as file:
        file.write(data)


if __name__ == "__main__":
    main(sys.argv[1:])
