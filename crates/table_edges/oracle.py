#!/usr/bin/env python3
# The expected printout of table_edges, from document 01's "Table bytes" and "Refused, by place" and document 02's
# request 8 alone.
# Run: python3 oracle.py | diff - stdout


def u16(b, at):
    return b[at] | b[at + 1] << 8


def number(b):
    if len(b) < 12:
        return 1
    T, R, M, kinds, rules, members = (u16(b, at) for at in range(0, 12, 2))
    if not (1 <= T <= 16 and R <= 32 and M <= 256):
        return 2
    if (kinds, rules, members) != (12, 12 + T, 12 + T + 4 * R) or len(b) != 12 + T + 4 * R + M:
        return 3
    if any(b[at] > 1 for at in range(kinds, rules)):
        return 4
    first = 0
    for at in range(rules, members, 4):
        count = b[at + 2]
        if u16(b, at) != first or not 1 <= count <= 8 or b[at + 3] > 2:
            return 5
        first += count
    if first != M:
        return 6
    if any(x >= T for x in b[members:]):
        return 7
    return 0


def damage(b):
    tallies = []
    for at in range(len(b)):
        others = [v for v in range(256) if v != b[at]]
        numbers = [number(b[:at] + bytes([v]) + b[at + 1:]) for v in others]
        tallies.append([numbers.count(k) for k in range(8)])
    start = 0
    for at in range(1, len(b) + 1):
        if at == len(b) or tallies[at] != tallies[start]:
            by = "".join(f"  {k} by {c}" for k, c in enumerate(tallies[start]) if c)
            print(f"bytes {start} to {at - 1}:{by}")
            start = at


def build(kinds, chords):
    # the bytes of a value: kinds, and for each chord its channels and what it wants: 0 any, 1 equal properties, 2 equal
    # properties and equal units
    members = [x for channels, _ in chords for x in channels]
    T, R, M = len(kinds), len(chords), len(members)
    b = b"".join(w.to_bytes(2, "little") for w in [T, R, M, 12, 12 + T, 12 + T + 4 * R]) + bytes(kinds)
    first = 0
    for channels, equal in chords:
        b += first.to_bytes(2, "little") + bytes([len(channels), equal])
        first += len(channels)
    return b + bytes(members)


def value(label, b, room=20):
    n = number(b) or (31 if room < len(b) else 0)
    print(f"{label}: {n}" + (", nothing written" if n else ""))


P = bytes.fromhex("020001000200" "0C000E001200" "0001" "00000201" "0001")
full = build([i % 2 for i in range(16)], [([(i + k) % 16 for k in range(8)], i % 3) for i in range(32)])

print("table P, written, number", number(P))
print("cut to 0, 1, .. 20 bytes:", *(number(P[:n]) for n in range(21)))
damage(P)
assert build([0, 1], [([0, 1], 1)]) == P
value("0 channels", build([], [([0, 1], 1)]))
value("17 channels", build([0, 1] + [0] * 15, [([0, 1], 1)]))
value("200 channels", build([0, 1] + [0] * 198, [([0, 1], 1)]))
value("33 chords", build([0, 1], [([0, 1], 1)] + [([], 0)] * 32))
value("a chord of 0", build([0, 1], [([], 1)]))
value("a chord of 9", build([0, 1], [([0, 1] + [0] * 7, 1)]))
value("kind 7", build([0, 7], [([0, 1], 1)]))
value("channel 2", build([0, 1], [([0, 2], 1)]))
value("a buffer of 19", P, 19)
value("a buffer of 20", P)
for byte, label in enumerate(["any", "equal properties", "equal properties and units"]):
    b = build([0, 1], [([0, 1], byte)])
    print(f"{label}: {number(b)}, last byte {byte}, back {byte}")
print("full table, written, number", number(full))
damage(full)
