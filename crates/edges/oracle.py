#!/usr/bin/env python3
# The expected printout of edges, from document 01 and requests 2, 3, 4, 8 and 13 of document 02 alone: each line with
# the sentence or the reason that gives it.
# Run: python3 oracle.py | diff - stdout
#
# A line of calls: their answers, and `kept` where every list must be as found ("a refusal returns the number only and
# leaves all as found"); after an accepted close, where it must be so but for the close day, which must be the one asked
# for ("a close alters nothing but the close day"). A line of seven numbers, 0 for accepted: a step, an add by desk 31
# after it, of day 0, a close of day 31, each with its `kept`, then quiet, that desk's slip, item 0, match 0; in the
# lines on tables and lengths each call is made on an empty board, all by one desk, whose number is the day closed.
#
# The five lists: board, 723 numbers (items, matches, then 21 for each of 32 desks, 1 where a day is closed, else 0, for
# each desk its tally, how many items it has added, and from 707 on the rest table, 16 numbers); bytes, 3,072 (trays,
# statuses, rules of matches); links, 11,264 (matches of items, wakers, eight items of each match, units); keys, 2,049
# (properties, days, and the close day, anything where none is closed); cents, 1,024. A desk's 21: state (0 idle, 1 at
# work, 2 blocked), signal, own item, waker, slip, match made (these four plus 1, 0 for none), item in hand, rule,
# phase, place, second number, mark, how often `again`, eight chosen items. Phases: 0 look, 1 claim, 2 revert (second:
# claims made), 3 consume (second: match plus 1), 4 tell, 5 wake, 6 free, 7 signal, 8 pass end, 9 rest (place: rests
# left less 1). Wake, signal and pass end have no place. A rule, a place, the claims made and the count of `again` are
# bytes; signal and mark are 0 or 1.


def marked(word):
    return word + (" kept" if word.startswith(("refused", "closed")) else "")


def one(label, *said):
    print(f"{label}:", *map(marked, said))


def tried(number):
    return f"{number} kept" if number else "0"  # an accepted step or add alters the board


def seven(label, step, add, close, *reads):
    print(f"{label}:", tried(step), tried(add), f"{close} kept", *reads)


def broken(label):
    seven(label, *[30] * 7)  # "every board call, first | 30 | .. or board not sound"


def accepted(label):
    seven(label, *[0] * 7)


def words(desk, *said):
    one(f"desk {desk}", *said)


# An add of each desk, in turn.
def everyone(*said):
    one("every desk", *said)


# 1. "A board takes 1,024 items", numbered from 0. Table: one leave tray, no rule, so one step ends each job. The desks
# add in turn: "Each desk has 16 items of its own; the other 512 are common", so each gets 32.
print("taken 1023, ended 1023")
# the last common one to desk 0, its 33rd; then "26 if the desk has added 16 or more and the common ones are used up"
one("item 1,024, desk 0", "item 1023", "ended", "refused 26", "refused 26")
one("item 1,024", "item 1023")  # "Item 1,024 in number (index 1,023) is taken"
one("full, desk 32, tray and cents out of range", "refused 8")  # before 9, 10, 11, 26
one("full, desk at work, the same", "refused 9")  # desk 31 has not stepped
one("full, desk idle, the same", "refused 10")
one("full, cents out of range", "refused 11")
one("full", "refused 26")  # "it stands where 12 stood, in 01's edge item too"
print("full, item 1,023: 0 as sent")
print("full, item 1,024: 14")  # "no such item"
one("full, step", "ended")  # no rule names the tray
one("full, step of an idle desk", "refused 13")
everyone(*["refused 26"] * 31, "refused 9")  # desk 31 is at work
# Day 5 is closed on the full board. "An add dated on the close day or before it is refused, even if the board is full
# or the cents are wild": 19, "after 10 and before 11"
one("full, closed, desk 32, tray and cents out of range", "closed", "refused 8")
one("full, closed, desk at work, the same", "closed", "refused 9")
one("full, closed, desk idle, the same", "closed", "refused 10")
one("full, closed, cents out of range", "closed", "refused 19")
one("full, closed", "closed", "refused 19")
one("full, closed, the day after, cents out of range", "closed", "refused 11")
one("full, closed, the day after", "closed", "refused 26")
one("full, closed, a day before", "closed", "refused 20")
one("full, closed, item 1,023", "closed", "0 as sent")  # it is of day 0, and still read
one("full, closed, step", "closed", "ended")
one("full, closed, step of an idle desk", "closed", "refused 13")

# 2. "If a desk loses a claim to a desk still holding it, .. the pass ends with `again`, not `ended`". Rule: trays 0 1.
TWICE = [(0, ["item 0", "looked 0", "missed", "ended"]),  # tray 0; nothing in tray 1
         (1, ["item 1"]), (2, ["item 2"]),  # both tray 1
         (1, ["looked 0", "looked 1"]), (2, ["looked 0", "looked 2"])]  # both choose item 0
print("first claim lost")
for desk, said in TWICE:
    words(desk, *said)
words(1, "claimed 0")
# desk 1 holds item 0; no claim to put back; the mark is set; no rest at the first `again`, 1 at the second; item 0 is
# claimed and would fit
words(2, "lost 0", "again", "missed", "again", "rested")
words(1, "matched 0", "consumed 0", "consumed 1")
words(2, "missed", "ended", "refused 13", "refused 13")  # item 0 is consumed: no mark
print("second claim lost")
words(0, "item 0", "missed", "ended")  # tray 1; member 0 is of tray 0, which is empty
words(1, "item 1")
words(2, "item 2")  # both tray 0
words(1, "looked 1", "looked 0")
words(2, "looked 2", "looked 0")
words(1, "claimed 1")
words(2, "claimed 2")
words(1, "matched 0")  # the rule names no waiting tray
# item 0 is claimed, desk 1 has not consumed it; a claimed item would fit: the mark is set
words(2, "lost 0", "reverted 2", "again", "looked 2", "missed")
words(1, "consumed 1", "consumed 0")
words(2, "again", "rested", "looked 2", "missed", "ended")  # the mark was set before; then nothing is claimed
print("hand consumed by then")
for desk, said in TWICE:
    words(desk, *said)
words(1, "claimed 0", "matched 0")
words(2, "lost 0")
words(3, "item 3", "looked 3", "looked 2", "claimed 3", "matched 1", "consumed 3", "consumed 2")
words(2, "ended")  # "unless the hand is consumed or woken by then"
words(1, "consumed 0", "consumed 1")

# 3. "lent list not 1,024 records": 30, one list at a time at no numbers, one less, as many, and one more.
for name in ["board", "bytes", "links", "keys", "cents"]:
    broken(name)
    broken(name)
    # an empty board: desk 0 idle: 13; its add taken; "no day is closed", so day 0 can be; no item 0, no match 0
    seven(name, 13, 0, 0, 0, 0, 14, 15)
    broken(name)
    if name == "board":
        broken("board without rests")  # 707 numbers
        broken("board without tallies")  # 675 numbers
    if name == "links":
        broken("links without units")  # 10,240 numbers
    if name == "keys":
        broken("keys, properties alone")  # 1,024 numbers, no days
        broken("board and keys without close day")  # 674 and 2,048

# 4. "a call given them first gives the reader's numbers": before 30 (a list too short) and 8 (desk 32).
for n, label in [(1, "11 bytes"), (2, "17 trays"), (3, "a byte less"), (4, "tray byte 2"), (5, "a rule of 9"),
                 (6, "a sum of 1"), (7, "member 2"), (5, "last byte 3"), (5, "last byte 255")]:
    print(f"open, {label}: {n} kept")
    seven(label, *[n] * 7)
print("open, P: 30 kept")  # 673 numbers lent
broken("P")  # 30 before 8
print("open, last byte 2: 30 kept")  # "the last byte is now wrong when over 2": P with 2 is accepted
broken("last byte 2")
print("opened, last byte 2: 0")
print("open, 674 numbers: 30 kept")
print("open, 675 numbers: 30 kept")
print("open, 707 numbers: 30 kept")
print("open, 722 numbers: 30 kept")
print("open, 723 numbers: 0")
print("open, 724 numbers: 30 kept")
broken("30 before 8")

# 5. Refusals in their order, on table P where desk 0 is blocked.
print("desk 0 blocks: item 0 missed ended")
one("step of desk 32", "refused 8")
one("8 before 9", "refused 8")  # each line has all that comes after it wrong as well
one("9 before 10", "refused 9")  # desk 0 is blocked, so not idle
one("10 before 11", "refused 10")
one("11", "refused 11")
one("blocked", "refused 13")  # without signal
one("idle", "refused 13")
print("item 0: 0 as sent")
print("item 1: 14")
print("match 0: 15")
print("slip: 0 reply 0")  # "A slip without a match reads as none, which is no refusal"
print("quiet: 0 quiet")  # "every desk is idle, or blocked without a signal"

# 6. Desks 0 to 31, trays under T, any property, day and unit, cents in range.
one("add, desk 31", "item 0")
one("add, desk 32", "refused 8")
one("add, desk 65,535", "refused 8")
one("step, desk 31", "refused 13")
one("step, desk 32", "refused 8")
one("step, desk 65,535", "refused 8")
print("slip, desk 31: 0 reply 0")
print("slip, desk 32: 8 reply 0")
print("slip, desk 65,535: 8 reply 0")
one("tray 1 of 2", "item 0")
one("tray 2 of 2", "refused 10")
one("tray 256", "refused 10")  # not tray 0
one("tray 65,535", "refused 10")
for label in ["property 0", "property 4,294,967,295", "day 0", "day 4,294,967,295"]:  # "u32, any value"
    print(f"{label}: item 0 0 as sent")  # the add, and a read of item 0
print("day 65,536, day 0 is asked for: item 0 0")  # read, and not as asked for
print("unit 0: item 0 0 as sent")
print("unit 65,535: item 0 0 as sent")  # "u16"
print("unit 256, unit 0 is asked for: item 0 0")
print("a unit not given: item 0 0 as sent")  # "without one it is 0"
for label, taken in [("cents 999,999,999,999", True), ("cents 1,000,000,000,000", False),
                     ("cents -999,999,999,999", True), ("cents -1,000,000,000,000", False)]:
    print(f"{label}:", "item 0 0 as sent" if taken else "refused 11 kept 14")

# 7. "A rule's members are handed back as the part of the table bytes that holds them"; "a claim alters one record of it
# and no other": a pending one.
print("rule 0: 0 0 1")
print("rule 1: 32")  # P has one rule
print("rule 256: 32")
print("rule 4,294,967,295: 32")
print("rule 0 of no table: 1")
print("claim of a pending record: claimed")
print("claim of a claimed record: not claimed")
print("claim past the records: not claimed")

# 8. Table Q: trays leave, waiting, waiting; rules 0 1, 0 0, 1 2 0. Six items in trays 0 1 1 1 2 0: 0 and 4 pending,
# 1 and 5 consumed in match 0 of rule 0, 2 woken by 0, 3 claimed. Desk 0 has item 0 in hand at rule 0, looking at 1;
# desk 1 is blocked on item 2; desk 2 has item 3 in hand at rule 2, consuming; desk 3 is idle, with item 1 and slip 0.
# The tallies of desks 0 to 3 are 1 1 1 3. Where there are more items, so are there adds.
accepted("the sound board")
seven("1,024 items", 0, 26, 0, 0, 0, 0, 0)  # the records counted beside are of tray 0, pending: sound, and full
broken("1,025 items")  # "its counts are within the limits"
broken("65,535 items")
accepted("1,024 matches")  # those counted beside are of rule 0 and item 0
broken("1,025 matches")
accepted("item 5 in tray 2")
broken("item 5 in tray 3")  # "each counted item has a tray under T"
accepted("item 6 in tray 255")  # not counted
accepted("cents 999,999,999,999")
broken("cents 1,000,000,000,000")  # "and cents in range"
accepted("cents -999,999,999,999")
broken("cents -1,000,000,000,000")
broken("status 4")  # a status is "pending, claimed, woken or consumed"
broken("status 255")
broken("consumed without match")  # "a consumed item holds its match"
broken("woken without waker")  # "and a woken one its waker"
accepted("item 0 with match 0")
broken("item 0 with match 1")  # one match: "every item, rule, member and match number held .. is below its count"
accepted("item 0 with waker 5")
broken("item 0 with waker 6")  # six items
broken("match of rule 3")  # three rules
accepted("match 1, not counted, of rule 3")
broken("match of item 6")
accepted("past its members, item 6")  # rule 0 has two members, so the third number is not the match's
accepted("item 0 of unit 65,535")  # sound asks nothing of units
accepted("item 1,023, not counted, of unit 65,535")
accepted("idle, own item 5")
broken("idle, own item 6")  # numbers "held by a desk", also an idle one
broken("idle, waker 6")
broken("idle, slip of match 1")
broken("idle, made match 1")
accepted("idle, own item of the blocked")  # "no other such desk's": an idle desk is none
accepted("blocked, own item 5")
broken("blocked, own item of the blocked")  # "which is no other such desk's"
broken("blocked without own item")  # "a desk not idle holds its own item"
broken("at work without own item")
accepted("waker in hand")  # "has its own item or its waker in hand"
broken("another item in hand")
broken("own item of the blocked")
broken("item 6 in hand")
broken("rule 3")
broken("rule that does not name the tray")  # "the place being one that the steps have for that rule and hand"
broken("chosen item 6")
accepted("item 6 not yet chosen")  # at place 0 nothing is chosen
accepted("look 0")  # rule 0 has members 0 and 1
broken("look 2")
broken("look 255")
accepted("claim 0")
accepted("claim 1")
broken("claim 2")
broken("claim 255")
accepted("revert 0 of 1")  # the second claim was lost, the first is put back
broken("revert 0 of 0")  # no claim made
broken("revert 1 of 1")
broken("revert 0 of 2")  # of two claims made none was lost
accepted("wake")  # a leave item in hand, and the rule names a waiting tray
accepted("free 0")
broken("free 1")  # "each other member": one
broken("free 255")
accepted("signal")
broken("consume where it wakes")  # "if the item in hand is of a waiting tray or the rule names none"
broken("tell where it wakes")
accepted("pass end")
accepted("rest 0")
accepted("rest 255")  # rests left are no item, rule, member or match number
accepted("rule 1, claim")  # rule 1 names tray 0 twice
accepted("rule 1, consume")
broken("rule 1, consume 2")
broken("rule 1, wake")  # "none waking where the rule names no waiting tray"
broken("rule 1, free")
broken("rule 1, signal")
broken("rule 1, tell")  # "none telling where no waiting item is left to tell"
accepted("consume 0")  # rule 2 has three members; a waiting item in hand
accepted("consume 2")
broken("consume 3")
broken("consume without match")  # the match was recorded by the last claim
broken("consume by match 1")
accepted("tell 0")  # item 4, of a waiting tray and not the hand
broken("tell 1")
broken("tell with nobody to tell")  # rule 0: the hand is its one waiting item
broken("wake with a waiting item in hand")  # a waiting item in hand matches
broken("free with a waiting item in hand")
broken("signal with a waiting item in hand")
one("last claim, 1,023 matches", "matched 1023")
one("last claim, 1,024 matches", "lost 0")  # "is taken as not pending"
print("again for the 256th time: again rested")  # beyond 16 the rests are as at 16: 32; there is no last `again`
one("signal of nobody's item", "signalled 1")  # "without one (no schedule reaches this) none is set"
one("signalled, item woken", "resumed")
print("signalled, item consumed: answered 0 refused 13 kept 0 reply 1")  # "slip K, idle"; the slip is K plus 1
# "signal cleared; .. if neither (no schedule reaches this), `ended`, and it stays blocked"
print("signalled, item pending: ended refused 13 kept")

# 9. Numbers that are no board's are no sound board: state over 2, flag over 1, phase over 9, rule, place, claims made
# or count of `again` over 255, a place or a second number where the phase has none; also where the low byte would do.
broken("state 3")
broken("state 257")
accepted("flag of the signal 1")
broken("flag of the signal 2")
broken("rule 256")
broken("phase 10")
broken("phase 256")
accepted("mark 1")
broken("mark 2")
accepted("again 255 times")
broken("again 256 times")
accepted("next chosen item 65,535")  # at place 1 one item is chosen
for label in ["look 257", "claim 256", "revert 256 of 1", "free 256", "rest 256", "consume 256", "tell 256",
              "wake with a place", "signal with a place", "pass end with a place", "look with a second number",
              "claim with a second number", "revert 0 of 257", "tell with a second number",
              "wake with a second number", "free with a second number", "signal with a second number",
              "pass end with a second number", "rest with a second number"]:
    broken(label)

# The job of an idle desk is not held by it: its numbers need only be some job's.
for label in ["flag of the signal 1", "item 65,535 in hand", "rule 255", "look 255", "revert 255 of 255",
              "consume by match 65,534", "mark 1, again 255 times", "chosen item 65,535"]:
    accepted(f"idle, {label}")
accepted("the last number 65,535")  # desk 31's, idle: chosen
for label in ["flag of the signal 2", "rule 256", "phase 10", "look 256", "look with a second number",
              "revert 0 of 256", "pass end with a place", "mark 2", "again 256 times"]:
    broken(f"idle, {label}")
broken("blocked, phase 10")
broken("the last desk, state 3")

# The number that says whether a day is closed is 0 or 1. Day 0 of the add is closed wherever a day is; the close of day
# 31 is refused where a later one is: "20 for a close day before the present one, and an equal one is accepted".
accepted("none closed")
seven("day 0 closed", 0, 19, 0, 0, 0, 0, 0)
for number in ["2", "256", "257", "65,535"]:
    broken(f"flag of the close day {number}")
accepted("close day 4,294,967,295 without its flag")  # none is closed
seven("day 4,294,967,295 closed", 0, 19, 20, 0, 0, 0, 0)
seven("day 30 closed", 0, 19, 0, 0, 0, 0, 0)
seven("day 31 closed", 0, 19, 0, 0, 0, 0, 0)
seven("day 32 closed", 0, 19, 20, 0, 0, 0, 0)
for label in ["status 4", "3,071 bytes", "2,048 keys"]:
    broken(f"day 32 closed, {label}")  # before 19 and 20


# 10. A replay, on table P and an empty board, of the first rows of 01's run of P: the calls of the rows, each as by
# itself; 30 for rows that do not fit and 31 for less room than rows, after the refusals that every board call has. A
# row has four numbers of calls, the last of them the unit, a property and a day, and an amount. A place for an answer
# that was not written is a dash. The adds have units 3 and 65,535.
def replay(label, number, *answers):
    print(f"{label}: {number}", *answers)


RUN = ["item 0", "missed", "ended", "refused 13", "item 1", "looked 1", "looked 0", "claimed 1", "claimed 0", "woke 0",
       "freed 1", "signalled 0", "resumed", "looked 1", "looked 0", "claimed 1", "matched 0", "consumed 1",
       "consumed 0", "refused 13"]  # as 01 prints it
replay("two rows, room for two", 0, *RUN[:2], "-")
replay("three rows, room for three", 0, *RUN[:3], "-")
replay("two rows, room for three", 0, *RUN[:2], "-")
replay("no rows, no room", 0, "-", "kept")  # no call
for label in ["a unit less", "a number of the calls more", "calls without units", "four rows without units",
              "a day less", "a property more", "properties alone", "an amount less", "an amount more",
              "rows and no amounts"]:
    replay(label, "30 kept")
replay("room for one", "31 kept")
replay("no room", "31 kept")
replay("30 before 31", "30 kept")
replay("rows that fit, a board that is not sound", "30 kept")
replay("rows that fit, a board of 675 numbers", "30 kept")
replay("rows that fit, a board of 707 numbers", "30 kept")
replay("rows that fit, a board of 722 numbers", "30 kept")
replay("rows that fit, an add too many", "30 kept")
replay("rows that fit, 529 adds of desk 0", "30 kept")
replay("rows that fit, keys of 2,048 numbers", "30 kept")
replay("rows that fit, flag of the close day 2", "30 kept")
# then match 0, quiet, and desk 0's slip: "match 0 rule 0 cents 5000 items 1 0 / quiet yes"; the slip is match 0 plus 1;
# "last byte 1 goes on meaning property only"; reads of both items with their units
replay("the run of P", 0, *RUN, "0 rule 0 members 2 items 1 0 cents 5000", "0 quiet", "0 reply 1", *["0 as sent"] * 2)
# P with last byte 2: item 0 does not fit for its unit; no item is claimed; a leave item's desk is idle, desk 0 blocked
replay("the run, units wanted", 0, *RUN[:6], "missed", "ended", *["refused 13"] * 12, 15, "0 quiet", "0 reply 0")
replay("1 before 30", "1 kept")

# "A schedule may now contain closes": a row of kind 2 is a close of its day, and nothing else of it counts; kind 0 is a
# step, any other an add. Then calls by themselves, on what the rows left.
replay("a close in a row", 0, "closed", "-", "refused 19 kept", "item 0")  # 5 closed; adds of 5 and 6
replay("a close in a row, all else out of range", 0, "closed", "-", "refused 19 kept", "item 0")
replay("kinds 3, 256, 258 and 65,535", 0, *[f"item {n}" for n in range(4)], "-", "closed kept")  # none was closed: 0 is
# an add of day 0; closes of 5, 4 and 5; adds of 5 and 6; a close of 6; adds of 6 and 7
replay("closes and adds", 0, "item 0", "closed", "refused 20", "closed", "refused 19", "item 1", "closed", "refused 19",
       "item 2", "-", "refused 20 kept", "closed kept")  # then closes of 5 and 6
# 5 closed; adds of 5 with all that comes after wrong as well: desk 32, tray 2, cents; the day; of 6: cents, and none;
# of 5 by that desk, at work; a step of an idle desk; a close of 4
replay("refusals in rows", 0, "closed", *[f"refused {n}" for n in (8, 10, 19, 19, 11)], "item 0",
       *[f"refused {n}" for n in (9, 13, 20)], "-")
replay("closes of the day that is closed and of one before", "closed kept", 0, "closed", "refused 20", "-", "kept")
# closes of 0, the last day and 0; then of the last day, and an add of it
replay("closes one after another", 0, "closed", "closed", "refused 20", "-", 0, "closed", "refused 19", "-", "kept")
replay("a close in a row, a board that is not sound", "30 kept")
replay("a close in a row, flag of the close day 2", "30 kept")
# both items are of closed days before a desk matches them: "Items already on the board may still match"; the second
# close is of the same day, and desk 0 is signalled
replay("the run of P with closes", 0, *RUN[:3], RUN[4], "closed", *RUN[5:12], "closed", *RUN[12:19],
       "0 rule 0 members 2 items 1 0 cents 5000", "0 quiet", "0 reply 1", *["0 as sent"] * 2)

# A table of one leave tray; boards with items that are counted, all of tray 0, and as many adds: adds and steps of desk
# 0, which has 526 of them, and an add of desk 1; then one of desk 0 by itself
replay("items 527 and 528 in rows", 0, "item 526", "ended", "item 527", "ended", "refused 26", "item 528", "-",
       "refused 26 kept", "ended")
replay("rows that are all refused", 0, "refused 26", "refused 26", "-", "kept")
# 528 are desk 0's, 15 desk 1's; its adds to tray 1, of cents out of range, and two that are right; a step, an add of
# it, of desk 0 and of desk 2
replay("the last of a share in rows", 0, "refused 10", "refused 11", "item 543", "refused 9", "ended", "refused 26",
       "refused 26", "item 544", "-", "refused 26 kept", "ended")
# 528 are desk 0's; day 5 is closed, then as in "refusals in rows", and of day 6 desk 1 adds what desk 0 may not
replay("refusals in rows before 26", 0, "closed", *[f"refused {n}" for n in (8, 10, 19, 19, 11, 26)], "item 528",
       "refused 13", "refused 9", "-")
# 528 are desk 0's, 14 desk 31's, 16 each other's: two of desk 31, with an add of desk 0 between; then desks 31, 0, 16
replay("items 1,023 and 1,024 in rows", 0, "item 1022", "ended", "refused 26", "item 1023", "ended",
       *["refused 26"] * 3, "-", "refused 26 kept", "0 quiet")


# 11. "A look takes the fitting pending item with the least day, equal days by lowest number". Items are added by a desk
# each, and the desk of the last steps: it has its item in hand, whose own day does not count. Then match 0 is read.
def chosen(label, hand, rule, items, before=(), after=()):
    adds = [f"item {n}" for n in range(hand + 1)]
    looks = [f"looked {n}" for n in items]
    consumes = [f"consumed {n}" for n in items]
    read = [f"0 rule {rule} members 2 items", *items]
    print(f"{label}:", *adds, *before, *looks, f"claimed {items[0]}", "matched 0", *consumes, *read, *after)


def looked(label, hand, item):
    print(f"{label}:", *[f"item {n}" for n in range(hand + 1)], f"looked {item}")


# Rule: trays 0 1, of any properties. Items in tray 0 of the days in the label, then one in tray 1.
chosen("days 9 and 3", 2, 0, [1, 2], after=["0 as sent"])  # and a read of item 1 with its day
chosen("days 3 and 9", 2, 0, [0, 2])
chosen("days 5 and 5", 2, 0, [0, 2])  # "equal days by lowest number"
chosen("days 4,294,967,295 and 0", 2, 0, [1, 2])
chosen("days 0 and 4,294,967,295", 2, 0, [0, 2])
chosen("days 0 and 0", 2, 0, [0, 2])
chosen("days 4,294,967,295, both", 2, 0, [0, 2])
chosen("day 4,294,967,295 alone", 1, 0, [0, 1])  # there is no day that is none
looked("days 2,147,483,648 and 2,147,483,647", 2, 1)  # a day has no sign
looked("days 9, 3 and 3", 3, 1)
# item 3 in hand; before it matches desk 4 comes: item 1 is claimed, so item 2; desk 5: item 1 is consumed, 2 is claimed
print("days 9, 3 and 6, two of them taken: item 0 item 1 item 2 item 3 looked 1 looked 3 claimed 1",
      "item 4 looked 2 looked 4 claimed 2 matched 0 matched 1 consumed 1 consumed 3 item 5 looked 0")
# P's rule wants one property: item 1 is older and does not fit
chosen("older, of another property", 2, 0, [0, 2])
# Q's rule 0 names tray 0 and an empty one; rule 1 names tray 0 twice: the hand is the first, and not chosen again
chosen("the oldest in hand", 2, 1, [2, 1], before=["looked 2", "missed"])
chosen("the newest in hand", 2, 1, [2, 1], before=["looked 2", "missed"])


# 12. "A rule with last byte 2 wants equal property and equal unit; last byte 1 goes on meaning property only". First
# table P with last byte 2: items in tray 0 of the units in the label, then the one in hand, in tray 1.
def missed(label):
    print(f"{label}: item 0 item 1 missed ended")


chosen("units 3 and 4, 4 in hand", 2, 0, [1, 2])
chosen("units 4 and 3, 4 in hand", 2, 0, [0, 2], after=["0 as sent"])  # and a read of item 1 with its unit
chosen("units 4 and 4, 4 in hand", 2, 0, [0, 2])
chosen("older, of another unit", 2, 0, [1, 2])
chosen("older, of the same unit", 2, 0, [1, 2])  # of those that fit, the least day
chosen("the same unit of another property", 2, 0, [1, 2])
chosen("units 65,534 and 65,535", 2, 0, [1, 2])
chosen("units 65,535 and none, 0 in hand", 2, 0, [1, 2])  # "without one it is 0"
# a leave item in hand, and two waiting ones in tray 1
print("waiting, units 3 and 4, 4 in hand: item 0 item 1 item 2 looked 2 looked 1")
# desk 0 finds nothing in tray 1; item 0 is pending and does not fit; what is left meets no rule, and the board is quiet
print("unit 3, 4 in hand: item 0 looked 0 missed ended item 1 missed ended 0 quiet")
missed("no unit, 65,535 in hand")
missed("unit 256, none in hand")
missed("unit 4 of another property, 4 in hand")
# "if the tray has a claimed item that would fit, .. the retry mark is set": item 0 is of property 7 and unit 4
print("desk 1 holds item 0: item 0 item 1 looked 0 looked 1 claimed 0")
print("claimed, of the same unit: item 2 missed again")
print("claimed, of another unit: item 2 missed ended")
print("claimed, of another property: item 2 missed ended")
# last byte 1: table P
chosen("by property, another unit", 1, 0, [0, 1])
chosen("by property, older and of another unit", 2, 0, [1, 2])
missed("by property, the same unit of another property")
print("by property, claimed, of another unit: item 0 item 1 looked 0 looked 1 claimed 0 item 2 missed again")
# last byte 0
chosen("by neither", 1, 0, [0, 1])
print("by neither, claimed: item 0 item 1 looked 0 looked 1 claimed 0 item 2 missed again")
# Trays leave, waiting, leave; rules 0 1, and 0 2 with last byte 2. Desk 0's item 0 is of unit 3, its waker, item 1, of
# unit 4 and newer than item 2. Desk 0 matches items 2 and 0; "takes its waker in hand if it has one that is not
# consumed". Rule 0 is missed, as tray 1 has no pending item. Of items 3 and 4, of units 3 and 4, 4 fits the item in
# hand. The slip is match 0, of its own item.
print("the waker in hand: item 0 missed ended item 1 looked 1 looked 0 claimed 1 claimed 0 woke 0 freed 1 signalled 0",
      "item 2 item 3 item 4 resumed looked 2 looked 0 claimed 2 matched 0 consumed 2 consumed 0 looked 1 missed",
      "looked 1 looked 4 claimed 1 matched 1 consumed 1 consumed 4 0 rule 1 members 2 items 1 4 0 reply 1")


# 13. "The office closes its books up to a day." A close, then adds of the days in the label, in a table of one leave
# tray. A desk that is refused stays idle.
one("none closed, day 0", "item 0")  # "on an empty board no day is closed"
one("0 closed, day 0", "closed", "refused 19")  # "An add dated on the close day or before it is refused"
one("0 closed, day 1", "closed", "item 0")
one("5 closed, day 0", "closed", "refused 19")
one("5 closed, day 4", "closed", "refused 19")
one("5 closed, day 5", "closed", "refused 19")
one("5 closed, day 6", "closed", "item 0", "0 as sent")
one("5 closed, day 4,294,967,295", "closed", "item 0")
one("5 closed, days 5 and 6, desk 31", "closed", "refused 19", "item 0")
one("256 closed, day 1", "closed", "refused 19")  # not day 0
one("65,536 closed, day 1", "closed", "refused 19")
one("2,147,483,647 closed, day 2,147,483,648", "closed", "item 0")  # a day has no sign
one("2,147,483,648 closed, day 2,147,483,647", "closed", "refused 19")
one("4,294,967,294 closed, days 4,294,967,294 and 4,294,967,295", "closed", "refused 19", "item 0")
one("4,294,967,295 closed, days 0, 4,294,967,294 and 4,294,967,295", "closed", *["refused 19"] * 3)  # there is no later

# Closes, then adds of the last day that was accepted and of the day after: "20 for a close day before the present one,
# and an equal one is accepted".
one("5, then 4", "closed", "refused 20", "refused 19", "item 0")  # 5 stays closed
one("5, then 0", "closed", "refused 20", "refused 19", "item 0")
one("5, then 5", "closed", "closed", "refused 19", "item 0")
one("5, then 6", "closed", "closed", "refused 19", "item 0")
one("5, then 4, 5, 6 and 5", "closed", "refused 20", "closed", "closed", "refused 20", "refused 19", "item 0")
one("0, then 0", "closed", "closed", "refused 19", "item 0")
one("256, then 255", "closed", "refused 20")
one("65,536, then 65,535", "closed", "refused 20")
one("2,147,483,647, then 2,147,483,648", "closed", "closed")
one("2,147,483,648, then 2,147,483,647", "closed", "refused 20")
one("0, then 4,294,967,295", "closed", "closed", "refused 19")
one("4,294,967,295, then 4,294,967,295", "closed", "closed", "refused 19")
one("4,294,967,295, then 4,294,967,294 and 0", "closed", "refused 20", "refused 20", "refused 19")

# Table P where desk 0 is blocked and day 5 is closed: "19 for an add into closed days, after 10 and before 11".
one("desk 0 blocks, 5 closed", "item 0", "missed", "ended", "closed")
one("8 before 19", "refused 8")
one("9 before 19", "refused 9")
one("10 before 19", "refused 10")
one("8 before 9, 10, 19 and 11", "refused 8")
one("9 before 10, 19 and 11", "refused 9")
one("10 before 19 and 11", "refused 10")
one("19 before 11", "refused 19")
one("19 before 11, cents -1,000,000,000,000", "refused 19")
one("19", "refused 19")
one("11, the day after", "refused 11")
one("the day after", "item 1")
one("closed, step of desk 32", "refused 8")  # a step and a read have no day
one("closed, blocked", "refused 13")
one("closed, idle", "refused 13")
print("closed, item 0: 0 as sent")
print("closed, item 1: 14")
print("closed, match 0: 15")
print("closed, slip: 0 reply 0")
print("closed, quiet: 0 quiet")

# An empty board with day 33 closed; an add of day 0 and a close of day 32 or 0 by tables that are refused, then on a
# list too short, then on the board itself.
seven("1 before 19 and 20", *[1] * 7)
seven("7 before 19 and 20", *[7] * 7)
broken("30 before 19 and 20")
seven("19 and 20", 13, 19, 20, 0, 0, 14, 15)

# Where none is closed the number of the close day is not read, and is as found after adds, steps and openings: 5 is
# closed once the number that says so is 1. An opening alters the board, and is said as a number.
one("unread close day 4,294,967,295", "item 0")
one("unread close day 4,294,967,295, 0 closed", "closed", "refused 19", "item 0")
one("unread close day 5, its flag set", "item 0", "ended", "refused 19", "item 1")
one("5 closed, opened anew", "closed", "0", "item 0")  # "on an empty board no day is closed"
one("5 closed, opened anew, its flag set", "closed", "0", "refused 19", "item 0")

# 14. "Items already on the board may still match." Rule: trays 0 1; items in tray 0 of the days in the label, then one
# in tray 1 in hand.
chosen("days 9 and 3, closed", 2, 0, [1, 2], before=["closed kept"], after=["0 as sent"])
# the close comes after item 0, or after item 1
print("days 3 and 10, 9 closed between: item 0 closed kept item 1 item 2 looked 0 looked 2 claimed 0 matched 0",
      "consumed 0 consumed 2 0 rule 0 members 2 items 0 2")
print("days 10 and 3, 9 closed after: item 0 item 1 closed kept item 2 looked 1 looked 2 claimed 1 matched 0",
      "consumed 1 consumed 2 0 rule 0 members 2 items 1 2")
# desks 1 and 2 choose item 0, desk 1 claims it; after the close desk 2 loses it, and misses it once it is consumed
one("claimed, then closed", "item 0", "item 1", "item 2", "looked 0", "looked 1", "looked 0", "looked 2", "claimed 0",
    "closed", "lost 0", "again", "matched 0", "consumed 0", "consumed 1", "missed", "ended")

# The run of P: 9 is closed over both items, and an add of 9 is refused; then a close after each call, of the days 0 to
# 17, item 1 being of day 3.
one("the run of P, closed", *RUN[:3], RUN[4], "closed", "refused 19", *RUN[5:19], "0 rule 0 members 2 items 1 0",
    "0 quiet", "0 reply 1", *["0 as sent"] * 2)
one("the run of P, a close after each call", *[word for call in RUN[:3] + RUN[4:19] for word in (call, "closed")],
    "refused 13", "0 quiet")

# Desk 0 is signalled, so the board is not quiet: "a close alters nothing but the close day", and neither do calls that
# are refused.
one("desk 0 signalled", *RUN[:3], *RUN[4:12])
one("woken, closed", "0", "closed", "0", "resumed", "looked 1")
one("woken, closed, refused", "closed", "refused 20", "refused 19", "0", "resumed", "looked 1")
# Table Q: desk 0's item, of tray 1, misses at rules 0 and 2; desk 2's, of tray 2, matches it at rule 2 (trays 1 2 0)
# with item 1, whose desk is at work
one("desk 0 told", "item 0", "missed", "looked 0", "missed", "ended", "item 1", "item 2", "looked 0", "looked 2",
    "looked 1", "claimed 0", "claimed 2", "matched 0", "consumed 0", "consumed 2", "consumed 1", "told 0")
one("told, closed", "0 reply 0", "closed", "0", "0 reply 0", "answered 0", "0 reply 1")
one("desk 0 blocks, closed", *RUN[:3], "closed")
one("no signal", "refused 13", "0 quiet")  # a close signals nobody

# 15. "An add past the desk's 16 uses a common one. So no desk is refused any of its 16 for want of space, however the
# rest behave, and none ever has more than 528." The table of 1., desk 0 alone; its 528th is left at work.
print("taken 527, ended 527")
one("item 528", "item 527")
# "Turned away: 26 if the desk has added 16 or more and the common ones are used up; it stands where 12 stood": last
one("spent, desk 32", "refused 8")
one("spent, at work", "refused 9")
one("spent, no such tray", "ended", "refused 10")
one("spent, a closed day", "ended", "closed", "refused 19")
one("spent, cents 1,000,000,000,000", "ended", "refused 11")
one("spent, cents -1,000,000,000,000", "ended", "refused 11")
# day 5 is closed; adds of that day to no such tray, of cents out of range: by desk 32, by desk 0 at work, and after its
# step; then to the tray there is, and of the day after
one("spent, all of these", "closed", "refused 8", "refused 9", "ended", "refused 10", "refused 19", "refused 11")
one("spent, the day after", "ended", "closed", "refused 26")
one("spent, cents 999,999,999,999", "ended", "refused 26")
one("spent", "ended", "refused 26", "refused 26", "refused 13")  # a desk that is refused stays idle
one("spent, opened anew", "ended", "refused 26", "0", "item 0")  # an empty board, where nobody has added
one("item 528, step", "ended")
everyone("refused 26", *[f"item {n}" for n in range(528, 559)])  # each other has its own
# desk 1's own, but one
print("taken 543, ended 543")
one("desk 1, its last", "item 543", "refused 9", "ended", "refused 26", "refused 26", "item 544")
# adds of tray 1, of cents out of range, and of day 5, closed; one of desk 0; a refused add uses nothing up
one("desk 1, its last, after adds that are refused", "refused 10", "refused 11", "closed", "refused 19", "refused 26",
    "item 543", "ended", "refused 26")
# the last of desk 1, then 16 of each desk to 30, and 15 of desk 31
print("taken 1023, ended 1023")
one("item 1,024, desk 31", "item 1023", "ended")
everyone(*["refused 26"] * 32)

# Adds count, not the items that are left. Rule: trays 0 1; 527 items of desk 0 in tray 0, then one of it in tray 1.
one("item 528, matched", "item 527", "looked 0", "looked 527", "claimed 0", "matched 0", "consumed 0", "consumed 527",
    "refused 26", "0 quiet")
# 528 in tray 0, and one of desk 1 in tray 1
one("item 528 and another's, matched", "item 528", "looked 0", "looked 528", "claimed 0", "matched 0", "consumed 0",
    "consumed 528", "refused 26", "item 529")
# Table P: 527 of desk 0 in tray 0, of property 0, and one of property 7 that waits; desk 1 wakes it, and it matches
one("item 528, waiting", "item 527", "missed", "ended", "refused 9", "item 528", "looked 528", "looked 527",
    "claimed 528", "claimed 527", "woke 527", "freed 528", "signalled 527", "resumed", "looked 528", "looked 527",
    "claimed 528", "matched 0", "consumed 528", "consumed 527", "refused 26", "item 529")

# "A sound board's adds by desk now sum to its items": after an add that desk's tally is 1, and with 0 or 2 there the
# board is not sound.
for desk in (0, 5, 31):
    one(f"an add of desk {desk}", "item 0", "refused 30", "refused 30", "looked 0")

# 528 items of desk 0 in tray 0; on each of the lists a step and an add of desk 0, a close of day 0, and reads.
broken("30 before 26")
seven("26", 13, 26, 0, 0, 0, 0, 15)
seven("1 before 26", *[1] * 7)


# 16. "A sound board's adds by desk now sum to its items, and the parts above 16 to at most 512." The board of 8., whose
# tallies are 1 1 1 3; the items counted beside its six are of tray 0, pending. The add is of desk 31.
def spent(label):
    seven(label, 0, 26, 0, 0, 0, 0, 0)


broken("an add too many")
broken("an add too few")
broken("an add too many, of desk 31")
broken("no adds")
broken("an item more")
accepted("an item and an add more")
accepted("all adds of desk 31")
broken("262 adds")  # not 6
# 65,535 and 101: modulo 65,536 these are 100, and 65,519 and 85 above 16 are 68
broken("100 items, 65,636 adds")
# 31 times 65,535, and 631: 600 and 88
broken("600 items, 2,032,216 adds")
broken("65,535 adds of each desk")

accepted("528 items of desk 0")  # 512 above 16
broken("529 items of desk 0")  # 513
spent("528 items of desk 31")
accepted("544 items, 527 and 17")  # 511 and 1
broken("545 items, 528 and 17")
accepted("545 items, 528, 16 and 1")
spent("1,024 items, 33 and 31, 32 of each other")
broken("1,024 items, 49 and 15, 32 of each other")  # 33 and 30 times 16: 513
spent("1,024 items, 528 and 16 of each other")
broken("1,024 items, 529 and 15, 16 of each other")

# 26 wants both: 16 or more of desk 31, and 512 above 16 of all
accepted("543 items, 16 of desk 31, 527 of desk 0")
spent("544 items, 16 of desk 31, 528 of desk 0")
spent("544 items, 16 of desk 31, 528 of desk 30")
accepted("544 items, 15 of desk 31, 528 and 1")
accepted("544 items, 16 of desk 31, 527 and 1")
spent("544 items, 527 of desk 31, 17 of desk 0")
accepted("544 items, 527 of desk 31, 16 and 1")
accepted("1,023 items, 15 of desk 31, 528 of desk 0")
spent("1,023 items, 528 of desk 31, 15 of desk 0")
accepted("1,023 items, 31 of desk 31, 32 of each other")  # 511


# 17. "The sixteen rests come from the customer as sixteen bytes, checked on loading; the built-in table remains for
# those who give none." An opening is said as a number, with `kept` where every list is as found. First on lists that
# are no board: "21 for a wrong length, zero bytes too, a falling entry or one over 64".
def opened(label, *said):
    print(f"{label}:", *said)


for label in ["no rests", "a rest", "15 rests", "17 rests", "32 rests",  # of 0
              "rests of 65", "a rest of 65 at first", "rests of 65 from the 8th on", "a rest of 65 at the 8th",
              "a rest of 65 at last", "a rest of 255 at last", "rests of 255", "15 rests and 65", "falling at first",
              "falling at first, then rising", "falling in the middle", "falling at last", "falling at last to 0",
              "falling all along"]:
    opened(label, "21 kept")
# Taken on lists that are no board; then the board is one opened with none given, once the built-in rests are put there
opened("rests of 0, then none given", 0, "0 kept")
opened("the built-in rests, then none given", 0, "0 kept")
opened("none given, then the built-in rests", 0, "0 kept")
# opened with none given; the rests are put there, and then given: "No entry may exceed 64 or be less than the one
# before"
for label in ["rests of 0", "rests of 64", "a rest of 64 at last", "rests from 1 to 16", "rests of 63 and 64"]:
    opened(f"none given, then {label}", 0, "0 kept")

# The board of 8.: a refused opening alters nothing, and every call is accepted after it
for label in ["15 rests", "no rests", "a rest of 65 at last"]:
    opened(f"{label}, a board in use", "21 kept", 0, 0, "0 kept", 0, 0, 0, 0)
# "checked when a board is opened, after the rule table", and before the length of the board's list
for label in ["no rests, 722", "17 rests, 724", "a rest of 65 at last, no", "falling at last, 722"]:
    opened(f"{label} numbers", "21 kept")
for number in ["722", "724", "707", "no"]:
    opened(f"rests of 0, {number} numbers", "30 kept")
one("rests of 0, a board in use", "0", "0 quiet", "refused 13", "item 0")  # an empty board
one("rests of 0, a day closed", "closed", "0", "item 0")  # where no day is closed
# "sound also asks that it passes"; an opening asks nothing of the board as found
one("falling, then none given", "refused 30", "0", "refused 13")
one("falling, then rests of 0", "refused 30", "0", "refused 13")
one("falling, then no rests", "refused 30", "21 kept", "refused 30")

# Rule tables that are refused, in the order of 4.: before 21, 30 and 8
for n in range(1, 8):
    print(f"a table refused {n}")
    for label in ["no rests", "no rests, 722 numbers", "a rest of 65 at last", "rests of 0", "rests of 0, 724 numbers"]:
        opened(label, f"{n} kept")
    seven("falling", *[n] * 7)  # the board has rests that fall, and the calls are desk 32's
    replay("falling, in rows", f"{n} kept")

# 18. "The board keeps the one it was opened with, and sound also asks that it passes." The board of 8. with the
# built-in rests, of which the label says what is another: 0 1 1 2 2 4 4 8 8 16 16 16 32 32 32 32.
accepted("the built-in rests")
accepted("rest 1 as rest 2")
broken("rest 1 over rest 2")  # 2 1
broken("rest 1 of 64")
broken("rest 8 over rest 9")  # 9 8
accepted("rest 9 as rest 10")  # 16 16
accepted("rest 10 as rest 9")  # 8 8
broken("rest 10 under rest 9")  # 8 7
broken("rest 15 over rest 16")  # 33 32
accepted("rest 16 as rest 15")
broken("rest 16 under rest 15")  # 32 31
broken("rest 16 of 0")
accepted("rest 16 of 64")
for number in ["65", "255", "256", "288", "65,535"]:
    broken(f"rest 16 of {number}")  # 288 is 32 and 256
broken("rest 1 of 256")
broken("rest 8 of 264")  # 8 and 256
accepted("rests of 0")
accepted("rests of 1")
accepted("rests of 64")
broken("rests of 65")
broken("rests of 256")
accepted("rests from 1 to 16")
broken("rests from 16 to 1")
accepted("rests of 0 and a rest of 64")
broken("rests of 64 and a rest of 63")
broken("rest 16 of 65, desk 32")  # 30 before 8

# "After the k-th `again` of a job the desk first spends as many steps, each `rested`, as the rest table says at k (from
# 1; beyond 16, at 16)". Desk 0 at the end of a pass, its mark set; then so many rests, and the first look of a new
# pass.
BUILT_IN = [0, 1, 1, 2, 2, 4, 4, 8, 8, 16, 16, 16, 32, 32, 32, 32]
RISING = list(range(1, 17))
LAST = [0] * 15 + [64]
for label, rests, agains in [("built-in", BUILT_IN, [1, 2, 9, 10, 16, 17]),
                             ("1 to 16", RISING, [1, 2, 8, 15, 16, 17, 256]), ("64", [64] * 16, [1, 16, 17]),
                             ("0", [0] * 16, [1, 16, 17]), ("0, then 64", [0] + [64] * 15, [1, 2]),
                             ("64 at last", LAST, [15, 16, 17])]:
    for k in agains:
        one(f"{label}, again {k}", "again", f"rests {rests[min(k, 16) - 1]}", "looked 0")

# rests left are no part of sound: 256 steps, the place being 255, whatever the table; 256 is no place (9.)
accepted("rest 255 of rests of 0")
one("rest 255 of rests of 0, spent", "rests 256", "looked 0")
accepted("rest 255 of rests of 64")
broken("rest 255 of rests that fall")
broken("rest 256 of rests of 64")
one("rest 0 of rests of 64, spent", "rests 1", "looked 0")
one("64, then 0", "again", "rests 64", "looked 0")  # the table was read at `again`

# The rows of 10., and one of a close
for label in ["falling", "falling at last", "a rest of 65"]:
    replay(f"{label}, in rows", "30 kept 30 kept")
replay("falling, 30 before 31", "30 kept")
replay("rests of 64, in rows", 0, *RUN[:2], "-")

# Rule: trays 0 1. Desk 1 holds item 0, of tray 0; desk 2 misses it, "the retry mark is set", and is at it again.
HOLDS = ["item 0", "item 1", "item 2", "looked 0", "looked 1", "claimed 0"]
for label, rests in [("rests from 1 to 16", RISING), ("a rest of 64 at last", LAST)]:
    one(f"desk 1 holds item 0, {label}", "0", *HOLDS)
    one("agains", *[f"missed again rests {rests[min(k, 16) - 1]}" for k in range(1, 19)])
one("desk 1 holds item 0, none given", *HOLDS)
one("agains", *[f"missed again rests {BUILT_IN[min(k, 16) - 1]}" for k in range(1, 19)])
# rests of 2, whatever else is called: a close, an add, a refused opening, a step of desk 3, and a read of quiet
one("desk 1 holds item 0, rests of 2", "0", *HOLDS)
one("calls between", "missed", "again", "closed", "item 3", "21 kept", "rests 2", "missed", "again", "missed", "0",
    "rests 2")
# six steps, an add and a close in rows, then steps by themselves
replay("rows", 0, "missed", "again", "rested", "rested", "missed", "again", "item 3", "closed", "-", "rests 2",
       "missed", "again", "rests 2")
# desk 1 matches; then nothing is claimed
one("desk 1 done", "missed", "again", "rests 2", "missed", "again", "matched 0", "consumed 0", "consumed 1", "rests 2",
    "missed", "ended")
