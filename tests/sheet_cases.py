"""Worked cases of retiming and audit.

The expected replies and figures are written here by hand from documents 01 and 02; nothing is taken
from the program.
"""
from case_files import case
from formats import ALL_BITS, BREAK, DRIVE, EUROPE_SPLIT, FIRST_PART, REST, SECOND_PART, WEEKLY_REST, Map, map_t, order, sheet, words

T = map_t().bytes()


def loop(metres, speed):
    """One junction, a car park, with a road to itself."""
    return Map([[1, 1, 0, 1]], [[1, 1, metres, speed, 0]], b"x").bytes()


LOOP = loop(1250, 90)  # 50 seconds
ROUNDED_LOOP = loop(1251, 90)  # 50.04 seconds, so 50 since document 02 (P2), and 51 before
HOME = [1, 1, 7, 100000, 5, 6, 16200, 2700, 32400, 39600, 0, 0]
PLAN = [(DRIVE, 1, 10800), (BREAK, 2, 13500), (DRIVE, 2, 20700)]
TRUE = sheet(PLAN, 20700, 7200, 18000)


def retime(title, trunk, orders, given, length, reply, written=None, bans=()):
    """`length` bytes of 0xEE are lent; `written` is the start of what they hold afterwards."""
    before = b"\xee" * length
    after = before if written is None else written + before[len(written) :]
    case("r", title, reply + " " + after.hex(), number=length, trunk=trunk, order=orders, bans=bans, sheet=given)


def audit(title, trunk, orders, given, reply, bans=()):
    case("a", title, reply, trunk=trunk, order=orders, bans=bans, sheet=given)


def both(title, trunk, orders, given, reply, bans=()):
    """A refusal that retiming and audit share; the other sheet stays."""
    retime("retime: " + title, trunk, orders, given, 60, reply, bans=bans)
    audit("audit: " + title, trunk, orders, given, reply, bans)


# --- retiming that succeeds --------------------------------------------------------------------
retime("T's plan, exact sheet", T, order(), TRUE, 60, "0 3 20700", TRUE)
retime("false clocks and header are not read", T, order(), sheet([(1, 1, 9), (2, 2, 8), (1, 2, 7)], 1, 2, 3), 60, "0 3 20700", TRUE)
retime("a longer sheet keeps its tail", T, order(), TRUE, 64, "0 3 20700", TRUE)
retime("N is copied unjudged", T, order(), sheet(PLAN, labels=ALL_BITS), 60, "0 3 20700", sheet(PLAN, 20700, 7200, 18000, ALL_BITS))
retime("a later departure", T, order(w2=100), TRUE, 60, "0 3 20800", sheet([(1, 1, 10900), (2, 2, 13600), (1, 2, 20800)], 20800, 7200, 18000))
retime("a rest in place of the break", T, order(), sheet([(1, 1, 0), (3, 2, 0), (1, 2, 0)]), 60, "0 3 57600", sheet([(1, 1, 10800), (3, 2, 50400), (1, 2, 57600)], 57600, 7200, 7200, week=18000))
retime("two breaks in a row", T, order(), sheet([(1, 1, 0), (2, 2, 0), (2, 2, 0), (1, 2, 0)]), 72, "0 4 23400", sheet([(1, 1, 10800), (2, 2, 13500), (2, 2, 16200), (1, 2, 23400)], 23400, 7200, 18000))
retime("break then rest clears both", T, order(), sheet([(1, 1, 0), (2, 2, 0), (3, 2, 0), (1, 2, 0)]), 72, "0 4 60300", sheet([(1, 1, 10800), (2, 2, 13500), (3, 2, 53100), (1, 2, 60300)], 60300, 7200, 7200, week=18000))
retime("no moves, source is target", LOOP, order(HOME), sheet([]), 24, "0 0 7", sheet([], 7, 5, 6))
retime("a pause at source", LOOP, order(HOME), sheet([(2, 1, 0)]), 36, "0 1 2707", sheet([(2, 1, 2707)], 2707, 0, 6))
retime("a rest at source", LOOP, order(HOME), sheet([(3, 1, 0)]), 36, "0 1 39607", sheet([(3, 1, 39607)], 39607, 0, 0, week=6))
retime("a road to its own junction", LOOP, order(HOME), sheet([(1, 1, 0)]), 36, "0 1 57", sheet([(1, 1, 57)], 57, 55, 56))
retime("a sheet of road times rounded up", ROUNDED_LOOP, order(HOME), sheet([(1, 1, 58)], 58, 56, 57), 36, "0 1 57", sheet([(1, 1, 57)], 57, 55, 56))
retime("through target and on", LOOP, order(HOME), sheet([(1, 1, 0), (2, 1, 0), (1, 1, 0)]), 60, "0 3 2807", sheet([(1, 1, 57), (2, 1, 2757), (1, 1, 2807)], 2807, 50, 106))
retime("arrival at latest", T, order(w3=20700), TRUE, 60, "0 3 20700", TRUE)
retime("spell at its limit", T, order(w6=10800), TRUE, 60, "0 3 20700", TRUE)
retime("shift at its limit", T, order(w8=18000), TRUE, 60, "0 3 20700", TRUE)

# --- audit that succeeds -----------------------------------------------------------------------
audit("T's plan audits", T, order(), TRUE, "0 3 20700")
audit("N is not compared", T, order(), sheet(PLAN, 20700, 7200, 18000, 99), "0 3 20700")
audit("no moves, true header", LOOP, order(HOME), sheet([], 7, 5, 6), "0 0 7")
audit("a pause at source audits", LOOP, order(HOME), sheet([(2, 1, 2707)], 2707, 0, 6), "0 1 2707")
audit("a road time rounded down", ROUNDED_LOOP, order(HOME), sheet([(1, 1, 57)], 57, 55, 56), "0 1 57")
audit("2.5 seconds are 2", loop(25, 36), order(HOME), sheet([(1, 1, 9)], 9, 7, 8), "0 1 9")
audit("3.5 seconds are 4", loop(35, 36), order(HOME), sheet([(1, 1, 11)], 11, 9, 10), "0 1 11")
audit("0.5 seconds are 1", loop(5, 36), order(HOME), sheet([(1, 1, 8)], 8, 6, 7), "0 1 8")
audit("a sheet that is not the first to arrive audits", T, order(), sheet([(1, 1, 10800), (3, 2, 50400), (1, 2, 57600)], 57600, 7200, 7200, week=18000), "0 3 57600")

# --- refusals 1 to 11 before the sheet is looked at ----------------------------------------------
both("short map", T[:3], order(), TRUE, "1 3 0")
both("broken chain and torn sheet: the chain", T[:80] + words(0) + T[84:], order(), TRUE[:-1], "7 3 0")
both("bad lettering", T[:-1] + b"\x7f", order(), TRUE, "8 132 0")
both("no order", T, b"", TRUE, "9 0 0")
both("bad rules and torn sheet: the rules", T, order(w7=0), b"", "10 7 0")
both("bad trip and torn sheet: the trip", T, order(w1=9), b"", "11 1 0")

# --- 15 torn sheet -------------------------------------------------------------------------------
both("empty sheet", T, order(), b"", "15 0 0")
both("19 bytes", T, order(), TRUE[:19], "15 19 0")
both("one byte too long", T, order(), TRUE + b"x", "15 61 0")
both("one byte too short", T, order(), TRUE[:-1], "15 59 0")
both("M above 999,999", T, order(), sheet(PLAN, moves=1000000), "15 60 0")
both("24 + 12M wraps to the length", T, order(), sheet(PLAN, moves=3 + (1 << 30)), "15 60 0")
both("M 0 with a record", T, order(), sheet(PLAN[:1], moves=0), "15 36 0")
both("M one more than the records", T, order(), sheet(PLAN, moves=4), "15 60 0")

# --- 16 foreign move -----------------------------------------------------------------------------
both("kind 0 first", T, order(), sheet([(0, 1, 10800)] + PLAN[1:], 20700, 7200, 18000), "16 1 0")
both("kind 4 in the middle", T, order(), sheet([PLAN[0], (4, 2, 13500), PLAN[2]], 20700, 7200, 18000), "16 2 0")
both("kind 257 last", T, order(), sheet(PLAN[:2] + [(257, 2, 20700)], 20700, 7200, 18000), "16 3 0")
both("road 0", T, order(), sheet([(1, 0, 10800)] + PLAN[1:], 20700, 7200, 18000), "16 1 0")
both("road above R", T, order(), sheet([(1, 4, 10800)] + PLAN[1:], 20700, 7200, 18000), "16 1 0")
both("road of all bits", T, order(), sheet(PLAN[:2] + [(1, ALL_BITS, 20700)], 20700, 7200, 18000), "16 3 0")
both("road that leaves elsewhere", T, order(), sheet([(1, 2, 10800)] + PLAN[1:], 20700, 7200, 18000), "16 1 0")
both("pause of another number", T, order(), sheet([PLAN[0], (2, 1, 13500), PLAN[2]], 20700, 7200, 18000), "16 2 0")
both("pause where no car park is", T, order(), sheet([(2, 1, 2700)] + PLAN, 20700, 7200, 18000), "16 1 0")
both("foreign move after an overrun: the overrun", T, order(w6=10799), sheet([PLAN[0], (9, 9, 9), PLAN[2]], 20700, 7200, 18000), "17 1 0")

# --- 17 overrun ----------------------------------------------------------------------------------
both("spell over its limit, first move", T, order(w6=10799), TRUE, "17 1 0")
both("spell over its limit, last move", T, order(), sheet([PLAN[0], (1, 2, 18000)], 18000, 18000, 18000), "17 2 0")
both("shift over its limit, last move", T, order(w6=16200, w8=17999), TRUE, "17 3 0")
both("clock over latest, a pause", T, order(w3=13499), TRUE, "17 2 0")
both("clock over latest, last move", T, order(w3=20699), TRUE, "17 3 0")
both("starting spell counts", T, order(w4=5401, w5=5401), TRUE, "17 1 0")

# --- 18 false figure (audit) ---------------------------------------------------------------------
audit("false clock first", T, order(), sheet([(1, 1, 10799)] + PLAN[1:], 20700, 7200, 18000), "18 1 0")
audit("false clock in the middle", T, order(), sheet([PLAN[0], (2, 2, 13501), PLAN[2]], 20700, 7200, 18000), "18 2 0")
audit("false clock last", T, order(), sheet(PLAN[:2] + [(1, 2, 0)], 20700, 7200, 18000), "18 3 0")
audit("a road time rounded up", ROUNDED_LOOP, order(HOME), sheet([(1, 1, 58)], 58, 56, 57), "18 1 0")
audit("false clock before an overrun: the clock", T, order(w3=20699), sheet([(1, 1, 1)] + PLAN[1:], 20700, 7200, 18000), "18 1 0")
audit("overrun with a false clock: the overrun", T, order(w3=20699), sheet(PLAN[:2] + [(1, 2, 1)], 20700, 7200, 18000), "17 3 0")
audit("false arrival", T, order(), sheet(PLAN, 20701, 7200, 18000), "18 4 0")
audit("false spell", T, order(), sheet(PLAN, 20700, 7201, 18000), "18 4 0")
audit("false shift", T, order(), sheet(PLAN, 20700, 7200, 17999), "18 4 0")
audit("no moves, false header", LOOP, order(HOME), sheet([], 8, 5, 6), "18 1 0")

# --- 19 stray, 14 short sheet --------------------------------------------------------------------
both("ends at Lay", T, order(), sheet(PLAN[:2], 13500, 0, 10800), "19 2 0")
both("no moves, source is not target", T, order(), sheet([]), "19 1 0")
both("stray with a false header: stray", T, order(), sheet(PLAN[:1], 9, 9, 9), "19 2 0")
retime("stray and short sheet: stray", T, order(), sheet(PLAN[:1]), 0, "19 2 0")
retime("short by one byte", T, order(), TRUE, 59, "14 60 0")
retime("no sheet at all", T, order(), TRUE, 0, "14 60 0")
retime("no moves, 23 bytes", LOOP, order(HOME), sheet([]), 23, "14 24 0")

# --- the split break (document 02, P5) -------------------------------------------------------------
SPLIT = order(EUROPE_SPLIT)
PARTS = [(DRIVE, 1, 10800), (FIRST_PART, 2, 11700), (SECOND_PART, 2, 13500), (DRIVE, 2, 20700)]
BY_PARTS = sheet(PARTS, 20700, 7200, 18000)
AT_HOME = HOME[:10] + EUROPE_SPLIT[10:]


def timed(title, trunk, orders, rows, arrival, spell, shift, week=None, bans=()):
    """Moves that retiming writes, whatever clocks it is given, and that audit accepts."""
    written = sheet(rows, arrival, spell, shift, week=week)
    given = sheet([(kind, number, 0) for kind, number, _ in rows])
    reply = "0 %d %d" % (len(rows), arrival)
    retime("retime: " + title, trunk, orders, given, len(written), reply, written, bans)
    audit("audit: " + title, trunk, orders, written, reply, bans)


def foreign(title, trunk, orders, rows, move, bans=()):
    """The clocks before the foreign move are true, so that audit comes to it too."""
    both(title, trunk, orders, sheet(rows), "16 %d 0" % move, bans)


timed("a first part, then a second", T, SPLIT, PARTS, 20700, 7200, 18000)
timed("T's plan with Europe's parts", T, SPLIT, PLAN, 20700, 7200, 18000)
timed("other parts take other times", T, order(w10=100, w11=200), [(DRIVE, 1, 10800), (FIRST_PART, 2, 10900), (SECOND_PART, 2, 11100), (DRIVE, 2, 18300)], 18300, 7200, 18000)
timed("parts that end at latest", T, order(EUROPE_SPLIT, w3=20700), PARTS, 20700, 7200, 18000)
timed("a first part leaves spell", T, order(EUROPE_SPLIT, w6=18000), [(DRIVE, 1, 10800), (FIRST_PART, 2, 11700), (DRIVE, 2, 18900)], 18900, 18000, 18000)
timed("a first part with the mark set already", T, SPLIT, PARTS[:2] + [(FIRST_PART, 2, 12600), (SECOND_PART, 2, 14400), (DRIVE, 2, 21600)], 21600, 7200, 18000)
timed("first, second, first, second", T, SPLIT, PARTS[:3] + [(FIRST_PART, 2, 14400), (SECOND_PART, 2, 16200), (DRIVE, 2, 23400)], 23400, 7200, 18000)
timed("a break clears spell with the mark", T, SPLIT, PARTS[:2] + [(BREAK, 2, 14400), (DRIVE, 2, 21600)], 21600, 7200, 18000)
timed("a rest clears both with the mark", T, SPLIT, PARTS[:2] + [(REST, 2, 51300), (DRIVE, 2, 58500)], 58500, 7200, 7200, 18000)
timed("a first part again after a break", T, SPLIT, PARTS[:2] + [(BREAK, 2, 14400), (FIRST_PART, 2, 15300), (SECOND_PART, 2, 17100), (DRIVE, 2, 24300)], 24300, 7200, 18000)
timed("a drive keeps the mark", LOOP, order(AT_HOME), [(FIRST_PART, 1, 907), (DRIVE, 1, 957), (SECOND_PART, 1, 2757)], 2757, 0, 56)
timed("two drives keep the mark", LOOP, order(AT_HOME), [(FIRST_PART, 1, 907), (DRIVE, 1, 957), (DRIVE, 1, 1007), (SECOND_PART, 1, 2807)], 2807, 0, 106)
timed("a mark left at the end", LOOP, order(AT_HOME), [(FIRST_PART, 1, 907)], 907, 5, 6)
timed("parts as long as the break", LOOP, order(AT_HOME, w10=2700, w11=2700), [(FIRST_PART, 1, 2707), (SECOND_PART, 1, 5407)], 5407, 0, 6)

foreign("a second part without the mark", T, SPLIT, [PARTS[0], (SECOND_PART, 2, 12600)], 2)
foreign("a start carries no mark", LOOP, order(AT_HOME), [(SECOND_PART, 1, 1807)], 1)
foreign("two second parts after one first", T, SPLIT, PARTS[:3] + [(SECOND_PART, 2, 15300)], 4)
foreign("a second part after a break", T, SPLIT, PARTS[:2] + [(BREAK, 2, 14400), (SECOND_PART, 2, 16200)], 4)
foreign("a second part after a rest", T, SPLIT, PARTS[:2] + [(REST, 2, 51300), (SECOND_PART, 2, 53100)], 4)
foreign("a second part after a break alone", T, SPLIT, PLAN[:2] + [(SECOND_PART, 2, 15300)], 3)
foreign("a first part without a split", T, order(), PARTS, 2)
foreign("a second part without a split", T, order(), [PARTS[0], (SECOND_PART, 2, 12600)], 2)
foreign("a first part where no car park is", T, SPLIT, [(FIRST_PART, 1, 900)] + PLAN, 1)
ONE_PARK = Map([[1, 1, 0, 1], [0, 0, 0, 1]], [[1, 2, 1250, 90, 0]], b"x").bytes()
foreign("a second part where no car park is", ONE_PARK, order(EUROPE_SPLIT, w1=2), [(FIRST_PART, 1, 900), (DRIVE, 1, 950), (SECOND_PART, 2, 2750)], 3)
foreign("a first part of another number", T, SPLIT, [PARTS[0], (FIRST_PART, 1, 11700)], 2)
foreign("a second part of another number", T, SPLIT, PARTS[:2] + [(SECOND_PART, 3, 13500)], 3)
foreign("a first part of number 0", T, SPLIT, [PARTS[0], (FIRST_PART, 0, 11700)], 2)
foreign("a second part of number all bits", T, SPLIT, PARTS[:2] + [(SECOND_PART, ALL_BITS, 13500)], 3)
foreign("kind 7 with a split", T, SPLIT, [PARTS[0], (7, 2, 11700)], 2)
foreign("kind 0 with the mark", T, SPLIT, PARTS[:2] + [(0, 2, 11700)], 3)
foreign("kind 260, a first part by its low byte", T, SPLIT, [PARTS[0], (260, 2, 11700)], 2)

both("a first part that ends after latest", T, order(EUROPE_SPLIT, w3=11699), BY_PARTS, "17 2 0")
both("a second part that ends after latest", T, order(EUROPE_SPLIT, w3=13499), BY_PARTS, "17 3 0")
both("a first part does not clear spell", T, SPLIT, sheet(PARTS[:2] + [(DRIVE, 2, 18900)], 18900, 7200, 18000), "17 3 0")
both("a second part does not clear shift", T, order(EUROPE_SPLIT, w8=17999), BY_PARTS, "17 4 0")
both("ends at Lay with the mark", T, SPLIT, sheet(PARTS[:2], 11700, 10800, 10800), "19 2 0")
audit("false clock of a first part", T, SPLIT, sheet([PARTS[0], (FIRST_PART, 2, 11701)] + PARTS[2:], 20700, 7200, 18000), "18 2 0")
audit("false clock of a second part", T, SPLIT, sheet(PARTS[:2] + [(SECOND_PART, 2, 12600), PARTS[3]], 20700, 7200, 18000), "18 3 0")
audit("false spell after a first part", LOOP, order(AT_HOME), sheet([(FIRST_PART, 1, 907)], 907, 0, 6), "18 2 0")
audit("false shift after a second part", LOOP, order(AT_HOME), sheet([(FIRST_PART, 1, 907), (SECOND_PART, 1, 2707)], 2707, 0, 0), "18 3 0")
both("a lone zero part and torn sheet: the part", T, order(w11=1800), b"", "10 10 0")
both("an order of 40 bytes", T, order()[:40], TRUE, "9 40 0")

# --- the week (document 02, P7): at byte 16 of a sheet, N at byte 20 and the records from byte 24 on -------------
WEEKLY = [(DRIVE, 1, 10800), (WEEKLY_REST, 2, 172800), (DRIVE, 2, 180000)]
RESTED = [(DRIVE, 1, 10800), (REST, 2, 50400), (DRIVE, 2, 57600)]
LATE = order(w3=180000, w14=190800)  # 10,800 seconds of the week are left, just enough for Lay
LONG = [1, 1, 7, 400000] + AT_HOME[4:14] + [50]  # from and to the loop's junction, in a week of 50 seconds

timed("a weekly rest at Lay", T, LATE, WEEKLY, 180000, 7200, 7200, 7200)
timed("the week gains both drives", T, order(w14=100), PLAN, 20700, 7200, 18000, 18100)
timed("a rest leaves the week", T, order(w14=100), RESTED, 57600, 7200, 7200, 18100)
timed("week at its limit", T, order(w14=183600), PLAN, 20700, 7200, 18000, 201600)
timed("week and shift at one limit", T, order(w8=18000, w12=18000), PLAN, 20700, 7200, 18000, 18000)
timed("a weekly rest as long as the rest", T, order(w13=39600, w14=100), [PLAN[0], (WEEKLY_REST, 2, 50400), RESTED[2]], 57600, 7200, 7200, 7200)
timed("no moves, a week above the shift", LOOP, order(LONG), [], 7, 5, 6, 50)
timed("a weekly rest at source", LOOP, order(LONG), [(WEEKLY_REST, 1, 162007)], 162007, 0, 0, 0)
timed("two weekly rests in a row", LOOP, order(LONG), [(WEEKLY_REST, 1, 162007), (WEEKLY_REST, 1, 324007)], 324007, 0, 0, 0)
timed("a drive after a weekly rest", LOOP, order(LONG), [(WEEKLY_REST, 1, 162007), (DRIVE, 1, 162057)], 162057, 50, 50, 50)
timed("a weekly rest with the mark", LOOP, order(LONG), [(FIRST_PART, 1, 907), (WEEKLY_REST, 1, 162907)], 162907, 0, 0, 0)
timed("parts after a weekly rest", LOOP, order(LONG), [(WEEKLY_REST, 1, 162007), (FIRST_PART, 1, 162907), (SECOND_PART, 1, 164707)], 164707, 0, 0, 0)
timed("break and parts leave the week", LOOP, order(LONG), [(BREAK, 1, 2707), (FIRST_PART, 1, 3607), (SECOND_PART, 1, 5407)], 5407, 0, 6, 50)

foreign("a second part after a weekly rest", LOOP, order(LONG), [(FIRST_PART, 1, 907), (WEEKLY_REST, 1, 162907), (SECOND_PART, 1, 164707)], 3)
foreign("a weekly rest where no car park is", T, LATE, [(WEEKLY_REST, 1, 162000)], 1)
foreign("a weekly rest of another number", T, LATE, [PLAN[0], (WEEKLY_REST, 1, 172800)], 2)
foreign("a weekly rest of number 0", T, LATE, [PLAN[0], (WEEKLY_REST, 0, 172800)], 2)
foreign("a weekly rest of number all bits", T, LATE, [PLAN[0], (WEEKLY_REST, ALL_BITS, 172800)], 2)
foreign("kind 7 after a weekly rest", T, LATE, WEEKLY[:2] + [(7, 2, 172800)], 3)
foreign("kind 262, a weekly rest by its low byte", T, LATE, [PLAN[0], (262, 2, 172800)], 2)

both("week over its limit, last move", T, order(w14=183601), TRUE, "17 3 0")
both("week over its limit, first move", T, order(w14=190801), TRUE, "17 1 0")
both("a break does not clear the week", T, order(w14=190800), TRUE, "17 3 0")
both("a rest does not clear the week", T, order(w14=190800), sheet(RESTED, 57600, 7200, 7200), "17 3 0")
both("a weekly rest that ends after latest", T, order(w3=172799, w14=190800), sheet(WEEKLY, 180000, 7200, 7200), "17 2 0")
both("ends at Lay after a weekly rest", T, LATE, sheet(WEEKLY[:2], 172800, 0, 0), "19 2 0")

audit("week one too low", T, order(), sheet(PLAN, 20700, 7200, 18000, week=17999), "18 4 0")
audit("week one too high", T, order(), sheet(PLAN, 20700, 7200, 18000, week=18001), "18 4 0")
audit("week and N exchanged", T, order(), sheet(PLAN, 20700, 7200, 18000, 18000, week=4), "18 4 0")
audit("week without its start", T, order(w14=100), TRUE, "18 4 0")
audit("the shift in place of the week", T, order(), sheet(RESTED, 57600, 7200, 7200), "18 4 0")
audit("a week that the weekly rest has not cleared", T, LATE, sheet(WEEKLY, 180000, 7200, 7200, week=208800), "18 4 0")
audit("no moves, false week", LOOP, order(HOME), sheet([], 7, 5, 6, week=7), "18 1 0")
audit("false clock of a weekly rest", T, LATE, sheet([WEEKLY[0], (WEEKLY_REST, 2, 50400), WEEKLY[2]], 180000, 7200, 7200), "18 2 0")
retime("a false week is not read", T, order(), sheet(PLAN, 20700, 7200, 18000, week=99), 60, "0 3 20700", TRUE)
retime("N is copied, not the week", T, order(), sheet(PLAN, labels=77, week=88), 60, "0 3 20700", sheet(PLAN, 20700, 7200, 18000, 77))

FIVE_WORDS = words(3, 20700, 7200, 18000, 4)  # a header without a week
both("20 bytes", T, order(), TRUE[:20], "15 20 0")
both("23 bytes", T, order(), TRUE[:23], "15 23 0")
both("24 bytes, moves of which none follows", T, order(), TRUE[:24], "15 24 0")
both("20 + 12M bytes", T, order(), TRUE[:56], "15 56 0")
both("a header without a week", T, order(), FIVE_WORDS + TRUE[24:], "15 56 0")
both("no moves and a header without a week", LOOP, order(HOME), words(0, 7, 5, 6, 4), "15 20 0")
retime("room for 20 + 12M bytes", T, order(), TRUE, 56, "14 60 0")
retime("no moves, 20 bytes", LOOP, order(HOME), sheet([]), 20, "14 24 0")
both("weekly rest shorter than the rest, torn sheet: the rest", T, order(w13=39599), b"", "10 13 0")
both("week below the shift, torn sheet: the week", T, order(w5=9, w14=8), b"", "11 14 0")
