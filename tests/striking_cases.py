"""Worked cases of striking a road and of the preview of its closure, and audits on struck maps.

The expected replies and figures are written here by hand from documents 01 and 02; nothing is taken from the program.
A struck road can be driven round and round, so that latest is near where one is short.
"""
import plan_cases
from case_files import case
from formats import ALL_BITS, BREAK, DRIVE, EUROPE, EUROPE_SPLIT, Map, chained, map_t, order, sheet, words
from plan_cases import HOURS, LATE_ANSWER, LATE_ROWS, NO_PARK, ONE_TO_FOUR, ONE_TO_TWO, PARK, PRACTICE, T_ANSWER, T_ROWS
from plan_cases import in_t, trip_map
from sheet_cases import TRUE, audit, both

T = map_t().bytes()


def strike(title, road, data, reply, after=None):
    """The bytes afterwards; without any the map stays."""
    case("s", title, reply + " " + (data if after is None else after).hex(), number=road, trunk=data)


def planned(title, road, *given, **lent):
    plan_cases.planned("preview: " + title, *given, road=road, **lent)


def refused(title, road, *given, **lent):
    plan_cases.refused("preview: " + title, *given, road=road, **lent)


# --- striking that succeeds ------------------------------------------------------------------------
T_WITHOUT = {1: in_t(68, 1), 2: in_t(88, 2), 3: in_t(108, 1)}  # the to-junctions stand at 68, 88 and 108
strike("road 1 of T", 1, T, "0 0 0", T_WITHOUT[1])
strike("road 2 of T", 2, T, "0 0 0", T_WITHOUT[2])
strike("road 3 of T, the last", 3, T, "0 0 0", T_WITHOUT[3])
strike("a road struck already", 2, T_WITHOUT[2], "0 0 0")
strike("a second road", 3, T_WITHOUT[1], "0 0 0", T_WITHOUT[1][:108] + words(1) + T[112:])
strike("a road that leads back as it is", 1, Map([[1, 0, 0, 1]], [[1, 1, 1, 50, 0]], b"x").bytes(), "0 0 0")
strike(
    "one of three parallel roads, in the middle of its chain",
    2,
    Map([[1, 0, 0, 1], [0, 1, 0, 1]], [[1, 2, 7, 50, 2], [1, 2, 7, 50, 3], [1, 2, 7, 50, 0]], b"x").bytes(),
    "0 0 0",
    Map([[1, 0, 0, 1], [0, 1, 0, 1]], [[1, 2, 7, 50, 2], [1, 1, 7, 50, 3], [1, 2, 7, 50, 0]], b"x").bytes(),
)
strike(
    "a road whose way back stays",
    1,
    Map([[1, 0, 0, 1], [2, 0, 0, 1]], [[1, 2, 7, 50, 0], [2, 1, 7, 50, 0]], b"x").bytes(),
    "0 0 0",
    Map([[1, 0, 0, 1], [2, 0, 0, 1]], [[1, 1, 7, 50, 0], [2, 1, 7, 50, 0]], b"x").bytes(),
)
case("m", "a struck map passes", "0 0 0", trunk=T_WITHOUT[1])
case("m", "a map with two roads struck passes", "0 0 0", trunk=T_WITHOUT[1][:88] + words(2) + T[92:])

# --- 24 unknown road, after 1 to 8 -----------------------------------------------------------------
NO_ROADS = Map([[0, 0, 0, 1]], [], b"x").bytes()
for number in (0, 4, 257, 65537, ALL_BITS):
    strike("no road %d" % number, number, T, "24 %d 0" % number)
for number in (0, 1, ALL_BITS):
    strike("no road %d where there is none" % number, number, NO_ROADS, "24 %d 0" % number)
BAD_MAPS = [
    ("short map", T[:15], 1, 15),
    ("no map", b"", 1, 0),
    ("strange map", in_t(0, 2), 2, 0),
    ("no junctions", in_t(4, 0), 3, 4),
    ("oversize", in_t(8, 40961), 3, 8),
    ("misfit", T + b"x", 4, 133),
    ("bad junction", in_t(36, 2), 5, 2),
    ("bad road", in_t(76, 4), 6, 1),
    ("broken chain", in_t(80, 0), 7, 3),
    ("bad lettering", T[:-1] + b"\x7f", 8, 132),
]
for title, bad, number, place in BAD_MAPS:
    for road in (1, 9):
        strike("%s, road %d" % (title, road), road, bad, "%d %d 0" % (number, place))
strike("a road that ends nowhere is not mended", 2, in_t(88, 4), "6 2 0")
strike("a road that ends at 0 is not mended", 3, in_t(108, 0), "6 3 0")
strike("a road whose from-junction is not there", 2, in_t(84, 9), "6 2 0")
strike("road 0 of a map with a bad letter: the letter", 0, T[:-1] + b"\x7f", "8 132 0")

# --- previews on T ---------------------------------------------------------------------------------
# Road 3 takes longer than a spell, and nobody drives it. Without road 1 only the start is left; without road 2 there are
# the start and Lay, reached, after a break and, if latest allows it, after a rest.
planned("T without road 3", 3, T, order(), 4, T_ANSWER, T_ROWS)
planned("T without road 3, which is struck already", 3, T_WITHOUT[3], order(), 4, T_ANSWER, T_ROWS)
planned("T without road 3, latest 20,700", 3, T, order(w3=20700), 4, T_ANSWER, T_ROWS, length=60)
refused("T without road 3, latest 20,699", 3, T, order(w3=20699), 13, 3)
refused("T without road 3, three labels", 3, T, order(), 12, 3, label_words=39)
refused("T without road 3, a byte short", 3, T, order(), 14, 60, label_words=40, length=59)
refused("T without road 1", 1, T, order(), 13, 1)
refused("T without road 1, a label fits", 1, T, order(), 13, 1, label_words=10, length=0)
refused("T without road 1, no label fits", 1, T, order(), 12, 0, label_words=9)
refused("T without road 2", 2, T, order(), 13, 4)
refused("T without road 2, four labels fit", 2, T, order(), 13, 4, label_words=40, length=0)
refused("T without road 2, three labels fit", 2, T, order(), 12, 3, label_words=39)
refused("T without road 2, a rest that ends at latest", 2, T, order(w3=50400), 13, 4)
refused("T without road 2, no time for a rest", 2, T, order(w3=50399), 13, 3)
refused("T without road 2, with Europe's parts", 2, T, order(EUROPE_SPLIT), 13, 7)
planned("T without road 3, with Europe's parts", 3, T, order(EUROPE_SPLIT), 6, T_ANSWER, T_ROWS)
planned("T without road 3, late in the week", 3, T, order(w3=180000, w14=190800), 6, LATE_ANSWER, LATE_ROWS)
refused("T without road 2, late in the week", 2, T, order(w3=180000, w14=190800), 13, 5)
# With a spell of five hours all ways take 18,000: by road 3, whose parent is the start, or by Lay.
FIVE_HOURS = order(w6=18000)
plan_cases.planned("T with a spell of five hours", T, FIVE_HOURS, 4, (18000, 18000, 18000), [(DRIVE, 3, 18000)])
planned("as early by Lay, without road 3", 3, T, FIVE_HOURS, 4, (18000, 18000, 18000), [(DRIVE, 1, 10800), (DRIVE, 2, 18000)])
planned("Lay is not reached without road 1", 1, T, FIVE_HOURS, 2, (18000, 18000, 18000), [(DRIVE, 3, 18000)])
planned("Lay counts without road 2", 2, T, FIVE_HOURS, 4, (18000, 18000, 18000), [(DRIVE, 3, 18000)])

# --- a detour --------------------------------------------------------------------------------------
# Hub, Lay, Inn and End: as T by roads 1 and 2, and from Lay also round by Inn, a car park, in 4,500 and 5,400. A break at
# Inn then leaves the lower spell.
DETOUR = chained(
    [("Hub", NO_PARK), ("Lay", PARK), ("Inn", PARK), ("End", NO_PARK)],
    [(1, 2, 240000, 80), (2, 4, 160000, 80), (2, 3, 100000, 80), (3, 4, 120000, 80)],
)
DETOUR_ROWS = [(DRIVE, 1, 10800), (DRIVE, 3, 15300), (BREAK, 3, 18000), (DRIVE, 4, 23400)]
DETOUR_ANSWER = (23400, 5400, 20700)


def detour_without(road):
    """The map with a road struck."""
    struck = Map(DETOUR.junctions, DETOUR.roads, DETOUR.names)
    struck.roads[road - 1][1] = struck.roads[road - 1][0]
    return struck.bytes()


OPEN = DETOUR.bytes()
plan_cases.planned("the way that is detoured below", OPEN, order(ONE_TO_FOUR), 6, T_ANSWER, T_ROWS)
refused("no way without road 1", 1, OPEN, order(ONE_TO_FOUR), 13, 1)
planned("a detour, and the break elsewhere", 2, OPEN, order(ONE_TO_FOUR), 6, DETOUR_ANSWER, DETOUR_ROWS)
plan_cases.planned("the same, planned on the struck map", detour_without(2), order(ONE_TO_FOUR), 6, DETOUR_ANSWER, DETOUR_ROWS)
planned("the detour with an exact sheet", 2, OPEN, order(ONE_TO_FOUR), 6, DETOUR_ANSWER, DETOUR_ROWS, length=72)
refused("the detour, a byte short", 2, OPEN, order(ONE_TO_FOUR), 14, 72, length=71)
refused("the detour in a sheet for the way before", 2, OPEN, order(ONE_TO_FOUR), 14, 72, length=60)
refused("the detour, a label short", 2, OPEN, order(ONE_TO_FOUR), 12, 5, label_words=59)
planned("the detour, latest just met", 2, OPEN, order(ONE_TO_FOUR, w3=23400), 6, DETOUR_ANSWER, DETOUR_ROWS)
refused("the detour, latest just missed", 2, OPEN, order(ONE_TO_FOUR, w3=23399), 13, 5)
planned("Inn is not reached without road 3", 3, OPEN, order(ONE_TO_FOUR), 4, T_ANSWER, T_ROWS)
planned("Inn counts without road 4", 4, OPEN, order(ONE_TO_FOUR), 6, T_ANSWER, T_ROWS)
refused("no way left: two roads closed", 2, detour_without(4), order(ONE_TO_FOUR), 13, 7)

# From A to D over B in 7, over C in 11, or at once in 20.
WAYS = [(1, 2, 3), (2, 4, 4), (1, 3, 5), (3, 4, 6), (1, 4, 20)]
NEAR = [1, 4, 0, 100] + EUROPE[4:]


def ways(closed=()):
    return trip_map([NO_PARK] * 4, [(a, a if number in closed else b, s) for number, (a, b, s) in enumerate(WAYS, 1)])


BY_B, BY_C = [(DRIVE, 1, 3), (DRIVE, 2, 7)], [(DRIVE, 3, 5), (DRIVE, 4, 11)]
planned("over C, without B", 1, ways(), order(NEAR), 3, (11, 11, 11), BY_C)
planned("over C, and B counts", 2, ways(), order(NEAR), 4, (11, 11, 11), BY_C)
planned("over B, without C", 3, ways(), order(NEAR), 3, (7, 7, 7), BY_B)
planned("over B, and C counts", 4, ways(), order(NEAR), 4, (7, 7, 7), BY_B)
planned("over B, without the road at once", 5, ways(), order(NEAR), 4, (7, 7, 7), BY_B)
planned("at once: the second closure", 3, ways([1]), order(NEAR), 2, (20, 20, 20), [(DRIVE, 5, 20)])
refused("no way: the third closure", 5, ways([1, 3]), order(NEAR), 13, 1)
planned("over C, latest just met", 1, ways(), order(NEAR, w3=11), 3, (11, 11, 11), BY_C)
refused("over C, latest just missed", 1, ways(), order(NEAR, w3=10), 13, 2)

PARALLEL = trip_map([NO_PARK] * 2, [(1, 2, 50), (1, 2, 50), (2, 1, 50)])
planned("the second of two parallel roads", 1, PARALLEL, order(ONE_TO_TWO, w3=300), 2, (50, 50, 50), [(DRIVE, 2, 50)])
planned("the first of two parallel roads", 2, PARALLEL, order(ONE_TO_TWO, w3=300), 2, (50, 50, 50), [(DRIVE, 1, 50)])
planned("the way back is closed", 3, PARALLEL, order(ONE_TO_TWO, w3=300), 2, (50, 50, 50), [(DRIVE, 1, 50)])
planned("a road that leads back as it is", 1, trip_map([PARK, NO_PARK], [(1, 1, 10), (1, 2, 100)]), order(ONE_TO_TWO, w3=150), 2, (100, 100, 100), [(DRIVE, 2, 100)])

# Road 1 leads to B in 3, which dominates what comes over C, tired or after a break; without it both count.
SHORT_HOURS = order([1, 4, 0, 30, 0, 0, 100, 2, 100, 20, 0, 0])
OVER_C = trip_map([NO_PARK, NO_PARK, PARK, NO_PARK], [(1, 2, 3), (1, 3, 4), (3, 2, 5), (1, 4, 12)])
plan_cases.planned("two states dominated at B", OVER_C, SHORT_HOURS, 5, (12, 12, 12), [(DRIVE, 4, 12)])
planned("more labels than before, and the same plan", 1, OVER_C, SHORT_HOURS, 6, (12, 12, 12), [(DRIVE, 4, 12)])
refused("more labels than before: full", 1, OVER_C, SHORT_HOURS, 12, 5, label_words=59)

# The slower lorry's way over the car park B, and the faster one's without.
SLOWER_ROWS = [(DRIVE, 2, 10000), (BREAK, 2, 12700), (DRIVE, 3, 13000), (DRIVE, 4, 20000)]
planned("the way over the car park stays", 1, HOURS, order(ONE_TO_FOUR), 6, (20000, 7300, 17300), SLOWER_ROWS)
refused("no car park is reached, so no road", 2, HOURS, order(ONE_TO_FOUR), 13, 2)

# --- source is target ------------------------------------------------------------------------------
HOME = order(w0=2, w1=2, w2=77, w4=5, w5=6)
planned("source is target, its road closed", 2, T, HOME, 1, (77, 5, 6), [], label_words=10, length=24)
refused("source is target, 23 bytes", 2, T, HOME, 14, 24, length=23)
refused("source is target, no label fits", 2, T, HOME, 12, 0, label_words=9)
refused("source is target, no such road", 4, T, HOME, 24, 4)

# --- 24 after 11 and before 12; 1 to 11 judge the map as it is -----------------------------------------
for number in (0, 4, 257, 65537, ALL_BITS):
    refused("no road %d" % number, number, T, order(), 24, number)
refused("no road 4, no label space, no sheet", 4, T, order(), 24, 4, label_words=0, length=0)
refused("no road 4, too few labels", 4, T, order(), 24, 4, label_words=39)
refused("no road 0 and no journey", 0, T, order(w3=20699), 24, 0)
refused("no road 4, a sheet too short", 4, T, order(), 24, 4, length=59)
refused("no road 1 where there is none", 1, NO_ROADS, order(w1=1), 24, 1)
for title, bad, number, place in BAD_MAPS:
    refused("%s, no such road" % title, 9, bad, order(), number, place)
refused("a road that ends nowhere is not mended", 2, in_t(88, 4), order(), 6, 2)
refused("a road that ends at 0 is not mended", 3, in_t(108, 0), order(), 6, 3)
for road in (3, 4):
    refused("an order of 59 bytes, road %d" % road, road, T, order()[:-1], 9, 59)
    refused("bad rules, road %d" % road, road, T, order(w7=0), 10, 7)
    refused("a lone zero part, road %d" % road, road, T, order(w11=1800), 10, 10)
    refused("bad trip, road %d" % road, road, T, order(w1=4), 11, 1)
    refused("week above its limit, road %d" % road, road, T, order(w14=201601), 11, 14)
refused("a spell above its limit, no road 0, no space", 0, T, order(w4=16201, w5=16201), 11, 4, label_words=0, length=0)

# --- audits on struck maps -------------------------------------------------------------------------
# The drive of a struck road leads back: the move behind it is foreign, and an end there is astray.
both("T's plan without road 1", T_WITHOUT[1], order(), TRUE, "16 2 0")
both("T's plan without road 2", T_WITHOUT[2], order(), TRUE, "19 2 0")
audit("T's plan without road 3", T_WITHOUT[3], order(), TRUE, "0 3 20700")
DETOURED = sheet(DETOUR_ROWS, *DETOUR_ANSWER, 6)
audit("a preview's sheet on the struck map", detour_without(2), order(ONE_TO_FOUR), DETOURED, "0 4 23400")
audit("a preview's sheet on the map as it is: no struck road is driven", OPEN, order(ONE_TO_FOUR), DETOURED, "0 4 23400")
audit("the plan from before on the struck map", detour_without(2), order(ONE_TO_FOUR), TRUE, "19 2 0")
both("the detour without road 3", detour_without(3), order(ONE_TO_FOUR), DETOURED, "16 3 0")
both("the detour without road 4", detour_without(4), order(ONE_TO_FOUR), DETOURED, "19 3 0")
both("two drives, the first closed", ways([1]), order(NEAR), sheet(BY_B, 7, 7, 7), "16 2 0")
both("two drives, the second closed", ways([2]), order(NEAR), sheet(BY_B, 7, 7, 7), "19 2 0")
both("two drives, the first closed and after latest", ways([1]), order(NEAR, w3=2), sheet(BY_B, 7, 7, 7), "17 1 0")
ROUND = sheet([(DRIVE, 1, 3), (DRIVE, 3, 8), (DRIVE, 4, 14)], 14, 14, 14)
audit("round the closed road and on", ways([1]), order(NEAR), ROUND, "0 3 14")
both("the same where the road is open", ways(), order(NEAR), ROUND, "16 2 0")

# --- a longer trip, from the other planner ---------------------------------------------------------------
plan_cases.computed("preview: a practice map of 60 junctions, 1 to 15 without road 81", 0, PRACTICE, order(w1=15, w3=14000), road=81)
