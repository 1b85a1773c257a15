"""Worked cases of planning.

Replies, figures and rows are written here by hand from documents 01 and 02. In a `computed` case only the reply's
number is written by hand, and the other planner gives the rest. Nothing is taken from the program. Where
roads come back to a junction, latest is near, since the other planner lists every reachable state.
"""
from case_files import case
from formats import ALL_BITS, BREAK, DRIVE, EUROPE, EUROPE_SPLIT, FIRST_PART, REST, SECOND_PART, WEEKLY_REST
from formats import chained, map_t, order, sheet, words
from made_trips import line, practice_map

T = map_t().bytes()
T_ROWS = [(DRIVE, 1, 10800), (BREAK, 2, 13500), (DRIVE, 2, 20700)]
T_ANSWER = (20700, 7200, 18000)
PARK, NO_PARK = True, False
MARK = 0xEEEEEEEE
LABEL_WORDS = 10


def plan(title, trunk, orders, answer, label_words, lent, before=MARK, road=None, bans=(), computed=False):
    """The sheet lent holds `lent`, and every label word holds `before`. Where a road is given, its closure is previewed."""
    kind, number = ("p", before) if road is None else ("v", road)
    case(kind, title, answer, number=number, label_words=label_words, trunk=trunk, order=orders, bans=bans, sheet=lent, computed=computed)


def unwritten(length):
    return b"\xee" * length


def planned(title, trunk, orders, labels, answer, rows, label_words=None, length=None, before=MARK, road=None, bans=()):
    """The answer is arrival, spell, shift and, where that is not the shift, week. Room for exactly the plan's labels,
    and a sheet with four bytes more than it needs, if not told otherwise."""
    arrival, spell, shift, *week = answer
    written = sheet(rows, arrival, spell, shift, labels, week=week[0] if week else None)
    label_words = LABEL_WORDS * labels if label_words is None else label_words
    lent = unwritten(len(written) + 4 if length is None else length)
    after = written + lent[len(written) :]
    plan(title, trunk, orders, "0 %d %d %s" % (labels, arrival, after.hex()), label_words, lent, before, road, bans)


def refused(title, trunk, orders, number, place, label_words=80, length=80, before=MARK, road=None, bans=()):
    """The sheet stays, and so do the label words where the search has not begun."""
    lent = unwritten(length)
    kept = "" if 12 <= number <= 14 else " kept"
    plan(title, trunk, orders, "%d %d 0 %s%s" % (number, place, lent.hex(), kept), label_words, lent, before, road, bans)


def computed(title, number, trunk, orders, label_words=2000, length=400, road=None, bans=()):
    plan(title, trunk, orders, "%d " % number, label_words, unwritten(length), road=road, bans=bans, computed=True)


def trip_map(parks, roads):
    """Junctions named A, B, .. and roads (from, to, seconds), at 36 km/h: ten metres a second."""
    names = "ABCDEFGHIJKLMNOPQRSTUVWXYZ"
    return chained(
        [(names[j], park) for j, park in enumerate(parks)], [(a, b, 10 * s, 36) for a, b, s in roads]
    ).bytes()


def one_road(metres, speed):
    return chained([("A", NO_PARK), ("B", NO_PARK)], [(1, 2, metres, speed)]).bytes()


ONE_TO_TWO = [1, 2] + EUROPE[2:]
ONE_TO_FOUR = [1, 4] + EUROPE[2:]

# --- document 01's trial trips -------------------------------------------------------------------
planned("T, four labels", T, order(), 4, T_ANSWER, T_ROWS)
refused("T, three labels: full", T, order(), 12, 3, label_words=30)
planned("T, latest 20,700", T, order(w3=20700), 4, T_ANSWER, T_ROWS)
refused("T, latest 20,699: no road", T, order(w3=20699), 13, 3)
planned("T, sheet of 60 bytes", T, order(), 4, T_ANSWER, T_ROWS, length=60)
refused("T, sheet of 59 bytes", T, order(), 14, 60, length=59)
planned("1 m at 130 takes 1 second", one_road(1, 130), order(ONE_TO_TWO), 2, (1, 1, 1), [(DRIVE, 1, 1)])
planned("1,250 m at 90 take 50 seconds", one_road(1250, 90), order(ONE_TO_TWO), 2, (50, 50, 50), [(DRIVE, 1, 50)])
planned("1,251 m at 90 take 50 seconds", one_road(1251, 90), order(ONE_TO_TWO), 2, (50, 50, 50), [(DRIVE, 1, 50)])
planned("spell 9,000 and a 7,200 road", one_road(160000, 80), order(ONE_TO_TWO, w4=9000, w5=9000), 2, (7200, 16200, 16200), [(DRIVE, 1, 7200)])
refused("spell 9,001 and a 7,200 road", one_road(160000, 80), order(ONE_TO_TWO, w4=9001, w5=9001), 13, 1)

# --- document 02, P2: the nearest second, an exact half to the even one, never below 1 --------------
for metres, seconds in ((4, 1), (5, 1), (6, 1), (14, 1), (15, 2), (16, 2), (24, 2), (25, 2), (26, 3), (34, 3), (35, 4), (36, 4), (44, 4), (45, 4), (46, 5)):
    planned("%d m at 36, time %d" % (metres, seconds), one_road(metres, 36), order(ONE_TO_TWO), 2, (seconds, seconds, seconds), [(DRIVE, 1, seconds)])
planned("2,000,000 m at 130 take 55,385 seconds", one_road(2000000, 130), order(ONE_TO_TWO, w6=60000, w8=60000), 2, (55385, 55385, 55385), [(DRIVE, 1, 55385)])
planned("100 m at 80, 4.5 seconds, take 4", one_road(100, 80), order(ONE_TO_TWO), 2, (4, 4, 4), [(DRIVE, 1, 4)])
planned("300 m at 80, 13.5 seconds, take 14", one_road(300, 80), order(ONE_TO_TWO), 2, (14, 14, 14), [(DRIVE, 1, 14)])
FAR = order(ONE_TO_TWO, w3=200000, w6=200000, w8=200000)
planned("1,999,985 m at 36, 199,998.5 seconds, take 199,998", one_road(1999985, 36), FAR, 2, (199998, 199998, 199998), [(DRIVE, 1, 199998)])
planned("1,999,995 m at 36, 199,999.5 seconds, take 200,000", one_road(1999995, 36), FAR, 2, (200000, 200000, 200000), [(DRIVE, 1, 200000)])
planned("1,251 m at 90, latest 50", one_road(1251, 90), order(ONE_TO_TWO, w3=50), 2, (50, 50, 50), [(DRIVE, 1, 50)])
planned("25 m at 36, latest 2", one_road(25, 36), order(ONE_TO_TWO, w3=2), 2, (2, 2, 2), [(DRIVE, 1, 2)])
refused("35 m at 36, latest 3", one_road(35, 36), order(ONE_TO_TWO, w3=3), 13, 1)
# 28 m at once are 2.8 seconds, so 3; twice 14 m are 1.4 seconds each, so 2 in all.
SHORTER_BY_ROUNDING = chained([("A", NO_PARK), ("B", NO_PARK), ("C", NO_PARK)], [(1, 3, 28, 36), (1, 2, 14, 36), (2, 3, 14, 36)])
planned("the first to arrive by rounded times", SHORTER_BY_ROUNDING.bytes(), order(), 3, (2, 2, 2), [(DRIVE, 2, 1), (DRIVE, 3, 2)])

# --- label space and sheet -----------------------------------------------------------------------
planned("T, room for 409 labels", T, order(), 4, T_ANSWER, T_ROWS, label_words=4096)
planned("T, 10N + 9 words", T, order(), 4, T_ANSWER, T_ROWS, label_words=49)
refused("T, 10N - 1 words", T, order(), 12, 3, label_words=39)
refused("T, four labels of nine words: full", T, order(), 12, 3, label_words=36)
refused("T, 9 words: no label fits", T, order(), 12, 0, label_words=9)
refused("T, no words", T, order(), 12, 0, label_words=0)
planned("T, label words of zeros", T, order(), 4, T_ANSWER, T_ROWS, before=0)
planned("T, label words of ones", T, order(), 4, T_ANSWER, T_ROWS, before=1)
planned("T, label words of all bits", T, order(), 4, T_ANSWER, T_ROWS, before=ALL_BITS)
planned("T, a long sheet keeps its tail", T, order(), 4, T_ANSWER, T_ROWS, length=200)
refused("T, no sheet", T, order(), 14, 60, length=0)
refused("T, sheet of the header alone", T, order(), 14, 60, length=24)
refused("no room and no sheet: full", T, order(), 12, 3, label_words=30, length=0)
refused("no room and no journey: full", T, order(w3=20699), 12, 2, label_words=20)
refused("no journey and room for exactly its labels", T, order(w3=20699), 13, 3, label_words=30)
refused("no journey and no sheet: no road", T, order(w3=20699), 13, 3, length=0)

# --- source is target ----------------------------------------------------------------------------
HOME = order(w0=2, w1=2, w2=77, w4=5, w5=6)
planned("source is target", T, HOME, 1, (77, 5, 6), [])
planned("source is target, 24 bytes and 10 words", T, HOME, 1, (77, 5, 6), [], label_words=10, length=24)
refused("source is target, 23 bytes", T, HOME, 14, 24, length=23)
refused("source is target, no label fits", T, HOME, 12, 0, label_words=9)
planned("source is target on a map without roads", chained([("A", NO_PARK)], []).bytes(), order(w1=1), 1, (0, 0, 0), [])
LAST_SECOND = [2, 2, 2000000000, 2000000000] + EUROPE[4:]
planned("departure at 2,000,000,000, source is target", T, order(LAST_SECOND), 1, (2000000000, 0, 0), [])
refused("departure at 2,000,000,000, one road away", T, order(LAST_SECOND, w1=3), 13, 1)
planned(
    "arrival at 2,000,000,000",
    T,
    order(w2=1999979300, w3=2000000000),
    4,
    (2000000000, 7200, 18000),
    [(DRIVE, 1, 1999990100), (BREAK, 2, 1999992800), (DRIVE, 2, 2000000000)],
)
planned("a later departure", T, order(w2=1000), 4, (21700, 7200, 18000), [(DRIVE, 1, 11800), (BREAK, 2, 14500), (DRIVE, 2, 21700)])

# --- no journey: every label counts --------------------------------------------------------------
refused("no road leaves the source", T, order(w0=3, w1=1), 13, 1)
refused("from Lay back to Hub: Lay and End", T, order(w0=2, w1=1), 13, 2)
refused("a tired driver's pauses at source count too", T, order(w0=2, w1=1, w4=9000, w5=9000), 13, 6)
refused("no roads at all", chained([("A", PARK), ("B", PARK)], []).bytes(), order(ONE_TO_TWO), 13, 1)
refused("a road longer than the spell limit", one_road(2000000, 5), order(ONE_TO_TWO, w3=2000000000), 13, 1)

# --- the slower lorry keeps its hours --------------------------------------------------------------
# C is reached at 10,000 after 10,000 at the wheel, and by way of the car park B at 13,000 after only
# 300: neither dominates, and only the slower one may drive on for 7,000.
HOURS = trip_map([NO_PARK, PARK, NO_PARK, NO_PARK], [(1, 3, 10000), (1, 2, 10000), (2, 3, 300), (3, 4, 7000)])
planned(
    "the slower lorry that keeps its hours",
    HOURS,
    order(ONE_TO_FOUR),
    6,
    (20000, 7300, 17300),
    [(DRIVE, 2, 10000), (BREAK, 2, 12700), (DRIVE, 3, 13000), (DRIVE, 4, 20000)],
)
refused("the slower lorry, one label too few", HOURS, order(ONE_TO_FOUR), 12, 5, label_words=59)
planned("the faster lorry where the last road is short", trip_map([NO_PARK, PARK, NO_PARK, NO_PARK], [(1, 3, 10000), (1, 2, 10000), (2, 3, 300), (3, 4, 6200)]), order(ONE_TO_FOUR), 6, (16200, 16200, 16200), [(DRIVE, 1, 10000), (DRIVE, 4, 16200)])

# --- ties -------------------------------------------------------------------------------------------
STAR = trip_map([NO_PARK] * 4, [(1, 4, 100), (1, 3, 100), (1, 2, 100)])
planned("equal figures: lower junctions count, target B", STAR, order(w1=2), 2, (100, 100, 100), [(DRIVE, 3, 100)])
planned("equal figures: lower junctions count, target C", STAR, order(w1=3), 3, (100, 100, 100), [(DRIVE, 2, 100)])
planned("equal figures: lower junctions count, target D", STAR, order(w1=4), 4, (100, 100, 100), [(DRIVE, 1, 100)])
planned("parallel roads: the lowest of the fastest", trip_map([NO_PARK] * 2, [(1, 2, 200), (1, 2, 100), (1, 2, 100)]), order(ONE_TO_TWO), 2, (100, 100, 100), [(DRIVE, 2, 100)])
planned("parallel roads with other roads between", trip_map([NO_PARK] * 3, [(1, 3, 500), (2, 1, 100), (1, 2, 100), (2, 3, 100), (1, 2, 100), (2, 3, 100)]), order(), 3, (200, 200, 200), [(DRIVE, 3, 100), (DRIVE, 4, 200)])
planned("two parents: the earlier one", trip_map([NO_PARK] * 4, [(1, 2, 100), (1, 3, 200), (2, 4, 200), (3, 4, 100)]), order(ONE_TO_FOUR), 4, (300, 300, 300), [(DRIVE, 1, 100), (DRIVE, 3, 300)])
planned("two parents: the earlier one has the higher number", trip_map([NO_PARK] * 4, [(1, 2, 200), (1, 3, 100), (2, 4, 100), (3, 4, 200)]), order(ONE_TO_FOUR), 4, (300, 300, 300), [(DRIVE, 2, 100), (DRIVE, 4, 300)])
planned("two parents of equal figures: the lower junction", trip_map([NO_PARK] * 4, [(1, 3, 100), (1, 2, 100), (3, 4, 50), (2, 4, 50)]), order(ONE_TO_FOUR), 4, (150, 150, 150), [(DRIVE, 2, 100), (DRIVE, 4, 150)])
planned("the start as parent: one road beats two of the same total", trip_map([NO_PARK] * 3, [(1, 2, 100), (2, 3, 100), (1, 3, 200)]), order(), 3, (200, 200, 200), [(DRIVE, 3, 200)])
planned("two roads that are faster than the direct one", trip_map([NO_PARK] * 3, [(1, 3, 10000), (1, 2, 3000), (2, 3, 3000)]), order(), 3, (6000, 6000, 6000), [(DRIVE, 2, 3000), (DRIVE, 3, 6000)])
planned(
    "equal arrivals: the lower spell",
    trip_map([NO_PARK, PARK, PARK, NO_PARK], [(1, 2, 10000), (2, 4, 10000), (1, 3, 15000), (3, 4, 5000)]),
    order(ONE_TO_FOUR),
    6,
    (22700, 5000, 20000),
    [(DRIVE, 3, 15000), (BREAK, 3, 17700), (DRIVE, 4, 22700)],
)
planned("break as long as the rest: the rest clears more", T, order(w9=2700), 4, (20700, 7200, 7200, 18000), [(DRIVE, 1, 10800), (REST, 2, 13500), (DRIVE, 2, 20700)])

# --- pauses -----------------------------------------------------------------------------------------
AWAY = trip_map([PARK, PARK], [(1, 2, 10000)])
planned("a break at source", AWAY, order(ONE_TO_TWO, w4=9000, w5=9000), 3, (12700, 10000, 19000), [(BREAK, 1, 2700), (DRIVE, 1, 12700)])
planned("a rest at source", AWAY, order(ONE_TO_TWO, w5=32400), 3, (49600, 10000, 10000, 42400), [(REST, 1, 39600), (DRIVE, 1, 49600)])
planned("no pause at a target that is a car park", AWAY, order(ONE_TO_TWO), 2, (10000, 10000, 10000), [(DRIVE, 1, 10000)])
refused("a tired driver where no car park is", trip_map([NO_PARK, PARK], [(1, 2, 10000)]), order(ONE_TO_TWO, w4=9000, w5=9000), 13, 1)
refused("a break that ends after latest", AWAY, order(ONE_TO_TWO, w3=2699, w4=9000, w5=9000), 13, 1)
CHAIN = trip_map([NO_PARK, PARK, PARK, NO_PARK], [(1, 2, 16200), (2, 3, 16200), (3, 4, 100)])
planned(
    "spell and shift limits met exactly, then a rest",
    CHAIN,
    order(ONE_TO_FOUR),
    9,
    (74800, 100, 100, 32500),
    [(DRIVE, 1, 16200), (BREAK, 2, 18900), (DRIVE, 2, 35100), (REST, 3, 74700), (DRIVE, 3, 74800)],
)
planned(
    "shift limit one second lower: the rest comes earlier",
    CHAIN,
    order(ONE_TO_FOUR, w8=32399),
    7,
    (74800, 100, 16300, 32500),
    [(DRIVE, 1, 16200), (REST, 2, 55800), (DRIVE, 2, 72000), (BREAK, 3, 74700), (DRIVE, 3, 74800)],
)
planned(
    "shift limit of all three roads: two breaks",
    CHAIN,
    order(ONE_TO_FOUR, w8=32500),
    6,
    (37900, 100, 32500),
    [(DRIVE, 1, 16200), (BREAK, 2, 18900), (DRIVE, 2, 35100), (BREAK, 3, 37800), (DRIVE, 3, 37900)],
)
planned("a road that meets the spell limit", one_road(360000, 80), order(ONE_TO_TWO), 2, (16200, 16200, 16200), [(DRIVE, 1, 16200)])
planned("a road rounded down to the spell limit", one_road(360011, 80), order(ONE_TO_TWO), 2, (16200, 16200, 16200), [(DRIVE, 1, 16200)])
refused("a road one second above the spell limit", one_road(360012, 80), order(ONE_TO_TWO), 13, 1)
refused("a road that meets the shift limit but for the hours behind", one_road(360000, 80), order(ONE_TO_TWO, w5=16201), 13, 1)
planned("a road that meets the shift limit with the hours behind", one_road(360000, 80), order(ONE_TO_TWO, w5=16200), 2, (16200, 16200, 32400), [(DRIVE, 1, 16200)])

# --- the split break (document 02, P5) ----------------------------------------------------------------
# With Europe's parts T has two labels more, at Lay with the mark: at 11,700 tired, at 14,400 after the break.
T_PARTS = order(EUROPE_SPLIT)
planned("T with Europe's parts", T, T_PARTS, 6, T_ANSWER, T_ROWS)
planned("T with Europe's parts, 10N + 9 words", T, T_PARTS, 6, T_ANSWER, T_ROWS, label_words=69)
refused("T with Europe's parts, 10N - 1 words", T, T_PARTS, 12, 5, label_words=59)
planned("T with Europe's parts, latest 20,700", T, order(EUROPE_SPLIT, w3=20700), 6, T_ANSWER, T_ROWS)
refused("T with Europe's parts, latest 20,699", T, order(EUROPE_SPLIT, w3=20699), 13, 5)
T_SPLIT_ROWS = [(DRIVE, 1, 10800), (FIRST_PART, 2, 11700), (SECOND_PART, 2, 13499), (DRIVE, 2, 20699)]
planned("parts a second shorter than the break", T, order(EUROPE_SPLIT, w11=1799), 6, (20699, 7200, 18000), T_SPLIT_ROWS)
planned("parts a second longer than the break", T, order(EUROPE_SPLIT, w11=1801), 6, T_ANSWER, T_ROWS)
planned("each part as long as the break", T, order(w10=2700, w11=2700), 6, T_ANSWER, T_ROWS)
planned(
    "parts of a second, latest just met",
    T,
    order(w3=18002, w10=1, w11=1),
    6,
    (18002, 7200, 18000),
    [(DRIVE, 1, 10800), (FIRST_PART, 2, 10801), (SECOND_PART, 2, 10802), (DRIVE, 2, 18002)],
)
planned("a longer first part than second", T, order(w10=1700, w11=900), 6, (20600, 7200, 18000), [(DRIVE, 1, 10800), (FIRST_PART, 2, 12500), (SECOND_PART, 2, 13400), (DRIVE, 2, 20600)])
refused("a lone zero first part", T, order(w11=1800), 10, 10)
refused("a lone zero second part", T, order(w10=900), 10, 11)
refused("a second part above the break", T, order(w10=900, w11=2701), 10, 11)

# B and C are car parks. Parts of 2 and 5 seconds beat the break of 10; the first is taken at B, whose label with the
# mark is the lowest that leads on to C's. No earlier state without the mark may prune it, or the break is the best.
ON_THE_WAY = trip_map([NO_PARK, PARK, PARK, NO_PARK], [(1, 2, 4), (2, 3, 6), (3, 4, 5)])
SHORT_PARTS = [1, 4, 0, 50, 0, 0, 10, 10, 100, 100, 2, 5]
planned(
    "a first part at one car park and the second at the next",
    ON_THE_WAY,
    order(SHORT_PARTS),
    10,
    (22, 5, 15),
    [(DRIVE, 1, 4), (FIRST_PART, 2, 6), (DRIVE, 2, 12), (SECOND_PART, 3, 17), (DRIVE, 3, 22)],
)
WHOLE_BREAK = [(DRIVE, 1, 4), (DRIVE, 2, 10), (BREAK, 3, 20), (DRIVE, 3, 25)]
planned("the same trip without a split", ON_THE_WAY, order(SHORT_PARTS, w10=0, w11=0), 6, (25, 5, 15), WHOLE_BREAK)
planned("parts together as long as the break: the break", ON_THE_WAY, order(SHORT_PARTS, w11=8), 10, (25, 5, 15), WHOLE_BREAK)
refused("the split trip, a label short", ON_THE_WAY, order(SHORT_PARTS), 12, 9, label_words=99)

# Two ways need a rest; on the shorter one, 2 seconds shorter, a first part of 2 seconds behind it leaves a state with the
# mark and with the answer's figures. It ranks before the answer, whatever the numbers of their junctions.
for target, elsewhere in ((4, 5), (5, 4)):
    planned(
        "the marked one first: target %d, marked at %d" % (target, elsewhere),
        trip_map([NO_PARK, PARK, PARK, NO_PARK, NO_PARK], [(1, 2, 5), (2, target, 6), (1, 3, 3), (3, elsewhere, 6)]),
        order([1, target, 0, 21, 0, 0, 8, 4, 8, 10, 2, 3]),
        16,
        (21, 6, 6, 11),
        [(DRIVE, 1, 5), (REST, 2, 15), (DRIVE, 2, 21)],
    )
AT_SOURCE = [1, 2, 0, 100000, 9000, 9000] + EUROPE[6:10] + [900, 1700]
planned("both parts at source", AWAY, order(AT_SOURCE), 5, (12600, 10000, 19000), [(FIRST_PART, 1, 900), (SECOND_PART, 1, 2600), (DRIVE, 1, 12600)])
refused("a start carries no mark: the first part is needed too", AWAY, order(AT_SOURCE, w3=12599), 13, 4)
refused("parts where no car park is", trip_map([NO_PARK, PARK], [(1, 2, 10000)]), order(AT_SOURCE), 13, 1)
planned("a second part does not clear shift: the rest", AWAY, order([1, 2] + EUROPE_SPLIT[2:], w5=32400), 5, (49600, 10000, 10000, 42400), [(REST, 1, 39600), (DRIVE, 1, 49600)])
refused("every junction reached with the mark counts too", trip_map([PARK, NO_PARK, NO_PARK, NO_PARK], [(1, 2, 10), (2, 3, 10)]), order([1, 4] + EUROPE_SPLIT[2:]), 13, 6)
planned("source is target, with a split", T, order([2, 2, 77, 100000, 5, 6] + EUROPE_SPLIT[6:]), 1, (77, 5, 6), [])

# --- the week (document 02, P7) -----------------------------------------------------------------------
# Two roads of 6 seconds and a week limit of 10: after a rest of 3 the second road would make the week 12, and so the
# weekly rest of 5 is taken. Labels: A; B at 6, after a break at 7, a rest at 9 and a weekly rest at 11; C at 17.
SIXES = trip_map([NO_PARK, PARK, NO_PARK], [(1, 2, 6), (2, 3, 6)])
TEN = [1, 3, 0, 17, 0, 0, 6, 1, 6, 3, 0, 0, 10, 5, 0]
BY_WEEKLY = [(DRIVE, 1, 6), (WEEKLY_REST, 2, 11), (DRIVE, 2, 17)]
planned("a weekly rest where a rest is not enough", SIXES, order(TEN), 6, (17, 6, 6), BY_WEEKLY)
refused("a weekly rest, latest a second before the arrival", SIXES, order(TEN, w3=16), 13, 5)
refused("a weekly rest, a label short", SIXES, order(TEN), 12, 5, label_words=59)
planned("week limit one second below both roads", SIXES, order(TEN, w12=11), 6, (17, 6, 6), BY_WEEKLY)
planned("week limit of both roads: a rest", SIXES, order(TEN, w12=12), 6, (15, 6, 6, 12), [(DRIVE, 1, 6), (REST, 2, 9), (DRIVE, 2, 15)])
planned("week limit met at the car park", SIXES, order(TEN, w14=4), 6, (17, 6, 6), BY_WEEKLY)
refused("week limit a second short of the car park", SIXES, order(TEN, w14=5), 13, 1)
planned("weekly rest as long as the rest: it clears more", SIXES, order(TEN, w12=12, w13=3), 5, (15, 6, 6), [(DRIVE, 1, 6), (WEEKLY_REST, 2, 9), (DRIVE, 2, 15)])
planned("all pauses equally long: the weekly rest clears most", SIXES, order(TEN, w7=3, w12=12, w13=3), 4, (15, 6, 6), [(DRIVE, 1, 6), (WEEKLY_REST, 2, 9), (DRIVE, 2, 15)])

# With 183,600 of the week driven T takes the 18,000 that are left. With more, up to 190,800, it takes them to Lay alone:
# 10,800 + 162,000 + 7,200 = 180,000.
LATE_ROWS = [(DRIVE, 1, 10800), (WEEKLY_REST, 2, 172800), (DRIVE, 2, 180000)]
LATE_ANSWER = (180000, 7200, 7200)
planned("T with 18,000 seconds of the week left", T, order(w3=180000, w14=183600), 4, (20700, 7200, 18000, 201600), T_ROWS)
planned("T with 17,999 seconds of the week left", T, order(w3=180000, w14=183601), 6, LATE_ANSWER, LATE_ROWS)
planned("T with 10,800 seconds of the week left", T, order(w3=180000, w14=190800), 6, LATE_ANSWER, LATE_ROWS)
refused("T with a weekly rest, latest 179,999", T, order(w3=179999, w14=190800), 13, 5)
refused("T with 10,799 seconds of the week left", T, order(w3=180000, w14=190801), 13, 1)
# A label with the mark more after each of reaching Lay, break, rest and weekly rest.
planned("T late in the week with Europe's parts", T, order(EUROPE_SPLIT, w3=180000, w14=190800), 10, LATE_ANSWER, LATE_ROWS)
planned("a weekly rest at source", AWAY, order(ONE_TO_TWO, w3=172000, w14=201600), 3, (172000, 10000, 10000), [(WEEKLY_REST, 1, 162000), (DRIVE, 1, 172000)])
refused("a full week where no car park is", trip_map([NO_PARK, PARK], [(1, 2, 10000)]), order(ONE_TO_TWO, w3=172000, w14=201600), 13, 1)
planned("source is target with a full week", T, order(w0=2, w1=2, w2=77, w4=5, w5=6, w14=201600), 1, (77, 5, 6, 201600), [])

# Seven roads of nine hours, each a whole shift, are 226,800 seconds: more than a week. With rests between them car park j
# is reached at 32,400 (j - 1) + 39,600 (j - 2), and H at 464,400. One rest must be weekly, 122,400 longer; at G it leaves
# the lowest week. Labels: A; at B reached, after a break, a rest and a weekly rest; at C to G the same and, with the
# weekly rest at the car park before, reached and after a break; H.
SEVEN_SHIFTS = trip_map([NO_PARK] + [PARK] * 6 + [NO_PARK], [(j, j + 1, 32400) for j in range(1, 8)])
WEEK_AND_MORE = [1, 8, 0, 586800, 0, 0, 32400] + EUROPE[7:]


def shifts(last_pause):
    """A rest at each car park but the last, where this pause ends at that second before the last road."""
    rows = []
    for j in range(1, 7):
        reached = 72000 * j - 39600
        rows += [(DRIVE, j, reached), (REST, j + 1, reached + 39600)]
    kind, clock = last_pause
    return rows[:-1] + [(kind, 7, clock), (DRIVE, 7, clock + 32400)]


planned("more than a week of driving: a weekly rest", SEVEN_SHIFTS, order(WEEK_AND_MORE), 36, (586800, 32400, 32400), shifts((WEEKLY_REST, 554400)))
refused("more than a week of driving, latest a second before the arrival", SEVEN_SHIFTS, order(WEEK_AND_MORE, w3=586799), 13, 35, label_words=350)
# Latest 464,400 leaves no time for a weekly rest at F and G, nor at F for G.
planned("the same in an endless week: rests alone", SEVEN_SHIFTS, order(WEEK_AND_MORE, w3=464400, w12=1000000), 32, (464400, 32400, 32400, 226800), shifts((REST, 432000)))

# C is reached at 4 with 12 of the week, and by way of the car park B after a weekly rest at 11 with 1: only the slower
# lorry may drive on for 5. After a break at B it is there at 7, after a rest at 8.
planned(
    "the slower lorry that keeps its week",
    trip_map([NO_PARK, PARK, NO_PARK, NO_PARK], [(1, 3, 4), (1, 2, 4), (2, 3, 1), (3, 4, 5)]),
    order([1, 4, 0, 16, 0, 0, 15, 2, 15, 3, 0, 0, 15, 6, 8]),
    10,
    (16, 6, 6),
    [(DRIVE, 2, 4), (WEEKLY_REST, 2, 10), (DRIVE, 3, 11), (DRIVE, 4, 16)],
)

# Of the week 9 seconds are left. The longer way takes the weekly rest and ends at 16; on the shorter one a rest and a first
# part end at 16 too, with the mark and a higher week: it ranks behind the answer, whatever the numbers of their junctions.
for target, elsewhere in ((4, 5), (5, 4)):
    planned(
        "the lower week first: target %d, marked at %d" % (target, elsewhere),
        trip_map([NO_PARK, PARK, PARK, NO_PARK, NO_PARK], [(1, 2, 4), (2, target, 6), (1, 3, 3), (3, elsewhere, 6)]),
        order([1, target, 0, 16, 0, 0, 6, 3, 6, 5, 2, 3, 15, 6, 6]),
        20,
        (16, 6, 6),
        [(DRIVE, 1, 4), (WEEKLY_REST, 2, 10), (DRIVE, 2, 16)],
    )
refused("week limit below the shift limit", T, order(w12=32399), 10, 12)
refused("weekly rest shorter than the rest", T, order(w13=39599), 10, 13)
refused("week above its limit, no space", T, order(w14=201601), 11, 14, label_words=0, length=0)

# --- roads to their own junction --------------------------------------------------------------------
planned("roads to their own junction are no labels", trip_map([PARK, NO_PARK], [(1, 1, 10), (1, 2, 100), (2, 2, 10), (1, 1, 5)]), order(ONE_TO_TWO, w3=150), 2, (100, 100, 100), [(DRIVE, 2, 100)])
refused("a road to its own junction is no journey", trip_map([PARK, NO_PARK], [(1, 1, 10)]), order(ONE_TO_TWO, w3=300), 13, 1)
planned("a ring of roads", trip_map([NO_PARK] * 3, [(1, 2, 10), (2, 1, 10), (2, 3, 10), (3, 1, 10)]), order(w3=100), 3, (20, 20, 20), [(DRIVE, 1, 10), (DRIVE, 3, 20)])

# --- refusals before the search: label words and sheet stay -----------------------------------------


def in_t(offset, *values):
    given = words(*values)
    return T[:offset] + given + T[offset + len(given) :]


refused("short map", T[:15], order(), 1, 15)
refused("no map, no order, no label space, no sheet", b"", b"", 1, 0, label_words=0, length=0)
refused("strange map", in_t(0, 2), order(), 2, 0)
refused("oversize", in_t(8, 40961), order(), 3, 8)
refused("misfit", T + b"x", order(), 4, 133)
refused("bad junction", in_t(36, 2), order(), 5, 2)
refused("bad road", in_t(76, 4), order(), 6, 1)
refused("broken chain", in_t(80, 0), order(), 7, 3)
refused("bad lettering", T[:-1] + b"\x7f", order(), 8, 132)
refused("an order of 40 bytes", T, order()[:40], 9, 40)
refused("an order of 48 bytes", T, order()[:48], 9, 48)
refused("an order of 59 bytes", T, order()[:-1], 9, 59)
refused("an order of 61 bytes", T, order() + b"x", 9, 61)
refused("bad rules", T, order(w7=0), 10, 7)
refused("bad trip", T, order(w1=4), 11, 1)
refused("bad trip before full and short sheet", T, order(w4=16201, w5=16201), 11, 4, label_words=9, length=0)
refused("bad lettering before bad order", T[:-1] + b"\x7f", b"", 8, 132, label_words=10, before=0)

# --- longer trips, from the other planner -------------------------------------------------------------
LINE_END = [1, 40, 5, 44] + EUROPE[4:]
computed("a line of forty junctions", 0, line(40), order(LINE_END), label_words=400, length=492)
computed("a line of forty junctions, a label short", 12, line(40), order(LINE_END), label_words=399, length=492)
computed("a line of forty junctions, a byte short", 14, line(40), order(LINE_END), label_words=400, length=491)
computed("a line of forty junctions, a second short", 13, line(40), order(LINE_END, w3=43), label_words=400)
PRACTICE = practice_map(60)
for target, latest in ((15, 14000), (30, 12000), (60, 14000)):
    computed("a practice map of 60 junctions, 1 to %d" % target, 0, PRACTICE, order(w1=target, w3=latest))
TIRED = [18, 30, 0, 59000, 16000, 32000] + EUROPE[6:]
computed("a practice map, a rest at source and a break on the way", 0, PRACTICE, order(TIRED))
SPLIT_TIRED = TIRED[:6] + EUROPE_SPLIT[6:]
computed("a practice map, a rest at source and Europe's parts", 0, PRACTICE, order(SPLIT_TIRED), label_words=4096)
computed("a practice map, a rest at source and shorter parts", 0, PRACTICE, order(SPLIT_TIRED, w11=900), label_words=4096)
computed("a practice map, on to the next car park before the rest", 0, PRACTICE, order(TIRED, w0=57, w1=45, w3=48000))
