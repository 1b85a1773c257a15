"""Worked cases of ban days and ban lists: planning, preview, retiming, audit and order check (document 02, P8).

The expected replies and figures are written here by hand from documents 01 and 02; nothing is taken from the program.
Dates of feasts are those of public calendars. Clock 0 is 00:00 on Saturday 1 January 2000.
"""
import datetime

import map_cases
import plan_cases
import sheet_cases
from formats import ALL_BITS, BREAK, DRIVE, EUROPE, EUROPE_SPLIT, FIRST_PART, REST, SECOND_PART, map_t, order, sheet
from plan_cases import LABEL_WORDS, NO_PARK, ONE_TO_TWO, PARK, PRACTICE, in_t, one_road, planned, refused, trip_map
from sheet_cases import AT_HOME, LOOP, TRUE, audit, both, foreign, retime, timed

T = map_t().bytes()
DAY, OPENING = 86400, 79200  # 22:00
SUNDAY = DAY  # 2 January 2000
OPENS = SUNDAY + OPENING
GOOD_FRIDAY, EASTER_MONDAY = 9590400, 9849600  # 21 and 24 April 2000
ALL = (1, 2, 3)


def at(year, month, day):
    """The clock at 00:00 of a date."""
    return DAY * (datetime.date(year, month, day) - datetime.date(2000, 1, 1)).days


# --- the calendar: one banned road of 10,800 seconds, entered at departure or when its gate opens -------------
ROAD = one_road(240000, 80)


def gate(title, departure, entered):
    """Latest is met exactly. A second less, and there is no road."""
    end = entered + 10800
    trip = ONE_TO_TWO[:2] + [departure, end] + EUROPE[4:]
    planned("gate: " + title, ROAD, order(trip), 2, (end, 10800, 10800), [(DRIVE, 1, end)], bans=[1])
    refused("gate, latest missed: " + title, ROAD, order(trip, w3=end - 1), 13, 1, bans=[1])


def open_day(title, day):
    gate(title + ", 00:00", day, day)
    gate(title + ", 12:00", day + DAY // 2, day + DAY // 2)


def ban_day(title, day):
    """Most ban days have an open day before them."""
    gate(title + ", 00:00", day, day + OPENING)
    gate(title + ", 21:59:59", day + OPENING - 1, day + OPENING)
    gate(title + ", 22:00", day + OPENING, day + OPENING)
    gate(title + ", 23:59:59", day + DAY - 1, day + DAY - 1)


open_day("Saturday 1 January 2000", 0)
gate("the last second of Saturday 1 January 2000", 86399, 86399)
ban_day("Sunday 2 January 2000", SUNDAY)
open_day("Monday 3 January 2000", 2 * DAY)
open_day("Saturday 8 January 2000", 7 * DAY)
ban_day("Sunday 9 January 2000", 8 * DAY)
open_day("Thursday 20 April 2000", GOOD_FRIDAY - DAY)
ban_day("Good Friday 2000", GOOD_FRIDAY)
open_day("the Saturday before Easter 2000", GOOD_FRIDAY + DAY)
ban_day("Easter Sunday 2000", EASTER_MONDAY - DAY)
ban_day("Easter Monday 2000", EASTER_MONDAY)
open_day("Tuesday after Easter 2000", EASTER_MONDAY + DAY)
open_day("the day before Ascension 2000", 13132800 - DAY)
ban_day("Ascension 2000", 13132800)
open_day("the day after Ascension 2000", 13132800 + DAY)
ban_day("Whit Sunday 2000", 14083200 - DAY)
ban_day("Whit Monday 2000", 14083200)
open_day("the day after Whit Monday 2000", 14083200 + DAY)
ban_day("Good Friday 2024", 764985600)
for year, dates in (
    (2001, ((4, 13), (4, 16), (5, 24), (6, 4))),
    (2008, ((3, 21), (3, 24), (5, 1), (5, 12))),
    (2011, ((4, 22), (4, 25), (6, 2), (6, 13))),
    (2019, ((4, 19), (4, 22), (5, 30), (6, 10))),
    (2024, ((3, 29), (4, 1), (5, 9), (5, 20))),
    (2025, ((4, 18), (4, 21), (5, 29), (6, 9))),
    (2038, ((4, 23), (4, 26), (6, 3), (6, 14))),
    (2049, ((4, 16), (4, 19), (5, 27), (6, 7))),
    (2063, ((4, 13), (4, 16))),
):
    for month, day in dates:
        midnight = at(year, month, day)
        gate("%d-%d-%d" % (year, month, day), midnight + 1, midnight + OPENING)
open_day("Good Friday's date of 2000 in 2001, a Saturday", at(2001, 4, 21))
open_day("Easter Monday's date of 2024 in 2025, a Tuesday", at(2025, 4, 1))
open_day("Ascension's date of 2008 in 2009, a Friday", at(2009, 5, 1))
ban_day("Sunday 29 February 2004", at(2004, 2, 29))
open_day("Thursday 29 February 2024", at(2024, 2, 29))
open_day("Friday 1 March 2024", at(2024, 3, 1))
ban_day("Sunday 31 December 2000", at(2000, 12, 31))
open_day("Monday 1 January 2001", at(2001, 1, 1))
ban_day("Sunday 1 January 2012", at(2012, 1, 1))
open_day("Saturday 31 December 2011", at(2011, 12, 31))
ban_day("Sunday 13 May 2063", at(2063, 5, 13))
gate("the last 10,800 seconds of all", 1999989200, 1999989200)
# A road of 365,600 seconds, entered at 22:00 on the last ban day of all; 5 metres more take a second more.
LAST = [1, 2, 1999555200, 2000000000, 0, 0, 400000, 2700, 400000] + EUROPE[9:]
planned("from a queue to 2,000,000,000", one_road(1828000, 18), order(LAST), 2, (2000000000, 365600, 365600), [(DRIVE, 1, 2000000000)], bans=[1])
refused("from a queue past 2,000,000,000", one_road(1828005, 18), order(LAST), 13, 1, bans=[1])

# --- queues on map T, road 2 banned, from Sunday 2 January 2000 ------------------------------------------------
T_SUNDAY = order(w2=SUNDAY, w3=172800)
RESTED = [(DRIVE, 1, 97200), (REST, 2, 136800), (DRIVE, 2, 172800)]
RESTED_ANSWER = (172800, 7200, 7200, 18000)
BROKEN = [(DRIVE, 1, 97200), (BREAK, 2, 99900), (DRIVE, 2, 172800)]
planned("T on a Sunday, road 2 banned: a rest in the queue's place", T, T_SUNDAY, 5, RESTED_ANSWER, RESTED, bans=[2])
refused("T on a Sunday, road 2 banned, latest 172,799", T, order(w2=SUNDAY, w3=172799), 13, 4, bans=[2])
refused("T on a Sunday, road 2 banned, four labels: full", T, T_SUNDAY, 12, 4, label_words=4 * LABEL_WORDS, bans=[2])
refused("T on a Sunday, road 2 banned, sheet of 59 bytes", T, T_SUNDAY, 14, 60, length=59, bans=[2])
OPEN_ANSWER, OPEN_ROWS = (107100, 7200, 18000), [(DRIVE, 1, 97200), (BREAK, 2, 99900), (DRIVE, 2, 107100)]
planned("T on a Sunday, no road banned", T, T_SUNDAY, 4, OPEN_ANSWER, OPEN_ROWS)
planned("T on a Sunday, a road banned that is not driven", T, T_SUNDAY, 4, OPEN_ANSWER, OPEN_ROWS, bans=[3])
planned("T on a Saturday, every road banned", T, order(), 4, (20700, 7200, 18000), sheet_cases.PLAN, bans=ALL)
# The marked states: at Lay after a first part, tired, after the break and after the rest; the last one drives on.
IDLE = [(DRIVE, 1, 97200), (REST, 2, 136800), (FIRST_PART, 2, 137700), (DRIVE, 2, 172800)]
T_IDLE = order(w2=SUNDAY, w3=172800, w10=900, w11=2700)
planned("an idle first part in a queue", T, T_IDLE, 8, RESTED_ANSWER, IDLE, bans=[2])
# A first part that ends a second too late for the gate: 98,100, 100,800 and 102,600 are marked as before, but not idle.
LATE = [(DRIVE, 1, 176400), (BREAK, 2, 179100), (DRIVE, 2, 186300)]
LATE_ANSWER = (186300, 7200, 18000)
planned("T, road 1 banned, in the last second of Saturday", T, order(w2=86399, w3=172800), 4, (107099, 7200, 18000), [(DRIVE, 1, 97199), (BREAK, 2, 99899), (DRIVE, 2, 107099)], bans=[1])
for departure in (86400, 86401, 165599, 165600):
    planned("T, road 1 banned, from %d" % departure, T, order(w2=departure, w3=186300), 4, LATE_ANSWER, LATE, bans=[1])
    refused("T, road 1 banned, from %d, latest 186,299" % departure, T, order(w2=departure, w3=186299), 13, 3, bans=[1])
planned("T, road 1 banned, a second after 22:00", T, order(w2=165601, w3=186301), 4, (186301, 7200, 18000), [(DRIVE, 1, 176401), (BREAK, 2, 179101), (DRIVE, 2, 186301)], bans=[1])
planned("source is target in a ban", T, order(w0=2, w1=2, w2=SUNDAY, w3=200000), 1, (SUNDAY, 0, 0), [], bans=ALL)

# --- queues on other maps --------------------------------------------------------------------------------------
# A break is needed between roads of 5 and 6 seconds. A first part of 2 fits into a queue of 2 before the first: with its
# mark the second part, as long as the break, leads where the break does. The lower kind is written.
TIED = trip_map([PARK, PARK, NO_PARK], [(1, 2, 5), (2, 3, 6)])
TIED_TRIP = [1, 3, OPENS - 2, OPENS + 20, 0, 0, 10, 3, 11, 20, 2, 3, 11, 20, 0]
TIED_ROWS = [(DRIVE, 1, OPENS + 5), (BREAK, 2, OPENS + 8), (DRIVE, 2, OPENS + 14)]
TIED_ANSWER = (OPENS + 14, 6, 11)
planned("break and second part tie: the lower kind", TIED, order(TIED_TRIP), 6, TIED_ANSWER, [(FIRST_PART, 1, OPENS)] + TIED_ROWS, bans=[1])
planned("a first part a second longer than the queue", TIED, order(TIED_TRIP, w2=OPENS - 1), 7, TIED_ANSWER, TIED_ROWS, bans=[1])
ROUND = trip_map([NO_PARK] * 3, [(1, 3, 5), (1, 2, 8), (2, 3, 9)])
planned("an open way round that is faster than the queue", ROUND, order(w2=OPENS - 13, w3=OPENS + 99), 3, (OPENS + 4, 17, 17), [(DRIVE, 2, OPENS - 5), (DRIVE, 3, OPENS + 4)], bans=[1])
planned("an open way round as fast as the queue: the lower spell", ROUND, order(w2=OPENS - 12, w3=OPENS + 99), 3, (OPENS + 5, 5, 5), [(DRIVE, 1, OPENS + 5)], bans=[1])
planned("a queue where no car park is", ROUND, order(w2=OPENS - 12, w3=OPENS + 99), 2, (OPENS + 5, 5, 5), [(DRIVE, 1, OPENS + 5)], bans=ALL)
planned("spell at its limit behind a queue", ROAD, order(ONE_TO_TWO, w2=SUNDAY, w3=200000, w4=5400, w5=5400), 2, (OPENS + 10800, 16200, 16200), [(DRIVE, 1, OPENS + 10800)], bans=[1])
refused("spell a second above its limit behind a queue, which is no pause", ROAD, order(ONE_TO_TWO, w2=SUNDAY, w3=200000, w4=5401, w5=5401), 13, 1, bans=[1])
# Nine roads side by side, of 11 to 19 seconds: the shortest that is open, or the shortest of all at 22:00.
SIDE_BY_SIDE = trip_map([NO_PARK] * 2, [(1, 2, 10 + road) for road in range(1, 10)])
BESIDE = order(ONE_TO_TWO, w2=OPENS - 100, w3=OPENS + 100)
for bans, road in (((), 1), ((1,), 2), ((9,), 1), ((1, 2), 3), ((1, 3), 2), ((1, 2, 3, 5, 7), 4), ((1, 2, 3, 4, 6, 8), 5), (range(1, 9), 9), ((1, 2, 3, 4, 5, 6, 7, 9), 8)):
    end = OPENS - 100 + 10 + road
    planned("nine roads, banned: " + " ".join(map(str, bans)), SIDE_BY_SIDE, BESIDE, 2, (end, 10 + road, 10 + road), [(DRIVE, road, end)], bans=bans)
planned("nine roads, all banned", SIDE_BY_SIDE, BESIDE, 2, (OPENS + 11, 11, 11), [(DRIVE, 1, OPENS + 11)], bans=range(1, 10))
MANY = trip_map([NO_PARK] * 2, [(1, 2, 20)] * 63 + [(1, 2, 19)])
planned("64 roads, all banned", MANY, BESIDE, 2, (OPENS + 19, 19, 19), [(DRIVE, 64, OPENS + 19)], bans=range(1, 65))
planned("64 roads, all but road 40 banned", MANY, BESIDE, 2, (OPENS - 80, 20, 20), [(DRIVE, 40, OPENS - 80)], bans=[road for road in range(1, 65) if road != 40])

# --- Easter 2000 on map T, every road banned ---------------------------------------------------------------------
SATURDAY = GOOD_FRIDAY + DAY
planned(
    "Good Friday's queue, then on through Saturday",
    T,
    order(w2=GOOD_FRIDAY, w3=SATURDAY + 50000),
    4,
    (SATURDAY + 13500, 7200, 18000),
    [(DRIVE, 1, SATURDAY + 3600), (BREAK, 2, SATURDAY + 6300), (DRIVE, 2, SATURDAY + 13500)],
    bans=ALL,
)
planned(
    "Easter Sunday from 22:00 on, then Easter Monday's queue: a rest in its place",
    T,
    order(w2=EASTER_MONDAY - 7200, w3=EASTER_MONDAY + DAY),
    5,
    (EASTER_MONDAY + DAY, 7200, 7200, 18000),
    [(DRIVE, 1, EASTER_MONDAY + 3600), (REST, 2, EASTER_MONDAY + 43200), (DRIVE, 2, EASTER_MONDAY + DAY)],
    bans=ALL,
)
refused("the same, latest a second earlier", T, order(w2=EASTER_MONDAY - 7200, w3=EASTER_MONDAY + DAY - 1), 13, 4, bans=ALL)
plan_cases.computed("a practice map of 60 junctions on a Sunday evening", 0, PRACTICE, order(w1=15, w2=OPENS - 3000, w3=OPENS + 11000), bans=range(2, 121, 3))

# --- the preview: a struck road keeps its ban, and leads nowhere -----------------------------------------------------
planned("preview: road 2 banned, road 3 closed", T, T_SUNDAY, 5, RESTED_ANSWER, RESTED, bans=[2], road=3)
refused("preview: road 2 banned and closed", T, T_SUNDAY, 13, 4, bans=[2], road=2)
refused("preview: road 1 closed, road 2 banned", T, T_SUNDAY, 13, 1, bans=[2], road=1)
planned("preview: the shortest way closed, the other banned", ROUND, order(w2=OPENS - 13, w3=OPENS + 99), 3, (OPENS + 17, 17, 17), [(DRIVE, 2, OPENS + 8), (DRIVE, 3, OPENS + 17)], bans=[2], road=1)
planned("preview: a banned road closed, the open way stays", ROUND, order(w2=OPENS - 13, w3=OPENS + 30), 3, (OPENS + 4, 17, 17), [(DRIVE, 2, OPENS - 5), (DRIVE, 3, OPENS + 4)], bans=[1], road=1)

# --- retiming and audit: a queue is in the clock alone -----------------------------------------------------------------
timed("a break, then a queue", T, T_SUNDAY, BROKEN, 172800, 7200, 18000, bans=[2])
timed("a rest, then a queue", T, T_SUNDAY, RESTED, *RESTED_ANSWER, bans=[2])
timed("two queues on the Easter weekend", T, order(w2=EASTER_MONDAY - DAY, w3=EASTER_MONDAY + DAY), [(DRIVE, 1, EASTER_MONDAY + 3600), (BREAK, 2, EASTER_MONDAY + 6300), (DRIVE, 2, EASTER_MONDAY + DAY)], EASTER_MONDAY + DAY, 7200, 18000, bans=ALL)
LOOP_SUNDAY = order(AT_HOME, w2=SUNDAY, w3=200000)
timed("a queue where the lorry starts", LOOP, LOOP_SUNDAY, [(DRIVE, 1, OPENS + 50)], OPENS + 50, 55, 56, bans=[1])
timed("a second drive behind the queue", LOOP, LOOP_SUNDAY, [(DRIVE, 1, OPENS + 50), (DRIVE, 1, OPENS + 100)], OPENS + 100, 105, 106, bans=[1])
timed("a queue keeps the mark", LOOP, LOOP_SUNDAY, [(FIRST_PART, 1, SUNDAY + 900), (DRIVE, 1, OPENS + 50), (SECOND_PART, 1, OPENS + 1850)], OPENS + 1850, 0, 56, bans=[1])
foreign("a queue as long as a first part sets no mark", LOOP, LOOP_SUNDAY, [(DRIVE, 1, OPENS + 50), (SECOND_PART, 1, OPENS + 1850)], 2, bans=[1])
timed("no moves in a ban", LOOP, LOOP_SUNDAY, [], SUNDAY, 5, 6, bans=[1])
timed("a pause in a ban is no queue", LOOP, LOOP_SUNDAY, [(BREAK, 1, SUNDAY + 2700)], SUNDAY + 2700, 0, 6, bans=[1])
timed("a break that ends at 22:00", LOOP, order(AT_HOME, w2=OPENS - 2700, w3=200000), [(BREAK, 1, OPENS), (DRIVE, 1, OPENS + 50)], OPENS + 50, 50, 56, bans=[1])
timed("a break that ends at midnight before a Sunday", LOOP, order(AT_HOME, w2=SUNDAY - 2700, w3=200000), [(BREAK, 1, SUNDAY), (DRIVE, 1, OPENS + 50)], OPENS + 50, 50, 56, bans=[1])
both("spell over its limit behind a long queue", T, order(w2=SUNDAY, w3=172800, w4=5401, w5=5401), sheet([(DRIVE, 1, 97200)]), "17 1 0", bans=[2])
both("a queue past latest", T, order(w2=SUNDAY, w3=172799), sheet(BROKEN, 172800, 7200, 18000), "17 3 0", bans=[2])
OPEN = sheet(OPEN_ROWS, 107100, 7200, 18000)
QUEUED = sheet(BROKEN, 172800, 7200, 18000)
retime("clocks without the queue are timed afresh", T, T_SUNDAY, OPEN, 60, "0 3 172800", QUEUED, bans=[2])
retime("a queue where the road is open is left out", T, T_SUNDAY, QUEUED, 60, "0 3 107100", OPEN)
audit("a sheet without its queue", T, T_SUNDAY, OPEN, "18 3 0", bans=[2])
audit("a sheet with a queue before an open road", T, T_SUNDAY, QUEUED, "18 3 0", bans=[3])
audit("a sheet without a queue before its first road", T, order(w2=SUNDAY, w3=200000), OPEN, "18 1 0", bans=ALL)
audit("the queue in the spell", T, T_SUNDAY, sheet(BROKEN, 172800, 72900, 18000), "18 4 0", bans=[2])
STRUCK = in_t(68, 1)  # road 1 of T leads back
timed("a struck road keeps its ban", STRUCK, order(w1=1, w2=SUNDAY, w3=200000), [(DRIVE, 1, 176400)], 176400, 10800, 10800, bans=[1])

# --- 25 bad ban list: the first position, from 1, of a number that is 0, above R or not above the one before ----------
LISTS = (
    ((0,), 1), ((4,), 1), ((ALL_BITS,), 1), ((257,), 1), ((0, 1, 2), 1), ((0, 0), 1), ((4, 1), 1),
    ((1, 1), 2), ((2, 1), 2), ((2, 1, 9), 2), ((1, 0), 2), ((3, 4), 2), ((3, 3, 4), 2),
    ((1, 2, 2), 3), ((1, 2, 4), 3), ((1, 3, 2), 3), ((1, 2, 0), 3), ((1, 2, 3, 4), 4), ((1, 2, 3, 3), 4),
)  # fmt: skip
T_ORDER = order()
for bans, place in LISTS:
    named = "list " + " ".join(map(str, bans))
    map_cases.order(named, 3, T_ORDER, "25 %d 0" % place, bans=bans)
    refused("planning, " + named, T, T_ORDER, 25, place, bans=bans)
    both(named, T, T_ORDER, TRUE, "25 %d 0" % place, bans=bans)
    refused("preview, " + named, T, T_ORDER, 25, place, bans=bans, road=1)
for bans in ((1,), (3,), (1, 3), (2, 3), ALL):
    map_cases.order("list " + " ".join(map(str, bans)), 3, T_ORDER, "0 0 0", bans=bans)
map_cases.order("an empty list and no roads", 3, T_ORDER, "0 0 0", roads=0)
map_cases.order("road 1 banned and no roads", 3, T_ORDER, "25 1 0", roads=0, bans=[1])
map_cases.order("all bits banned, R all bits", 3, T_ORDER, "0 0 0", roads=ALL_BITS, bans=[1, ALL_BITS])
map_cases.order("all bits banned, R one less", 3, T_ORDER, "25 2 0", roads=ALL_BITS - 1, bans=[1, ALL_BITS])
map_cases.order("a list goes by R, not by J", 5, T_ORDER, "25 1 0", roads=4, bans=[5])
map_cases.order("a list above J and not above R", 3, T_ORDER, "0 0 0", roads=9, bans=[4, 9])
map_cases.order("64 roads banned", 3, T_ORDER, "0 0 0", roads=64, bans=range(1, 65))
map_cases.order("the last of 64 twice", 3, T_ORDER, "25 64 0", roads=64, bans=[*range(1, 64), 63])

# --- 25 beside other refusals -------------------------------------------------------------------------------------------
BAD = [2, 2]
for title, orders, reply in (
    ("59 bytes", T_ORDER[:-1], (9, 59)),
    ("no order", b"", (9, 0)),
    ("break 0", order(w7=0), (10, 7)),
    ("week limit 0", order(w12=0), (10, 12)),
    ("target 4", order(w1=4), (11, 1)),
    ("week above its limit", order(w14=201601), (11, 14)),
):
    told = "%d %d 0" % reply
    map_cases.order("bad list and " + title, 3, orders, told, bans=BAD)
    refused("planning: bad list and " + title, T, orders, *reply, bans=BAD)
    refused("preview: bad list and " + title, T, orders, *reply, bans=BAD, road=4)
    both("bad list and " + title, T, orders, b"", told, bans=BAD)
SHORT = T[:-1]
refused("planning: bad list and a misfit", SHORT, T_ORDER, 4, 133, bans=BAD)
refused("preview: bad list and a misfit", SHORT, T_ORDER, 4, 133, bans=BAD, road=4)
both("bad list and a misfit", SHORT, T_ORDER, TRUE, "4 133 0", bans=BAD)
for road in (0, 4, ALL_BITS):
    refused("preview: bad list and no road %d" % road, T, T_ORDER, 24, road, bans=BAD, road=road)
refused("planning: bad list and no label words", T, T_ORDER, 25, 2, label_words=0, bans=BAD)
refused("planning: bad list and one label", T, T_ORDER, 25, 2, label_words=LABEL_WORDS, bans=BAD)
refused("planning: bad list and no sheet", T, T_ORDER, 25, 2, length=0, bans=BAD)
refused("planning: bad list and no journey", T, order(w0=3, w1=1), 25, 2, bans=BAD)
refused("planning: bad list, source is target", T, order(w1=1), 25, 2, bans=BAD)
refused("preview: bad list and no label words", T, T_ORDER, 25, 2, label_words=0, bans=BAD, road=1)
both("bad list and an empty sheet", T, T_ORDER, b"", "25 2 0", bans=BAD)
both("bad list and a torn sheet", T, T_ORDER, TRUE[:-1], "25 2 0", bans=BAD)
both("bad list and a foreign move", T, T_ORDER, sheet([(9, 9, 9)]), "25 2 0", bans=BAD)
both("bad list and an overrun", T, order(w3=0), TRUE, "25 2 0", bans=BAD)
retime("bad list and a short sheet", T, T_ORDER, TRUE, 0, "25 2 0", bans=BAD)
