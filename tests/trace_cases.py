"""Worked cases of replaying a trace.

The expected replies and figures are written here by hand from document 02 (P3, P5 and P7); nothing is taken from the program.
"""
from case_files import case
from formats import ALL_BITS, DRIVING, EUROPE, EUROPE_SPLIT, PAUSE, WORK, trace, words

EUROPEAN = tuple(EUROPE[6:10])  # spell limit 16,200, break 2,700, shift limit 32,400, rest 39,600
PARTS = tuple(EUROPE_SPLIT[6:12])  # the same and parts of 900 and 1,800
WEEK_LIMIT, WEEKLY_REST = EUROPE[12:14]  # 201,600 and 162,000
LEAST = (1, 1, 1, 1)
GREATEST = (1000000, 1000000, 1000000, 1000000)
FRESH = (0, 0)  # spell, shift
TIRED = (16200, 32400)  # both at their limits
MOST = 1000000  # the most seconds of a record


def whole(rules):
    """Rules of four words have no split. Those without a week take Europe's, or the shortest one that the others allow."""
    rules += (0,) * (6 - len(rules))
    return rules if len(rules) == 8 else rules + (max(WEEK_LIMIT, rules[2]), max(WEEKLY_REST, rules[3]))


def in_week(figures, week):
    """Spell, shift, week and mark, of two figures without a mark or of three with it."""
    spell, shift, *mark = figures
    return spell, shift, week, *(mark or [0])


def replay(title, given, before, rules, reply, after):
    """In the order's place stand its words 4 to 14, in the number's the mark and in the sheet's the trace; the figures
    afterwards, spell, shift, week and mark, are printed too."""
    spell, shift, week, mark = before
    hours = words(spell, shift, *whole(rules), week)
    case("t", title, "%s %d %d %d %d" % (reply, *after), number=mark, order=hours, sheet=given)


def replayed(title, records, before, after, rules=EUROPEAN, week=None):
    """Every record is taken. The week starts as the shift, and gains what is driven if it is not told."""
    driven = sum(seconds for activity, seconds in records if activity == DRIVING)
    after = in_week(after, before[1] + driven if week is None else week)
    replay(title, trace(records), in_week(before, before[1]), rules, "0 %d 0" % len(records), after)


def refused(title, records, number, place, before=FRESH, rules=EUROPEAN):
    """The figures stay."""
    given = records if isinstance(records, bytes) else trace(records)
    before = in_week(before, before[1])
    replay(title, given, before, rules, "%d %d 0" % (number, place), before)


# --- what each activity does -----------------------------------------------------------------------
replayed("an empty trace", [], FRESH, FRESH)
replayed("an empty trace leaves the figures", [], (15, 20), (15, 20))
replayed("an empty trace, both figures at their limits", [], TIRED, TIRED)
replayed("driving adds to spell and shift", [(DRIVING, 100)], (15, 20), (115, 120))
replayed("one second of driving", [(DRIVING, 1)], FRESH, (1, 1))
replayed("driving twice", [(DRIVING, 100), (DRIVING, 30)], (15, 20), (145, 150))
replayed("other work changes nothing", [(WORK, 100)], (15, 20), (15, 20))
replayed("other work as long as a break clears nothing", [(WORK, 2700)], (15, 20), (15, 20))
replayed("other work as long as a rest clears nothing", [(WORK, 39600)], (15, 20), (15, 20))
replayed("the longest other work", [(WORK, MOST)], TIRED, TIRED)
replayed("the longest pause", [(PAUSE, MOST)], TIRED, (0, 0), week=0)
replayed("the shortest of each", [(WORK, 1), (DRIVING, 1), (PAUSE, 1)], (15, 20), (16, 21))

# --- how long a pause must be ----------------------------------------------------------------------
replayed("a pause one second shorter than the break", [(PAUSE, 2699)], TIRED, TIRED)
replayed("a pause as long as the break", [(PAUSE, 2700)], TIRED, (0, 32400))
replayed("a pause one second longer than the break", [(PAUSE, 2701)], TIRED, (0, 32400))
replayed("a pause one second shorter than the rest", [(PAUSE, 39599)], TIRED, (0, 32400))
replayed("a pause as long as the rest", [(PAUSE, 39600)], TIRED, (0, 0))
replayed("a pause one second longer than the rest", [(PAUSE, 39601)], TIRED, (0, 0))
replayed("break and rest equally long, one second less", [(PAUSE, 2699)], TIRED, TIRED, (16200, 2700, 32400, 2700))
replayed("break and rest equally long", [(PAUSE, 2700)], TIRED, (0, 0), (16200, 2700, 32400, 2700))
replayed("a rest of a fresh driver", [(PAUSE, 39600)], FRESH, FRESH)
replayed("the shortest pauses there may be", [(PAUSE, 1)], (1, 1), (0, 0), LEAST)
replayed("the longest break and rest, one second less", [(PAUSE, 999999)], (15, 20), (15, 20), GREATEST)
replayed("the longest break and rest", [(PAUSE, MOST)], (15, 20), (0, 0), GREATEST, week=0)

# --- neighbouring pauses are one -------------------------------------------------------------------
replayed("two pauses that make a break", [(PAUSE, 1200), (PAUSE, 1500)], TIRED, (0, 32400))
replayed("two pauses one second short of a break", [(PAUSE, 1200), (PAUSE, 1499)], TIRED, TIRED)
replayed("two pauses one second above a break", [(PAUSE, 1200), (PAUSE, 1501)], TIRED, (0, 32400))
replayed("three pauses that make a break", [(PAUSE, 900), (PAUSE, 900), (PAUSE, 900)], TIRED, (0, 32400))
replayed("two breaks that make no rest", [(PAUSE, 2700), (PAUSE, 2700)], TIRED, (0, 32400))
replayed("two breaks one second short of a rest", [(PAUSE, 19800), (PAUSE, 19799)], TIRED, (0, 32400))
replayed("two breaks that make a rest", [(PAUSE, 19800), (PAUSE, 19800)], TIRED, (0, 0))
replayed("a break and a second more make a rest", [(PAUSE, 39599), (PAUSE, 1)], TIRED, (0, 0))
replayed("a rest that goes on", [(PAUSE, 39600), (PAUSE, 1)], TIRED, (0, 0))
replayed("pauses that make a rest before driving", [(PAUSE, 19800), (PAUSE, 19800), (DRIVING, 9)], TIRED, (9, 9))
replayed("many pauses of a second make a break", [(PAUSE, 1)] * 27, (15, 20), (0, 20), (16200, 27, 32400, 28))
replayed("two pauses that make the longest rest", [(PAUSE, 500000), (PAUSE, 500000)], (15, 20), (0, 0), GREATEST, week=0)
replayed("pauses of 2 to the 32nd seconds", [(PAUSE, MOST)] * 4294 + [(PAUSE, 967296)], TIRED, (0, 0), week=0)

# --- what ends a pause -----------------------------------------------------------------------------
replayed("other work ends a pause", [(PAUSE, 1350), (WORK, 1), (PAUSE, 1350)], TIRED, TIRED)
replayed("other work ends a pause short of a rest", [(PAUSE, 19800), (WORK, 1), (PAUSE, 19800)], TIRED, (0, 32400))
replayed("other work between two rests", [(PAUSE, 39600), (WORK, 1), (PAUSE, 39600)], TIRED, (0, 0))
replayed("driving ends a pause", [(PAUSE, 1350), (DRIVING, 1), (PAUSE, 1350)], (15, 20), (16, 21))
replayed("driving ends a break short of a rest", [(PAUSE, 19800), (DRIVING, 1), (PAUSE, 19800)], (15, 20), (0, 21))
replayed("a break at the start, then driving", [(PAUSE, 2700), (DRIVING, 9)], (15, 20), (9, 29))
replayed("a break at the start, then other work", [(PAUSE, 2700), (WORK, 9)], (15, 20), (0, 20))
replayed("the trace's end ends a break", [(DRIVING, 9), (PAUSE, 1200), (PAUSE, 1500)], (15, 20), (0, 29))
replayed("the trace's end ends a rest", [(DRIVING, 9), (PAUSE, 39600)], (15, 20), (0, 0))
replayed("a short pause at the end", [(DRIVING, 9), (PAUSE, 2699)], (15, 20), (24, 29))
replayed("a break in the middle", [(DRIVING, 9), (PAUSE, 2700), (DRIVING, 7)], (15, 20), (7, 36))
replayed("a rest in the middle", [(DRIVING, 9), (PAUSE, 39600), (DRIVING, 7)], (15, 20), (7, 7))
replayed(
    "a whole day",
    [(WORK, 1800), (DRIVING, 10800), (PAUSE, 1200), (PAUSE, 1500), (DRIVING, 4500), (WORK, 900), (PAUSE, 900)],
    FRESH,
    (4500, 15300),
)

# --- limits, and 23 past the limit -----------------------------------------------------------------
replayed("spell just to its limit", [(DRIVING, 16200)], FRESH, (16200, 16200))
refused("spell one second past its limit", [(DRIVING, 16201)], 23, 1)
replayed("the starting spell counts", [(DRIVING, 16185)], (15, 20), (16200, 16205))
refused("the starting spell counts, one second past", [(DRIVING, 16186)], 23, 1, (15, 20))
refused("no more driving with spell at its limit", [(DRIVING, 1)], 23, 1, (16200, 16200))
replayed("shift just to its limit", [(DRIVING, 12400)], (0, 20000), (12400, 32400))
refused("shift one second past its limit", [(DRIVING, 12401)], 23, 1, (0, 20000))
refused("no more driving with shift at its limit", [(DRIVING, 1)], 23, 1, (0, 32400))
refused("past the limit in the second record", [(DRIVING, 16000), (DRIVING, 201)], 23, 2)
replayed("a break allows another spell", [(DRIVING, 16200), (PAUSE, 2700), (DRIVING, 16200)], FRESH, (16200, 32400))
replayed("joined pauses allow another spell", [(DRIVING, 16200), (PAUSE, 1200), (PAUSE, 1500), (DRIVING, 16200)], FRESH, (16200, 32400))
refused("a break one second short allows none", [(DRIVING, 16200), (PAUSE, 2699), (DRIVING, 1)], 23, 3)
refused("pauses apart allow none", [(DRIVING, 16200), (PAUSE, 1350), (WORK, 1), (PAUSE, 1350), (DRIVING, 1)], 23, 5)
refused("a break does not allow more of shift", [(PAUSE, 39599), (DRIVING, 1)], 23, 2, TIRED)
replayed("a rest allows more of shift", [(PAUSE, 39600), (DRIVING, 16200)], TIRED, (16200, 16200))
replayed("equal limits of a second", [(DRIVING, 1), (PAUSE, 1), (DRIVING, 1)], FRESH, (1, 1), LEAST)
refused("equal limits of a second, a second more", [(DRIVING, 1), (DRIVING, 1)], 23, 2, FRESH, LEAST)
replayed("the highest limits just met", [(DRIVING, MOST)], FRESH, (MOST, MOST), GREATEST)
refused("the highest limits, a second more", [(DRIVING, MOST), (DRIVING, 1)], 23, 2, FRESH, GREATEST)
refused("the longest driving of all", [(DRIVING, MOST)], 23, 1, TIRED)

# --- 22 odd record ---------------------------------------------------------------------------------
for activity in (3, 256, 257, 258, 0x01000002, ALL_BITS):
    refused("activity %d" % activity, [(activity, 1)], 22, 1, TIRED)
for activity, name in ((WORK, "other work"), (DRIVING, "driving"), (PAUSE, "a pause")):
    for seconds in (0, 1000001, ALL_BITS):
        refused("%s of %d seconds" % (name, seconds), [(activity, seconds)], 22, 1, (15, 20))
refused("an odd record behind sound ones", [(PAUSE, 39600), (DRIVING, 9), (WORK, 0)], 22, 3, (15, 20))
refused("an odd pause among pauses", [(PAUSE, 2700), (PAUSE, 0), (PAUSE, 2700)], 22, 2, (15, 20))
refused("two odd records: the first", [(WORK, 1), (3, 1), (PAUSE, 0)], 22, 2, (15, 20))
refused("odd in both words", [(3, 0)], 22, 1, (15, 20))

# --- which comes first -----------------------------------------------------------------------------
refused("odd and past the limit in one record: odd", [(DRIVING, 1000001)], 22, 1)
refused("odd by all bits and past the limit: odd", [(DRIVING, ALL_BITS)], 22, 1)
refused("no seconds of driving at the limit: odd", [(DRIVING, 0)], 22, 1, TIRED)
refused("past the limit, then odd: past the limit", [(DRIVING, 16201), (3, 0)], 23, 1)
refused("odd, then past the limit: odd", [(3, 0), (DRIVING, 16201)], 22, 1)
refused("past the limit in record 2, odd in record 3", [(DRIVING, 16200), (DRIVING, 1), (WORK, 0)], 23, 2)
refused("odd in record 2, past the limit in record 3", [(DRIVING, 16200), (WORK, 0), (DRIVING, 1)], 22, 2)
refused("two past the limit: the first", [(DRIVING, 16201), (DRIVING, 16202)], 23, 1)

# --- 21 torn trace ---------------------------------------------------------------------------------
ODD_AND_PAST = trace([(DRIVING, 16201), (3, 0)])
for length in (1, 4, 7, 9, 12, 15):
    refused("torn: %d bytes of records that would be refused" % length, ODD_AND_PAST[:length], 21, length, (15, 20))
refused("torn: a byte behind a rest", trace([(PAUSE, 39600)]) + b"\x02", 21, 9, TIRED)

# --- 10 bad rules and 11 bad trip, as words of an order ----------------------------------------------
TORN = ODD_AND_PAST[:15]


def ruled(title, rules, place):
    """Also with an empty trace, and before bad figures and a torn trace."""
    refused("rules: " + title, [], 10, place, FRESH, rules)
    refused("rules: %s, bad figures, torn" % title, TORN, 10, place, (2, 1), rules)


ruled("spell limit 0", (0, 2700, 32400, 39600), 6)
ruled("break 0", (16200, 0, 32400, 39600), 7)
ruled("spell limit above shift limit", (32401, 2700, 32400, 39600), 8)
ruled("shift limit 0", (16200, 2700, 0, 39600), 8)
ruled("shift limit 1,000,001", (16200, 2700, 1000001, 39600), 8)
ruled("spell limit of all bits", (ALL_BITS, 2700, 32400, 39600), 8)
ruled("break above rest", (16200, 39601, 32400, 39600), 9)
ruled("rest 0", (16200, 2700, 32400, 0), 9)
ruled("rest 1,000,001", (16200, 2700, 32400, 1000001), 9)
ruled("all 0", (0, 0, 0, 0), 6)
ruled("break and shift limit 0", (16200, 0, 0, 39600), 7)
replayed("the highest rules pass", [], FRESH, FRESH, GREATEST)
replayed("the lowest rules pass", [], FRESH, FRESH, LEAST)


def figured(title, figures, place):
    """Also with an empty trace, and before a torn trace."""
    refused("figures: " + title, [], 11, place, figures)
    refused("figures: %s, torn" % title, TORN, 11, place, figures)


figured("spell above its limit", (16201, 16201), 4)
figured("spell above its limit and above shift", (16201, 0), 4)
figured("spell above shift", (2, 1), 5)
figured("shift above its limit", (0, 32401), 5)
figured("both of all bits", (ALL_BITS, ALL_BITS), 4)
replayed("figures at their limits pass", [], (16200, 32400), (16200, 32400))
replayed("spell may be shift", [], (15, 15), (15, 15))
refused("figures that a rest would mend", [(PAUSE, 39600)], 11, 5, (0, 32401))

# --- the split break (document 02, P5): parts of 900 and 1,800 seconds -------------------------------------
UNMARKED, MARKED = (15, 20, 0), (15, 20, 1)
BROKEN = (0, 20, 0)  # spell and mark cleared


def split(title, records, before, after, week=None):
    replayed("split: " + title, records, before, after, PARTS, week)


split("an empty trace leaves the mark", [], MARKED, MARKED)
split("an empty trace sets none", [], UNMARKED, UNMARKED)
split("driving keeps the mark", [(DRIVING, 5)], MARKED, (20, 25, 1))
split("other work keeps the mark", [(WORK, 39600)], MARKED, MARKED)
for seconds, unmarked, marked in (
    (1, UNMARKED, MARKED),
    (899, UNMARKED, MARKED),
    (900, MARKED, MARKED),
    (901, MARKED, MARKED),
    (1799, MARKED, MARKED),
    (1800, MARKED, BROKEN),
    (1801, MARKED, BROKEN),
    (2699, MARKED, BROKEN),
    (2700, BROKEN, BROKEN),
    (39599, BROKEN, BROKEN),
    (39600, (0, 0, 0), (0, 0, 0)),
    (MOST, (0, 0, 0), (0, 0, 0)),
):
    week = 0 if seconds == MOST else 20
    split("unmarked, a pause of %d" % seconds, [(PAUSE, seconds)], UNMARKED, unmarked, week)
    split("marked, a pause of %d" % seconds, [(PAUSE, seconds)], MARKED, marked, week)

# A pause is judged whole, with the mark from before it.
split("neighbours of 900 are one pause of 1,800", [(PAUSE, 900), (PAUSE, 900)], UNMARKED, MARKED)
split("neighbours of 900 and 1,799", [(PAUSE, 900), (PAUSE, 1799)], UNMARKED, MARKED)
split("neighbours of 900 and 1,800 are a break", [(PAUSE, 900), (PAUSE, 1800)], UNMARKED, BROKEN)
split("three neighbours of 600 are one of 1,800", [(PAUSE, 600)] * 3, UNMARKED, MARKED)
split("neighbours of 450 are a first part", [(PAUSE, 450), (PAUSE, 450)], UNMARKED, MARKED)
split("neighbours of 450 and 449 are none", [(PAUSE, 450), (PAUSE, 449)], UNMARKED, UNMARKED)
split("marked, 1,000 and 800 are a second part", [(PAUSE, 1000), (PAUSE, 800)], MARKED, BROKEN)
split("marked, 1,000 and 799 are none", [(PAUSE, 1000), (PAUSE, 799)], MARKED, MARKED)
split("marked, 1,800 and 899: a second part that goes on", [(PAUSE, 1800), (PAUSE, 899)], MARKED, BROKEN)
split("marked, 1,800 and 900: a break", [(PAUSE, 1800), (PAUSE, 900)], MARKED, BROKEN)
split("marked, 1,800 and 1,800: more than a break", [(PAUSE, 1800), (PAUSE, 1800)], MARKED, BROKEN)

# Other work and driving end a pause, and so the parts are two.
split("900, other work, 1,800", [(PAUSE, 900), (WORK, 1), (PAUSE, 1800)], UNMARKED, BROKEN)
split("899, other work, 1,800 sets the mark", [(PAUSE, 899), (WORK, 1), (PAUSE, 1800)], UNMARKED, MARKED)
split("900, other work, 1,799", [(PAUSE, 900), (WORK, 1), (PAUSE, 1799)], UNMARKED, MARKED)
split("1,800, other work, 1,800", [(PAUSE, 1800), (WORK, 1), (PAUSE, 1800)], UNMARKED, BROKEN)
split("1,800, other work, 900: the wrong way round", [(PAUSE, 1800), (WORK, 1), (PAUSE, 900)], UNMARKED, MARKED)
split("900, other work, 900, other work, 1,800", [(PAUSE, 900), (WORK, 1), (PAUSE, 900), (WORK, 1), (PAUSE, 1800)], UNMARKED, BROKEN)
split("900, driving, 1,800", [(PAUSE, 900), (DRIVING, 5), (PAUSE, 1800)], UNMARKED, (0, 25, 0))
split("900, driving, 1,800, driving", [(PAUSE, 900), (DRIVING, 5), (PAUSE, 1800), (DRIVING, 7)], UNMARKED, (7, 32, 0))
split("second, other work, first", [(PAUSE, 1800), (WORK, 1), (PAUSE, 900)], MARKED, (0, 20, 1))
split("second, other work, second", [(PAUSE, 1800), (WORK, 1), (PAUSE, 1800)], MARKED, (0, 20, 1))
split("a break between clears the mark", [(PAUSE, 900), (WORK, 1), (PAUSE, 2700), (DRIVING, 5), (PAUSE, 1800)], UNMARKED, (5, 25, 1))
split("a rest between clears the mark", [(PAUSE, 900), (WORK, 1), (PAUSE, 39600), (DRIVING, 5), (PAUSE, 1800)], UNMARKED, (5, 5, 1))
split("parts allow another spell", [(DRIVING, 9000), (PAUSE, 900), (DRIVING, 7200), (PAUSE, 1800), (DRIVING, 16200)], (0, 0, 0), (16200, 32400, 0))
split("the pause of an earlier trace is not joined", [(PAUSE, 900)], MARKED, MARKED)

# Without a split a shorter pause changes nothing; break and rest clear a mark that is lent.
for seconds in (1, 900, 1800, 2699):
    replayed("no split, marked, a pause of %d" % seconds, [(PAUSE, seconds)], MARKED, MARKED)
    replayed("no split, unmarked, a pause of %d" % seconds, [(PAUSE, seconds)], UNMARKED, UNMARKED)
replayed("no split, a break clears the mark", [(PAUSE, 2700)], MARKED, BROKEN)
replayed("no split, a rest clears the mark", [(PAUSE, 39600)], MARKED, (0, 0, 0))

# Parts as long as the break, equal parts, the first one longer.
replayed("parts as long as the break: never a part", [(PAUSE, 2699)], UNMARKED, UNMARKED, EUROPEAN + (2700, 2700))
replayed("parts as long as the break: a break", [(PAUSE, 2700)], UNMARKED, BROKEN, EUROPEAN + (2700, 2700))
replayed("equal parts, unmarked", [(PAUSE, 900)], UNMARKED, MARKED, EUROPEAN + (900, 900))
replayed("equal parts, marked", [(PAUSE, 900)], MARKED, BROKEN, EUROPEAN + (900, 900))
replayed("a shorter second part, unmarked", [(PAUSE, 900)], UNMARKED, UNMARKED, EUROPEAN + (1800, 900))
replayed("a shorter second part, marked", [(PAUSE, 900)], MARKED, BROKEN, EUROPEAN + (1800, 900))
replayed("a shorter second part, unmarked, the first", [(PAUSE, 1800)], UNMARKED, MARKED, EUROPEAN + (1800, 900))
replayed("parts of a second, two apart", [(PAUSE, 1), (WORK, 1), (PAUSE, 1)], UNMARKED, BROKEN, EUROPEAN + (1, 1))
replayed("parts of a second, two neighbours", [(PAUSE, 1), (PAUSE, 1)], UNMARKED, MARKED, EUROPEAN + (1, 1))
replayed("a break of a second leaves no part", [(PAUSE, 1)], MARKED, BROKEN, (16200, 1, 32400, 39600, 1, 1))

# A refused trace leaves the mark, and the rules are judged as order words 6 to 11.
for mark in (0, 1):
    refused("split: past the limit behind a first part, mark %d" % mark, [(PAUSE, 900), (DRIVING, 16201)], 23, 2, (0, 0, mark), PARTS)
    refused("split: odd behind a break, mark %d" % mark, [(PAUSE, 2700), (WORK, 0)], 22, 2, (15, 20, mark), PARTS)
    refused("split: torn, mark %d" % mark, trace([(PAUSE, 2700)])[:7], 21, 7, (15, 20, mark), PARTS)
    refused("split: bad figures, mark %d" % mark, [(PAUSE, 2700)], 11, 5, (2, 1, mark), PARTS)
refused("a first part allows no other spell", [(DRIVING, 16200), (PAUSE, 900), (DRIVING, 1)], 23, 3, (0, 0, 0), PARTS)
refused("a second part without the mark allows none", [(DRIVING, 16200), (PAUSE, 1800), (DRIVING, 1)], 23, 3, (0, 0, 0), PARTS)
refused("a second part does not allow more of shift", [(PAUSE, 1800), (DRIVING, 1)], 23, 2, TIRED + (1,), PARTS)
ruled("a lone zero first part", EUROPEAN + (0, 1800), 10)
ruled("a lone zero second part", EUROPEAN + (900, 0), 11)
ruled("a first part above the break", EUROPEAN + (2701, 1800), 10)
ruled("a second part above the break", EUROPEAN + (900, 2701), 11)
ruled("a first part above the break and a lone zero", EUROPEAN + (2701, 0), 10)
ruled("a lone zero and a second part above the break", EUROPEAN + (0, 2701), 10)
ruled("both parts of all bits", EUROPEAN + (ALL_BITS, ALL_BITS), 10)
ruled("rest 0 before a lone zero part", (16200, 2700, 32400, 0, 0, 1800), 9)
replayed("parts as long as the break pass", [], MARKED, MARKED, EUROPEAN + (2700, 2700))

# --- the week (document 02, P7): 201,600 and 162,000 seconds, with the parts ------------------------------------
TIRED_IN_WEEK = (15, 20, 25, 1)  # spell, shift, week, mark
LATE_IN_WEEK = (0, 0, 190800, 0)  # 10,800 seconds are left
FULL_WEEK = (0, 0, 201600, 0)
CLEARED = (0, 0, 0, 0)


def of_week(title, records, before, after, rules=PARTS):
    replay("week: " + title, trace(records), before, rules, "0 %d 0" % len(records), after)


def not_of_week(title, records, number, place, before, rules=PARTS):
    """The figures stay."""
    given = records if isinstance(records, bytes) else trace(records)
    replay("week: " + title, given, before, rules, "%d %d 0" % (number, place), before)


of_week("an empty trace leaves it", [], TIRED_IN_WEEK, TIRED_IN_WEEK)
of_week("driving adds to all three", [(DRIVING, 5)], TIRED_IN_WEEK, (20, 25, 30, 1))
of_week("other work as long as a weekly rest clears nothing", [(WORK, 162000)], TIRED_IN_WEEK, TIRED_IN_WEEK)
for seconds, after in (
    (1800, (0, 20, 25, 0)),
    (2700, (0, 20, 25, 0)),
    (39600, (0, 0, 25, 0)),
    (161999, (0, 0, 25, 0)),
    (162000, CLEARED),
    (162001, CLEARED),
    (MOST, CLEARED),
):
    of_week("a pause of %d" % seconds, [(PAUSE, seconds)], TIRED_IN_WEEK, after)
of_week("two pauses that make a weekly rest", [(PAUSE, 81000), (PAUSE, 81000)], TIRED_IN_WEEK, CLEARED)
of_week("two pauses one second short of it", [(PAUSE, 81000), (PAUSE, 80999)], TIRED_IN_WEEK, (0, 0, 25, 0))
of_week("a rest and a second more make a weekly rest", [(PAUSE, 161999), (PAUSE, 1)], TIRED_IN_WEEK, CLEARED)
of_week("other work ends a pause short of it", [(PAUSE, 161999), (WORK, 1), (PAUSE, 161999)], TIRED_IN_WEEK, (0, 0, 25, 0))
of_week("driving ends a pause short of it", [(PAUSE, 81000), (DRIVING, 9), (PAUSE, 81000)], TIRED_IN_WEEK, (0, 0, 34, 0))
of_week("a weekly rest, then driving", [(PAUSE, 162000), (DRIVING, 9)], TIRED_IN_WEEK, (9, 9, 9, 0))
of_week("driving, then a weekly rest", [(DRIVING, 9), (PAUSE, 81000), (PAUSE, 81000)], TIRED_IN_WEEK, CLEARED)
of_week("a rest, then driving: the week goes on", [(PAUSE, 39600), (DRIVING, 9)], TIRED_IN_WEEK, (9, 9, 34, 0))
of_week("a first part behind a weekly rest", [(PAUSE, 162000), (WORK, 1), (PAUSE, 900)], TIRED_IN_WEEK, (0, 0, 0, 1))
of_week("weekly rest as long as the rest", [(PAUSE, 39600)], TIRED_IN_WEEK, CLEARED, PARTS + (201600, 39600))
of_week("weekly rest as long as the rest, one second less", [(PAUSE, 39599)], TIRED_IN_WEEK, (0, 20, 25, 0), PARTS + (201600, 39600))
of_week("the longest weekly rest, one second less", [(PAUSE, 999999)], TIRED_IN_WEEK, (0, 0, 25, 0), PARTS + (201600, MOST))
of_week("the longest weekly rest", [(PAUSE, 500000), (PAUSE, 500000)], TIRED_IN_WEEK, CLEARED, PARTS + (201600, MOST))

of_week("just to its limit", [(DRIVING, 10800)], LATE_IN_WEEK, (10800, 10800, 201600, 0))
not_of_week("one second past its limit", [(DRIVING, 10801)], 23, 1, LATE_IN_WEEK)
not_of_week("no more driving with the week full", [(DRIVING, 1)], 23, 1, FULL_WEEK)
not_of_week("a rest allows no more of it", [(DRIVING, 10800), (PAUSE, 161999), (DRIVING, 1)], 23, 3, LATE_IN_WEEK)
of_week("a weekly rest allows another week", [(DRIVING, 10800), (PAUSE, 162000), (DRIVING, 16200)], LATE_IN_WEEK, (16200, 16200, 16200, 0))
not_of_week("no seconds of driving with the week full: odd", [(DRIVING, 0)], 22, 1, FULL_WEEK)
TWO_SPELLS = [(DRIVING, 16200), (PAUSE, 2700), (DRIVING, 16200)]
DAY = TWO_SPELLS + [(PAUSE, 39600)]
of_week("six days and two hours", DAY * 6 + [(DRIVING, 7200)], CLEARED, (7200, 7200, 201600, 0))
not_of_week("six days, two hours and a second", DAY * 6 + [(DRIVING, 7201)], 23, 25, CLEARED)
of_week("a week limit of one shift", TWO_SPELLS, CLEARED, (16200, 32400, 32400, 0), PARTS + (32400, 162000))
not_of_week("a week limit of one shift, a second after the rest", DAY + [(DRIVING, 1)], 23, 5, CLEARED, PARTS + (32400, 162000))
of_week("the highest week limit", [(DRIVING, 16200)], (0, 0, 983800, 0), (16200, 16200, MOST, 0), PARTS + (MOST, MOST))

# Refused traces leave the week. It is judged as word 14 of an order, behind words 4 and 5 and before the trace.
not_of_week("odd behind a weekly rest", [(PAUSE, 162000), (WORK, 0)], 22, 2, TIRED_IN_WEEK)
for title, figures, place in (
    ("above its limit", (0, 0, 201601, 0), 14),
    ("below the shift", (15, 20, 19, 1), 14),
    ("0 with a shift", (15, 20, 0, 0), 14),
    ("of all bits", (15, 20, ALL_BITS, 0), 14),
    ("bad, and shift above its limit", (0, 32401, 0, 0), 5),
    ("bad, and spell above its limit", (16201, 16201, 0, 0), 4),
):
    not_of_week(title + ", torn", TORN, 11, place, figures)
of_week("as the shift", [], (15, 20, 20, 0), (15, 20, 20, 0))
of_week("at its limit", [], FULL_WEEK, FULL_WEEK)
ruled("week limit below the shift limit", PARTS + (32399, 162000), 12)
ruled("week limit 1,000,001", PARTS + (1000001, 162000), 12)
ruled("weekly rest shorter than the rest", PARTS + (201600, 39599), 13)
ruled("weekly rest 1,000,001", PARTS + (201600, 1000001), 13)
ruled("week limit and weekly rest 0", PARTS + (0, 0), 12)
ruled("a lone zero part before week limit 0", EUROPEAN + (0, 1800, 0, 162000), 10)
