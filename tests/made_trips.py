"""Trips made by a rule: small ones at random, lines of junctions, and the practice maps of document 02, P14."""
from formats import ALL_BITS, chained, order


def small_trip(dice):
    """A map of a few junctions and an order on it; short limits and few different road times make pauses and ties.

    About every second road takes half a second more than a whole number, before rounding. Two of three orders have a
    split break. The week limit is near the shift limit, so that some plans have a weekly rest.
    """
    count = dice.randint(1, 7)
    junctions = [("".join(dice.choices("ab c", k=dice.randint(1, 4))), dice.random() < 0.6) for _ in range(count)]
    ends = [(j, j + 1) for j in range(1, count) if dice.random() < 0.9]
    ends += [(dice.randint(1, count), dice.randint(1, count)) for _ in range(dice.randint(0, count))]
    dice.shuffle(ends)
    roads = [(begin, end, 5 * dice.randint(1, 12), 36) for begin, end in ends]
    spell_limit, break_time = dice.randint(5, 12), dice.randint(1, 6)
    shift_limit, rest_time = spell_limit + dice.randint(0, 8), break_time + dice.randint(0, 8)
    parts = dice.choice([(0, 0), (1, 1), (dice.randint(1, break_time), dice.randint(1, break_time))])
    shift = dice.choice([0, dice.randint(0, shift_limit)])
    spell = dice.randint(0, min(shift, spell_limit))
    week_limit, weekly_rest = shift_limit + dice.randint(0, 12), rest_time + dice.randint(0, 8)
    week = dice.choice([shift, dice.randint(shift, week_limit)])
    departure = dice.choice([0, dice.randint(0, 1999999900)])
    target = dice.choice([count, dice.randint(1, count)])
    trip = [dice.randint(1, (count + 1) // 2), target, departure, departure + dice.randint(0, 70)]
    hours = [spell, shift, spell_limit, break_time, shift_limit, rest_time, *parts, week_limit, weekly_rest, week]
    return chained(junctions, roads).bytes(), order(trip + hours)


def line(count):
    """Junctions in a row, a road of one second from each to the next."""
    return chained([("x", False)] * count, [(j, j + 1, 1, 130) for j in range(1, count)]).bytes()


def draws(state):
    """Marsaglia's xorshift on 32 bits."""
    while True:
        state ^= state << 13 & ALL_BITS
        state ^= state >> 17
        state ^= state << 5 & ALL_BITS
        yield state


def practice_map(count, start=2463534242):
    drawn = draws(start)
    junctions, onward, across = [], [], []
    for j in range(1, count + 1):
        park = next(drawn) % 4 == 0
        junctions.append(("J%d" % j, park))
        onward.append((j, j % count + 1, 1 + next(drawn) % 100000, 80))
        end = 1 + next(drawn) % count
        across.append((j, end, 1 + next(drawn) % 100000, 80))
    return chained(junctions, onward + across).bytes()
