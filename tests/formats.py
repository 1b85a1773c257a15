"""Maps, orders and sheets as bytes, in the formats of documents 01 and 02 (P5 and P7), and traces in that of document 02 (P3)."""
import struct

ALL_BITS = 0xFFFFFFFF
EUROPE = [1, 3, 0, 100000, 0, 0, 16200, 2700, 32400, 39600, 0, 0, 201600, 162000, 0]  # map T's order, which has no split
EUROPE_SPLIT = EUROPE[:10] + [900, 1800] + EUROPE[12:]
DRIVE, BREAK, REST, FIRST_PART, SECOND_PART, WEEKLY_REST = 1, 2, 3, 4, 5, 6
WORK, DRIVING, PAUSE = 0, 1, 2

# What the program prints of map T and its order, as document 01 has it.
T_LISTING = """\
drive 1 Lay 10800
break 2 Lay 13500
drive 2 End 20700
arrive 20700 7200 18000 labels 4
"""


def words(*values):
    return struct.pack("<%dI" % len(values), *values)


class Map:
    """A map as lists; `bytes` puts it together, whatever the values."""

    def __init__(self, junctions, roads, names, format=1):
        self.format = format
        self.junctions = [list(j) for j in junctions]  # first, car park, name start, name length
        self.roads = [list(r) for r in roads]  # from, to, metres, speed, next
        self.names = names

    def bytes(self):
        header = words(self.format, len(self.junctions), len(self.roads), len(self.names))
        junctions = b"".join(words(*j) for j in self.junctions)
        roads = b"".join(words(*r) for r in self.roads)
        return header + junctions + roads + self.names


def map_t():
    """Map T of document 01: Hub 1, Lay 2 (car park), End 3; roads of 10,800, 7,200 and 18,000 seconds."""
    return Map(
        [[1, 0, 0, 3], [2, 1, 3, 3], [0, 0, 6, 3]],
        [[1, 2, 240000, 80, 3], [2, 3, 160000, 80, 0], [1, 3, 400000, 80, 0]],
        b"HubLayEnd",
    )


def chained(junctions, roads):
    """The map of junctions (name, whether a car park) and roads (from, to, metres, speed), with its chains."""
    placed, names = [], b""
    for name, park in junctions:
        placed.append([0, int(park), len(names), len(name)])
        names += name.encode()
    linked = []
    for number in range(len(roads), 0, -1):
        junction = placed[roads[number - 1][0] - 1]
        linked.insert(0, [*roads[number - 1], junction[0]])
        junction[0] = number
    return Map(placed, linked, names)


def order(base=EUROPE, **at):
    """The order of fifteen words; `w3=7` makes word 3 a 7. A base that ends before word 12 takes Europe's week.

    Where they are not told, words 12 to 14 are no lower than words 8, 9 and 5, as they must be.
    """
    w = list(base) + EUROPE[len(base) :]
    for key, value in at.items():
        w[int(key[1:])] = value
    for number, other in ((12, 8), (13, 9), (14, 5)):
        if "w%d" % number not in at:
            w[number] = max(w[number], w[other])
    return words(*w)


def sheet(rows, arrival=0, spell=0, shift=0, labels=4, moves=None, week=None):
    """The week is the shift if it is not told, as it is where the trip starts so and has no rest."""
    head = words(len(rows) if moves is None else moves, arrival, spell, shift, shift if week is None else week, labels)
    return head + b"".join(words(*r) for r in rows)


def trace(records):
    """Records of activity and seconds, one after the other."""
    return b"".join(words(*r) for r in records)
