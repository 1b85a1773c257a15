"""Worked cases of map check, names, chain making and order check.

The expected replies are written here by hand from documents 01 and 02; nothing is taken from the program.
"""
from case_files import case
from formats import ALL_BITS, EUROPE_SPLIT, Map, map_t, words
from formats import order as changed


def two_defects():
    """Three junctions, two roads; a foreign road is noticed before an off-chain one (road 1 is off its chain)."""
    return Map([[0, 0, 0, 1], [0, 0, 0, 1], [2, 0, 0, 1]], [[1, 1, 5, 50, 0], [2, 1, 5, 50, 0]], b"x")


def junction(j, field, value):
    m = map_t()
    m.junctions[j - 1][field] = value
    return m.bytes()


def road(r, field, value):
    m = map_t()
    m.roads[r - 1][field] = value
    return m.bytes()


def header(offset, value):
    b = bytearray(map_t().bytes())
    b[offset : offset + 4] = words(value)
    return bytes(b)


def letter(offset, value):
    b = bytearray(map_t().bytes())
    b[offset] = value
    return bytes(b)


def named(letters):
    """One junction without roads: the names begin at offset 32."""
    return Map([[0, 0, 0, 1]], [], letters).bytes()


FIRST, PARK, START, LENGTH = range(4)
FROM, TO, METRES, SPEED, NEXT = range(5)
T = map_t().bytes()


def check(title, data, reply):
    case("m", title, reply, trunk=data)


def order(title, junctions, data, reply, roads=3, bans=()):
    """R is map T's, if not told otherwise."""
    case("o", title, reply, number=junctions, roads=roads, order=data, bans=bans)


def name(title, number, data, reply, part):
    case("n", title, "%s <%s>" % (reply, part), number=number, trunk=data)


def chain(title, data, reply, after):
    case("c", title, reply + " " + after.hex(), trunk=data)


def shared_chain(junctions, roads):
    """Every junction's chain is the one chain of all roads, which are all from junction 1."""
    return Map(
        [[1, 0, 0, 1]] * junctions,
        [[1, 1, 1, 50, r + 1 if r < roads else 0] for r in range(1, roads + 1)],
        b"x",
    )


# --- map check -------------------------------------------------------------------------------
check("map T passes", T, "0 0 0")
check("empty map is short", b"", "1 0 0")
check("15 bytes are short", T[:15], "1 15 0")
check("16 bytes are not short but misfit", T[:16], "4 133 0")
check("format 0 is strange", header(0, 0), "2 0 0")
check("format 257 is strange", header(0, 257), "2 0 0")
check("no junctions is oversize", header(4, 0), "3 4 0")
check("12,289 junctions are oversize", header(4, 12289), "3 4 0")
check("12,288 junctions are only misfit", header(4, 12288), "4 196693 0")
check("40,961 roads are oversize", header(8, 40961), "3 8 0")
check("40,960 roads are only misfit", header(8, 40960), "4 819273 0")
check("1,048,577 name bytes are oversize", header(12, 1048577), "3 12 0")
check("1,048,576 name bytes are only misfit", header(12, 1048576), "4 1048700 0")
check("all counts oversize: the first is charged", T[:4] + words(ALL_BITS, ALL_BITS, ALL_BITS), "3 4 0")
check("roads and names oversize: roads are charged", T[:8] + words(ALL_BITS, ALL_BITS), "3 8 0")
check("strange and oversize: strange comes first", words(2, 0, 0, 0), "2 0 0")
check("one byte too long", T + b"x", "4 133 0")
check("one byte too short", T[:-1], "4 133 0")
check("first road above R", junction(3, FIRST, 4), "5 3 0")
check("first road all bits", junction(1, FIRST, ALL_BITS), "5 1 0")
check("car park flag 2", junction(2, PARK, 2), "5 2 0")
check("car park flag 256", junction(2, PARK, 256), "5 2 0")
check("every junction a car park", Map([[1, 1, 0, 3], [2, 1, 3, 3], [0, 1, 6, 3]], map_t().roads, b"HubLayEnd").bytes(), "0 0 0")
check("name length 0", junction(3, LENGTH, 0), "5 3 0")
check("name length 33", Map([[0, 0, 0, 33]], [], b"x" * 33).bytes(), "5 1 0")
check("name length 32", Map([[0, 0, 0, 32]], [], b"x" * 32).bytes(), "0 0 0")
check("name one byte past the end", junction(3, START, 7), "5 3 0")
check("name start wraps with its length", junction(1, START, ALL_BITS), "5 1 0")
check("name start wraps to the very start", junction(1, START, ALL_BITS - 2), "5 1 0")
check("names may overlap", junction(2, START, 0), "0 0 0")
check("no name bytes: junction 1 is bad", Map([[0, 0, 0, 1]], [], b"").bytes(), "5 1 0")
check("two bad junctions: the lowest", Map([[1, 0, 0, 3], [9, 9, 3, 3], [0, 2, 6, 3]], map_t().roads, b"HubLayEnd").bytes(), "5 2 0")
check("bad road 1 and bad junction 3: the junction", Map([[1, 0, 0, 3], [2, 1, 3, 3], [0, 2, 6, 3]], [[0, 2, 240000, 80, 3]] + map_t().roads[1:], b"HubLayEnd").bytes(), "5 3 0")
check("from 0", road(2, FROM, 0), "6 2 0")
check("from above J", road(2, FROM, 4), "6 2 0")
check("to 0", road(3, TO, 0), "6 3 0")
check("to above J", road(3, TO, 4), "6 3 0")
check("metres 0", road(1, METRES, 0), "6 1 0")
check("metres 1", road(1, METRES, 1), "0 0 0")
check("metres 2,000,000", road(1, METRES, 2000000), "0 0 0")
check("metres 2,000,001", road(1, METRES, 2000001), "6 1 0")
check("speed 4", road(1, SPEED, 4), "6 1 0")
check("speed 5", road(1, SPEED, 5), "0 0 0")
check("speed 130", road(1, SPEED, 130), "0 0 0")
check("speed 131", road(1, SPEED, 131), "6 1 0")
check("next is the road itself", road(2, NEXT, 2), "6 2 0")
check("next below the road", road(3, NEXT, 1), "6 3 0")
check("next above R", road(3, NEXT, 4), "6 3 0")
check("bad road and bad letter: the road", road(1, SPEED, 0)[:-1] + b"\x7f", "6 1 0")
check("road 3 off its chain", road(1, NEXT, 0), "7 3 0")
check("road 1 off its chain, road 2 on another's", junction(1, FIRST, 2), "7 1 0")
check("foreign road noticed first, an earlier road off its chain", two_defects().bytes(), "7 1 0")
check("a road on two chains", junction(3, FIRST, 2), "7 2 0")
check("a chain runs into another's", road(1, NEXT, 2), "7 2 0")
check("one chain shared by three junctions", shared_chain(3, 4).bytes(), "7 1 0")
check("a self-loop passes", Map([[1, 0, 0, 1]], [[1, 1, 1, 50, 0]], b"x").bytes(), "0 0 0")
check("parallel roads pass", Map([[1, 0, 0, 1]], [[1, 1, 1, 50, 2], [1, 1, 1, 50, 0]], b"x").bytes(), "0 0 0")
check("no roads pass", Map([[0, 0, 0, 1]], [], b"x").bytes(), "0 0 0")
check("letter 0x1F", letter(124, 0x1F), "8 124 0")
check("letter 0x20", letter(124, 0x20), "0 0 0")
check("letter 0x7E", letter(132, 0x7E), "0 0 0")
check("letter 0x7F", letter(132, 0x7F), "8 132 0")
check("letter 0xFF that no name uses", Map([[0, 0, 0, 1]], [], b"x\xff").bytes(), "8 33 0")
check("two bad letters: the lowest", letter(130, 0)[:132] + b"\x00", "8 130 0")
for length in range(1, 10):
    letters = b"~ ~ ~ ~ ~"[:length]
    check(f"{length} letters", named(letters), "0 0 0")
    for place in range(length):
        bad = [b"\x00", b"\x1f", b"\x7f", b"\x80"][(length + place) % 4]
        check(f"{length} letters, the one at {place} bad", named(letters[:place] + bad + letters[place + 1 :]), f"8 {32 + place} 0")
check("bad letters at the ends of two words: the lower", named(b"abc\x80efg\x00ij"), "8 35 0")
check("bad letters at the starts of a word and of the tail: the lower", named(b"abcd\xfffgh\x1f"), "8 36 0")
check("broken chain and bad letter: the chain", road(1, NEXT, 0)[:-1] + b"\x7f", "7 3 0")

# --- order check -----------------------------------------------------------------------------
order("European order 1 to 3", 3, changed(), "0 0 0")
order("no order", 3, b"", "9 0 0")
order("59 bytes", 3, changed()[:-1], "9 59 0")
order("61 bytes", 3, changed() + b"x", "9 61 0")
order("40 bytes, as before the split break", 3, changed()[:40], "9 40 0")
order("48 bytes, as before the week", 3, changed()[:48], "9 48 0")
order("64 bytes", 3, changed() + words(0), "9 64 0")
order("source 0", 3, changed(w0=0), "11 0 0")
order("source J", 3, changed(w0=3), "0 0 0")
order("source above J", 3, changed(w0=4), "11 0 0")
order("target 0", 3, changed(w1=0), "11 1 0")
order("target above J", 3, changed(w1=4), "11 1 0")
order("no junctions at all", 0, changed(), "11 0 0")
order("departure is latest", 3, changed(w2=100000), "0 0 0")
order("departure above latest", 3, changed(w2=100001), "11 3 0")
order("departure all bits", 3, changed(w2=ALL_BITS), "11 3 0")
order("latest 2,000,000,000", 3, changed(w3=2000000000), "0 0 0")
order("latest 2,000,000,001", 3, changed(w3=2000000001), "11 3 0")
order("spell is its limit", 3, changed(w4=16200, w5=16200), "0 0 0")
order("spell above its limit", 3, changed(w4=16201, w5=16201), "11 4 0")
order("spell above shift", 3, changed(w4=2, w5=1), "11 5 0")
order("shift is its limit", 3, changed(w5=32400), "0 0 0")
order("shift above its limit", 3, changed(w5=32401), "11 5 0")
order("spell limit 0", 3, changed(w6=0), "10 6 0")
order("spell limit 1", 3, changed(w6=1), "0 0 0")
order("spell limit above shift limit", 3, changed(w6=32401), "10 8 0")
order("spell limit 2,000,000", 3, changed(w6=2000000), "10 8 0")
order("break 0", 3, changed(w7=0), "10 7 0")
order("break above rest", 3, changed(w7=39601), "10 9 0")
order("shift limit 0", 3, changed(w8=0), "10 8 0")
order("both limits 0", 3, changed(w6=0, w8=0), "10 6 0")
order("shift limit 1,000,000", 3, changed(w8=1000000), "0 0 0")
order("shift limit 1,000,001", 3, changed(w8=1000001), "10 8 0")
order("rest 0", 3, changed(w9=0), "10 9 0")
order("break and rest 0", 3, changed(w7=0, w9=0), "10 7 0")
order("rest 1,000,000", 3, changed(w9=1000000), "0 0 0")
order("rest 1,000,001", 3, changed(w9=1000001), "10 9 0")
order("bad rules and bad source: the rules", 3, changed(w0=0, w9=0), "10 9 0")
order("bad shift limit and bad break: the break's word", 3, changed(w7=0, w8=0), "10 7 0")
order("bad target and bad latest: the target", 3, changed(w1=0, w3=ALL_BITS), "11 1 0")
order("short order with bad rules: the length", 3, changed(w6=0)[:8], "9 8 0")

# --- the parts of a split break: each 1 up to the break, or both 0; a lone zero is charged itself ------------
order("Europe's parts", 3, changed(EUROPE_SPLIT), "0 0 0")
order("no split", 3, changed(w10=0, w11=0), "0 0 0")
order("parts of a second", 3, changed(w10=1, w11=1), "0 0 0")
order("both parts as long as the break", 3, changed(w10=2700, w11=2700), "0 0 0")
order("a first part as long as the break", 3, changed(w10=2700, w11=1), "0 0 0")
order("a second part as long as the break", 3, changed(w10=1, w11=2700), "0 0 0")
order("parts of a break of a second", 3, changed(w7=1, w10=1, w11=1), "0 0 0")
order("the longest parts", 3, changed(w7=1000000, w9=1000000, w10=1000000, w11=1000000), "0 0 0")
order("a longer first part than second", 3, changed(w10=1800, w11=900), "0 0 0")
order("a lone zero first part", 3, changed(w11=1800), "10 10 0")
order("a lone zero second part", 3, changed(w10=900), "10 11 0")
order("first part above the break", 3, changed(w10=2701, w11=1800), "10 10 0")
order("second part above the break", 3, changed(w10=900, w11=2701), "10 11 0")
order("both parts above the break", 3, changed(w10=2701, w11=2701), "10 10 0")
order("first part above the break, second a lone zero", 3, changed(w10=2701), "10 10 0")
order("first part a lone zero, second above the break", 3, changed(w11=2701), "10 10 0")
order("first part of all bits", 3, changed(w10=ALL_BITS, w11=1), "10 10 0")
order("second part of all bits", 3, changed(w10=1, w11=ALL_BITS), "10 11 0")
order("a first part between break and rest", 3, changed(w10=39600, w11=1800), "10 10 0")
order("parts above a shorter break", 3, changed(EUROPE_SPLIT, w7=1799), "10 11 0")
order("both parts above a shorter break", 3, changed(EUROPE_SPLIT, w7=899), "10 10 0")
order("break 0 with parts: the break's word", 3, changed(EUROPE_SPLIT, w7=0), "10 7 0")
order("rest 0 and a lone zero part: the rest's word", 3, changed(w9=0, w11=1), "10 9 0")
order("a lone zero part and a bad source: the part", 3, changed(w0=0, w10=1), "10 11 0")
order("59 bytes with a lone zero part: the length", 3, changed(w11=1)[:-1], "9 59 0")

# --- the week (document 02, P7): its limit and weekly rest under 10, the week itself under 11, behind words 0 to 5 ---
order("week limit as the shift limit", 3, changed(w12=32400), "0 0 0")
order("week limit below the shift limit", 3, changed(w12=32399), "10 12 0")
order("week limit 0", 3, changed(w12=0), "10 12 0")
order("week limit 1,000,000", 3, changed(w12=1000000), "0 0 0")
order("week limit 1,000,001", 3, changed(w12=1000001), "10 12 0")
order("week limit of all bits", 3, changed(w12=ALL_BITS), "10 12 0")
order("shift limit above the week limit: the week limit's word", 3, changed(w8=201601, w12=201600), "10 12 0")
order("both limits 1,000,001: the shift limit's word", 3, changed(w8=1000001, w12=1000001), "10 8 0")
order("weekly rest as the rest", 3, changed(w13=39600), "0 0 0")
order("weekly rest shorter than the rest", 3, changed(w13=39599), "10 13 0")
order("weekly rest 0", 3, changed(w13=0), "10 13 0")
order("weekly rest 1,000,000", 3, changed(w13=1000000), "0 0 0")
order("weekly rest 1,000,001", 3, changed(w13=1000001), "10 13 0")
order("weekly rest of all bits", 3, changed(w13=ALL_BITS), "10 13 0")
order("rest above the weekly rest: the weekly rest's word", 3, changed(w9=162001, w13=162000), "10 13 0")
order("both rests 1,000,001: the rest's word", 3, changed(w9=1000001, w13=1000001), "10 9 0")
order("week limit and weekly rest 0: the week limit", 3, changed(w12=0, w13=0), "10 12 0")
order("a lone zero first part and week limit 0: the part", 3, changed(w11=1, w12=0), "10 10 0")
order("a lone zero second part and weekly rest 0: the part", 3, changed(w10=1, w13=0), "10 11 0")
order("the lowest rules", 3, changed(w6=1, w7=1, w8=1, w9=1, w12=1, w13=1), "0 0 0")
order("the highest rules", 3, changed(w6=1000000, w7=1000000, w8=1000000, w9=1000000, w12=1000000, w13=1000000), "0 0 0")
order("week at its limit", 3, changed(w14=201600), "0 0 0")
order("week above its limit", 3, changed(w14=201601), "11 14 0")
order("week of all bits", 3, changed(w14=ALL_BITS), "11 14 0")
order("week as the shift", 3, changed(w5=9, w14=9), "0 0 0")
order("week below the shift", 3, changed(w5=9, w14=8), "11 14 0")
order("week 0 with a shift", 3, changed(w5=9, w14=0), "11 14 0")
order("week at the lowest limit", 3, changed(w12=32400, w14=32400), "0 0 0")
order("week above the lowest limit", 3, changed(w12=32400, w14=32401), "11 14 0")
order("shift and week at one limit", 3, changed(w5=32400, w12=32400, w14=32400), "0 0 0")
order("weekly rest 0 and a bad week: the weekly rest", 3, changed(w13=0, w14=ALL_BITS), "10 13 0")
order("weekly rest 0 and a bad source: the weekly rest", 3, changed(w0=0, w13=0), "10 13 0")
order("bad source and bad week: the source", 3, changed(w0=0, w14=ALL_BITS), "11 0 0")
order("bad latest and bad week: latest", 3, changed(w3=2000000001, w14=ALL_BITS), "11 3 0")
order("spell above its limit and a bad week: spell", 3, changed(w4=16201, w5=16201, w14=0), "11 4 0")
order("spell above shift, shift above week: the shift's word", 3, changed(w4=9, w5=8, w14=7), "11 5 0")
order("shift above its limit and above the week: the shift", 3, changed(w5=32401, w14=32400), "11 5 0")
order("59 bytes with week limit 0: the length", 3, changed(w12=0)[:-1], "9 59 0")

# --- names -----------------------------------------------------------------------------------
name("name of 1", 1, T, "0 3 0", "Hub")
name("name of 2", 2, T, "0 3 0", "Lay")
name("name of 3", 3, T, "0 3 0", "End")
name("name of 0", 0, T, "20 0 0", "")
name("name of 4", 4, T, "20 4 0", "")
name("name of all bits", ALL_BITS, T, "20 4294967295 0", "")
name("name in a short map", 1, T[:7], "1 7 0", "")
name("name with a bad letter elsewhere", 1, letter(132, 0x7F), "8 132 0", "")
name("unknown name in a bad map: the map", 9, road(1, SPEED, 0), "6 1 0", "")
name("name with spaces at the ends", 1, Map([[0, 0, 1, 3]], [], b"x y z").bytes(), "0 3 0", " y ")
name("overlapping name", 2, junction(2, START, 1), "0 3 0", "ubL")

# --- chain making ----------------------------------------------------------------------------


def unchained(links):
    m = map_t()
    for j in m.junctions:
        j[FIRST] = links
    for r in m.roads:
        r[NEXT] = links
    return m


chain("links of zeros", unchained(0).bytes(), "0 0 0", T)
chain("links of all bits", unchained(ALL_BITS).bytes(), "0 0 0", T)
chain("a chained map stays", T, "0 0 0", T)
chain("a broken chain is mended", junction(1, FIRST, 2), "0 0 0", T)
chain("no roads: every first is 0", Map([[7, 0, 0, 1], [9, 0, 0, 1]], [], b"x").bytes(), "0 0 0", Map([[0, 0, 0, 1], [0, 0, 0, 1]], [], b"x").bytes())
chain(
    "chains rise through all roads of a junction",
    Map([[9, 0, 0, 1], [9, 1, 0, 1]], [[2, 1, 5, 50, 9], [1, 1, 5, 50, 1], [2, 2, 5, 50, 3], [1, 2, 5, 50, 4], [2, 1, 5, 50, 5]], b"x").bytes(),
    "0 0 0",
    Map([[2, 0, 0, 1], [1, 1, 0, 1]], [[2, 1, 5, 50, 3], [1, 1, 5, 50, 4], [2, 2, 5, 50, 5], [1, 2, 5, 50, 0], [2, 1, 5, 50, 0]], b"x").bytes(),
)
chain("short map", T[:9], "1 9 0", T[:9])
chain("strange map", header(0, 3), "2 0 0", header(0, 3))
chain("misfit", T + b"xy", "4 133 0", T + b"xy")
chain("bad flag", junction(3, PARK, 7), "5 3 0", junction(3, PARK, 7))
chain("bad from", road(3, FROM, 0), "6 3 0", road(3, FROM, 0))
chain("a bad letter is found before a byte is written", unchained(9).bytes()[:-1] + b"\x7f", "8 132 0", unchained(9).bytes()[:-1] + b"\x7f")
