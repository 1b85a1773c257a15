#!/usr/bin/env python3
"""Prints the table of Easter for 2000 to 2299 as it stands in crates/calendar/src/lib.rt: a line for each year, the day
of the year from 1, by the reckoning of Meeus, Jones and Butcher.

    tests/easter_table.py           print the table
    tests/easter_table.py --check   fail where the source has another one
"""
import datetime
import pathlib
import sys

TOP = pathlib.Path(__file__).resolve().parent.parent
SOURCE = pathlib.Path("crates/calendar/src/lib.rt")
BEGIN, END = "const EASTER: [u8; 300] = [\n", "];\n"
YEARS = range(2000, 2300)


def easter(year):
    """Easter's date, with the letters that the reckoning is printed with."""
    a = year % 19
    b, c = divmod(year, 100)
    d, e = divmod(b, 4)
    f = (b + 8) // 25
    g = (b - f + 1) // 3
    h = (19 * a + b - d - g + 15) % 30
    i, k = divmod(c, 4)
    l = (32 + 2 * e + 2 * i - h - k) % 7
    m = (a + 11 * h + 22 * l) // 451
    month, day = divmod(h + l - 7 * m + 114, 31)
    return datetime.date(year, month, day + 1)


def day_of_year(date):
    return date.timetuple().tm_yday


def line(year):
    return "    %d, // %d\n" % (day_of_year(easter(year)), year)


def check(text):
    if text.count(BEGIN) != 1:
        sys.exit("%s has no line '%s', or more than one" % (SOURCE, BEGIN.strip()))
    found = text.split(BEGIN)[1].split(END)[0].splitlines(keepends=True)
    for at, year in enumerate(YEARS):
        told = found[at].strip() if at < len(found) else "nothing"
        if told != line(year).strip():
            sys.exit("%s: the table has '%s' for %d, and the reckoning '%s'" % (SOURCE, told, year, line(year).strip()))
    if len(found) != len(YEARS):
        sys.exit("%s: the table has %d entries, and there are %d years" % (SOURCE, len(found), len(YEARS)))


def main():
    known = easter(2024)
    if known != datetime.date(2024, 3, 31) or day_of_year(known) != 91:
        sys.exit("the reckoning has %s for Easter 2024, not 31 March, day 91" % known)
    if sys.argv[1:] == ["--check"]:
        check((TOP / SOURCE).read_text())
        return
    sys.stdout.write(BEGIN + "".join(map(line, YEARS)) + END)


main()
