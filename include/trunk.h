/* The trunk lorry planner for C: a legal route with breaks and rests that arrives first.
 *
 * Build the library with `tools/build.sh library` (it writes target/staticlib/libtrunk.a, for x86-64 Linux) and link it to a
 * program in C99 or later, or C++:
 *     cc -Iinclude program.c target/staticlib/libtrunk.a
 *
 * Each function is proved to do what its contract says, for every content and every length of what it is lent; the
 * contracts are in crates/trunk/specs/Calls.antt. What the prover cannot see is this file, so the caller owes:
 * - each pointer is not NULL, also where the length is 0, and is aligned for its type;
 * - so many elements as the length says are there, readable, and writable where the pointer is not const;
 * - what is written overlaps nothing else that the same call is lent. What is only read may overlap.
 *
 * No function keeps anything between calls, allocates, prints or fails in another way than by its reply. Calls from
 * several threads need no lock as long as nobody writes what another call is lent.
 *
 * Formats: maps, orders, sheets and traces are bytes, with 32-bit words in little-endian order. Ban lists, label space,
 * rules, figures and replies are numbers of the machine. docs/FORMATS.md describes every word of them, each refusal, and
 * the words used here, and writes a small map and its order out.
 *
 * A road takes 18 * metres / (5 * km per hour) seconds, to the nearest second, an exact half to the even one, and never
 * below 1: 25 m at 36 km per hour take 2, 35 m take 4 and 5 m take 1.
 *
 * Beside an order goes its ban list: the numbers of the banned roads, rising, as 32-bit numbers. An empty list, no ban at
 * all, is any pointer that is not NULL with a count of 0. A banned road may not be entered from 00:00:00 on and before
 * 22:00:00 on Sundays, Good Friday, Easter Monday, Ascension and Whit Monday: a lorry that comes then queues until 22:00 of
 * that day. Only the moment of entry counts. The queue is neither driving nor a pause: the clock alone sees it, and no car
 * park is needed. Clock 0 is then 00:00 on 1 January 2000, a Saturday.
 *
 * The reply is three numbers: number, place, arrival. Number 0 is a success; any other is a refusal, listed below, whose
 * place says where and whose arrival is 0; trunk_refusal_text tells it in a sentence. A refusal changes no byte of a map
 * or of a sheet, and no figure. Give `reply` room for three numbers (`reply_count` at least 3); further ones stay as they
 * are. With less room the call does nothing and writes nothing at all, so set reply[0] to another value beforehand if the
 * count may be wrong.
 *
 * Stack, measured with the library of this version. In its machine code frames are fixed and nothing recurses, and no
 * path through it reserves a hundred bytes more, the C library's memset aside:
 *     trunk_plan and trunk_preview  194,359 bytes; leave TRUNK_PLAN_STACK_BYTES, 256 KiB
 *     every other function   at most 49,975 bytes; leave TRUNK_STACK_BYTES, 64 KiB
 * The main thread (8 MiB as a rule) and threads of glibc and Rust with their usual size have enough.
 */
#ifndef TRUNK_H
#define TRUNK_H

#include <stddef.h>
#include <stdint.h>

#ifdef __cplusplus
extern "C" {
#endif

/* The version of the calls, formats and numbers that this header describes. It rises by one with each change that a
 * caller must follow. */
#define TRUNK_VERSION 2

/* The version of the library that is linked. A program may compare it with TRUNK_VERSION at its start. */
uint32_t trunk_version(void);

/* The largest map, the most labels that are used, the lengths of an order, of a label and of a sheet's parts, and the
 * stack to leave for a call. */
enum {
    TRUNK_MOST_JUNCTIONS = 12288,
    TRUNK_MOST_ROADS = 40960,
    TRUNK_MOST_NAME_BYTES = 1048576,
    TRUNK_MOST_MAP_BYTES = 16 + 16 * TRUNK_MOST_JUNCTIONS + 20 * TRUNK_MOST_ROADS + TRUNK_MOST_NAME_BYTES,
    TRUNK_MOST_LABELS = 1000000,
    TRUNK_ORDER_BYTES = 60,          /* fifteen words: source, target, departure, latest, spell, shift, eight rules, week */
    TRUNK_LABEL_WORDS = 10,          /* of label space */
    TRUNK_SHEET_HEADER_BYTES = 24,   /* six words: moves, arrival, spell, shift, week and labels */
    TRUNK_SHEET_RECORD_BYTES = 12,   /* of a move: three words, its kind, its number and the clock after it */
    TRUNK_PLAN_STACK_BYTES = 262144, /* trunk_plan and trunk_preview */
    TRUNK_STACK_BYTES = 65536,       /* every other function */
};

/* Days are counted from 0, which is Saturday 1 January 2000: clock / TRUNK_DAY_SECONDS. */
enum {
    TRUNK_DAY_SECONDS = 86400,
};

/* A trace's record: two words, the activity and its seconds, 1 to TRUNK_MOST_TRACE_SECONDS. Beside a trace go the words
 * of the rules and of the driver's figures. */
enum {
    TRUNK_TRACE_RECORD_BYTES = 8,
    TRUNK_MOST_TRACE_SECONDS = 1000000,
    TRUNK_OTHER_WORK = 0,
    TRUNK_DRIVING = 1,
    TRUNK_PAUSE = 2,
    TRUNK_RULE_WORDS = 8,   /* words 6 to 13 of an order: the rules below, in their order */
    TRUNK_FIGURE_WORDS = 4, /* spell, shift, week: words 4, 5 and 14 of an order; the mark of a first part, 0 without it */
};

/* The European rules, in seconds, in the order of words 6 to 13 of an order. An order whose break cannot be split has 0
 * and 0 for the parts. */
enum {
    TRUNK_EUROPEAN_SPELL_LIMIT = 16200,
    TRUNK_EUROPEAN_BREAK_TIME = 2700,
    TRUNK_EUROPEAN_SHIFT_LIMIT = 32400,
    TRUNK_EUROPEAN_REST_TIME = 39600,
    TRUNK_EUROPEAN_FIRST_PART = 900,
    TRUNK_EUROPEAN_SECOND_PART = 1800,
    TRUNK_EUROPEAN_WEEK_LIMIT = 201600,
    TRUNK_EUROPEAN_WEEKLY_REST = 162000,
};

/* The kinds of move on a sheet. A drive adds to spell, shift and week. A pause is taken at a car park: a break clears
 * spell, a rest spell and shift, a weekly rest spell, shift and week, and each of them the mark. A first part and later a
 * second part stand for a break where words 10 and 11 of the order, their lengths, are not both 0: the first sets the mark
 * and leaves spell, shift and week, the second needs the mark, and clears it and spell. An order's start has no mark. */
enum {
    TRUNK_DRIVE = 1, /* by the road of the record's number; a pause has the junction's number */
    TRUNK_BREAK = 2,
    TRUNK_REST = 3,
    TRUNK_FIRST_PART = 4,
    TRUNK_SECOND_PART = 5,
    TRUNK_WEEKLY_REST = 6,
};

/* A reply's number. trunk_refusal_text says what each means, and what its place is then. */
enum trunk_number {
    TRUNK_DONE = 0,
    TRUNK_SHORT_MAP = 1,
    TRUNK_STRANGE_MAP = 2,
    TRUNK_OVERSIZE = 3,
    TRUNK_MISFIT = 4,
    TRUNK_BAD_JUNCTION = 5,
    TRUNK_BAD_ROAD = 6,
    TRUNK_BROKEN_CHAIN = 7,
    TRUNK_BAD_LETTERING = 8,
    TRUNK_BAD_ORDER = 9,
    TRUNK_BAD_RULES = 10,
    TRUNK_BAD_TRIP = 11,
    TRUNK_FULL = 12,
    TRUNK_NO_ROAD = 13,
    TRUNK_SHORT_SHEET = 14,
    TRUNK_TORN_SHEET = 15,
    TRUNK_FOREIGN_MOVE = 16,
    TRUNK_OVERRUN = 17,
    TRUNK_FALSE_FIGURE = 18,
    TRUNK_STRAY = 19,
    TRUNK_UNKNOWN_NAME = 20,
    TRUNK_TORN_TRACE = 21,
    TRUNK_ODD_RECORD = 22,
    TRUNK_PAST_LIMIT = 23,
    TRUNK_UNKNOWN_ROAD = 24,
    TRUNK_BAD_BANS = 25
};

/* A sentence for a reply's number: why the call refuses, and what the place is. */
static inline const char *trunk_refusal_text(uint64_t number) {
    static const char *const texts[] = {
        /*  0 */ "done",
        /*  1 */ "the map is shorter than 16 bytes; the place is its length",
        /*  2 */ "the map's format is not 1; the place is 0",
        /*  3 */ "a count of junctions, roads or name bytes is out of range; the place is its offset in the map, 4, 8 or 12",
        /*  4 */ "the map's length is not what its counts need; the place is the length needed",
        /*  5 */ "a junction's first road, car park or name is out of range; the place is the lowest such junction",
        /*  6 */ "a road's from, to, metres, speed or next road is out of range; the place is the lowest such road",
        /*  7 */ "a road is not on the chain of its from-junction, or is on another's; the place is the lowest such road",
        /*  8 */ "a byte of the names is outside 0x20 to 0x7E; the place is the lowest such offset in the map",
        /*  9 */ "the order is not 60 bytes long; the place is its length",
        /* 10 */ "a limit or a pause of the rules is out of range; the place is the first such word of an order, 6 to 13",
        /* 11 */ "the trip or a starting figure is out of range; the place is the first such word of an order, 0, 1, 3, 4, 5 or 14",
        /* 12 */ "more labels are needed than fit; the place is how many fit",
        /* 13 */ "no legal journey exists; the place is the number of labels",
        /* 14 */ "the sheet to write is too short; the place is the bytes needed",
        /* 15 */ "the length of the sheet to read does not fit its moves, at most 999,999; the place is that length",
        /* 16 */ "a move is not offered where it is taken; the place is the move, from 1",
        /* 17 */ "a move takes a figure over its limit or the clock past the latest arrival; the place is the move, from 1",
        /* 18 */ "a clock or the header is not true; the place is the move, from 1, and for the header the moves + 1",
        /* 19 */ "the moves do not end at the target; the place is the junction reached",
        /* 20 */ "the map has no such junction; the place is the junction asked for",
        /* 21 */ "the trace's length is not a multiple of 8; the place is its length",
        /* 22 */ "a record's activity is not 0 to 2 or its seconds are not 1 to 1,000,000; the place is the record, from 1",
        /* 23 */ "driving takes a figure over its limit; the place is the record, from 1",
        /* 24 */ "the map has no such road; the place is the road asked for",
        /* 25 */ "a number of the ban list is 0, above the road count or not above the one before; the place is its position, from 1",
    };
    return number < sizeof texts / sizeof *texts ? texts[number] : "no such refusal";
}

/* Map check. Reads the map. Refuses 1 to 8; success is 0, 0, 0. */
void trunk_check_map(const uint8_t *map, size_t map_length,
                     uint64_t *reply, size_t reply_count);

/* Order check: an order and its ban list alone, as they are typed. Reads both; `junctions` and `roads` are J and R of the
 * map that they are meant for, the words at offsets 4 and 8 of that map, and are not judged themselves. Refuses 9 to 11,
 * 25; success is 0, 0, 0. Planning, the preview, retiming and audit judge order and list likewise, after the map. */
void trunk_check_order(const uint8_t *order, size_t order_length,
                       const uint32_t *bans, size_t ban_count,
                       uint32_t junctions, uint32_t roads,
                       uint64_t *reply, size_t reply_count);

/* Planning. Reads the map, the order and its ban list; writes the plan to the sheet, and uses `words` as label space,
 * TRUNK_LABEL_WORDS a label, at most TRUNK_MOST_LABELS of them. What the words hold before does not matter; afterwards
 * they hold nothing of use. Refuses 1 to 11, 25, 12 to 14; 1 to 11 and 25 leave the words as they were. Success is 0, the
 * number of labels, the arrival: the sheet then holds the plan in its first 24 + 12 * moves bytes, and the bytes after them
 * stay. The clock after a drive has the queue in it: arrival less departure is the road times, the pauses and the queues. */
void trunk_plan(const uint8_t *map, size_t map_length,
                const uint8_t *order, size_t order_length,
                const uint32_t *bans, size_t ban_count,
                uint32_t *words, size_t word_count,
                uint8_t *sheet, size_t sheet_length,
                uint64_t *reply, size_t reply_count);

/* Retiming. Reads a map, an order with its ban list and a sheet, of which the figures do not count; writes the same moves
 * with their true figures to `out`, queues counted. Give the sheet read its own length, 24 + 12 * moves, and no more.
 * Refuses 1 to 11, 25, 15, 16 and 17 move by move, 19, 14. Success is 0, the number of moves, the arrival; bytes of `out`
 * after 24 + 12 * moves stay. */
void trunk_retime(const uint8_t *map, size_t map_length,
                  const uint8_t *order, size_t order_length,
                  const uint32_t *bans, size_t ban_count,
                  const uint8_t *sheet, size_t sheet_length,
                  uint8_t *out, size_t out_length,
                  uint64_t *reply, size_t reply_count);

/* Audit: whether a sheet's moves are legal under the map, the order and its ban list, and its figures true; its label count
 * is not judged. Writes nothing but the reply. Refuses 1 to 11, 25, 15, 16 to 18 move by move, 19, 18 for the header.
 * Success is 0, the number of moves, the arrival. */
void trunk_audit(const uint8_t *map, size_t map_length,
                 const uint8_t *order, size_t order_length,
                 const uint32_t *bans, size_t ban_count,
                 const uint8_t *sheet, size_t sheet_length,
                 uint64_t *reply, size_t reply_count);

/* Name of a junction. Writes to `part` where in the map the name starts and how long it is, 0 and 0 when refused. `part`
 * takes two numbers; with less room than that the call does nothing, as with a short reply. The name has no byte 0 at its
 * end. Beware that `part` comes behind the reply here. Refuses 1 to 8, 20. Success is 0, the name's length, 0. */
void trunk_name(const uint8_t *map, size_t map_length,
                uint32_t junction,
                uint64_t *reply, size_t reply_count,
                uint64_t *part, size_t part_count);

/* Chain making. Sets each junction's first road and each road's next road in the map, whatever they were, so that each
 * chain rises through all its junction's roads. Changes nothing else; the map then passes the map check. Refuses 1 to 6,
 * not judging those fields, and 8. Success is 0, 0, 0. */
void trunk_make_chains(uint8_t *map, size_t map_length,
                       uint64_t *reply, size_t reply_count);

/* Replaying: hours from the tachograph. Reads a trace and the rules, and brings the driver's figures up to date by each
 * record: spell, shift, week, and the mark, which is not judged. Driving adds its seconds to spell, shift and week.
 * Neighbouring pauses are one pause, judged whole, with the mark from before it: at least as long as the break it clears
 * spell and the mark, at least as long as the rest shift too, at least as long as the weekly rest week too. A pause shorter
 * than the break counts only where the rules have a split, both parts not 0: with the mark and at least as long as the
 * second part it clears mark and spell, otherwise it sets the mark if it is at least as long as the first part. Other work
 * clears nothing and ends a pause, and so does the trace's end: the pauses of two traces are not joined. `rules` takes
 * TRUNK_RULE_WORDS and `figures` TRUNK_FIGURE_WORDS; with less room than that the call does nothing, as with a short reply,
 * and words behind them are not read and stay. Any number but 0 is a mark; a success writes 0 or 1 for it. Refuses 10 and 11
 * as the order check does, at place 6 to 13 and 4, 5 or 14; 21; 22 and 23 record by record. A refused trace leaves every
 * word of the figures as it was. Success is 0, the number of records, 0; an empty trace is one.
 *
 * Fifteen words `w` that hold an order have the rules from w + 6 on. The figures stand apart in it and need room of their
 * own; spell, shift and week are then copied back:
 *     uint32_t figures[TRUNK_FIGURE_WORDS] = {w[4], w[5], w[14], 0};
 *     trunk_replay(trace, trace_length, w + 6, TRUNK_RULE_WORDS, figures, TRUNK_FIGURE_WORDS, reply, 3);
 *     w[4] = figures[0], w[5] = figures[1], w[14] = figures[2];
 * Planning makes no use of a mark that the trace leaves: an order's start carries none. The next trace may begin with
 * it. */
void trunk_replay(const uint8_t *trace, size_t trace_length,
                  const uint32_t *rules, size_t rule_count,
                  uint32_t *figures, size_t figure_count,
                  uint64_t *reply, size_t reply_count);

/* Striking a road, as for a closure. Sets the road's to-junction in the map to its from-junction, so that it leads
 * nowhere; roads count from 1. Changes nothing else: the road stays on its chain, and the map passes the map check as
 * before. A road that leads back already is struck without a change. Refuses 1 to 8, 24. Success is 0, 0, 0. Nothing tells
 * afterwards where the road led, so keep a copy of the map for the end of the closure. */
void trunk_strike(uint8_t *map, size_t map_length,
                  uint32_t road,
                  uint64_t *reply, size_t reply_count);

/* Preview of a closure: the plan that there would be without this road. Answers and writes exactly what trunk_plan would
 * with a copy of the map in which trunk_strike has struck the road, and only reads the map: it needs no copy, and the map
 * keeps all its bytes. Ban list, words and sheet are lent as for trunk_plan; a struck road keeps its ban. Refuses 1 to 11,
 * which judge the map as it is, 24, 25, then 12 to 14 of the trip without the road; 1 to 11, 24 and 25 leave the words as
 * they were. Success is that of trunk_plan: 0, the number of labels, the arrival. */
void trunk_preview(const uint8_t *map, size_t map_length,
                   const uint8_t *order, size_t order_length,
                   const uint32_t *bans, size_t ban_count,
                   uint32_t road,
                   uint32_t *words, size_t word_count,
                   uint8_t *sheet, size_t sheet_length,
                   uint64_t *reply, size_t reply_count);

#ifdef __cplusplus
}
#endif

#endif
