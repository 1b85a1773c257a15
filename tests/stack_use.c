/* Measures the stack that each call of the library takes, and fails where it is more than include/trunk.h says: the
 * bytes below its caller that a call changes. Frames are fixed and nothing recurses, so that a small map and the largest
 * one, with no road banned and with all, planned, previewed, retimed, struck and refused, and a trace replayed and refused
 * tell all. After `tools/build.sh library`:
 *     cc -O2 -pthread -Iinclude tests/stack_use.c target/staticlib/libtrunk.a -o target/stack_use && target/stack_use */
#define _XOPEN_SOURCE 600 /* pthread_attr_setstack */
#include <pthread.h>
#include <stdio.h>
#include <stdlib.h>
#include <string.h>
#include "trunk.h"

enum { LABELS = 45000, STACK_BYTES = 4 << 20 };
enum { SHEET_BYTES = TRUNK_SHEET_HEADER_BYTES + TRUNK_SHEET_RECORD_BYTES * LABELS };
enum { CLOSED_ROAD = 1 }; /* from junction 1 to 2, where the trips start: none drives it */

static uint8_t map[TRUNK_MOST_MAP_BYTES], order[TRUNK_ORDER_BYTES], sheet[SHEET_BYTES], out[SHEET_BYTES];
static size_t map_length, sheet_length, ban_count;
static uint32_t bans[TRUNK_MOST_ROADS]; /* every road, in its order */
static uint32_t words[TRUNK_LABEL_WORDS * LABELS];
static uint64_t reply[3], part[2];
static int plans, previews, strikes; /* that succeed, so that calls which only refuse do not pass for a measurement */

/* A day that uses up the hours of a driver who comes from a weekly rest: replayed again it is refused, and leaves the
 * figures. */
enum { DAY_RECORDS = 6, SPELL_LIMIT = TRUNK_EUROPEAN_SPELL_LIMIT, SHIFT_LIMIT = TRUNK_EUROPEAN_SHIFT_LIMIT };
static const uint32_t rules[TRUNK_RULE_WORDS] = {
    SPELL_LIMIT, TRUNK_EUROPEAN_BREAK_TIME, SHIFT_LIMIT, TRUNK_EUROPEAN_REST_TIME,
    TRUNK_EUROPEAN_FIRST_PART, TRUNK_EUROPEAN_SECOND_PART, TRUNK_EUROPEAN_WEEK_LIMIT, TRUNK_EUROPEAN_WEEKLY_REST,
};
static const uint32_t day[2 * DAY_RECORDS] = {
    TRUNK_DRIVING, 9000, TRUNK_PAUSE, 900,                        /* the first part of a split break, which sets the mark */
    TRUNK_DRIVING, SPELL_LIMIT - 9000, TRUNK_PAUSE, 1000,         /* the second part, in two neighbouring pauses */
    TRUNK_PAUSE, 800, TRUNK_DRIVING, SHIFT_LIMIT - SPELL_LIMIT,
};
static uint8_t trace[TRUNK_TRACE_RECORD_BYTES * DAY_RECORDS];
static uint32_t figures[TRUNK_FIGURE_WORDS];

static void version(void) { reply[0] = trunk_version(); }
static void check_map(void) { trunk_check_map(map, map_length, reply, 3); }
static void check_order(void) {
    trunk_check_order(order, sizeof order, bans, ban_count, 3, TRUNK_MOST_ROADS, reply, 3);
}
static void plan(void) {
    trunk_plan(map, map_length, order, sizeof order, bans, ban_count, words, TRUNK_LABEL_WORDS * LABELS, sheet, SHEET_BYTES,
               reply, 3);
}
static void preview(void) {
    trunk_preview(map, map_length, order, sizeof order, bans, ban_count, CLOSED_ROAD, words, TRUNK_LABEL_WORDS * LABELS, out,
                  SHEET_BYTES, reply, 3);
}
static void strike(void) { trunk_strike(map, map_length, CLOSED_ROAD, reply, 3); }
static void retime(void) {
    trunk_retime(map, map_length, order, sizeof order, bans, ban_count, sheet, sheet_length, out, SHEET_BYTES, reply, 3);
}
static void audit(void) {
    trunk_audit(map, map_length, order, sizeof order, bans, ban_count, sheet, sheet_length, reply, 3);
}
static void name(void) { trunk_name(map, map_length, 1, reply, 3, part, 2); }
static void make_chains(void) { trunk_make_chains(map, map_length, reply, 3); }
static void replay(void) {
    trunk_replay(trace, sizeof trace, rules, TRUNK_RULE_WORDS, figures, TRUNK_FIGURE_WORDS, reply, 3);
}

/* Chains are made before the map is checked, a plan before it is retimed and audited, and the road is struck last. */
static struct {
    const char *name;
    void (*call)(void);
    size_t enough, bytes;
} calls[] = {
    {"trunk_version", version, TRUNK_STACK_BYTES, 0},
    {"trunk_make_chains", make_chains, TRUNK_STACK_BYTES, 0},
    {"trunk_check_map", check_map, TRUNK_STACK_BYTES, 0},
    {"trunk_check_order", check_order, TRUNK_STACK_BYTES, 0},
    {"trunk_plan", plan, TRUNK_PLAN_STACK_BYTES, 0},
    {"trunk_preview", preview, TRUNK_PLAN_STACK_BYTES, 0},
    {"trunk_retime", retime, TRUNK_STACK_BYTES, 0},
    {"trunk_audit", audit, TRUNK_STACK_BYTES, 0},
    {"trunk_name", name, TRUNK_STACK_BYTES, 0},
    {"trunk_replay", replay, TRUNK_STACK_BYTES, 0},
    {"trunk_strike", strike, TRUNK_STACK_BYTES, 0},
};
enum { CALLS = sizeof calls / sizeof *calls };

static uint8_t *put_words(uint8_t *at, const uint32_t *from, size_t count) {
    for (size_t i = 0; i < 4 * count; i++) {
        *at++ = (uint8_t)(from[i / 4] >> (8 * (i % 4)));
    }
    return at;
}

/* A ring of roads of a second each; further roads are the same again. */
static void make_map(uint32_t junctions, uint32_t roads, uint32_t name_bytes) {
    uint8_t *at = put_words(map, (uint32_t[]){1, junctions, roads, name_bytes}, 4);
    for (uint32_t j = 0; j < junctions; j++) {
        at = put_words(at, (uint32_t[]){0, 1, 0, 1}, 4);
    }
    for (uint32_t r = 0; r < roads; r++) {
        at = put_words(at, (uint32_t[]){r % junctions + 1, (r + 1) % junctions + 1, 1, 130, 0}, 5);
    }
    memset(at, 'n', name_bytes);
    map_length = (size_t)(at - map) + name_bytes;
}

static uint8_t *stack, *caller;

static void *run(void *call) {
    uint8_t here;
    caller = &here;
    (*(void (**)(void))call)();
    return NULL;
}

/* The bytes changed below the caller, on a stack that is filled with one value beforehand. */
static size_t changed_by(void (*call)(void), uint8_t filling) {
    pthread_attr_t attributes;
    pthread_t thread;
    memset(stack, filling, STACK_BYTES);
    if (pthread_attr_init(&attributes) || pthread_attr_setstack(&attributes, stack, STACK_BYTES) ||
        pthread_create(&thread, &attributes, run, &call) || pthread_join(thread, NULL)) {
        fputs("stack_use: no thread\n", stderr);
        exit(1);
    }
    uint8_t *lowest = stack;
    while (*lowest == filling) {
        lowest++;
    }
    return (size_t)(caller - lowest);
}

/* Every call, twice: a byte that is given the value it was filled with shows with the other filling. */
static void measure(void) {
    static const uint8_t fillings[] = {0xA5, 0x5A};
    for (int c = 0; c < CALLS; c++) {
        for (int f = 0; f < 2; f++) {
            size_t bytes = changed_by(calls[c].call, fillings[f]);
            calls[c].bytes = bytes > calls[c].bytes ? bytes : calls[c].bytes;
        }
        previews += calls[c].call == preview && reply[0] == TRUNK_DONE;
        strikes += calls[c].call == strike && reply[0] == TRUNK_DONE;
        if (calls[c].call == plan && reply[0] == TRUNK_DONE) {
            plans++;
            size_t moves = sheet[0] | sheet[1] << 8 | sheet[2] << 16 | (size_t)sheet[3] << 24;
            sheet_length = TRUNK_SHEET_HEADER_BYTES + TRUNK_SHEET_RECORD_BYTES * moves;
        }
    }
}

/* From junction 2 on Sunday 2 January 2000 at 00:00, for a driver who comes from a weekly rest. */
static void make_order(uint32_t target) {
    uint8_t *at = put_words(order, (uint32_t[]){2, target, TRUNK_DAY_SECONDS, TRUNK_DAY_SECONDS + 100000, 0, 0}, 6);
    at = put_words(at, rules, TRUNK_RULE_WORDS);
    put_words(at, (uint32_t[]){0}, 1);
}

/* With no road banned, then with all. */
static void measure_on(uint32_t junctions, uint32_t roads, uint32_t name_bytes) {
    for (ban_count = 0; ban_count <= roads; ban_count += roads) {
        make_map(junctions, roads, name_bytes);
        measure();
    }
}

int main(void) {
    stack = aligned_alloc(4096, STACK_BYTES);
    put_words(trace, day, 2 * DAY_RECORDS);
    for (uint32_t road = 1; road <= TRUNK_MOST_ROADS; road++) {
        bans[road - 1] = road;
    }
    for (uint32_t target = 0; target <= 3; target++) {
        make_order(target);
        measure_on(3, 3, 9);
        measure_on(TRUNK_MOST_JUNCTIONS, TRUNK_MOST_ROADS, TRUNK_MOST_NAME_BYTES);
    }
    int failed = plans != 12 || previews != 12 || strikes != 16;
    failed |= figures[0] != SPELL_LIMIT || figures[1] != SHIFT_LIMIT || figures[2] != SHIFT_LIMIT || figures[3] != 0;
    for (int c = 0; c < CALLS; c++) {
        printf("%-17s %7zu bytes of stack\n", calls[c].name, calls[c].bytes);
        failed |= calls[c].bytes > calls[c].enough;
    }
    return failed;
}
