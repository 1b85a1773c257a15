/* What the examples share: an empty ban list, words as bytes, a refusal in words, and the lines of a plan. */
#ifndef LISTING_H
#define LISTING_H

#include <inttypes.h>
#include <stdio.h>
#include "trunk.h"

/* With a count of 0: the pointer is not NULL. */
static const uint32_t no_bans[1];

static void put_words(uint8_t *bytes, const uint32_t *words, size_t count) {
    for (size_t i = 0; i < count; i++) {
        for (int b = 0; b < 4; b++) {
            bytes[4 * i + b] = (uint8_t)(words[i] >> (8 * b));
        }
    }
}

static uint32_t word_at(const uint8_t *bytes, size_t at) {
    return bytes[at] | (uint32_t)bytes[at + 1] << 8 | (uint32_t)bytes[at + 2] << 16 | (uint32_t)bytes[at + 3] << 24;
}

/* Whether the call has refused, which is told on standard error. */
static int refused(const uint64_t *reply) {
    if (reply[0] == TRUNK_DONE) {
        return 0;
    }
    fprintf(stderr, "refusal %" PRIu64 ", place %" PRIu64 ": %s\n", reply[0], reply[1], trunk_refusal_text(reply[0]));
    return 1;
}

/* Where a road leads. */
static uint32_t end_of(const uint8_t *map, uint32_t road) {
    uint32_t junctions = word_at(map, 4);
    return word_at(map, 16 + 16 * (size_t)junctions + 20 * (size_t)(road - 1) + 4);
}

static void print_move(const uint8_t *map, size_t map_length, const uint8_t *record) {
    static const char *const kinds[] = {"", "drive", "break", "rest", "first", "second", "weekly"};
    uint32_t kind = word_at(record, 0), number = word_at(record, 4);
    uint32_t reached = kind == TRUNK_DRIVE ? end_of(map, number) : number;
    uint64_t reply[3], part[2];
    trunk_name(map, map_length, reached, reply, 3, part, 2);
    printf("%s %u %.*s %u\n", kinds[kind], number, (int)part[1], (const char *)map + part[0], word_at(record, 8));
}

static void print_moves(const uint8_t *map, size_t map_length, const uint8_t *sheet) {
    for (uint32_t k = 0; k < word_at(sheet, 0); k++) {
        print_move(map, map_length, sheet + TRUNK_SHEET_HEADER_BYTES + TRUNK_SHEET_RECORD_BYTES * k);
    }
}

#endif
