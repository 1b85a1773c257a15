/* Map T, of three junctions and three roads, for the examples, and how they print a reply. */
#ifndef MAP_T_H
#define MAP_T_H

#include <string.h>
#include "listing.h"

enum { JUNCTIONS = 3, ROADS = 3, MAP_WORDS = 4 + 4 * JUNCTIONS + 5 * ROADS, NAME_BYTES = 9 };

static const uint32_t map_words[MAP_WORDS] = {
    1, JUNCTIONS, ROADS, NAME_BYTES, /* header */
    1, 0, 0, 3,                      /* Hub: first road, car park, name start, name length */
    2, 1, 3, 3,                      /* Lay, a car park */
    0, 0, 6, 3,                      /* End */
    1, 2, 240000, 80, 3,             /* road 1: from, to, metres, km per hour, next road */
    2, 3, 160000, 80, 0,
    1, 3, 400000, 80, 0,
};

static uint8_t map[4 * MAP_WORDS + NAME_BYTES];

static void make_map(void) {
    put_words(map, map_words, MAP_WORDS);
    memcpy(map + 4 * MAP_WORDS, "HubLayEnd", NAME_BYTES);
}

static inline void print_reply(const uint64_t *reply) {
    printf("reply %" PRIu64 " %" PRIu64 " %" PRIu64 "\n", reply[0], reply[1], reply[2]);
}

#endif
