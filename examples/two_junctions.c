/* Writes a map of two junctions and one road word by word, as docs/FORMATS.md does, plans the trip from one to the other
 * and prints the reply and the one move. Run it by examples/run.sh, which also builds it with an earlier LATEST to see a
 * refusal. */
#include <string.h>
#include "listing.h"

#ifndef LATEST
#define LATEST 100 /* the latest arrival */
#endif

enum { MAP_WORDS = 4 + 2 * 4 + 5, NAME_BYTES = 2, ORDER_WORDS = TRUNK_ORDER_BYTES / 4 };

static const uint32_t map_words[MAP_WORDS] = {
    1, 2, 1, NAME_BYTES, /* header: format, junctions, roads, name bytes */
    1, 0, 0, 1,          /* A: first road, no car park, name start, name length */
    0, 0, 1, 1,          /* B: no road leaves it */
    1, 2, 1000, 80, 0,   /* road 1: from, to, metres, km per hour, next road */
};

static const uint32_t order_words[ORDER_WORDS] = {
    1, 2, 0, LATEST, /* source, target, departure, latest arrival */
    0, 0,            /* spell and shift so far */
    TRUNK_EUROPEAN_SPELL_LIMIT, TRUNK_EUROPEAN_BREAK_TIME, TRUNK_EUROPEAN_SHIFT_LIMIT, TRUNK_EUROPEAN_REST_TIME,
    0, 0, /* no split break */
    TRUNK_EUROPEAN_WEEK_LIMIT, TRUNK_EUROPEAN_WEEKLY_REST,
    0, /* week so far */
};

int main(void) {
    uint8_t map[4 * MAP_WORDS + NAME_BYTES], order[TRUNK_ORDER_BYTES], sheet[100];
    uint32_t words[TRUNK_LABEL_WORDS * 2]; /* room for two labels */
    uint64_t reply[3];
    if (trunk_version() != TRUNK_VERSION) {
        fputs("the library is of another version than the header\n", stderr);
        return 1;
    }
    put_words(map, map_words, MAP_WORDS);
    memcpy(map + 4 * MAP_WORDS, "AB", NAME_BYTES);
    put_words(order, order_words, ORDER_WORDS);

    trunk_plan(map, sizeof map, order, sizeof order, no_bans, 0, words, sizeof words / sizeof *words, sheet, sizeof sheet,
               reply, 3);
    if (refused(reply)) {
        return 1;
    }
    printf("reply %" PRIu64 " %" PRIu64 " %" PRIu64 "\n", reply[0], reply[1], reply[2]);
    print_moves(map, sizeof map, sheet);
    return 0;
}
