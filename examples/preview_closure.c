/* Plans a trip, previews it with each road of the map closed, then strikes one of them and plans again. Run it by
 * examples/run.sh. */
#include <string.h>
#include "listing.h"

enum { JUNCTIONS = 4, ROADS = 4, MAP_WORDS = 4 + 4 * JUNCTIONS + 5 * ROADS, NAME_BYTES = 12 };
enum { ORDER_WORDS = TRUNK_ORDER_BYTES / 4, CLOSED = 2 };

static const uint32_t map_words[MAP_WORDS] = {
    1, JUNCTIONS, ROADS, NAME_BYTES, /* header */
    1, 0, 0, 3,                      /* Hub: first road, car park, name start, name length */
    2, 1, 3, 3,                      /* Lay, a car park */
    4, 1, 6, 3,                      /* Inn, a car park */
    0, 0, 9, 3,                      /* End */
    1, 2, 240000, 80, 0,             /* road 1: from, to, metres, km per hour, next road */
    2, 4, 160000, 80, 3,             /* from Lay straight on */
    2, 3, 100000, 80, 0,             /* from Lay round by Inn */
    3, 4, 120000, 80, 0,
};

static const uint32_t order_words[ORDER_WORDS] = {
    1, 4, 0, 100000, /* source, target, departure, latest arrival */
    0, 0, /* spell and shift so far */
    TRUNK_EUROPEAN_SPELL_LIMIT, TRUNK_EUROPEAN_BREAK_TIME, TRUNK_EUROPEAN_SHIFT_LIMIT, TRUNK_EUROPEAN_REST_TIME,
    0, 0, /* no split break */
    TRUNK_EUROPEAN_WEEK_LIMIT, TRUNK_EUROPEAN_WEEKLY_REST,
    0, /* week so far */
};

static uint8_t map[4 * MAP_WORDS + NAME_BYTES], order[TRUNK_ORDER_BYTES], sheet[1000];
static uint32_t words[TRUNK_LABEL_WORDS * 100]; /* room for 100 labels */
static const size_t word_count = sizeof words / sizeof *words;

/* Whether there is a plan. */
static int plan(uint64_t *reply) {
    trunk_plan(map, sizeof map, order, sizeof order, no_bans, 0, words, word_count, sheet, sizeof sheet, reply, 3);
    return !refused(reply);
}

/* What the road's closure costs; the map stays as it is. Whether the preview has an answer. */
static int preview(uint32_t road, uint64_t arrival) {
    uint64_t reply[3];
    trunk_preview(map, sizeof map, order, sizeof order, no_bans, 0, road, words, word_count, sheet, sizeof sheet, reply, 3);
    if (reply[0] == TRUNK_NO_ROAD) {
        printf("road %u closed: no road is left\n", road);
        return 1;
    }
    if (refused(reply)) {
        return 0;
    }
    printf("road %u closed: arrives %" PRIu64 ", %" PRIu64 " later\n", road, reply[2], reply[2] - arrival);
    return 1;
}

/* Whether the road is struck. */
static int strike(uint32_t road) {
    uint64_t reply[3];
    trunk_strike(map, sizeof map, road, reply, 3);
    return !refused(reply);
}

int main(void) {
    uint64_t reply[3];
    put_words(map, map_words, MAP_WORDS);
    memcpy(map + 4 * MAP_WORDS, "HubLayInnEnd", NAME_BYTES);
    put_words(order, order_words, ORDER_WORDS);

    if (!plan(reply)) {
        return 1;
    }
    printf("all open: arrives %" PRIu64 "\n", reply[2]);
    print_moves(map, sizeof map, sheet);
    for (uint32_t road = 1; road <= ROADS; road++) {
        if (!preview(road, reply[2])) {
            return 1;
        }
    }

    if (!strike(CLOSED) || !plan(reply)) {
        return 1;
    }
    printf("road %d struck: arrives %" PRIu64 "\n", CLOSED, reply[2]);
    print_moves(map, sizeof map, sheet);
    return 0;
}
