/* Plans map T and prints the reply and the moves on the sheet. Run it by examples/run.sh. */
#include "map_t.h"

enum { ORDER_WORDS = TRUNK_ORDER_BYTES / 4 };

static const uint32_t order_words[ORDER_WORDS] = {
    1, 3, 0, 100000, /* source, target, departure, latest arrival */
    0, 0, /* spell and shift so far */
    TRUNK_EUROPEAN_SPELL_LIMIT, TRUNK_EUROPEAN_BREAK_TIME, TRUNK_EUROPEAN_SHIFT_LIMIT, TRUNK_EUROPEAN_REST_TIME,
    0, 0, /* no split break */
    TRUNK_EUROPEAN_WEEK_LIMIT, TRUNK_EUROPEAN_WEEKLY_REST,
    0, /* week so far */
};

int main(void) {
    static uint8_t order[TRUNK_ORDER_BYTES], sheet[1000];
    static uint32_t words[TRUNK_LABEL_WORDS * 100]; /* room for 100 labels */
    uint64_t reply[3];
    make_map();
    put_words(order, order_words, ORDER_WORDS);

    trunk_plan(map, sizeof map, order, sizeof order, no_bans, 0, words, sizeof words / sizeof *words, sheet, sizeof sheet,
               reply, 3);
    if (refused(reply)) {
        return 1;
    }
    print_reply(reply);
    print_moves(map, sizeof map, sheet);
    return 0;
}
