/* Plans map T for a driver who comes from a weekly rest, then brings the hours up to date from a day's trace and plans
 * again: early in the week, and where the week is nearly driven. Run it by examples/run.sh. */
#include "map_t.h"

enum { RECORDS = 7, ORDER_WORDS = TRUNK_ORDER_BYTES / 4 };
enum { SPELL = 4, SHIFT = 5, SPELL_LIMIT = 6, WEEK = 14 }; /* words of an order; the rules begin with the spell limit */

/* What the tachograph has: activity and seconds. */
static const uint32_t day[2 * RECORDS] = {
    TRUNK_OTHER_WORK, 1800, /* loading */
    TRUNK_DRIVING, 10800,
    TRUNK_PAUSE, 1200, /* two neighbours, which are one pause, as long as a break */
    TRUNK_PAUSE, 1500,
    TRUNK_DRIVING, 4500,
    TRUNK_OTHER_WORK, 900,
    TRUNK_PAUSE, 900, /* too short for a break, but the first part of one */
};

/* From Hub to End with these hours behind the driver; whether there is a plan. An order has no place for the mark. */
static int plan(uint32_t *order_words, const uint32_t *figures) {
    static uint8_t order[TRUNK_ORDER_BYTES], sheet[1000];
    static uint32_t words[TRUNK_LABEL_WORDS * 100]; /* room for 100 labels */
    uint64_t reply[3];
    printf("spell %u shift %u week %u mark %u\n", figures[0], figures[1], figures[2], figures[3]);
    order_words[SPELL] = figures[0];
    order_words[SHIFT] = figures[1];
    order_words[WEEK] = figures[2];
    put_words(order, order_words, ORDER_WORDS);
    trunk_plan(map, sizeof map, order, sizeof order, no_bans, 0, words, sizeof words / sizeof *words, sheet, sizeof sheet,
               reply, 3);
    if (refused(reply)) {
        return 0;
    }
    print_reply(reply);
    print_moves(map, sizeof map, sheet);
    return 1;
}

/* Plans with the day behind these hours. */
static int plan_after_day(uint32_t *order_words, uint32_t *figures) {
    uint8_t trace[TRUNK_TRACE_RECORD_BYTES * RECORDS];
    uint64_t reply[3];
    put_words(trace, day, 2 * RECORDS);
    trunk_replay(trace, sizeof trace, order_words + SPELL_LIMIT, TRUNK_RULE_WORDS, figures, TRUNK_FIGURE_WORDS, reply, 3);
    if (refused(reply)) {
        return 0;
    }
    print_reply(reply);
    return plan(order_words, figures);
}

int main(void) {
    uint32_t order[ORDER_WORDS] = {
        1, 3, 0, 200000, /* source, target, departure, latest arrival */
        0, 0,            /* spell and shift so far, which plan sets */
        TRUNK_EUROPEAN_SPELL_LIMIT, TRUNK_EUROPEAN_BREAK_TIME, TRUNK_EUROPEAN_SHIFT_LIMIT, TRUNK_EUROPEAN_REST_TIME,
        TRUNK_EUROPEAN_FIRST_PART, TRUNK_EUROPEAN_SECOND_PART, /* of a split break */
        TRUNK_EUROPEAN_WEEK_LIMIT, TRUNK_EUROPEAN_WEEKLY_REST,
        0, /* week so far, which plan sets */
    };
    uint32_t from_weekly_rest[TRUNK_FIGURE_WORDS] = {0, 0, 0, 0};
    uint32_t late_in_the_week[TRUNK_FIGURE_WORDS] = {0, 0, 170000, 0}; /* and from a rest */
    make_map();
    int planned = plan(order, from_weekly_rest) && plan_after_day(order, from_weekly_rest) &&
                  plan_after_day(order, late_in_the_week);
    return planned ? 0 : 1;
}
