/* Plans map T on a Sunday, with no road banned and with the last one banned, and then times the first plan's moves under
 * the ban: the lorry queues at the gate until 22:00, and a rest in place of the queue costs nothing. Run it by
 * examples/run.sh. */
#include "map_t.h"

enum { ORDER_WORDS = TRUNK_ORDER_BYTES / 4, WEEK_ON_SHEET = 16 };
enum { SUNDAY = 1 * TRUNK_DAY_SECONDS, MONDAY = 2 * TRUNK_DAY_SECONDS }; /* 2 and 3 January 2000, at 00:00 */

static const uint32_t order_words[ORDER_WORDS] = {
    1, 3, SUNDAY, MONDAY, /* source, target, departure, latest arrival */
    0, 0,                 /* spell and shift so far */
    TRUNK_EUROPEAN_SPELL_LIMIT, TRUNK_EUROPEAN_BREAK_TIME, TRUNK_EUROPEAN_SHIFT_LIMIT, TRUNK_EUROPEAN_REST_TIME,
    0, 0, /* no split break */
    TRUNK_EUROPEAN_WEEK_LIMIT, TRUNK_EUROPEAN_WEEKLY_REST,
    0, /* week so far */
};
static const uint32_t bans[] = {2}; /* the road from Lay to End */

static uint8_t order[TRUNK_ORDER_BYTES];

static size_t length_of(const uint8_t *sheet) {
    return TRUNK_SHEET_HEADER_BYTES + TRUNK_SHEET_RECORD_BYTES * (size_t)word_at(sheet, 0);
}

/* What is neither a pause nor driving, of which the week has all: the driver comes from a weekly rest and takes none. */
static uint32_t queues_of(const uint8_t *sheet) {
    uint32_t clock = SUNDAY, pauses = 0;
    for (size_t at = TRUNK_SHEET_HEADER_BYTES; at < length_of(sheet); at += TRUNK_SHEET_RECORD_BYTES) {
        uint32_t after = word_at(sheet, at + 8);
        pauses += word_at(sheet, at) == TRUNK_DRIVE ? 0 : after - clock;
        clock = after;
    }
    return clock - SUNDAY - pauses - word_at(sheet, WEEK_ON_SHEET);
}

static void print_plan(const char *title, const uint8_t *sheet) {
    printf("%s: arrives %u, shift %u, queues %u\n", title, word_at(sheet, 4), word_at(sheet, 12), queues_of(sheet));
    print_moves(map, sizeof map, sheet);
}

/* Whether there is a plan with so many of the bans. */
static int plan(const char *title, size_t ban_count, uint8_t *sheet, size_t sheet_length) {
    static uint32_t words[TRUNK_LABEL_WORDS * 100]; /* room for 100 labels */
    uint64_t reply[3];
    trunk_plan(map, sizeof map, order, sizeof order, bans, ban_count, words, sizeof words / sizeof *words, sheet,
               sheet_length, reply, 3);
    if (refused(reply)) {
        return 0;
    }
    print_plan(title, sheet);
    return 1;
}

int main(void) {
    uint8_t open[1000], banned[1000], retimed[1000];
    uint64_t reply[3];
    make_map();
    put_words(order, order_words, ORDER_WORDS);
    if (!plan("no ban", 0, open, sizeof open) || !plan("road 2 banned", 1, banned, sizeof banned)) {
        return 1;
    }
    trunk_retime(map, sizeof map, order, sizeof order, bans, 1, open, length_of(open), retimed, sizeof retimed, reply, 3);
    if (refused(reply)) {
        return 1;
    }
    print_plan("the first plan under the ban", retimed);
    return 0;
}
