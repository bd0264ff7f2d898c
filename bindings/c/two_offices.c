/* An office joins another: their tables merged over the host library, and table P's run under the merged table too.
 *
 *     cc two_offices.c -L ../../target/staticlib -lhost -o two_offices && ./two_offices
 */
#include <stdio.h>

#include "gevnyusto.h"

/* The scope paper's table P: channel 0 leaves, channel 1 waits; chord 0 joins one of each with equal properties. */
static const uint8_t first[20] = {2, 0, 1, 0, 2, 0, 12, 0, 14, 0, 18, 0, 0, 1, 0, 0, 2, 1, 0, 1};
/* Receipts leave, releases wait, deposits leave; chord 0 joins a release and a deposit with equal properties. */
static const uint8_t second[21] = {3, 0, 1, 0, 2, 0, 12, 0, 15, 0, 19, 0, 0, 1, 0, 0, 0, 2, 1, 1, 2};
/* Receipts go to channel 0 of the first, releases and deposits to new channels; or receipts to one that waits. */
static const uint8_t map[3] = {0, GV_NEW, GV_NEW}, wrong_map[3] = {1, GV_NEW, GV_NEW};
static uint8_t merged[GV_TABLE_BYTES];

struct lists {
    uint16_t board[GV_BOARD], links[GV_LINKS];
    uint8_t bytes[GV_BYTES];
    uint32_t keys[GV_KEYS];
    int64_t cents[GV_CENTS];
};
static struct lists one, two;

#define LENT(l) \
    (l).board, GV_BOARD, (l).bytes, GV_BYTES, (l).links, GV_LINKS, (l).keys, GV_KEYS, (l).cents, GV_CENTS

static const char *const words[18] = {
    "item", "looked", "missed", "claimed", "lost", "reverted", "matched", "consumed", "told", "woke", "freed",
    "signalled", "again", "ended", "rested", "answered", "resumed", "refused"
};

/* Prints an answer, with its number where the word has one. */
static void put(const char *under, uint32_t answer) {
    unsigned word = GV_WORD(answer);
    int plain = word == GV_MISSED || (word >= GV_AGAIN && word <= GV_RESTED) || word == GV_RESUMED;
    printf("%s%s", under, words[word]);
    if (!plain)
        printf(" %u", (unsigned)GV_VALUE(answer));
}

/* Prints what a call answers under the first table and under the merged one; returns whether both refuse. */
static int say(uint16_t sender, uint32_t alone, uint32_t together) {
    printf("  sender %u: ", (unsigned)sender);
    put("", alone);
    put(", merged: ", together);
    puts("");
    return GV_WORD(alone) == GV_REFUSED && GV_WORD(together) == GV_REFUSED;
}

static size_t merged_len(void) { return 12 + merged[0] + 4 * merged[2] + (merged[4] | merged[5] << 8); }

static void add(uint16_t sender, uint16_t channel, int64_t amount) {
    say(sender, gv_add(first, sizeof first, LENT(one), sender, channel, 7, amount, 0, 0),
        gv_add(merged, merged_len(), LENT(two), sender, channel, 7, amount, 0, 0));
}

/* Steps a sender under both tables until both refuse. */
static void run(uint16_t sender) {
    while (!say(sender, gv_step(first, sizeof first, LENT(one), sender),
                gv_step(merged, merged_len(), LENT(two), sender))) {
    }
}

static uint8_t merge(const uint8_t *by) {
    return gv_merge_tables(first, sizeof first, second, sizeof second, by, 3, merged, sizeof merged);
}

int main(void) {
    printf("a map of receipts to a channel that waits: refused %u\n", (unsigned)merge(wrong_map));
    if (merge(map) != 0)
        return 1;
    printf("merged: %u channels, %u chords, %u members in %u bytes\n", (unsigned)merged[0], (unsigned)merged[2],
           (unsigned)merged[4], (unsigned)merged_len());
    if (gv_open(first, sizeof first, one.board, GV_BOARD) || gv_open(merged, merged_len(), two.board, GV_BOARD))
        return 1;
    puts("sender 0 waits at channel 1, sender 1 leaves 5000 cents at channel 0");
    add(0, 1, 0);
    run(0);
    add(1, 0, 5000);
    run(1);
    run(0);
    puts("a deposit, which the first table does not have");
    add(1, 3, 800);
    return 0;
}
