/* Slow links over the host library: two offices make the same calls, one with the built-in backoff table and one with
 * its own of long rests, while a desk that holds a receipt is slow to answer.
 *
 *     cc slow_links.c -L ../../target/staticlib -lhost -o slow_links && ./slow_links
 *
 * Desks are senders; one that finds the receipt held by another tries again, and first rests as the table says.
 */
#include <stdio.h>

#include "gevnyusto.h"

enum { RECEIPTS, RENTS };
enum { SLOW, OTHER };
/* Receipts and rents leave; chord 0 joins one of each with equal property numbers. */
static const uint8_t table[20] = {2, 0, 1, 0, 2, 0, 12, 0, 14, 0, 18, 0, 0, 0, 0, 0, 2, 1, 0, 1};
static uint16_t board[GV_BOARD], links[GV_LINKS];
static uint8_t bytes[GV_BYTES];
static uint32_t keys[GV_KEYS];
static int64_t cents[GV_CENTS];

#define TABLE table, sizeof table
#define LISTS board, GV_BOARD, bytes, GV_BYTES, links, GV_LINKS, keys, GV_KEYS, cents, GV_CENTS

static void add(uint16_t sender, uint16_t channel, int64_t amount) {
    gv_add(TABLE, LISTS, sender, channel, 7, amount, 0, 0);
}

/* So many steps of a sender, fewer where it is idle before; how many of them answered that word. */
static int steps(uint16_t sender, int most, enum gv_word word) {
    int count = 0;
    uint32_t answer;
    while (most-- > 0 && GV_WORD(answer = gv_step(TABLE, LISTS, sender)) != GV_REFUSED)
        count += GV_WORD(answer) == word;
    return count;
}

static void print_rests(const char *what) {
    printf("%s", what);
    for (int entry = 0; entry < GV_BACKOFF_ENTRIES; entry++)
        printf(" %u", (unsigned)board[GV_BACKOFFS + entry]);
    printf("\n");
}

/* A desk claims the only receipt for its rent, and takes no step while another, which has a rent too, takes 300. */
static void morning(const char *office) {
    print_rests(office);
    add(SLOW, RECEIPTS, 90000);
    steps(SLOW, 9, GV_ENDED);
    add(SLOW, RENTS, -90000);
    if (steps(SLOW, 3, GV_CLAIMED) == 1)
        printf("  a slow desk holds the receipt\n");
    add(OTHER, RENTS, -90000);
    for (int hundred = 0; hundred < 3; hundred++)
        printf("  the other desk takes 100 steps: it tries %d times in vain\n", steps(OTHER, 100, GV_AGAIN));
    if (steps(SLOW, 9, GV_MATCHED) == 1)
        printf("  the slow desk answers: its rent and the receipt match\n");
    printf("  the other desk rests for %d steps more and is done, its rent open\n", steps(OTHER, 99, GV_RESTED));
}

/* What an office is told of its table. */
static void offer(const char *what, const uint8_t *rests, size_t count) {
    uint8_t refusal = gv_open_with_rests(TABLE, rests, count, board, GV_BOARD);
    printf("%s: %s %u\n", what, refusal == 0 ? "opened" : "refused", (unsigned)refusal);
}

int main(void) {
    static const uint8_t slow[16] = {20, 20, 30, 30, 40, 40, 50, 50, 64, 64, 64, 64, 64, 64, 64, 64};
    static const uint8_t too_long[16] = {20, 20, 30, 30, 40, 40, 50, 50, 64, 64, 64, 64, 64, 64, 64, 65};
    static const uint8_t falling[16] = {20, 20, 30, 30, 40, 40, 50, 50, 64, 64, 64, 64, 64, 64, 64, 63};
    if (gv_open(TABLE, board, GV_BOARD) != 0)
        return 1;
    morning("an office with the built-in table:");
    if (gv_open_with_rests(TABLE, slow, sizeof slow, board, GV_BOARD) != 0)
        return 1;
    morning("an office with slow links:");
    offer("another table, without entries", slow, 0);
    offer("another, of fifteen entries", slow, 15);
    offer("another, with a rest of 65 steps", too_long, sizeof too_long);
    offer("another, with a rest shorter than the one before", falling, sizeof falling);
    print_rests("the office still has:");
    return 0;
}
