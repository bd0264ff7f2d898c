/* The scope paper's table P over the host library: a tenant waits for a payment, the payment comes, the two match.
 *
 *     cc table_p.c -L ../../target/staticlib -lhost -o table_p && ./table_p
 */
#include <stdio.h>

#include "gevnyusto.h"

/* Channel 0 leaves, channel 1 waits; chord 0 joins one of each with equal property numbers. */
static const uint8_t table[20] = {2, 0, 1, 0, 2, 0, 12, 0, 14, 0, 18, 0, 0, 1, 0, 0, 2, 1, 0, 1};
static uint16_t board[GV_BOARD], links[GV_LINKS];
static uint8_t bytes[GV_BYTES];
static uint32_t keys[GV_KEYS];
static int64_t cents[GV_CENTS];

#define TABLE table, sizeof table
#define LISTS board, GV_BOARD, bytes, GV_BYTES, links, GV_LINKS, keys, GV_KEYS, cents, GV_CENTS

static const char *const words[18] = {"item",     "looked", "missed", "claimed",   "lost",  "reverted",
                                      "matched",  "consumed", "told", "woke",      "freed", "signalled",
                                      "again",    "ended",  "rested", "answered",  "resumed", "refused"};

/* Prints an answer, with its number where the word has one; returns whether it is a refusal. */
static int say(uint16_t sender, uint32_t answer) {
    unsigned word = answer >> 16, value = answer & 65535;
    int plain = word == 2 || (word >= 12 && word <= 14) || word == 16;
    if (plain)
        printf("  sender %u: %s\n", (unsigned)sender, words[word]);
    else
        printf("  sender %u: %s %u\n", (unsigned)sender, words[word], value);
    return word == GV_REFUSED;
}

/* Steps a sender until a step is refused. */
static void run(uint16_t sender) {
    while (!say(sender, gv_step(TABLE, LISTS, sender))) {
    }
}

static int refused(uint8_t number) {
    if (number != 0)
        printf("refused %u\n", (unsigned)number);
    return number != 0;
}

int main(void) {
    int64_t slip, quiet, match[11];
    if (refused(gv_open(TABLE, board, GV_BOARD)))
        return 1;
    puts("sender 0 waits at channel 1 for property 7");
    say(0, gv_add(TABLE, LISTS, 0, 1, 7, 0, 0, 0));
    run(0);
    puts("sender 1 leaves 5000 cents for property 7");
    say(1, gv_add(TABLE, LISTS, 1, 0, 7, 5000, 0, 0));
    run(1);
    puts("sender 0 was signalled");
    run(0);
    if (refused(gv_read_reply(TABLE, LISTS, 0, &slip, 1)) || slip == 0)
        return 1;
    if (refused(gv_read_match(TABLE, LISTS, (uint16_t)(slip - 1), match, 11)))
        return 1;
    printf("match %d rule %d cents %lld items", (int)(slip - 1), (int)match[0], (long long)match[2]);
    for (int64_t at = 0; at < match[1]; at++)
        printf(" %d", (int)match[3 + at]);
    if (refused(gv_quiet(TABLE, LISTS, &quiet, 1)))
        return 1;
    printf("\nquiet %s\n", quiet ? "yes" : "no");
    return 0;
}
