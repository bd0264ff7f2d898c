/* One import over the host library: a desk brings in all the receipts of a bank file, more than it may add, and another
 * desk still adds its rents, which match.
 *
 *     cc one_import.c -L ../../target/staticlib -lhost -o one_import && ./one_import
 *
 * Desks are senders: GV_SHARE of the board's messages are each one's own, and the other GV_COMMON are there for all.
 */
#include <stdio.h>

#include "gevnyusto.h"

enum { RENTS, RECEIPTS };
enum { IMPORT, DESK };
/* Rents and receipts leave; chord 0 joins one of each with equal property numbers. */
static const uint8_t table[20] = {2, 0, 1, 0, 2, 0, 12, 0, 14, 0, 18, 0, 0, 0, 0, 0, 2, 1, 0, 1};
static uint16_t board[GV_BOARD], links[GV_LINKS];
static uint8_t bytes[GV_BYTES];
static uint32_t keys[GV_KEYS];
static int64_t cents[GV_CENTS];

#define TABLE table, sizeof table
#define LISTS board, GV_BOARD, bytes, GV_BYTES, links, GV_LINKS, keys, GV_KEYS, cents, GV_CENTS

/* Prints what an add answers. */
static void say(const char *what, uint32_t answer) {
    printf("%s: %s %u\n", what, GV_WORD(answer) == GV_ITEM ? "message" : "refused", (unsigned)GV_VALUE(answer));
}

/* The sender steps until it is idle again; prints a match: its rent and its receipt. */
static void work(uint16_t sender) {
    uint32_t answer;
    int64_t match[GV_MATCH_NUMBERS];
    while (GV_WORD(answer = gv_step(TABLE, LISTS, sender)) != GV_REFUSED)
        if (GV_WORD(answer) == GV_MATCHED &&
            gv_read_match(TABLE, LISTS, GV_VALUE(answer), match, GV_MATCH_NUMBERS) == 0)
            printf("  matches: rent %d and receipt %d\n", (int)match[3], (int)match[4]);
}

/* Receipts of one property after another, until one is refused. */
static void import_receipts(void) {
    uint32_t property = 0, answer;
    while (GV_WORD(answer = gv_add(TABLE, LISTS, IMPORT, RECEIPTS, property++, 90000, 0, 0)) == GV_ITEM)
        work(IMPORT);
    printf("the import: %u receipts\n", (unsigned)board[GV_TALLIES + IMPORT]);
    say("its next one", answer);
}

static void add_rent(const char *what, uint32_t property) {
    say(what, gv_add(TABLE, LISTS, DESK, RENTS, property, -90000, 0, 0));
    work(DESK);
}

int main(void) {
    if (gv_open(TABLE, board, GV_BOARD) != 0)
        return 1;
    import_receipts();
    add_rent("rent of property 7, by another desk", 7);
    add_rent("rent of property 8, by that desk", 8);
    say("one more receipt of the import", gv_add(TABLE, LISTS, IMPORT, RECEIPTS, 7, 90000, 0, 0));
    printf("that desk has added %u of its own %u\n", (unsigned)board[GV_TALLIES + DESK], (unsigned)GV_SHARE);
    return 0;
}
