/* A closed month over the host library: September's rents are on the board, and the books are closed to 30 September.
 *
 *     cc closed_month.c -L ../../target/staticlib -lhost -o closed_month && ./closed_month
 *
 * Days are counted from 1 September, which is day 1: 30 September is day 30 and 1 October day 31. A host may count from
 * any day, as long as a later one has the greater number.
 */
#include <stdio.h>

#include "gevnyusto.h"

enum { RENTS, RECEIPTS };
/* Rents and receipts leave; chord 0 joins one of each with equal property numbers. */
static const uint8_t table[20] = {2, 0, 1, 0, 2, 0, 12, 0, 14, 0, 18, 0, 0, 0, 0, 0, 2, 1, 0, 1};
static uint16_t board[GV_BOARD], links[GV_LINKS];
static uint8_t bytes[GV_BYTES];
static uint32_t keys[GV_KEYS];
static int64_t cents[GV_CENTS];

#define TABLE table, sizeof table
#define LISTS board, GV_BOARD, bytes, GV_BYTES, links, GV_LINKS, keys, GV_KEYS, cents, GV_CENTS

/* Prints what an add or a close answers. */
static void say(const char *what, uint32_t answer) {
    switch (GV_WORD(answer)) {
    case GV_ITEM:
        printf("%s: message %u\n", what, (unsigned)GV_VALUE(answer));
        break;
    case GV_CLOSED:
        printf("%s: closed\n", what);
        break;
    default:
        printf("%s: refused %u\n", what, (unsigned)GV_VALUE(answer));
    }
}

/* Prints a match: its rent and its receipt. */
static void say_match(uint16_t number) {
    int64_t match[GV_MATCH_NUMBERS];
    if (gv_read_match(TABLE, LISTS, number, match, GV_MATCH_NUMBERS) == 0)
        printf("  matches: rent %d and receipt %d\n", (int)match[3], (int)match[4]);
}

/* Sender 0 adds a message and steps until it is idle again. */
static void add(const char *what, uint16_t channel, uint32_t property, int64_t amount, uint32_t day) {
    uint32_t answer = gv_add(TABLE, LISTS, 0, channel, property, amount, day, 0);
    say(what, answer);
    while (GV_WORD(answer) != GV_REFUSED) {
        answer = gv_step(TABLE, LISTS, 0);
        if (GV_WORD(answer) == GV_MATCHED)
            say_match(GV_VALUE(answer));
    }
}

static void close_books(const char *what, uint32_t day) { say(what, gv_close(TABLE, LISTS, day)); }

int main(void) {
    if (gv_open(TABLE, board, GV_BOARD) != 0)
        return 1;
    add("rent of property 7, 1 September", RENTS, 7, -90000, 1);
    add("rent of property 8, 1 September", RENTS, 8, -75000, 1);
    add("receipt for property 7, 5 September", RECEIPTS, 7, 90000, 5);
    close_books("the books to 30 September", 30);
    add("late receipt for property 8, 30 September", RECEIPTS, 8, 75000, 30);
    add("receipt for property 8, 1 October", RECEIPTS, 8, 75000, 31);
    close_books("the books to 29 September", 29);
    close_books("the books to 30 September again", 30);
    printf("closed to day %u\n", (unsigned)keys[GV_CLOSE_DAY]);
    return 0;
}
