/* The matching board for a host in C: link target/staticlib/libhost.a (rt staticlib host).
 *
 * Every list is a pointer, not null and aligned, and a length in elements. A list that a call may write overlaps no
 * other list of that call. Whatever the numbers are, a call returns a plain number and alters nothing when it refuses.
 *
 * A refusal: 1 to 7 for the table, 30 for a board that is not sound or lists of another length, 31 for a buffer
 * that is too short; 8 no such sender, 9 sender not idle, 10 no such channel, 11 cents out of range, 13 sender idle,
 * or blocked without signal, 14 no such message, 15 no such match, 17 wrong map of a merge, 18 merged table too large,
 * 19 day of an add closed, 20 close day before the present one, 21 backoff table that does not pass, 26 sender's own
 * messages and the common ones used.
 */
#ifndef GEVNYUSTO_H
#define GEVNYUSTO_H

#define GV_VERSION "0.8.0"

#include <stddef.h>
#include <stdint.h>

#ifdef __cplusplus
extern "C" {
#endif

/* A board is five lists, lent to a call in this order; of another length, or with other numbers than those of a sound
 * board, they are refused 30, after the table's own.
 *
 * board: 0 messages, 1 matches, then 21 numbers for each of the 32 senders, at 2 + 21 * sender:
 *   0 state (0 idle, 1 working, 2 blocked)   1 signalled (0, 1)
 *   2 own message, 3 waker, 4 reply, 5 match of the own message: each a number plus 1, 0 for none
 *   6 subject   7 chord
 *   8 phase (0 look, 1 claim, 2 revert, 3 consume, 4 tell, 5 wake, 6 free, 7 signal, 8 pass end, 9 backoff)
 *   9 the phase's place (0 for wake, signal, pass end)
 *   10 the phase's second number (revert: claims made; consume: match plus 1; else 0)
 *   11 retry (0, 1)   12 retries   13 to 20 the eight chosen messages
 *   and at GV_HAS_CLOSE 1 where a day is closed, 0 where none is; from GV_TALLIES each sender's tally, how many
 *   messages it has added: tallies sum to the messages, and what they are above GV_SHARE to GV_COMMON at most; from
 *   GV_BACKOFFS the backoff table that the board was opened with, which passes and which only an opening writes
 * bytes: a channel for each message; from GV_STATUSES a status (0 pending, 1 claimed, 2 woken, 3 consumed) for each;
 *   from GV_CHORDS a chord for each match
 * links: for each message the match that it notes plus 1, 0 for none; from GV_WAKERS its waker plus 1, 0 for none;
 *   from GV_MEMBERS eight messages for each match; from GV_UNITS a unit for each message
 * keys: a property number for each message; from GV_DAYS a day for each; at GV_CLOSE_DAY the close day, which is
 *   read only where a day is closed; where none is it may be anything, and only an accepted close writes it
 * cents: cents for each message */
#define GV_BOARD 723
#define GV_BYTES 3072
#define GV_LINKS 11264
#define GV_KEYS 2049
#define GV_CENTS 1024
#define GV_STATUSES 1024
#define GV_CHORDS 2048
#define GV_WAKERS 1024
#define GV_MEMBERS 2048
#define GV_UNITS 10240
#define GV_DAYS 1024
#define GV_HAS_CLOSE 674
#define GV_CLOSE_DAY 2048
#define GV_TALLIES 675
#define GV_BACKOFFS 707
#define GV_SENDERS 32
#define GV_MESSAGES 1024
#define GV_MATCHES 1024
#define GV_SHARE 16
#define GV_COMMON 512
#define GV_BACKOFF_ENTRIES 16
#define GV_MOST_RESTS 64

/* An answer: word * 65536 + value. The value is a message or a match, for GV_REFUSED the refusal, else 0. */
#define GV_WORD(answer) ((answer) >> 16)
#define GV_VALUE(answer) ((answer) & 0xffff)
enum gv_word {
    GV_ITEM, GV_LOOKED, GV_MISSED, GV_CLAIMED, GV_LOST, GV_REVERTED, GV_MATCHED, GV_CONSUMED, GV_TOLD,
    GV_WOKE, GV_FREED, GV_SIGNALLED, GV_AGAIN, GV_ENDED, GV_RESTED, GV_ANSWERED, GV_RESUMED, GV_REFUSED, GV_CLOSED
};

/* 0, or the refusal of a table. */
uint8_t gv_table_refusal(const uint8_t *table, size_t table_len);

/* Merges two tables. The map has a byte for each channel of the second: GV_NEW for a new channel, else the channel of
 * the first that it becomes, which waits or leaves as it does and which no other becomes. New channels follow the
 * first's in their order; the first's chords keep their numbers and the second's follow.
 * 0 and the merged table from the start of out, the bytes past it kept; its length is 12 + channels + 4 * chords +
 * members by its own header, at most GV_TABLE_BYTES. Or a refusal: 1 to 7 for the first table, then for the second,
 * 17 for a map that is not as above, 18 for more than 16 channels, 32 chords or 256 members, 31.
 * From an empty board on, calls that add (or try to) only to channels of the first that no chord of the second names
 * after the map answer the same under the merged table as under the first, and so does every read after them. */
#define GV_TABLE_BYTES 412
#define GV_NEW 255
uint8_t gv_merge_tables(
    const uint8_t *first, size_t first_len, const uint8_t *second, size_t second_len,
    const uint8_t *map, size_t map_len, uint8_t *out, size_t out_len);

/* Writes an empty board, with no day closed, all tallies 0 and the built-in backoff table, which is
 * 0 1 1 2 2 4 4 8 8 16 16 16 32 32 32 32; the other lists may hold anything. 0, 1 to 7, or 30 for a board of another
 * length. */
uint8_t gv_open(const uint8_t *table, size_t table_len, uint16_t *board, size_t board_len);

/* The same with a backoff table of one's own. After the k-th GV_AGAIN of a job a sender spends as many steps, each
 * GV_RESTED, as entry k says, from 1; beyond GV_BACKOFF_ENTRIES, as the last one says. A table passes if it has
 * GV_BACKOFF_ENTRIES entries, none over GV_MOST_RESTS and none less than the one before it.
 * 0, 1 to 7, 21 for one that does not pass, of no bytes too, or 30 for a board of another length. */
uint8_t gv_open_with_rests(
    const uint8_t *table, size_t table_len, const uint8_t *rests, size_t rests_len,
    uint16_t *board, size_t board_len);

/* The lists of a call that may write them. An add leaves the matches' chords and messages as they are, a step channels,
 * properties, days, units, cents and tallies, and both the close day. A close leaves everything else. None of them
 * writes the backoff table. */
#define GV_LISTS \
    uint16_t *board, size_t board_len, uint8_t *bytes, size_t bytes_len, uint16_t *links, size_t links_len, \
    uint32_t *keys, size_t keys_len, int64_t *cents, size_t cents_len

/* Adds a message: an answer. A chord's last byte in the table says which messages of a member's channel fit: 0 all,
 * 1 those with the property of the message in hand, 2 those with its property and its unit. Of those that fit a look
 * takes the one with the least day, the one with the lowest number of equal days.
 * GV_SHARE messages of the board are each sender's own, the other GV_COMMON are common: a sender's first GV_SHARE adds
 * use its own, those past them a common one each, and a message that is matched gives nothing back.
 * Refused 8, 9, 10, then 19 for the close day or one before it, then 11, then 26 where the sender's own and the common
 * ones are used; a refused add uses none. */
uint32_t gv_add(
    const uint8_t *table, size_t table_len, GV_LISTS,
    uint16_t sender, uint16_t channel, uint32_t property, int64_t amount, uint32_t day, uint16_t unit);

/* Takes one step of a sender: an answer. Its rests are those of the board's own backoff table. */
uint32_t gv_step(const uint8_t *table, size_t table_len, GV_LISTS, uint16_t sender);

/* Closes the books up to a day, that day included: an answer, GV_CLOSED and 0. From then on no message of that day or
 * of one before it is added; messages that are on the board still match. Any day can be closed, 0 too, which is
 * another thing than none closed. Refused 20 for a day before the close day; the close day itself is accepted again. */
uint32_t gv_close(const uint8_t *table, size_t table_len, GV_LISTS, uint32_t day);

/* Plays a list of calls, one after another, on a board that is tested once. Call i is calls[4 * i] (GV_STEP a step,
 * GV_CLOSE a close, any other an add), its sender calls[4 * i + 1], and for an add channel calls[4 * i + 2], unit
 * calls[4 * i + 3], property numbers[2 * i], day numbers[2 * i + 1] and amounts[i] cents; of a close the day,
 * numbers[2 * i + 1], is read and nothing else. Its answer goes to answers[i]. There are amounts_len calls.
 * 0, 1 to 7, 30 also for a calls_len other than 4 * amounts_len or a numbers_len other than 2 * amounts_len, or 31 for
 * too few answers. */
#define GV_STEP 0
#define GV_ADD 1
#define GV_CLOSE 2
uint8_t gv_replay(
    const uint8_t *table, size_t table_len, GV_LISTS, const uint16_t *calls, size_t calls_len,
    const uint32_t *numbers, size_t numbers_len, const int64_t *amounts, size_t amounts_len,
    uint32_t *answers, size_t answers_len);

/* The lists of a call that only reads. */
#define GV_READ_LISTS \
    const uint16_t *board, size_t board_len, const uint8_t *bytes, size_t bytes_len, \
    const uint16_t *links, size_t links_len, const uint32_t *keys, size_t keys_len, \
    const int64_t *cents, size_t cents_len

/* Reads: 0 and the numbers from the start of out, or a refusal: 1 to 7, 30, the read's own, then 31. */

/* Message: channel, property, cents, status, match plus 1, waker plus 1, day, unit. */
#define GV_MESSAGE_NUMBERS 8
uint8_t gv_read_message(
    const uint8_t *table, size_t table_len, GV_READ_LISTS, uint16_t message, int64_t *out, size_t out_len);

/* Match: chord, how many messages, cents, and eight messages, 0 past the last. */
#define GV_MATCH_NUMBERS 11
uint8_t gv_read_match(
    const uint8_t *table, size_t table_len, GV_READ_LISTS, uint16_t match, int64_t *out, size_t out_len);

/* A sender's reply: its match plus 1, 0 for none. */
uint8_t gv_read_reply(
    const uint8_t *table, size_t table_len, GV_READ_LISTS, uint16_t sender, int64_t *out, size_t out_len);

/* Whether no sender has a step to take: 1 or 0. */
uint8_t gv_quiet(const uint8_t *table, size_t table_len, GV_READ_LISTS, int64_t *out, size_t out_len);

#ifdef __cplusplus
}
#endif

#endif
