/* A libFuzzer target for the host library. An input plays a short schedule on table P, edits the board it leaves, and
 * makes one call with lengths that are mostly right, twice: every lent list ends at an inaccessible page, then every
 * list begins after one. Both calls must answer the same documented number, alter nothing when they refuse, and leave
 * a board that is accepted when they do not. Adds and closes must be refused for a closed day just where they are to
 * be, adds for want of messages just where their sender has none left, openings just where their backoff table does not
 * pass, and boards whose counts or backoff tables are no sound board's; an `again` must rest as the board's table says.
 * A merge of two tables, which are edited as its map is, must leave a table that is accepted.
 */
#include <stdint.h>
#include <stdio.h>
#include <stdlib.h>
#include <string.h>
#include <sys/mman.h>

#include "../../bindings/c/gevnyusto.h"

enum list {
    TABLE, BOARD, BYTES, LINKS, KEYS, CENTS, ROWS, NUMBERS, AMOUNTS, ANSWERS, OUT, SECOND, MAP, MERGED, RESTS, LISTS
};
enum call {
    REFUSAL, OPEN, OPEN_RESTS, ADD, STEP, CLOSE, REPLAY, READ_MESSAGE, READ_MATCH, READ_REPLY, QUIET, MERGE, CALLS
};
enum { PAGE = 4096, MOST_BYTES = 22536, REPLAYED = 24, MOST_CHANNELS = 16, BACKOFF = 9 };

/* Which numbers of a list a call may write: from one to another, and from a third on where that is not 0. */
struct range {
    size_t from, to, again;
};
#define ALL {0, SIZE_MAX, 0}
static const struct range written[CALLS][LISTS] = {
    [OPEN] = {[BOARD] = ALL},
    [OPEN_RESTS] = {[BOARD] = ALL},
    [ADD] = {[BOARD] = {0, GV_HAS_CLOSE, GV_TALLIES}, [BYTES] = {0, GV_CHORDS, 0}, [LINKS] = {0, GV_MEMBERS, GV_UNITS},
             [KEYS] = {0, GV_CLOSE_DAY, 0}, [CENTS] = ALL},
    [STEP] = {[BOARD] = {0, GV_HAS_CLOSE, 0}, [BYTES] = {GV_STATUSES, GV_BYTES, 0}, [LINKS] = {0, GV_UNITS, 0}},
    [CLOSE] = {[BOARD] = {GV_HAS_CLOSE, GV_TALLIES, 0}, [KEYS] = {GV_CLOSE_DAY, GV_KEYS, 0}},
    [REPLAY] = {[BOARD] = ALL, [BYTES] = ALL, [LINKS] = ALL, [KEYS] = ALL, [CENTS] = ALL, [ANSWERS] = ALL},
    [READ_MESSAGE] = {[OUT] = ALL},
    [READ_MATCH] = {[OUT] = ALL},
    [READ_REPLY] = {[OUT] = ALL},
    [QUIET] = {[OUT] = ALL},
    [MERGE] = {[MERGED] = ALL},
};

static const uint8_t table_p[20] = {2, 0, 1, 0, 2, 0, 12, 0, 14, 0, 18, 0, 0, 1, 0, 0, 2, 1, 0, 1};
static const uint8_t built_in[GV_BACKOFF_ENTRIES] = {0, 1, 1, 2, 2, 4, 4, 8, 8, 16, 16, 16, 32, 32, 32, 32};
static const size_t element[LISTS] = {1, 2, 1, 2, 4, 8, 2, 4, 8, 4, 8, 1, 1, 1, 1};
static const size_t right[LISTS] = {
    sizeof table_p, GV_BOARD, GV_BYTES, GV_LINKS, GV_KEYS, GV_CENTS, 4 * REPLAYED, 2 * REPLAYED, REPLAYED, REPLAYED,
    GV_MATCH_NUMBERS, GV_TABLE_BYTES, MOST_CHANNELS, GV_TABLE_BYTES, GV_BACKOFF_ENTRIES
};

/* The parts of the lists that are edited. */
enum { PARTS = 16 };
static const struct part {
    enum list list;
    size_t from, count;
} parts[PARTS] = {
    {TABLE, 0, sizeof table_p},
    {BOARD, 0, GV_HAS_CLOSE},
    {BOARD, GV_HAS_CLOSE, 1},
    {BOARD, GV_TALLIES, GV_SENDERS},
    {BOARD, GV_BACKOFFS, GV_BACKOFF_ENTRIES},
    {BYTES, 0, GV_MESSAGES},
    {BYTES, GV_STATUSES, GV_MESSAGES},
    {BYTES, GV_CHORDS, GV_MATCHES},
    {LINKS, 0, GV_MESSAGES},
    {LINKS, GV_WAKERS, GV_MESSAGES},
    {LINKS, GV_MEMBERS, 8 * GV_MATCHES},
    {LINKS, GV_UNITS, GV_MESSAGES},
    {KEYS, 0, GV_MESSAGES},
    {KEYS, GV_DAYS, GV_MESSAGES},
    {KEYS, GV_CLOSE_DAY, 1},
    {CENTS, 0, GV_MESSAGES},
};

/* What a call is lent: the contents and lengths, and its plain numbers. */
struct lent {
    _Alignas(8) uint8_t bytes[LISTS][MOST_BYTES];
    size_t length[LISTS];
    uint16_t first, channel, unit;
    uint32_t property, day;
    int64_t amount;
};

static uint8_t *room[LISTS]; /* the accessible pages of each list */
static size_t room_bytes[LISTS];
static uint8_t *at[LISTS]; /* where each list lies now */

/* What libFuzzer takes for coverage: the answers of each call, the phases of the senders, what is left of their
 * messages, and the entries read of backoff tables. */
enum { LEFT = CALLS * 64 + 1024, READ = LEFT + 8 };
__attribute__((section("__libfuzzer_extra_counters"))) static uint8_t seen[READ + GV_BACKOFF_ENTRIES];

static const uint8_t *input;
static size_t input_left;

static uint8_t take(void) {
    if (input_left == 0)
        return 0;
    input_left--;
    return *input++;
}

/* A small number, one about 1,024, or any number of 64 bits. */
static uint64_t number(void) {
    uint64_t value = take();
    if (value == 254)
        return GV_MESSAGES - 2 + take() % 4;
    if (value != 255)
        return value;
    for (int byte = 0; byte < 8; byte++)
        value = value << 8 | take();
    return value;
}

static void demand(int holds, const char *what, enum call call, uint32_t answer) {
    if (holds)
        return;
    fprintf(stderr, "host_fuzz: call %d answered %u: %s\n", (int)call, (unsigned)answer, what);
    abort();
}

/* For each list, its pages with an inaccessible page on either side. */
static void make_rooms(void) {
    for (int list = 0; list < LISTS; list++) {
        size_t bytes = ((right[list] + 1) * element[list] + PAGE - 1) / PAGE * PAGE;
        uint8_t *pages = mmap(NULL, bytes + 2 * PAGE, PROT_NONE, MAP_PRIVATE | MAP_ANONYMOUS, -1, 0);
        if (pages == MAP_FAILED || mprotect(pages + PAGE, bytes, PROT_READ | PROT_WRITE) != 0)
            exit(2);
        room[list] = pages + PAGE;
        room_bytes[list] = bytes;
    }
}

static size_t bytes_of(const struct lent *lent, int list) { return lent->length[list] * element[list]; }

/* Lays every list against the inaccessible page at the end of its room, or at the start. */
static void lay(const struct lent *lent, int at_end) {
    for (int list = 0; list < LISTS; list++) {
        at[list] = room[list] + (at_end ? room_bytes[list] - bytes_of(lent, list) : 0);
        memcpy(at[list], lent->bytes[list], bytes_of(lent, list));
    }
}

#define U8(list) at[list], lent->length[list]
#define U16(list) (uint16_t *)(void *)at[list], lent->length[list]
#define U32(list) (uint32_t *)(void *)at[list], lent->length[list]
#define I64(list) (int64_t *)(void *)at[list], lent->length[list]
#define LENT U8(TABLE), U16(BOARD), U8(BYTES), U16(LINKS), U32(KEYS), I64(CENTS)

static uint32_t make_call(const struct lent *lent, enum call call) {
    switch (call) {
    case REFUSAL:
        return gv_table_refusal(U8(TABLE));
    case OPEN:
        return gv_open(U8(TABLE), U16(BOARD));
    case OPEN_RESTS:
        return gv_open_with_rests(U8(TABLE), U8(RESTS), U16(BOARD));
    case ADD:
        return gv_add(LENT, lent->first, lent->channel, lent->property, lent->amount, lent->day, lent->unit);
    case STEP:
        return gv_step(LENT, lent->first);
    case CLOSE:
        return gv_close(LENT, lent->day);
    case REPLAY:
        return gv_replay(LENT, U16(ROWS), U32(NUMBERS), I64(AMOUNTS), U32(ANSWERS));
    case READ_MESSAGE:
        return gv_read_message(LENT, lent->first, I64(OUT));
    case READ_MATCH:
        return gv_read_match(LENT, lent->first, I64(OUT));
    case READ_REPLY:
        return gv_read_reply(LENT, lent->first, I64(OUT));
    case QUIET:
        return gv_quiet(LENT, I64(OUT));
    default:
        return gv_merge_tables(U8(TABLE), U8(SECOND), U8(MAP), U8(MERGED));
    }
}

/* Whether a call returns an answer, and not a refusal alone. */
static int answers(enum call call) { return call == ADD || call == STEP || call == CLOSE; }

/* The refusal in what a call returned, 0 for none. */
static uint32_t refusal_of(enum call call, uint32_t answer) {
    if (answers(call))
        return GV_WORD(answer) == GV_REFUSED ? GV_VALUE(answer) : 0;
    return answer;
}

/* Whether an answer that refuses nothing is one of an add, a close or a step. */
static int is_answer(enum call call, uint32_t answer) {
    uint32_t word = GV_WORD(answer), value = GV_VALUE(answer);
    int plain = word == GV_MISSED || word == GV_AGAIN || word == GV_ENDED || word == GV_RESTED || word == GV_RESUMED;
    if (call == ADD)
        return word == GV_ITEM && value < GV_MESSAGES;
    if (call == CLOSE)
        return word == GV_CLOSED && value == 0;
    return word > GV_ITEM && word < GV_REFUSED && value < GV_MESSAGES && (!plain || value == 0);
}

/* Whether a refusal past those of table and board is one of that call. */
static int is_own_refusal(enum call call, uint32_t refusal) {
    switch (call) {
    case ADD:
        return (refusal >= 8 && refusal <= 11) || refusal == 19 || refusal == 26;
    case STEP:
        return refusal == 8 || refusal == 13;
    case CLOSE:
        return refusal == 20;
    case REPLAY:
        return refusal == 31;
    case READ_MESSAGE:
        return refusal == 14 || refusal == 31;
    case READ_MATCH:
        return refusal == 15 || refusal == 31;
    case READ_REPLY:
        return refusal == 8 || refusal == 31;
    case QUIET:
        return refusal == 31;
    case MERGE:
        return refusal == 17 || refusal == 18 || refusal == 31;
    default:
        return 0;
    }
}

/* Whether the lists of the board that the call is lent have the right lengths, and those of a replay as many rows. */
static int has_lengths(const struct lent *lent, enum call call) {
    int last = call == REFUSAL || call == MERGE ? TABLE : call < ADD ? BOARD : CENTS;
    size_t calls = lent->length[AMOUNTS];
    for (int list = BOARD; list <= last; list++)
        if (lent->length[list] != right[list])
            return 0;
    return call != REPLAY || (lent->length[ROWS] == 4 * calls && lent->length[NUMBERS] == 2 * calls);
}

/* Whether the backoff table that is given passes. */
static int is_passing(const struct lent *lent) {
    const uint8_t *rests = lent->bytes[RESTS];
    int passes = lent->length[RESTS] == GV_BACKOFF_ENTRIES;
    for (size_t i = 0; passes && i < GV_BACKOFF_ENTRIES; i++)
        passes = rests[i] <= GV_MOST_RESTS && (i == 0 || rests[i] >= rests[i - 1]);
    return passes;
}

/* What the header says of the number: the table first, for a merge the second too, then a backoff table that is given,
 * then lengths and board, then the call's own. */
static void demand_documented(const struct lent *lent, enum call call, uint32_t answer) {
    uint32_t table = gv_table_refusal(U8(TABLE)), refusal = refusal_of(call, answer);
    if (table == 0 && call == MERGE)
        table = gv_table_refusal(U8(SECOND));
    demand(table <= 7, "no refusal of a table", call, table);
    if (table != 0)
        demand(refusal == table, "the table's refusal is another", call, answer);
    else if (call == OPEN_RESTS && !is_passing(lent))
        demand(refusal == 21, "a backoff table that does not pass is not refused 21", call, answer);
    else if (!has_lengths(lent, call))
        demand(refusal == 30, "a wrong length is not refused 30", call, answer);
    else if (refusal == 0)
        demand(!answers(call) || is_answer(call, answer), "no such answer", call, answer);
    else
        demand((refusal == 30 && call >= ADD && call < MERGE) || is_own_refusal(call, refusal), "no such refusal", call,
               answer);
}

static void demand_answers(const struct lent *lent) {
    uint32_t said[REPLAYED + 1];
    memcpy(said, at[ANSWERS], bytes_of(lent, ANSWERS));
    const uint16_t *rows = (const uint16_t *)(const void *)lent->bytes[ROWS];
    for (size_t i = 0; i < lent->length[AMOUNTS]; i++) {
        enum call call = rows[4 * i] == GV_STEP ? STEP : rows[4 * i] == GV_CLOSE ? CLOSE : ADD;
        uint32_t refusal = refusal_of(call, said[i]);
        demand(refusal ? is_own_refusal(call, refusal) : is_answer(call, said[i]), "no answer of a replay", REPLAY,
               said[i]);
    }
    size_t past = lent->length[AMOUNTS] * sizeof said[0];
    demand(memcmp(at[ANSWERS] + past, lent->bytes[ANSWERS] + past, bytes_of(lent, ANSWERS) - past) == 0,
           "answers past the last call", REPLAY, 0);
}

static size_t header_number(const uint8_t *table, int nth) { return table[2 * nth] | (size_t)table[2 * nth + 1] << 8; }

/* The merged table is accepted, begins with the first one's channels and counts the chords and members of both; what
 * lies past it is as it was. */
static void demand_merged(const struct lent *lent) {
    const uint8_t *merged = at[MERGED];
    size_t past = header_number(merged, 5) + header_number(merged, 2);
    demand(past <= lent->length[MERGED], "the merged table is longer than its buffer", MERGE, 0);
    demand(gv_table_refusal(merged, past) == 0, "the merged table is refused", MERGE, 0);
    demand(memcmp(merged + 12, at[TABLE] + 12, header_number(at[TABLE], 0)) == 0, "other channels", MERGE, 0);
    for (int nth = 1; nth <= 2; nth++)
        demand(header_number(merged, nth) == header_number(at[TABLE], nth) + header_number(at[SECOND], nth),
               "other counts", MERGE, 0);
    demand(memcmp(merged + past, lent->bytes[MERGED] + past, lent->length[MERGED] - past) == 0,
           "bytes past the merged table", MERGE, 0);
}

/* Whether these numbers of a list are as they were lent. */
static int is_kept(const struct lent *lent, int list, size_t from, size_t to) {
    size_t start = from * element[list];
    return from >= to || memcmp(at[list] + start, lent->bytes[list] + start, (to - from) * element[list]) == 0;
}

/* Only what the call may write has changed, and nothing if it refused. */
static void demand_kept(const struct lent *lent, enum call call, uint32_t answer) {
    int refused = refusal_of(call, answer) != 0;
    for (int list = 0; list < LISTS; list++) {
        struct range range = refused ? (struct range){0, 0, 0} : written[call][list];
        size_t end = range.again != 0 ? range.again : lent->length[list];
        demand(is_kept(lent, list, 0, range.from) && is_kept(lent, list, range.to, end), "a list has changed", call,
               answer);
    }
}

/* An add that is not refused writes the unit of its message, and of no other. */
static void demand_unit(const struct lent *lent, uint32_t answer) {
    const uint16_t *links = (const uint16_t *)(const void *)at[LINKS];
    size_t written_at = GV_UNITS + GV_VALUE(answer);
    demand(links[written_at] == lent->unit, "another unit is written", ADD, answer);
    demand(is_kept(lent, LINKS, GV_UNITS, written_at) && is_kept(lent, LINKS, written_at + 1, GV_LINKS),
           "the unit of another message has changed", ADD, answer);
}

/* The close day that is lent decides of an add once sender and channel are right, and of a close; an accepted close
 * writes its day. */
static void demand_closed(const struct lent *lent, enum call call, uint32_t answer) {
    const uint16_t *board = (const uint16_t *)(const void *)lent->bytes[BOARD];
    const uint32_t *keys = (const uint32_t *)(const void *)lent->bytes[KEYS];
    uint32_t close_day = keys[GV_CLOSE_DAY], refusal = refusal_of(call, answer);
    int is_closed = board[GV_HAS_CLOSE] == 1;
    if (call == ADD && (refusal == 0 || refusal == 11 || refusal == 19 || refusal == 26))
        demand((refusal == 19) == (is_closed && lent->day <= close_day), "refused 19 or not", call, answer);
    if (call == CLOSE && (refusal == 0 || refusal == 20))
        demand((refusal == 20) == (is_closed && lent->day < close_day), "refused 20 or not", call, answer);
    if (call == CLOSE && refusal == 0)
        demand(((const uint16_t *)(const void *)at[BOARD])[GV_HAS_CLOSE] == 1 &&
                   ((const uint32_t *)(const void *)at[KEYS])[GV_CLOSE_DAY] == lent->day,
               "the close day is not written", call, answer);
}

/* How many messages the senders have added, and how many of them are common ones. */
struct sums {
    uint32_t messages, common;
};

static struct sums sums_of(const uint16_t *board) {
    struct sums sums = {0, 0};
    for (int sender = 0; sender < GV_SENDERS; sender++) {
        uint32_t count = board[GV_TALLIES + sender];
        sums.messages += count;
        sums.common += count > GV_SHARE ? count - GV_SHARE : 0;
    }
    return sums;
}

/* Whether the call has found a board accepted, whatever it answered. */
static int is_accepted(enum call call, uint32_t refusal) {
    return call >= ADD && call < MERGE && refusal != 30 && (refusal == 0 || refusal >= 8);
}

/* A board that is accepted has the counts of a sound one; they decide of an add last, and an add that is not refused
 * adds 1 to its sender's and to no other. */
static void demand_counts(const struct lent *lent, enum call call, uint32_t answer) {
    const uint16_t *board = (const uint16_t *)(const void *)lent->bytes[BOARD];
    uint32_t refusal = refusal_of(call, answer);
    if (!is_accepted(call, refusal))
        return;
    struct sums sums = sums_of(board);
    demand(sums.messages == board[0] && sums.common <= GV_COMMON, "counts of no sound board", call, answer);
    if (call != ADD || (refusal != 0 && refusal != 26))
        return;
    size_t place = GV_TALLIES + lent->first;
    int is_used_up = board[place] >= GV_SHARE && sums.common == GV_COMMON;
    demand((refusal == 26) == is_used_up, "refused 26 or not", call, answer);
    demand(refusal == 26 || ((const uint16_t *)(const void *)at[BOARD])[place] == board[place] + 1, "not counted", call,
           answer);
    demand(is_kept(lent, BOARD, GV_TALLIES, place) && is_kept(lent, BOARD, place + 1, GV_BOARD),
           "another sender's count has changed", call, answer);
}

/* The entry, from 0, that the sender's next `again` reads. */
static size_t entry_of(const uint16_t *sender) {
    return sender[12] < GV_BACKOFF_ENTRIES ? sender[12] : GV_BACKOFF_ENTRIES - 1;
}

/* The phase after an `again` is that of so many rests as the board's table says. */
static void demand_rests(const struct lent *lent, uint32_t answer) {
    const uint16_t *board = (const uint16_t *)(const void *)lent->bytes[BOARD];
    const uint16_t *before = board + 2 + 21 * lent->first;
    const uint16_t *after = (const uint16_t *)(const void *)at[BOARD] + 2 + 21 * lent->first;
    uint16_t rests = board[GV_BACKOFFS + entry_of(before)];
    demand((after[8] == BACKOFF) == (rests > 0), "rests or none", STEP, answer);
    demand(rests == 0 || after[9] == rests - 1, "another number of rests", STEP, answer);
}

/* An opened board has the backoff table that was given, or the built-in one. A board that is accepted has one that
 * passes, and keeps it. */
static void demand_backoffs(const struct lent *lent, enum call call, uint32_t answer) {
    const uint16_t *board = (const uint16_t *)(const void *)at[BOARD] + GV_BACKOFFS;
    uint32_t refusal = refusal_of(call, answer);
    const uint8_t *given = call == OPEN ? built_in : lent->bytes[RESTS];
    for (size_t i = 0; (call == OPEN || call == OPEN_RESTS) && refusal == 0 && i < GV_BACKOFF_ENTRIES; i++)
        demand(board[i] == given[i], "the board has another backoff table", call, answer);
    if (!is_accepted(call, refusal))
        return;
    for (size_t i = 0; i < GV_BACKOFF_ENTRIES; i++)
        demand(board[i] <= GV_MOST_RESTS && (i == 0 || board[i] >= board[i - 1]), "a backoff table that does not pass",
               call, answer);
    demand(is_kept(lent, BOARD, GV_BACKOFFS, GV_BOARD), "the backoff table has changed", call, answer);
    if (call == STEP && GV_WORD(answer) == GV_AGAIN)
        demand_rests(lent, answer);
}

/* After a call that wrote the board it is accepted, if the other lists have their lengths. */
static void demand_sound(const struct lent *lent, enum call call, uint32_t answer) {
    int64_t quiet = -1;
    if (refusal_of(call, answer) != 0 || written[call][BOARD].to == 0 || !has_lengths(lent, STEP))
        return;
    demand(gv_quiet(LENT, &quiet, 1) == 0, "the board left is refused", call, answer);
    demand(quiet == 0 || quiet == 1, "quiet is not 0 or 1", call, answer);
    demand(call >= ADD || quiet == 1, "an opened board is not quiet", call, answer);
}

static uint32_t checked_call(const struct lent *lent, enum call call, int at_end) {
    lay(lent, at_end);
    uint32_t answer = make_call(lent, call);
    demand_kept(lent, call, answer);
    demand_documented(lent, call, answer);
    if (call == ADD && refusal_of(ADD, answer) == 0)
        demand_unit(lent, answer);
    demand_closed(lent, call, answer);
    demand_counts(lent, call, answer);
    demand_backoffs(lent, call, answer);
    if (call == REPLAY && answer == 0)
        demand_answers(lent);
    if (call == MERGE && answer == 0)
        demand_merged(lent);
    demand_sound(lent, call, answer);
    return answer;
}

/* The lists as the last call left them. */
static void keep(struct lent *lent) {
    for (int list = 0; list < LISTS; list++)
        memcpy(lent->bytes[list], at[list], bytes_of(lent, list));
}

/* The call at the ends of the rooms and at their starts; both answer and leave the same. */
static uint32_t call_twice(const struct lent *lent, enum call call) {
    static struct lent left;
    uint32_t answer = checked_call(lent, call, 1);
    memcpy(left.length, lent->length, sizeof left.length);
    keep(&left);
    demand(checked_call(lent, call, 0) == answer, "the second answer is another", call, answer);
    for (int list = 0; list < LISTS; list++)
        demand(memcmp(left.bytes[list], at[list], bytes_of(lent, list)) == 0, "the second leaves others", call, answer);
    return answer;
}

/* Counts what libFuzzer shall see: the answer, the entry that an `again` read and, if the board was accepted, state and
 * phase of eight senders, and whether one has used its own messages, whether the common ones are used, and whether
 * there are others. */
static void count(const struct lent *lent, enum call call, uint32_t answer) {
    uint32_t refusal = refusal_of(call, answer);
    const uint16_t *board = (const uint16_t *)(const void *)lent->bytes[BOARD];
    seen[call * 64 + (refusal ? 19 + refusal % 45 : GV_WORD(answer) % 19)]++;
    if (call == STEP && GV_WORD(answer) == GV_AGAIN)
        seen[READ + entry_of(board + 2 + 21 * lent->first)]++;
    for (int sender = 0; call >= ADD && call < MERGE && refusal == 0 && sender < 8; sender++) {
        const uint16_t *numbers = board + 2 + 21 * sender;
        seen[CALLS * 64 + numbers[0] % 4 * 256 + numbers[8] % 16 * 16 + numbers[9] % 8 * 2 + numbers[1] % 2]++;
        seen[LEFT + (board[GV_TALLIES + sender] >= GV_SHARE) + 2 * (sums_of(board).common == GV_COMMON) +
             4 * (board[0] == GV_MESSAGES)]++;
    }
}

/* One call of the schedule, by one of eight senders; a byte that steps may step up to eight times, behind one that adds
 * is the unit. A byte of 255 closes the day behind it. */
static void play(struct lent *lent) {
    uint8_t byte = take();
    enum call call = byte == 255 ? CLOSE : (byte & 24) < 16 ? ADD : STEP;
    int times = call == STEP && (byte & 24) == 24 ? 8 : 1;
    lent->first = byte & 7;
    lent->channel = byte >> 3 & 1;
    lent->property = byte >> 5 & 1;
    lent->day = call == CLOSE ? take() : byte >> 6;
    lent->unit = call == ADD ? take() & 1 : 0;
    lent->amount = byte;
    for (int i = 0; i < times; i++) {
        uint32_t answer = make_call(lent, call), refusal = refusal_of(call, answer);
        demand(refusal ? is_own_refusal(call, refusal) : is_answer(call, answer), "no answer of a schedule", call,
               answer);
    }
}

/* Table P, or one that differs in who waits and in what must be equal. */
static void put_table(struct lent *lent, uint8_t kind) {
    uint8_t *table = lent->bytes[TABLE];
    memcpy(table, table_p, sizeof table_p);
    table[12] ^= kind & 1;
    table[13] ^= kind >> 1 & 1;
    table[17] = (kind >> 4) % 3;
}

/* Two messages are left of the common ones: of the whole board, or one sender has used all others. */
static void almost_fill(uint16_t *board, int alone) {
    for (int sender = 0; sender < GV_SENDERS; sender++)
        board[GV_TALLIES + sender] = alone ? 0 : 2 * GV_SHARE;
    board[GV_TALLIES] = alone ? GV_SHARE + GV_COMMON - 2 : 2 * GV_SHARE - 2;
    board[0] = alone ? board[GV_TALLIES] : GV_MESSAGES - 2;
}

/* A backoff table: the built-in one, or one number over and over; then some rests more from an entry on. */
static void put_rests(struct lent *lent) {
    uint8_t *rests = lent->bytes[RESTS], all = take();
    memcpy(rests, built_in, sizeof built_in);
    if (all != 0)
        memset(rests, all - 1, sizeof built_in);
    for (int rises = take() % 4; rises > 0; rises--) {
        uint8_t more = take();
        for (size_t i = take() % GV_BACKOFF_ENTRIES; i < GV_BACKOFF_ENTRIES; i++)
            rests[i] += more;
    }
}

/* An empty board with lists of any one byte and a backoff table of the input's, or one that is almost full, or is to
 * one sender; and a schedule played on it. */
static void reach(struct lent *lent) {
    uint8_t kind = take(), byte = take();
    for (int list = 0; list < LISTS; list++)
        memset(lent->bytes[list], kind & 8 ? 0 : byte, (right[list] + 1) * element[list]);
    put_table(lent, kind);
    put_rests(lent);
    memcpy(lent->length, right, sizeof right);
    lay(lent, 1);
    uint32_t refusal = gv_open_with_rests(U8(TABLE), U8(RESTS), U16(BOARD));
    demand(refusal == (is_passing(lent) ? 0 : 21), "table P is refused, or refuses", OPEN_RESTS, refusal);
    demand(refusal == 0 || gv_open(U8(TABLE), U16(BOARD)) == 0, "table P is refused", OPEN, 0);
    if (kind & 8)
        almost_fill((uint16_t *)(void *)at[BOARD], kind & 4);
    for (int calls = take() % 64; calls > 0; calls--)
        play(lent);
    keep(lent);
}

/* A number of a list. */
static void put(struct lent *lent, int list, size_t place, uint64_t value) {
    memcpy(lent->bytes[list] + place * element[list], &value, element[list]);
}

/* One number of the part becomes another. */
static void edit(struct lent *lent, struct part part) {
    size_t place = part.from + number() % part.count;
    put(lent, part.list, place, number());
}

/* Moves messages that a sender has added to another sender. */
static void move_count(struct lent *lent) {
    uint16_t *counts = (uint16_t *)(void *)lent->bytes[BOARD] + GV_TALLIES;
    uint16_t *from = counts + take() % GV_SENDERS, *to = counts + take() % GV_SENDERS;
    uint64_t some = number();
    uint16_t moved = some < *from ? (uint16_t)some : *from;
    *from -= moved;
    *to += moved;
}

/* From an entry on, the board's backoff table says so many rests at least; mostly it still passes. */
static void raise_backoffs(struct lent *lent) {
    uint16_t *rests = (uint16_t *)(void *)lent->bytes[BOARD] + GV_BACKOFFS, least = take() % 72;
    for (size_t i = take() % GV_BACKOFF_ENTRIES; i < GV_BACKOFF_ENTRIES; i++)
        rests[i] = rests[i] > least ? rests[i] : least;
}

/* The sender is at the end of a pass after so many retries, with its mark set. */
static void end_pass(struct lent *lent) {
    uint16_t *sender = (uint16_t *)(void *)lent->bytes[BOARD] + 2 + 21 * (take() % 8);
    const uint16_t numbers[6] = {0, 8, 0, 0, 1, take() % 20};
    memcpy(sender + 7, numbers, sizeof numbers);
}

/* A table of so many leaving channels and chords, each of the channel of its number as often as the input says. */
static void put_second(struct lent *lent, size_t channels, size_t chords) {
    uint8_t *second = lent->bytes[SECOND], *chord = second + 12 + channels, *members = chord + 4 * chords;
    size_t count = 0, each = 1 + take() % 8;
    memset(second, 0, 12 + channels);
    for (size_t nth = 0; nth < chords; nth++, chord += 4) {
        const uint8_t record[4] = {count & 255, count >> 8, each, nth % 3};
        memcpy(chord, record, sizeof record);
        memset(members + count, nth % channels, each);
        count += each;
    }
    const size_t header[6] = {channels, chords, count, 12, 12 + channels, 12 + channels + 4 * chords};
    for (int nth = 0; nth < 6; nth++) {
        second[2 * nth] = header[nth] & 255;
        second[2 * nth + 1] = header[nth] >> 8;
    }
    lent->length[SECOND] = 12 + channels + 4 * chords + count;
}

/* A second table, a map that is mostly of new channels, and a buffer; then edits of both tables and the map. */
static void fill_merge(struct lent *lent) {
    size_t channels = 1 + take() % MOST_CHANNELS, chords = take() % 33, room = number();
    put_second(lent, channels, chords);
    memset(lent->bytes[MAP], GV_NEW, MOST_CHANNELS + 1);
    lent->length[MAP] = channels;
    for (int joined = take() % 4; joined > 0; joined--)
        lent->bytes[MAP][take() % channels] = take() % 4;
    if (room < GV_TABLE_BYTES)
        lent->length[MERGED] = room;
    for (int edits = take() % 4; edits > 0; edits--) {
        static const enum list lists[3] = {TABLE, SECOND, MAP};
        enum list list = lists[take() % 3];
        edit(lent, (struct part){list, 0, right[list]});
    }
}

/* The lists of a replay, filled from the input. */
static void fill_replay(struct lent *lent) {
    size_t calls = take() % (REPLAYED + 1);
    for (int list = ROWS; list <= ANSWERS; list++)
        lent->length[list] = (list == ROWS ? 4 : list == NUMBERS ? 2 : 1) * calls;
    for (size_t i = 0; i < calls; i++) {
        put(lent, ROWS, 4 * i, take() % 4);
        for (size_t nth = 1; nth < 4; nth++)
            put(lent, ROWS, 4 * i + nth, number());
        put(lent, NUMBERS, 2 * i, number());
        put(lent, NUMBERS, 2 * i + 1, number());
        put(lent, AMOUNTS, i, number());
    }
}

/* One length off by one, or 0. */
static void stretch(struct lent *lent) {
    int list = take() % LISTS;
    size_t length = lent->length[list];
    const size_t others[3] = {length <= right[list] ? length + 1 : length, length > 0 ? length - 1 : 0, 0};
    lent->length[list] = others[take() % 3];
}

int LLVMFuzzerTestOneInput(const uint8_t *data, size_t size) {
    static const size_t out_numbers[CALLS] = {1, 1, 1, 1, 1, 1, 1, GV_MESSAGE_NUMBERS, GV_MATCH_NUMBERS, 1, 1, 1};
    static struct lent lent;
    if (room[0] == NULL)
        make_rooms();
    input = data;
    input_left = size;
    enum call call = take() % CALLS;
    reach(&lent);
    for (int edits = take() % 6; edits > 0; edits--)
        edit(&lent, parts[take() % PARTS]);
    for (int moves = take() % 4; moves > 0; moves--)
        move_count(&lent);
    for (int raises = take() % 3; raises > 0; raises--)
        raise_backoffs(&lent);
    if (take() % 4 == 0)
        end_pass(&lent);
    if (call == OPEN_RESTS)
        put_rests(&lent);
    lent.first = (uint16_t)number();
    lent.channel = (uint16_t)number();
    lent.property = (uint32_t)number();
    lent.day = (uint32_t)number();
    lent.unit = (uint16_t)number();
    lent.amount = (int64_t)number();
    lent.length[OUT] = out_numbers[call];
    if (call == REPLAY)
        fill_replay(&lent);
    if (call == MERGE)
        fill_merge(&lent);
    for (int odd = take(); odd > 200; odd -= 30)
        stretch(&lent);
    count(&lent, call, call_twice(&lent, call));
    return 0;
}
