/* Mewikofu for C (C99 or later), C++ (C++98 or later) and other languages.

   Link libmewikofu (settling, uplift, step view, line views, line part) and for the cutter libmewikofu_cut, or the shared object, which has both: tools/install
   installs them. In the repository they are target/staticlib/libengine_c.a, which `tools/build engine_c` writes, and libcutter_c.a, which
   `tools/build cutter_c` writes and which has nothing of the engine.

   Bytes. A function takes any bytes: no input is left out of its contract, which stands in crates/engine_c/src and crates/cutter_c/src.

   Pointers. They are the caller's part: the contracts speak of lent bytes, not of addresses. Each pointer lends as many bytes or values as are declared here,
   aligned for its type; the bytes at `day` and `line` are read, the bytes at `book` and the places `shares`, `views`, `count`, `at` and `part_length` are
   written. A written place may not overlap another written place nor the bytes that are read: with overlapping places the answer is not defined. NULL is a
   valid pointer only where the length beside it is 0. No other thread may write to what is lent while a call runs. Nothing is kept after it. The step view and
   the cutter answer one struct by value: its place is the caller's own, as for every function that answers a struct, and nothing is lent for it.

   Threads and signals. The functions have no writable data, take no memory from the heap and call nothing but memcpy and memset. So any number of threads may
   call them at once without a lock, each with places of its own to be written; the bytes that are read may be shared. They may be called from a signal handler.
   A call takes less than MEWIKOFU_STACK_BYTES of stack, mewikofu_line_views less than MEWIKOFU_LINE_VIEWS_STACK_BYTES; what the caller lends isn't in it.
   tools/archive-check holds the archives to all this. */
#ifndef MEWIKOFU_H
#define MEWIKOFU_H

#include <stddef.h>
#include <stdint.h>

#ifdef __cplusplus
/* Two functions have the names of the structs that they answer, so these are named with `struct` in C++ too. */
#pragma GCC diagnostic push
#pragma GCC diagnostic ignored "-Wshadow"
extern "C" {
#endif

/* The version of this header; the number is 10000 major + 100 minor + patch. tools/version writes both from the file VERSION. */
#define MEWIKOFU_VERSION "0.3.0"
#define MEWIKOFU_VERSION_NUMBER 300

/* The version of the library that is linked, as MEWIKOFU_VERSION has it: a shared object may be another one than the header's. The installed libraries and the
   shared object have this function; the archives of target/staticlib have the proved functions alone. */
const char *mewikofu_version(void);

/* Numbers. A refusal is the first fault met in the order of document 01's table, "Where each refusal is checked" (docs/RULES.md says document 01, the
   scope, in our words). Beside each are its place, which the functions below name, and its condition; n is the day's line count, c its count of ad hoc
   records, M the greatest break of a line's bids. */
#define MEWIKOFU_ACCEPTED 0
/* tools/refusals writes from here, from docs/REFUSALS.md. */
#define MEWIKOFU_FILE_SHORT 1               /* header: fewer than 64 bytes */
#define MEWIKOFU_LINE_COUNT 2               /* header: n = 0 or n > 64 */
#define MEWIKOFU_LAYOUT 3                   /* header: the header isn't n, 16, 64, L (L = 64 + 660 n), nor n, 24, 72, L, c, 72 + 660 n (L = 72 + 660 n + 32 c), or the file isn't L bytes */
#define MEWIKOFU_MARKET_PRICE 4             /* market: a market price or APC > 10,000,000 */
#define MEWIKOFU_MARKET_MARK 5              /* market: a cap mark or the clawback switch > 1 */
#define MEWIKOFU_SIDE_OR_ACCREDITATION 6    /* each line: side > 1, or accreditation 2 to 31 or > 63 */
#define MEWIKOFU_BID_COUNT 7                /* each line: a bid's count = 0 in schedule 1, or > 11 */
#define MEWIKOFU_BREAKS 8                   /* each line: a bid's break <= the one before (first: <= 0), or > 200,000,000 */
#define MEWIKOFU_PRICES 9                   /* each line: a bid's price > 10,000,000, or < the one before (withdrawal: > the one before) */
#define MEWIKOFU_UNUSED_SLOT 10             /* each line: a break or price past the bid's count isn't 0 */
#define MEWIKOFU_HEDGE 11                   /* each line: hedge > M (withdrawal: > 0) */
#define MEWIKOFU_TOTALS 12                  /* each line: a schedule's pricing total, or the total of its operating row in force, > M + 1,000 */
#define MEWIKOFU_ACTUALS 13                 /* each line: an interval's actual > 200,000,000 */
#define MEWIKOFU_EQUAL_KEYS 14              /* all lines: participant, point and side are those of an earlier line */
#define MEWIKOFU_BOOK_SHORT 15              /* book: fewer than 96 + 56 n bytes lent */
#define MEWIKOFU_NO_LINE 16                 /* view, line part: line >= n */
#define MEWIKOFU_NO_STEP 17                 /* view: step >= the line's step count */
#define MEWIKOFU_LINE_LENGTH 18             /* cutter: other than 660 bytes */
#define MEWIKOFU_AD_HOC_COUNT 19            /* header: c > 64 */
#define MEWIKOFU_AD_HOC_LINE_OR_SCHEDULE 20 /* ad hoc records: a record's line >= n, or its schedule = 0 or > 5 */
#define MEWIKOFU_EQUAL_AD_HOC 21            /* ad hoc records: line, schedule and order number are those of an earlier record */

/* What a number says. It is of this header alone and needs no archive. */
static inline const char *mewikofu_words(uint32_t number)
{
    static const char *const words[] = {
        "accepted",
        "the file is under 64 bytes",
        "the line count is 0 or above 64",
        "the header's offsets or length, or the file's length, aren't those of its counts of lines and ad hoc records",
        "a market price or the administered price cap is above 10,000,000 price units",
        "a cap mark or the clawback switch is above 1",
        "a line's side is above 1, or its accreditation is 2 to 31 or above 63",
        "a bid's count is 0 in schedule 1, or above 11",
        "a bid's breaks aren't strictly rising from above 0, or one is above 200,000,000 MJ",
        "a bid's price is above 10,000,000 price units, or falls (withdrawal: rises)",
        "an unused slot of a bid isn't 0",
        "a hedge is above the line's greatest break, or isn't 0 on a withdrawal",
        "a pricing or operating total is more than 1,000 MJ above the line's greatest break",
        "an actual is above 200,000,000 MJ",
        "two lines have the same participant, point and side",
        "the lent book is under 96 + 56 n bytes",
        "the day has no such line",
        "the line has no such step",
        "the line isn't 660 bytes",
        "the count of ad hoc records is above 64",
        "an ad hoc record names a line that the day doesn't have, or a schedule other than 1 to 5",
        "two ad hoc records have the same line, schedule and order number",
    };
    return number < sizeof words / sizeof words[0] ? words[number] : "an unknown number";
}
/* tools/refusals writes to here. */

/* Sizes. */
#define MEWIKOFU_MOST_LINES 64
#define MEWIKOFU_SCHEDULES 5
#define MEWIKOFU_MOST_STEPS 56
#define MEWIKOFU_MATCHES 10

/* The stack that a call takes is less than this, in bytes: one of mewikofu_line_views, and one of any other function. */
#define MEWIKOFU_LINE_VIEWS_STACK_BYTES 40000
#define MEWIKOFU_STACK_BYTES 32000

/* The most MJ by which a pricing or operating total may be above M. */
#define MEWIKOFU_MOST_EXCESS 1000

/* The day file: 32-bit unsigned little-endian words. Offsets in bytes. There are two layouts; the header's second word, the market offset, says which.

   Without ad hoc records: header n, MEWIKOFU_MARKET_AT, MEWIKOFU_LINES_AT, MEWIKOFU_DAY_BYTES(n); market table; n lines. */
#define MEWIKOFU_MARKET_AT 16
#define MEWIKOFU_LINES_AT 64
#define MEWIKOFU_LINE_BYTES 660
#define MEWIKOFU_DAY_BYTES(n) (MEWIKOFU_LINES_AT + MEWIKOFU_LINE_BYTES * (size_t)(n))
#define MEWIKOFU_LINE_AT(k) (MEWIKOFU_LINES_AT + MEWIKOFU_LINE_BYTES * (size_t)(k))
#define MEWIKOFU_ACCREDITATION 12 /* within a line */

/* With ad hoc records: header n, MEWIKOFU_AD_HOC_MARKET_AT, MEWIKOFU_AD_HOC_LINES_AT, MEWIKOFU_AD_HOC_DAY_BYTES(n, c), c, MEWIKOFU_AD_HOC_AT(n, 0); market
   table; n lines; c records, of which there may be none. mewikofu_line_part says where a line stands in either layout.

   A record is eight words: line from 0; schedule from 1; order number; five quantities in MJ, for the five intervals. Its row stands for the line's own
   operating row of that schedule. Of the records for a line and a schedule the one with the highest order number (any word, unsigned) is in force, wherever it
   stands; the others, and the line's own row, are then not looked at. */
#define MEWIKOFU_MOST_AD_HOC 64
#define MEWIKOFU_AD_HOC_MARKET_AT 24
#define MEWIKOFU_AD_HOC_LINES_AT 72
#define MEWIKOFU_AD_HOC_BYTES 32
#define MEWIKOFU_AD_HOC_LINE_AT(k) (MEWIKOFU_AD_HOC_LINES_AT + MEWIKOFU_LINE_BYTES * (size_t)(k))
#define MEWIKOFU_AD_HOC_AT(n, j) (MEWIKOFU_AD_HOC_LINE_AT(n) + MEWIKOFU_AD_HOC_BYTES * (size_t)(j)) /* record j from 0 of a day of n lines */
#define MEWIKOFU_AD_HOC_DAY_BYTES(n, c) MEWIKOFU_AD_HOC_AT(n, c)
#define MEWIKOFU_AD_HOC_LINE 0 /* within a record */
#define MEWIKOFU_AD_HOC_SCHEDULE 4
#define MEWIKOFU_AD_HOC_ORDER 8
#define MEWIKOFU_AD_HOC_QUANTITY(i) (12 + 4 * (size_t)(i)) /* of interval i from 0 */

/* A line's accreditation word: in no schedule, in all, or in a set of schedules, bit s for schedule s from 0 (document 02 counts from 1 and has bit s - 1).
   MEWIKOFU_ACCREDITED_IN(1 << 0 | 1 << 2) is the word for the first and the third. The empty set is settled as 0, the full one as 1. All other words are
   refused with MEWIKOFU_SIDE_OR_ACCREDITATION; UINT32_MAX, which MEWIKOFU_ACCREDITED_IN is for a set below 0 or above 31, is one of them. It may evaluate
   `set` twice. */
#define MEWIKOFU_NOT_ACCREDITED 0
#define MEWIKOFU_ACCREDITED 1
#define MEWIKOFU_ACCREDITED_IN(set) ((uint64_t)(set) > 31 ? UINT32_MAX : 32 + (uint32_t)(set))

/* Whether a line with this accreditation word is accredited in schedule s from 0: 1 or 0. It is 0 for words that are refused and for s above 4. It is of this
   header alone and needs no archive. */
static inline int mewikofu_accredited(uint32_t word, size_t s)
{
    if (s >= MEWIKOFU_SCHEDULES)
        return 0;
    if (word < MEWIKOFU_ACCREDITED_IN(0))
        return word == MEWIKOFU_ACCREDITED;
    return word <= MEWIKOFU_ACCREDITED_IN(31) && (word >> s & 1);
}

/* The book: words n, 16, 96, 96 + 56 n; five pairs t, a; per line participant, point, side, step count and five payments. Words are 32-bit
   unsigned, t, a and payments signed 64-bit, all little-endian. Offsets in bytes; schedules s and lines k count from 0. */
#define MEWIKOFU_PAIRS_AT 16
#define MEWIKOFU_TOTAL_AT(s) (16 + 16 * (size_t)(s))
#define MEWIKOFU_ADJUSTED_AT(s) (24 + 16 * (size_t)(s))
#define MEWIKOFU_ENTRIES_AT 96
#define MEWIKOFU_ENTRY_BYTES 56
#define MEWIKOFU_ENTRY_AT(k) (MEWIKOFU_ENTRIES_AT + MEWIKOFU_ENTRY_BYTES * (size_t)(k))
#define MEWIKOFU_PARTICIPANT 0 /* within an entry */
#define MEWIKOFU_POINT 4
#define MEWIKOFU_SIDE 8
#define MEWIKOFU_STEPS 12
#define MEWIKOFU_PAYMENT(s) (16 + 8 * (size_t)(s))
#define MEWIKOFU_BOOK_BYTES(n) (MEWIKOFU_ENTRIES_AT + MEWIKOFU_ENTRY_BYTES * (size_t)(n))

/* The place of m(r, s) with r below s (both from 0) among the view's matches. */
#define MEWIKOFU_MATCH_AT(r, s) ((s) * ((s) - 1) / 2 + (r))

/* Settles a day, the `length` bytes at `day`, into the book lent, `room` bytes at `book`. Answers the number; header, market, ad hoc records, each line, all
   lines and book (room under MEWIKOFU_BOOK_BYTES(n)) are checked, in this order. With 0 the book's bytes are written and those beyond are unchanged;
   with any other number every lent byte is as it was. */
uint32_t mewikofu_settle(const uint8_t *day, size_t length, uint8_t *book, size_t room);

/* Uplift by schedule: shares[s] of schedule s from 0, signed, in $0.0000001. A group is a longest run of neighbouring schedules whose totals t are all above 0
   or all below 0. The exact share of one of them is its t times the group's summed a, over the group's summed t. Its size is rounded down to whole units, and
   the units left over go one each to the group's earliest schedules whose division left a remainder: so each share is less than one unit from the exact one,
   and the shares of a group add up to its summed a. A total of 0 has the share 0. The book has t and a (MEWIKOFU_TOTAL_AT, MEWIKOFU_ADJUSTED_AT).
   Answers the number; header, market, ad hoc records, each line and all lines are checked, in this order. All five places are always written: where the number
   isn't 0 they are 0. */
uint32_t mewikofu_uplift(const uint8_t *day, size_t length, int64_t shares[MEWIKOFU_SCHEDULES]);

/* Excess: what no step takes of a line's operating total (by schedule), pricing total (by schedule) and effective actual, since it is above M. In MJ, at most
   MEWIKOFU_MOST_EXCESS. It is never constrained on and never paid. */
struct mewikofu_excess {
    uint32_t operating[MEWIKOFU_SCHEDULES];
    uint32_t pricing[MEWIKOFU_SCHEDULES];
    uint32_t actual;
};

/* What the step view answers, and the line views for each step: every figure of a step. Arrays are by schedule, but `matches`. Payments are in $0.0000001,
   prices in $0.0001 per GJ, quantities in MJ. The excess is the line's, so the same for each of its steps; with it `operating`, `pricing` and `actual` of all
   its steps add up to the line's totals and its effective actual. 400 bytes without padding. */
struct mewikofu_view {
    int64_t initial[MEWIKOFU_SCHEDULES];      /* initial payment */
    int64_t revised[MEWIKOFU_SCHEDULES];      /* revised payment */
    int64_t modified[MEWIKOFU_SCHEDULES];     /* modified payment */
    int64_t finals[MEWIKOFU_SCHEDULES];       /* final payment */
    uint32_t number;                          /* the number; where it isn't 0 all other fields are 0 */
    uint32_t end;                             /* upper end */
    uint32_t width;                           /* upper end less the one before */
    uint32_t actual;                          /* A, effective actual */
    uint32_t price[MEWIKOFU_SCHEDULES];       /* capped */
    uint32_t flag[MEWIKOFU_SCHEDULES];        /* 1 where the bid has no price for the step, or was pulled */
    uint32_t operating[MEWIKOFU_SCHEDULES];   /* O, of the row in force */
    uint32_t pricing[MEWIKOFU_SCHEDULES];     /* E */
    uint32_t agino[MEWIKOFU_SCHEDULES];       /* AGINO */
    uint32_t msiq[MEWIKOFU_SCHEDULES];        /* MSIQ */
    uint32_t constrained[MEWIKOFU_SCHEDULES]; /* C */
    uint32_t matches[MEWIKOFU_MATCHES];       /* m(1,2) m(1,3) m(2,3) m(1,4) .. m(4,5), at MEWIKOFU_MATCH_AT */
    struct mewikofu_excess excess;            /* of the line */
};

/* The step view: step `step` of line `line` (both from 0). Header, market, ad hoc records, each line, all lines and view are checked, in this order. */
struct mewikofu_view mewikofu_view(const uint8_t *day, size_t length, size_t line, size_t step);

/* The line views: all steps of line `line` (from 0) by one call, which works the day out once. Answers the number; header, market, ad hoc records, each line,
   all lines and that the line is there (MEWIKOFU_NO_LINE) are checked, in this order. With 0 `count` is the line's step count, 1 to MEWIKOFU_MOST_STEPS, and
   views[j] of each step j below it is what mewikofu_view answers for that step. All MEWIKOFU_MOST_STEPS places must be lent whatever the line's step count:
   they are read and written, and those past `count` keep their bytes. With any other number `count` is 0 and every place of `views` is as it was. */
uint32_t mewikofu_line_views(const uint8_t *day, size_t length, size_t line, struct mewikofu_view views[MEWIKOFU_MOST_STEPS], size_t *count);

/* The bytes of line k (from 0) within the day's own, with the line's own operating rows: they are the `part_length` bytes from byte `at` of the day on, in
   either layout. Answers the number; header and line part are checked, in this order. Where it isn't 0 both places are 0 and the part is empty. */
uint32_t mewikofu_line_part(const uint8_t *day, size_t length, size_t k, size_t *at, size_t *part_length);

/* What the cutter answers: a line's steps. Places past the count are 0. In a schedule whose bid was pulled (its count is 0) every step is flagged and has the
   last price of the nearest earlier bid that wasn't pulled. A bid with steps has a price for the line's first step, so bit 0 of a schedule's flags says whether
   its bid was pulled. 1,416 bytes without padding. */
struct mewikofu_cut {
    uint64_t flags[MEWIKOFU_SCHEDULES];                       /* for each schedule a word of missing-price flags, bit k for step k from 0 */
    uint32_t number;                                          /* the number; where it isn't 0 all other fields are 0 */
    uint32_t count;                                           /* how many steps, at most 56 */
    uint32_t missing[MEWIKOFU_SCHEDULES];                     /* for each schedule how many flags are set */
    uint32_t ends[MEWIKOFU_MOST_STEPS];                       /* the steps' upper ends in MJ, rising */
    uint32_t prices[MEWIKOFU_SCHEDULES][MEWIKOFU_MOST_STEPS]; /* uncapped, in $0.0001 per GJ: prices[s][k] of step k in schedule s, both from 0 */
    uint32_t reserved;                                        /* always 0 */
};

/* The cutter, of libcutter_c.a. Cuts one line of a day file, the `length` bytes at `line`. Cutter and each line are checked, in this order. It is given no ad
   hoc record and reads the line's own operating rows, so it may refuse with MEWIKOFU_TOTALS a line of a day that is accepted. */
struct mewikofu_cut mewikofu_cut(const uint8_t *line, size_t length);

/* The archives were compiled for these sizes. */
#if defined __cplusplus && __cplusplus >= 201103L
static_assert(sizeof(struct mewikofu_view) == 400 && sizeof(struct mewikofu_cut) == 1416, "the answers have no padding");
#elif defined __STDC_VERSION__ && __STDC_VERSION__ >= 201112L
_Static_assert(sizeof(struct mewikofu_view) == 400 && sizeof(struct mewikofu_cut) == 1416, "the answers have no padding");
#endif

#ifdef __cplusplus
}
#pragma GCC diagnostic pop
#endif

#endif
