/* The archive's functions with one fault put into their answers, so that the tests can be seen to fail. FAULT is its number; 0 is none.
   The archive's own functions have the prefix real_ here; fuzz/faults renames them. */
#include "mewikofu.h"
#include <string.h>

typedef struct mewikofu_view View;
typedef struct mewikofu_cut Cut;

uint32_t real_mewikofu_settle(const uint8_t *, size_t, uint8_t *, size_t);
uint32_t real_mewikofu_uplift(const uint8_t *, size_t, int64_t *);
View real_mewikofu_view(const uint8_t *, size_t, size_t, size_t);
uint32_t real_mewikofu_line_views(const uint8_t *, size_t, size_t, View *, size_t *);
uint32_t real_mewikofu_line_part(const uint8_t *, size_t, size_t, size_t *, size_t *);
Cut real_mewikofu_cut(const uint8_t *, size_t);

static inline uint32_t word_at(const uint8_t *at)
{
    uint32_t word;
    memcpy(&word, at, sizeof word);
    return word;
}

static inline void put_word(uint8_t *at, uint32_t word)
{
    memcpy(at, &word, sizeof word);
}

/* The layout with ad hoc records: a header two words longer, then market table, lines and records. */
#define OLD_MARKET_AT 16
#define OLD_LINES_AT 64
#define MORE_HEADER 8
#define RECORD_COUNT 16
#define RECORD_BYTES 32
#define MOST_RECORDS 64
#define MOST_DAY (OLD_LINES_AT + MORE_HEADER + MEWIKOFU_LINE_BYTES * MEWIKOFU_MOST_LINES + RECORD_BYTES * MOST_RECORDS)

/* Refusals of ad hoc records. */
#define RECORDS_MANY 19
#define RECORDS_EQUAL 21

static inline int has_records(const uint8_t *day, size_t length)
{
    return length >= OLD_LINES_AT && word_at(day + 4) != OLD_MARKET_AT;
}

static inline size_t lines_at(const uint8_t *day, size_t length)
{
    return has_records(day, length) ? OLD_LINES_AT + MORE_HEADER : OLD_LINES_AT;
}

/* A copy of the bytes; none of longer bytes than an accepted day's. */
static inline uint8_t *copy_of(const uint8_t *bytes, size_t length)
{
    static _Thread_local uint8_t copy[MOST_DAY];
    return length > sizeof copy ? NULL : memcpy(copy, bytes, length);
}

/* A copy of a line with a change. */
static inline const uint8_t *with_line(const uint8_t *line, size_t length, void (*change)(uint8_t *line))
{
    uint8_t *copy = copy_of(line, length);
    if (copy == NULL || length < MEWIKOFU_LINE_BYTES)
        return line;
    change(copy);
    return copy;
}

/* A copy of a day with each of its lines changed. */
static inline const uint8_t *with_lines(const uint8_t *day, size_t length, void (*change)(uint8_t *line))
{
    uint8_t *copy = copy_of(day, length);
    if (copy == NULL || length < OLD_LINES_AT)
        return day;
    size_t at = lines_at(day, length);
    for (size_t k = 0; k < word_at(day) && at + MEWIKOFU_LINE_BYTES <= length; k++, at += MEWIKOFU_LINE_BYTES)
        change(copy + at);
    return copy;
}

static inline void set_as_1(uint8_t *line)
{
    uint32_t word = word_at(line + MEWIKOFU_ACCREDITATION);
    put_word(line + MEWIKOFU_ACCREDITATION, word >= 33 && word <= 63 ? 1 : word);
}

static inline void low_bits(uint8_t *line)
{
    put_word(line + MEWIKOFU_ACCREDITATION, word_at(line + MEWIKOFU_ACCREDITATION) & 63);
}

/* A bid within a line: count, 11 breaks, 11 prices. */
#define BID_BYTES 92
#define BID_AT(s) (20 + BID_BYTES * (size_t)(s))
#define PRICES 48

/* Quantities within a line: pricing row r has the intervals from r on. */
#define PRICING_AT(r, i) (480 + 4 * ((size_t)(r) * (11 - (r)) / 2 + (i) - (r)))
#define OPERATING_AT(s, i) (540 + 20 * (size_t)(s) + 4 * (size_t)(i))

static inline int is_pulled(const uint8_t *line, size_t s)
{
    return word_at(line + BID_AT(s)) == 0;
}

static inline void bid_before(uint8_t *line)
{
    for (size_t s = 1; s < MEWIKOFU_SCHEDULES; s++)
        if (is_pulled(line, s))
            memcpy(line + BID_AT(s), line + BID_AT(s - 1), BID_BYTES);
}

/* A record's words. */
#define RECORD_SCHEDULE 4
#define RECORD_ORDER 8
#define RECORD_ROW 12
#define ROW_BYTES 20

/* A copy of an accepted day with each record changed, given its place in the file and the row of the line that it is for. */
static inline const uint8_t *with_records(const uint8_t *day, size_t length, void (*change)(uint8_t *record, uint32_t place, const uint8_t *own))
{
    uint8_t *copy = copy_of(day, length);
    if (copy == NULL || !has_records(day, length))
        return day;
    size_t at = lines_at(day, length) + MEWIKOFU_LINE_BYTES * (size_t)word_at(day);
    for (uint32_t place = 0; at + RECORD_BYTES <= length; place++, at += RECORD_BYTES) {
        const uint8_t *line = copy + lines_at(day, length) + MEWIKOFU_LINE_BYTES * (size_t)word_at(copy + at);
        change(copy + at, place, line + OPERATING_AT(word_at(copy + at + RECORD_SCHEDULE) - 1, 0));
    }
    return copy;
}

static inline void order_by_place(uint8_t *record, uint32_t place, const uint8_t *own)
{
    (void)own;
    put_word(record + RECORD_ORDER, place);
}

static inline void order_reversed(uint8_t *record, uint32_t place, const uint8_t *own)
{
    (void)place, (void)own;
    put_word(record + RECORD_ORDER, ~word_at(record + RECORD_ORDER));
}

static inline void order_with_sign(uint8_t *record, uint32_t place, const uint8_t *own)
{
    (void)place, (void)own;
    put_word(record + RECORD_ORDER, word_at(record + RECORD_ORDER) ^ 1u << 31);
}

static inline void own_row(uint8_t *record, uint32_t place, const uint8_t *own)
{
    (void)place;
    memcpy(record + RECORD_ROW, own, ROW_BYTES);
}

static inline void own_last_row(uint8_t *record, uint32_t place, const uint8_t *own)
{
    if (word_at(record + RECORD_SCHEDULE) == MEWIKOFU_SCHEDULES)
        own_row(record, place, own);
}

/* M, of a line whose bids have no fault. */
static inline uint64_t greatest_break(const uint8_t *line)
{
    uint32_t most = 0;
    for (size_t s = 0; s < MEWIKOFU_SCHEDULES; s++)
        for (size_t slot = 0; slot < 11; slot++)
            most = word_at(line + BID_AT(s) + 4 + 4 * slot) > most ? word_at(line + BID_AT(s) + 4 + 4 * slot) : most;
    return most;
}

/* The place of the entry for interval i in total t: pricing of schedule t, or operating of schedule t - 5. */
static inline size_t entry_at(size_t t, size_t i)
{
    return t < 5 ? PRICING_AT(t < i ? t : i, i) : OPERATING_AT(t - 5, i);
}

static inline uint64_t total_of(const uint8_t *line, size_t t)
{
    uint64_t sum = 0;
    for (size_t i = 0; i < 5; i++)
        sum += word_at(line + entry_at(t, i));
    return sum;
}

/* A total of M + 1,001 has one less in its last entry, where there is something. */
static inline void one_less(uint8_t *line)
{
    for (size_t t = 0; t < 10; t++) {
        uint8_t *last = line + entry_at(t, 4);
        if (total_of(line, t) == greatest_break(line) + 1001 && word_at(last) > 0)
            put_word(last, word_at(last) - 1);
    }
}

/* A total of M + 1,000 has one more. */
static inline void one_more(uint8_t *line)
{
    for (size_t t = 0; t < 10; t++) {
        uint8_t *last = line + entry_at(t, 4);
        if (total_of(line, t) == greatest_break(line) + 1000)
            put_word(last, word_at(last) + 1);
    }
}

/* Operating rows whose sum is above 32 bits become what is left of it there. */
static inline void rows_in_32_bits(uint8_t *line)
{
    for (size_t t = 5; t < 10; t++) {
        uint64_t sum = total_of(line, t);
        for (size_t i = 0; sum >> 32 != 0 && i < 5; i++)
            put_word(line + entry_at(t, i), i == 0 ? (uint32_t)sum : 0);
    }
}

/* Whether some record's row, in force or not, has a total above M + 1,000. */
static inline int has_row_above(const uint8_t *day, size_t length)
{
    if (!has_records(day, length))
        return 0;
    const uint8_t *lines = day + lines_at(day, length);
    for (const uint8_t *record = lines + MEWIKOFU_LINE_BYTES * (size_t)word_at(day); record < day + length; record += RECORD_BYTES) {
        uint64_t sum = 0;
        for (size_t i = 0; i < MEWIKOFU_SCHEDULES; i++)
            sum += word_at(record + RECORD_ROW + 4 * i);
        if (sum > greatest_break(lines + MEWIKOFU_LINE_BYTES * (size_t)word_at(record)) + 1000)
            return 1;
    }
    return 0;
}

/* The number of a day lent with no book: that of its fault, or 15. */
static inline uint32_t number_of(const uint8_t *day, size_t length)
{
    uint8_t none[1];
    return real_mewikofu_settle(day, length, none, 0);
}

/* Faults in how settling reads ad hoc records. */
static inline const uint8_t *misread_records(const uint8_t *day, size_t length)
{
    uint32_t number = number_of(day, length);
    if (FAULT == 39 && number == RECORDS_EQUAL)
        return with_records(day, length, order_by_place); /* equal records are accepted */
    if (FAULT == 40 && has_records(day, length) && number == MEWIKOFU_LAYOUT && word_at(day + RECORD_COUNT) >> 27 != 0) {
        uint8_t *copy = copy_of(day, length); /* the length is summed in 32 bits */
        if (copy == NULL)
            return day;
        put_word(copy + RECORD_COUNT, word_at(day + RECORD_COUNT) & ((1u << 27) - 1));
        return copy;
    }
    if (number != MEWIKOFU_BOOK_SHORT)
        return day;
    if (FAULT == 32)
        return with_records(day, length, order_by_place); /* the last record in the file is in force */
    if (FAULT == 33)
        return with_records(day, length, order_reversed); /* the lowest order number is in force */
    if (FAULT == 34)
        return with_records(day, length, order_with_sign); /* order numbers are compared with a sign */
    if (FAULT == 38)
        return with_records(day, length, own_row); /* records are left out */
    return day;
}

uint32_t mewikofu_settle(const uint8_t *day, size_t length, uint8_t *book, size_t room)
{
    if (FAULT == 15)
        day = with_lines(day, length, set_as_1); /* a set of schedules is taken for all of them */
    if (FAULT == 18)
        day = with_lines(day, length, bid_before); /* a pulled bid is taken for the one before it */
    if (FAULT == 22)
        day = with_lines(day, length, one_more); /* a total of M + 1,000 is refused */
    if (FAULT == 23)
        day = with_lines(day, length, rows_in_32_bits); /* operating totals are summed in 32 bits */
    if (FAULT >= 32)
        day = misread_records(day, length);
    if (FAULT == 37 && number_of(day, length) == MEWIKOFU_BOOK_SHORT && has_row_above(day, length))
        return MEWIKOFU_TOTALS; /* rows that aren't in force are checked */
    uint32_t number = real_mewikofu_settle(day, length, book, room);
    if (FAULT == 3 && number == MEWIKOFU_BOOK_SHORT && room > 95)
        book[95] ^= 1; /* a refused book is written to */
    if (FAULT == 9 && number == MEWIKOFU_EQUAL_KEYS)
        return MEWIKOFU_ACTUALS; /* 14 is answered as 13 */
    if (number != MEWIKOFU_ACCEPTED)
        return number;
    size_t written = MEWIKOFU_BOOK_BYTES(book[0]);
    if (FAULT == 1 && room > written)
        book[written] ^= 1; /* the byte behind the book */
    if (FAULT == 2)
        book[MEWIKOFU_ADJUSTED_AT(4)] ^= 1; /* a(5) is one off */
    if (FAULT == 4)
        ((uint8_t *)day)[length - 1] ^= 1; /* the day is changed */
    if (FAULT == 5 && room == written)
        return MEWIKOFU_BOOK_SHORT; /* a book just long enough is refused */
    if (FAULT == 8)
        memset(book + MEWIKOFU_PAIRS_AT, 0, written - MEWIKOFU_PAIRS_AT); /* a book of zeros */
    return number;
}

/* Whether a schedule is in the group of the one before it, given the totals of both. */
static inline int is_joined(int64_t before, int64_t t)
{
    if (FAULT == 42)
        return (before >= 0) == (t >= 0); /* 0 is joined to totals above 0 */
    if (FAULT == 43)
        return before != 0 && t != 0; /* a group goes on where the sign changes */
    return (before > 0) == (t > 0) && (before < 0) == (t < 0);
}

typedef __int128 Wide;

static inline int64_t sign(Wide x)
{
    return (x > 0) - (x < 0);
}

/* The sum of some totals. */
static inline Wide sum_of(const int64_t *totals, size_t count)
{
    Wide sum = 0;
    while (count-- > 0)
        sum += totals[count];
    return sum;
}

/* What a group's schedules get, from their totals and adjusted totals. */
static inline void share_out(const int64_t *t, const int64_t *a, size_t count, int64_t *shares)
{
    Wide sum = sum_of(t, count);
    Wide shared = FAULT == 44 ? sum : sum_of(a, count); /* totals are taken for adjusted totals */
    Wide left = shared;
    if (sum == 0)
        return;
    for (size_t k = 0; k < count; k++) {
        Wide product = t[k] * shared;
        if (FAULT == 45)
            product = (int64_t)(uint64_t)product; /* products are of 64 bits */
        int has_remainder = product % sum != 0;
        shares[k] = (int64_t)(product / sum);
        if (FAULT == 46 && has_remainder)
            shares[k] += sign(t[k]); /* sizes are rounded up */
        if (FAULT == 47 && has_remainder && t[k] < 0)
            shares[k] -= 1; /* numbers, not sizes, are rounded down */
        left -= shares[k];
    }
    for (size_t j = 0; j < count && left != 0 && FAULT != 46; j++) {
        size_t k = FAULT == 48 ? count - 1 - j : j; /* units go to the latest */
        if (t[k] * shared % sum != 0 || FAULT == 49) { /* a unit goes to a schedule without a remainder */
            shares[k] += sign(left);
            left -= sign(left);
        }
        if (FAULT == 50)
            break; /* one unit at most is given */
    }
}

/* The shares of an accepted day by its totals. */
static inline void shares_of_totals(const uint8_t *day, size_t length, int64_t *shares)
{
    uint8_t book[MEWIKOFU_BOOK_BYTES(MEWIKOFU_MOST_LINES)];
    int64_t t[MEWIKOFU_SCHEDULES], a[MEWIKOFU_SCHEDULES];
    real_mewikofu_settle(day, length, book, sizeof book);
    for (size_t s = 0; s < MEWIKOFU_SCHEDULES; s++) {
        memcpy(&t[s], book + MEWIKOFU_TOTAL_AT(s), sizeof t[s]);
        memcpy(&a[s], book + MEWIKOFU_ADJUSTED_AT(s), sizeof a[s]);
        shares[s] = 0;
    }
    for (size_t first = 0, end; first < MEWIKOFU_SCHEDULES; first = end) {
        for (end = first + 1; end < MEWIKOFU_SCHEDULES && is_joined(t[end - 1], t[end]);)
            end++;
        share_out(t + first, a + first, end - first, shares + first);
    }
}

uint32_t mewikofu_uplift(const uint8_t *day, size_t length, int64_t shares[MEWIKOFU_SCHEDULES])
{
    int64_t before[MEWIKOFU_SCHEDULES];
    memcpy(before, shares, sizeof before);
    uint32_t number = real_mewikofu_uplift(day, length, shares);
    if (FAULT == 51 && number != MEWIKOFU_ACCEPTED)
        memcpy(shares, before, sizeof before); /* refused, the places are left as they were */
    if (FAULT == 52 && number == MEWIKOFU_EQUAL_KEYS)
        shares[4] = before[4]; /* refused with 14, the last place is left as it was */
    if (number != MEWIKOFU_ACCEPTED)
        return number;
    if (FAULT >= 42 && FAULT <= 50)
        shares_of_totals(day, length, shares);
    if (FAULT == 53 && shares[4] == 0)
        shares[4] = before[4]; /* a share of 0 isn't written */
    if (FAULT == 54 && word_at(day) > 32) {
        memset(shares, 0, sizeof before);
        return MEWIKOFU_BOOK_SHORT; /* 15 is answered for many lines */
    }
    return number;
}

/* Faults in the excess of an accepted view. */
static inline void change_excess(View *view, int is_last)
{
    struct mewikofu_excess *excess = &view->excess;
    for (size_t s = 0; s < MEWIKOFU_SCHEDULES; s++) {
        uint32_t operating = excess->operating[s];
        if (FAULT == 24) { /* the excess of operating and of pricing are each other's */
            excess->operating[s] = excess->pricing[s];
            excess->pricing[s] = operating;
        }
        if (FAULT == 25 && is_last)
            view->constrained[s] += operating; /* the excess is constrained on */
    }
    if (FAULT == 26)
        excess->actual = 0; /* the excess of the effective actual is left out */
    if (FAULT == 27 && !is_last)
        memset(excess, 0, sizeof *excess); /* the last step alone has the excess */
    if (FAULT == 28)
        excess->actual = excess->operating[4]; /* all of the excess is taken for delivered */
}

View mewikofu_view(const uint8_t *day, size_t length, size_t line, size_t step)
{
    if (FAULT == 10)
        step = (uint32_t)step; /* a step above 2^32 is taken for a lower one */
    if (FAULT == 16)
        day = with_lines(day, length, set_as_1); /* a set of schedules is taken for all of them */
    if (FAULT == 19)
        day = with_lines(day, length, bid_before); /* a pulled bid is taken for the one before it */
    View view = real_mewikofu_view(day, length, line, step);
    if (FAULT == 6 && view.number != MEWIKOFU_ACCEPTED)
        view.flag[4] = 1; /* a refused view has a flag */
    if (FAULT == 11)
        view.matches[9] = 0; /* m(4,5) is left out */
    if (FAULT == 29 && view.number != MEWIKOFU_ACCEPTED)
        view.excess.actual = 1; /* a refused view has an excess */
    if (FAULT >= 24 && FAULT <= 28 && view.number == MEWIKOFU_ACCEPTED)
        change_excess(&view, real_mewikofu_view(day, length, line, step + 1).number == MEWIKOFU_NO_STEP);
    if (FAULT == 35 && view.number == MEWIKOFU_ACCEPTED) {
        View other = real_mewikofu_view(with_records(day, length, own_last_row), length, line, step);
        view.actual = other.number == MEWIKOFU_ACCEPTED ? other.actual : view.actual; /* by the line's own row 5 */
    }
    return view;
}

/* What the places for a line's views held before the call. */
static _Thread_local View unwritten[MEWIKOFU_MOST_STEPS];

/* Faults in the places of refused line views. */
static inline void change_refused(uint32_t number, View *views, size_t *count, size_t count_before)
{
    if (FAULT == 55)
        views[0].end = 0; /* a place is written */
    if (FAULT == 56 && number == MEWIKOFU_NO_LINE)
        views[55].excess.actual++; /* the last place is written where there is no such line */
    if (FAULT == 57)
        *count = count_before; /* the count is left as it was */
    if (FAULT == 58 && number == MEWIKOFU_EQUAL_KEYS)
        *count = 1; /* 14 has a count */
}

/* Faults in the views of a line. */
static inline void change_views(View *views, size_t *count)
{
    size_t steps = *count, last = steps - 1;
    View first = views[0];
    if (FAULT == 59)
        (*count)++; /* the count is one more */
    if (FAULT == 60)
        (*count)--; /* the count is one less */
    if (FAULT == 61 && steps < MEWIKOFU_MOST_STEPS)
        views[steps].number = 0; /* the place behind the last view is written */
    if (FAULT == 62) { /* the first view and the last one stand in each other's place */
        views[0] = views[last];
        views[last] = first;
    }
    if (FAULT == 63)
        views[last] = unwritten[last]; /* the last place is left as it was */
    if (FAULT == 64 && steps == MEWIKOFU_MOST_STEPS)
        views[55].finals[4] = unwritten[55].finals[4]; /* a payment of the 56th place is left as it was */
    for (size_t j = 0; j < steps; j++) {
        if (FAULT == 65)
            views[j].number = unwritten[j].number; /* numbers aren't written */
        if (FAULT == 66 && j < last)
            memset(&views[j].excess, 0, sizeof views[j].excess); /* the last step alone has the excess */
        if (FAULT == 67)
            memcpy(views[j].finals, views[j].revised, sizeof views[j].finals); /* revised payments are final */
        if (FAULT == 68)
            memcpy(views[j].matches, first.matches, sizeof first.matches); /* every step has the first one's matches */
    }
}

uint32_t mewikofu_line_views(const uint8_t *day, size_t length, size_t line, View views[MEWIKOFU_MOST_STEPS], size_t *count)
{
    size_t count_before = *count;
    memcpy(unwritten, views, sizeof unwritten);
    if (FAULT == 69)
        line = (uint32_t)line; /* a line above 2^32 is taken for a lower one */
    if (FAULT == 70)
        day = with_lines(day, length, set_as_1); /* a set of schedules is taken for all of them */
    if (FAULT == 71 && number_of(day, length) == MEWIKOFU_BOOK_SHORT)
        day = with_records(day, length, order_with_sign); /* order numbers are compared with a sign */
    uint32_t number = real_mewikofu_line_views(day, length, line, views, count);
    if (number == MEWIKOFU_ACCEPTED)
        change_views(views, count);
    else
        change_refused(number, views, count, count_before);
    if (FAULT == 72 && number == MEWIKOFU_NO_LINE)
        return MEWIKOFU_NO_STEP; /* 16 is answered as 17 */
    return number;
}

uint32_t mewikofu_line_part(const uint8_t *day, size_t length, size_t k, size_t *at, size_t *part_length)
{
    if (FAULT == 12)
        k = (uint32_t)k; /* a line above 2^32 is taken for a lower one */
    uint32_t number = real_mewikofu_line_part(day, length, k, at, part_length);
    if (FAULT == 13 && number == MEWIKOFU_ACCEPTED)
        *at += 4; /* the part begins one word late */
    if (FAULT == 36 && number == MEWIKOFU_ACCEPTED && has_records(day, length))
        *at -= MORE_HEADER; /* the part begins where it did in the old layout */
    if (FAULT == 41 && number == RECORDS_MANY && k < word_at(day)) {
        *at = lines_at(day, length) + MEWIKOFU_LINE_BYTES * k; /* 19 isn't checked */
        *part_length = MEWIKOFU_LINE_BYTES;
        return MEWIKOFU_ACCEPTED;
    }
    return number;
}

Cut mewikofu_cut(const uint8_t *line, size_t length)
{
    if (FAULT == 17)
        line = with_line(line, length, low_bits); /* an accreditation above 63 is taken for a lower one */
    if (FAULT == 30)
        line = with_line(line, length, one_less); /* a total of M + 1,001 is accepted */
    Cut cut = real_mewikofu_cut(line, length);
    if (FAULT == 7 && cut.number != MEWIKOFU_ACCEPTED)
        cut.missing[4] = 1; /* a refused cut has a flag set */
    if (FAULT == 31)
        cut.reserved = cut.count; /* the reserved word isn't 0 */
    if (FAULT == 14 && cut.count == MEWIKOFU_MOST_STEPS)
        cut.ends[55]--; /* the 56th end is one less */
    for (size_t s = 1; cut.number == MEWIKOFU_ACCEPTED && s < MEWIKOFU_SCHEDULES; s++) {
        if (FAULT == 20 && is_pulled(line, s))
            for (size_t k = 0; k < cut.count; k++) /* the last price of the first bid, not of the nearest */
                cut.prices[s][k] = word_at(line + BID_AT(0) + PRICES + 4 * (word_at(line + BID_AT(0)) - 1));
        if (FAULT == 21 && is_pulled(line, s))
            cut.flags[s] |= (uint64_t)1 << cut.count; /* a flag past the count */
    }
    return cut;
}
