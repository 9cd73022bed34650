/* Settles the day file named on the command line and prints its lines, with their excess where it isn't 0, totals and uplift; with the number of a line, from 0,
   the line's steps instead, each with its payments. Ends with 0 where the day is settled, 1 where it is refused or has no such line, 2 where the file can't be
   read or the output can't be written. */
#include "mewikofu.h"

#include <inttypes.h>
#include <stdio.h>
#include <stdlib.h>

/* The longest accepted day has MEWIKOFU_AD_HOC_DAY_BYTES(64, 64) bytes. A longer file is read whole too: which number it is refused with depends on its length. */
struct day {
    uint8_t *bytes;
    size_t length;
};

static uint8_t book[MEWIKOFU_BOOK_BYTES(MEWIKOFU_MOST_LINES)];

static uint32_t word(const uint8_t *at)
{
    return (uint32_t)at[0] | (uint32_t)at[1] << 8 | (uint32_t)at[2] << 16 | (uint32_t)at[3] << 24;
}

/* A signed 64-bit number of the book. */
static int64_t money(const uint8_t *at)
{
    uint64_t bits = (uint64_t)word(at + 4) << 32 | word(at);
    return bits >> 63 ? -1 - (int64_t)~bits : (int64_t)bits;
}

/* An amount of $0.0000001, in dollars. */
static void print_money(int64_t value)
{
    uint64_t amount = value < 0 ? 0 - (uint64_t)value : (uint64_t)value;
    char text[40];
    snprintf(text, sizeof text, "%s%" PRIu64 ".%07" PRIu64, value < 0 ? "-" : "", amount / 10000000, amount % 10000000);
    printf(" %20s", text);
}

static void print_line(const uint8_t *entry)
{
    const char *side = word(entry + MEWIKOFU_SIDE) == 0 ? "injection" : "withdrawal";
    printf("participant %" PRIu32 ", point %" PRIu32 ", %s, steps %" PRIu32 "\n", word(entry + MEWIKOFU_PARTICIPANT),
           word(entry + MEWIKOFU_POINT), side, word(entry + MEWIKOFU_STEPS));
    printf("payments");
    for (int s = 0; s < MEWIKOFU_SCHEDULES; s++)
        print_money(money(entry + MEWIKOFU_PAYMENT(s)));
    printf("\n");
}

static uint32_t sum(const uint32_t row[MEWIKOFU_SCHEDULES])
{
    uint32_t all = 0;
    for (int s = 0; s < MEWIKOFU_SCHEDULES; s++)
        all += row[s];
    return all;
}

static void print_row(const char *name, const uint32_t row[MEWIKOFU_SCHEDULES])
{
    printf(" %s", name);
    for (int s = 0; s < MEWIKOFU_SCHEDULES; s++)
        printf(" %" PRIu32, row[s]);
    printf(";");
}

/* What no step of line k takes of its totals. The views of all its steps have it. */
static void print_excess(struct day day, uint32_t k)
{
    struct mewikofu_view view = mewikofu_view(day.bytes, day.length, k, 0);
    struct mewikofu_excess excess = view.excess;
    if (sum(excess.operating) + sum(excess.pricing) + excess.actual == 0)
        return;
    printf("excess MJ:");
    print_row("operating", excess.operating);
    print_row("pricing", excess.pricing);
    printf(" effective actual %" PRIu32 "\n", excess.actual);
}

/* The day was settled, so its uplift isn't refused. */
static void print_uplift(struct day day)
{
    int64_t shares[MEWIKOFU_SCHEDULES];
    mewikofu_uplift(day.bytes, day.length, shares);
    printf("uplift  ");
    for (int s = 0; s < MEWIKOFU_SCHEDULES; s++)
        print_money(shares[s]);
    printf("\n");
}

static void print_book(struct day day)
{
    printf("lines: %" PRIu32 "; dollars in schedules 1 to 5\n", word(book));
    for (uint32_t k = 0; k < word(book); k++) {
        print_line(book + MEWIKOFU_ENTRY_AT(k));
        print_excess(day, k);
    }
    printf("day\ntotals  ");
    for (int s = 0; s < MEWIKOFU_SCHEDULES; s++)
        print_money(money(book + MEWIKOFU_TOTAL_AT(s)));
    printf("\nadjusted");
    for (int s = 0; s < MEWIKOFU_SCHEDULES; s++)
        print_money(money(book + MEWIKOFU_ADJUSTED_AT(s)));
    printf("\n");
    print_uplift(day);
}

static uint32_t settle(struct day day)
{
    uint32_t number = mewikofu_settle(day.bytes, day.length, book, sizeof book);
    if (number == MEWIKOFU_ACCEPTED)
        print_book(day);
    return number;
}

/* Answers the number. */
static uint32_t print_steps(struct day day, size_t line)
{
    static struct mewikofu_view views[MEWIKOFU_MOST_STEPS];
    size_t count;
    uint32_t number = mewikofu_line_views(day.bytes, day.length, line, views, &count);
    if (number == MEWIKOFU_ACCEPTED)
        printf("line %zu, steps: %zu; final payments in dollars in schedules 1 to 5\n", line, count);
    for (size_t j = 0; j < count; j++) {
        printf("step %zu, %" PRIu32 " MJ wide, to %" PRIu32 " MJ\npayments", j, views[j].width, views[j].end);
        for (int s = 0; s < MEWIKOFU_SCHEDULES; s++)
            print_money(views[j].finals[s]);
        printf("\n");
    }
    return number;
}

/* Reads all bytes of an open file. Answers whether they could be read. */
static int read_all(FILE *file, struct day *day)
{
    size_t room = 0;
    do {
        room = room == 0 ? MEWIKOFU_AD_HOC_DAY_BYTES(MEWIKOFU_MOST_LINES, MEWIKOFU_MOST_AD_HOC) + 1 : 2 * room;
        uint8_t *bytes = realloc(day->bytes, room);
        if (bytes == NULL)
            return 0;
        day->bytes = bytes;
        day->length += fread(bytes + day->length, 1, room - day->length, file);
    } while (day->length == room);
    return !ferror(file);
}

/* The bytes of the named file. Answers whether it could be read. */
static int read_day(const char *name, struct day *day)
{
    FILE *file = fopen(name, "rb");
    if (file == NULL)
        return 0;
    int read = read_all(file, day);
    return fclose(file) == 0 && read;
}

/* The number of a line. Answers whether it is one. */
static int read_line(const char *text, size_t *line)
{
    char *end;
    *line = strtoul(text, &end, 10);
    return *text >= '0' && *text <= '9' && *end == '\0';
}

int main(int count, char **arguments)
{
    struct day day = {NULL, 0};
    size_t line = 0;
    if (count < 2 || count > 3 || (count == 3 && !read_line(arguments[2], &line))) {
        fprintf(stderr, "usage: settle DAY [LINE]\n");
        return 2;
    }
    if (!read_day(arguments[1], &day)) {
        fprintf(stderr, "%s can't be read\n", arguments[1]);
        free(day.bytes);
        return 2;
    }
    uint32_t number = count == 3 ? print_steps(day, line) : settle(day);
    if (number != MEWIKOFU_ACCEPTED)
        printf("refused %" PRIu32 ": %s\n", number, mewikofu_words(number));
    free(day.bytes);
    /* A full disk shows when the last bytes are written. */
    if (fflush(stdout) != 0 || ferror(stdout)) {
        fprintf(stderr, "the output can't be written\n");
        return 2;
    }
    return number == MEWIKOFU_ACCEPTED ? 0 : 1;
}
