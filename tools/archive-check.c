/* Stack that each function takes on a day of 64 lines and 64 ad hoc records, made of the lines of the day file named on the command line, which has no records:
   each is called on a stack of its own, painted before, and how far the paint is gone is counted, less what a call of nothing takes. Ends with 1 where one takes
   more than include/mewikofu.h says, or refuses. */
#include "mewikofu.h"

#include <stdio.h>
#include <string.h>
#include <ucontext.h>

static uint8_t space[400000];
static ucontext_t here, there;
static uint8_t read[MEWIKOFU_DAY_BYTES(MEWIKOFU_MOST_LINES)];
static uint8_t day[MEWIKOFU_AD_HOC_DAY_BYTES(MEWIKOFU_MOST_LINES, MEWIKOFU_MOST_AD_HOC)], book[MEWIKOFU_BOOK_BYTES(MEWIKOFU_MOST_LINES)];
static size_t length;
static uint32_t number;

/* The bytes of stack that a call takes; SIZE_MAX where it couldn't be made. */
static size_t stack_of(void (*call)(void))
{
    memset(space, 0xA5, sizeof space);
    if (getcontext(&there) != 0)
        return SIZE_MAX;
    there.uc_stack.ss_sp = space;
    there.uc_stack.ss_size = sizeof space;
    there.uc_link = &here;
    makecontext(&there, call, 0);
    if (swapcontext(&here, &there) != 0)
        return SIZE_MAX;
    size_t k = 0;
    while (k < sizeof space && space[k] == 0xA5)
        k++;
    return sizeof space - k;
}

static void nothing(void) { number = 0; }

static void settle(void) { number = mewikofu_settle(day, length, book, sizeof book); }

static void uplift(void)
{
    static int64_t shares[MEWIKOFU_SCHEDULES];
    number = mewikofu_uplift(day, length, shares);
}

/* What a view and a cut take is counted with the place of their answer. */
static void view(void)
{
    struct mewikofu_view answer = mewikofu_view(day, length, 63, 0);
    number = answer.number;
}

/* The places are the caller's own: they aren't counted. They begin where the first view may begin in memory, at a multiple of its alignment alone. */
static void line_views(void)
{
    enum { ALIGNMENT = _Alignof(struct mewikofu_view) };
    static _Alignas(2 * ALIGNMENT) uint8_t places[ALIGNMENT + MEWIKOFU_MOST_STEPS * sizeof(struct mewikofu_view)];
    static size_t count;
    number = mewikofu_line_views(day, length, 63, (struct mewikofu_view *)(void *)(places + ALIGNMENT), &count);
    /* Some step's place is written, and as many as the book has steps. */
    if (count == 0 || count != book[MEWIKOFU_ENTRY_AT(63) + MEWIKOFU_STEPS])
        number = UINT32_MAX;
}

static void line_part(void)
{
    static size_t at, part;
    number = mewikofu_line_part(day, length, 63, &at, &part);
}

static void cut(void)
{
    struct mewikofu_cut answer = mewikofu_cut(day + MEWIKOFU_AD_HOC_LINE_AT(63), MEWIKOFU_LINE_BYTES);
    number = answer.number;
}

static void put_word(size_t at, uint32_t value)
{
    for (size_t k = 0; k < 4; k++)
        day[at + k] = (uint8_t)(value >> 8 * k);
}

/* The ad hoc record of line k, with the line's own operating row of some schedule. */
static void put_record(size_t k)
{
    size_t at = MEWIKOFU_AD_HOC_AT(MEWIKOFU_MOST_LINES, k), s = k % MEWIKOFU_SCHEDULES;
    put_word(at + MEWIKOFU_AD_HOC_LINE, (uint32_t)k);
    put_word(at + MEWIKOFU_AD_HOC_SCHEDULE, (uint32_t)s + 1);
    put_word(at + MEWIKOFU_AD_HOC_ORDER, (uint32_t)k);
    memcpy(day + at + MEWIKOFU_AD_HOC_QUANTITY(0), day + MEWIKOFU_AD_HOC_LINE_AT(k) + 540 + 20 * s, 20);
}

/* The day of n lines as one of 64: its lines over and over, each with a participant and an ad hoc record of its own. */
static void lengthen(size_t n)
{
    memcpy(day + MEWIKOFU_AD_HOC_MARKET_AT, read + MEWIKOFU_MARKET_AT, MEWIKOFU_LINES_AT - MEWIKOFU_MARKET_AT);
    for (size_t k = 0; k < MEWIKOFU_MOST_LINES; k++) {
        memcpy(day + MEWIKOFU_AD_HOC_LINE_AT(k), read + MEWIKOFU_LINE_AT(k % n), MEWIKOFU_LINE_BYTES);
        put_word(MEWIKOFU_AD_HOC_LINE_AT(k), (uint32_t)k);
        put_record(k);
    }
    length = sizeof day;
    const size_t header[] = {MEWIKOFU_MOST_LINES, MEWIKOFU_AD_HOC_MARKET_AT, MEWIKOFU_AD_HOC_LINES_AT, length, MEWIKOFU_MOST_AD_HOC,
                             MEWIKOFU_AD_HOC_AT(MEWIKOFU_MOST_LINES, 0)};
    for (size_t k = 0; k < sizeof header / sizeof header[0]; k++)
        put_word(4 * k, (uint32_t)header[k]);
}

int main(int argc, char **argv)
{
    static const struct { const char *name; void (*call)(void); size_t limit; } calls[] = {
        { "mewikofu_settle", settle, MEWIKOFU_STACK_BYTES }, { "mewikofu_uplift", uplift, MEWIKOFU_STACK_BYTES },
        { "mewikofu_view", view, MEWIKOFU_STACK_BYTES }, { "mewikofu_line_views", line_views, MEWIKOFU_LINE_VIEWS_STACK_BYTES },
        { "mewikofu_line_part", line_part, MEWIKOFU_STACK_BYTES }, { "mewikofu_cut", cut, MEWIKOFU_STACK_BYTES },
    };
    FILE *file = argc == 2 ? fopen(argv[1], "rb") : NULL;
    if (file == NULL || fread(read, 1, sizeof read, file) < MEWIKOFU_DAY_BYTES(1) || fclose(file) != 0) {
        fprintf(stderr, "usage: archive-check DAY, a day file that can be read\n");
        return 2;
    }
    lengthen(read[0]);
    int failed = 0;
    size_t least = stack_of(nothing);
    for (size_t k = 0; k < sizeof calls / sizeof calls[0]; k++) {
        /* At the first call the dynamic linker may look memcpy up, on the same stack. */
        size_t first = stack_of(calls[k].call) - least, stack = stack_of(calls[k].call) - least;
        printf("%s: %zu bytes of stack, number %u\n", calls[k].name, stack, (unsigned)number);
        /* A measure that is always small would be seen. */
        failed |= number != 0 || first >= calls[k].limit || stack >= calls[k].limit || (calls[k].call == settle && stack < 1000);
    }
    return failed;
}
