/* Whether libraries answer as mewikofu.h says: a refused view, a refused uplift (both with ENGINE) and a refused cut (with CUTTER) have the number, and 0 in
   every other byte; refused line views (with ENGINE) have the number and the count 0, and leave every place as it was. Ends with 1 otherwise; functions with
   another interface may end it by a signal. */
#include "mewikofu.h"

#include <string.h>

/* Fills the stack on which the next call puts its answer, so that a byte that isn't written isn't 0 by chance. */
__attribute__((noinline)) static void fill_stack(void)
{
    volatile uint8_t space[16384];
    for (size_t k = 0; k < sizeof space; k++)
        space[k] = 0xA5;
}

/* Whether all bytes of an answer are 0 but those of its number. */
static int is_refused(const void *answer, size_t size, size_t number_at, uint32_t number)
{
    uint8_t expected[sizeof(struct mewikofu_cut)] = {0};
    memcpy(expected + number_at, &number, sizeof number);
    return memcmp(answer, expected, size) == 0;
}

#ifdef ENGINE
__attribute__((noinline)) static int view_is_refused(void)
{
    struct mewikofu_view view = mewikofu_view(NULL, 0, 0, 0);
    return is_refused(&view, sizeof view, offsetof(struct mewikofu_view, number), MEWIKOFU_FILE_SHORT);
}

static int uplift_is_refused(void)
{
    int64_t shares[MEWIKOFU_SCHEDULES];
    memset(shares, 0xA5, sizeof shares);
    if (mewikofu_uplift(NULL, 0, shares) != MEWIKOFU_FILE_SHORT)
        return 0;
    for (size_t s = 0; s < MEWIKOFU_SCHEDULES; s++)
        if (shares[s] != 0)
            return 0;
    return 1;
}

static int line_views_are_refused(void)
{
    static struct mewikofu_view views[MEWIKOFU_MOST_STEPS], before[MEWIKOFU_MOST_STEPS];
    size_t count = SIZE_MAX;
    memset(views, 0xA5, sizeof views);
    memcpy(before, views, sizeof before);
    return mewikofu_line_views(NULL, 0, 0, views, &count) == MEWIKOFU_FILE_SHORT && count == 0 && memcmp(views, before, sizeof views) == 0;
}
#endif

#ifdef CUTTER
__attribute__((noinline)) static int cut_is_refused(void)
{
    struct mewikofu_cut cut = mewikofu_cut(NULL, 0);
    return is_refused(&cut, sizeof cut, offsetof(struct mewikofu_cut, number), MEWIKOFU_LINE_LENGTH);
}
#endif

int main(void)
{
#ifdef ENGINE
    fill_stack();
    if (!view_is_refused() || !uplift_is_refused() || !line_views_are_refused())
        return 1;
#endif
#ifdef CUTTER
    fill_stack();
    if (!cut_is_refused())
        return 1;
#endif
    return 0;
}
