#define _POSIX_C_SOURCE 199309L

#include "sample.h"
#include "plain.h"

#include <time.h>

enum { SPLITS = 3 }; /* the kind */

size_t entries;
int32_t pairs[SHEETS][MAX_PAIRS];
Sheet sheets[SHEETS];
Sheet seconds[SHEETS];
uint32_t sides[SHEETS];

void make_sheets(MakePairs *make, int32_t kind, int n)
{
    entries = (size_t)n;
    for (int t = 0; t < SHEETS; t++) {
        make(kind == SPLITS, n, pairs[t]);
        sheets[t].length = write_sheet(n, pairs[t], sheets[t].text);
    }
}

void make_seconds(int n)
{
    for (int t = 0; t < SHEETS; t++) {
        int32_t scores[MAX_PAIRS];
        int order[MAX_ENTRIES];
        near_tree(false, n, scores);
        any_order(n, order);
        seconds[t].length = write_ordered(n, order, scores, seconds[t].text);
    }
}

int64_t quartets(uint32_t side)
{
    int64_t in = 0, out;
    for (; side != 0; side &= side - 1)
        in++;
    out = (int64_t)entries - in;
    return in * (in - 1) / 2 * (out * (out - 1) / 2);
}

uint32_t pick_listed(int t)
{
    uint32_t sets[2 * MAX_ENTRIES], side = 0;
    int64_t indices[2 * MAX_ENTRIES];
    int64_t count =
        plain_numbers(SPLITS, (int32_t)entries, pairs[t], sets, indices);
    for (int64_t i = 0; i < count; i++)
        if (quartets(sets[i]) > quartets(side))
            side = sets[i];
    return side;
}

uint32_t pick_half(int t)
{
    (void)t;
    return UINT32_MAX >> (MAX_ENTRIES - entries / 2);
}

int64_t plain_shared(int32_t kind, int t, uint32_t *set)
{
    uint32_t sets[2 * MAX_ENTRIES], both = 1 | (uint32_t)1 << (entries - 1);
    int64_t indices[2 * MAX_ENTRIES];
    int64_t count = plain_numbers(kind, (int32_t)entries, pairs[t], sets, indices);
    for (int64_t i = 0; i < count; i++) {
        *set = sets[i];
        if ((*set & both) == both)
            return i + 1;
    }
    *set = UINT32_MAX >> (MAX_ENTRIES - entries);
    return 0;
}

double now_us(void)
{
    struct timespec t;
    clock_gettime(CLOCK_PROCESS_CPUTIME_ID, &t);
    return (double)t.tv_sec * 1e6 + (double)t.tv_nsec / 1e3;
}
