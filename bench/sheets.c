#include "sheets.h"

#include <inttypes.h>
#include <stdio.h>

enum { POINT = 2 }; /* in half points, the unit of a pair list */

static int32_t random_below(int32_t bound)
{
    static uint64_t seed = 1;
    seed ^= seed << 13;
    seed ^= seed >> 7;
    seed ^= seed << 17;
    return (int32_t)((seed >> 16) % (uint64_t)bound);
}

void near_tree(bool distances, int n, int32_t *pairs)
{
    int block[MAX_ENTRIES], left = n;
    int32_t value[MAX_ENTRIES][MAX_ENTRIES], depth[MAX_ENTRIES];
    for (int a = 0; a < n; a++) {
        block[a] = a;
        depth[a] = 0;
        value[a][a] = distances ? 0 : 10000 * (n + 1);
    }
    for (; left > 1; left--) {
        int i = random_below(left), j = random_below(left - 1);
        j += j >= i;
        int32_t up_i = 500 + random_below(1000), up_j = 500 + random_below(1000);
        for (int a = 0; a < n; a++)
            depth[a] += block[a] == i ? up_i : block[a] == j ? up_j : 0;
        for (int a = 0; a < n; a++)
            for (int b = 0; b < n; b++)
                if (block[a] == i && block[b] == j)
                    value[a][b] = value[b][a] =
                        distances ? depth[a] + depth[b] + random_below(200)
                                  : 10000 * left + random_below(5000);
        for (int a = 0; a < n; a++) {
            if (block[a] == j)
                block[a] = i;
            if (block[a] == left - 1)
                block[a] = j;
        }
    }
    for (int a = 0; a < n; a++)
        for (int b = 0; b <= a; b++)
            *pairs++ = POINT * value[a][b];
}

void unstructured(bool distances, int n, int32_t *pairs)
{
    for (int a = 0; a < n; a++)
        for (int b = 0; b <= a; b++)
            *pairs++ = distances && a == b ? 0 : POINT * random_below(1000001);
}

void near_tree_halves(bool distances, int n, int32_t *pairs)
{
    near_tree(distances, n, pairs);
    for (int a = 0; a < n; a++)
        for (int b = 0; b <= a; b++, pairs++)
            if (!distances || a != b)
                *pairs += random_below(POINT);
}

void any_order(int n, int *order)
{
    for (int i = 0; i < n; i++) {
        int j = random_below(i + 1);
        order[i] = order[j];
        order[j] = i;
    }
}

size_t write_sheet(int n, const int32_t *pairs, uint8_t *text)
{
    int order[MAX_ENTRIES];
    for (int i = 0; i < n; i++)
        order[i] = i;
    return write_ordered(n, order, pairs, text);
}

/* Writes a value in points; answers its length. */
static int write_value(char *to, int32_t value)
{
    if (value == INT32_MIN)
        return sprintf(to, "-");
    int32_t size = value < 0 ? -value : value;
    return sprintf(to, "%s%" PRId32 "%s", value < 0 ? "-" : "", size / POINT,
                   size % POINT == 0 ? "" : ".5");
}

size_t write_ordered(int n, const int *order, const int32_t *pairs, uint8_t *text)
{
    char *to = (char *)text;
    for (int i = 0; i < n; i++)
        to += sprintf(to, "E%d%c", order[i], i < n - 1 ? ' ' : '\n');
    for (int i = 0; i < n; i++)
        for (int j = 0; j < n; j++) {
            int a = order[i], b = order[j];
            int high = a > b ? a : b, low = a + b - high;
            to += write_value(to, pairs[high * (high + 1) / 2 + low]);
            *to++ = j < n - 1 ? ' ' : '\n';
        }
    return (size_t)(to - (char *)text);
}
