/* Keeps the groups of a sheet as numbers: the pair list, the groups' sets and indices, and scores looked up in the pair list.
   usage: numbers KIND < SHEET     KIND is 1 (strong), 2 (clean) or 3 (splits)
   Writes the count, then for each group its index, its entries, counted from 0, and the least value between two of them, in points as on
   the sheet; or `refused N`, and the exit status is 1. The sheet's checks come first here, the kind's after them. Bad usage, and input
   or output that fails: 2. */
#include "common.h"

/* Finds the least value between two members of a set. There is none if the set has fewer than two. */
static bool least_value(uint32_t set, size_t n, const int32_t *pairs, int64_t *least)
{
    bool found = false;
    for (size_t a = 0; a < n; a++) {
        for (size_t b = 0; b < a; b++) {
            int64_t score;
            if (!has(set, a) || !has(set, b) || farzhudyl_score(n, pairs, FARZHUDYL_PAIRS(n), a, b, &score) != 0)
                continue;
            if (!found || score < *least)
                *least = score;
            found = true;
        }
    }
    return found;
}

int main(int argc, char **argv)
{
    static uint8_t sheet[FARZHUDYL_SHEET_MAX + 1];
    size_t sheet_len;
    int32_t kind, pairs[FARZHUDYL_PAIRS_MAX];
    uint32_t sets[FARZHUDYL_GROUPS_MAX];
    int64_t least, indices[FARZHUDYL_GROUPS_MAX];

    if (argc != 2 || !read_kind(argv[1], &kind)) {
        fprintf(stderr, "usage: numbers 1|2|3 < SHEET\n");
        return 2;
    }
    if (!read_sheet("numbers", sheet, &sheet_len))
        return 2;
    int64_t answer = farzhudyl_pair_list(sheet, sheet_len, pairs);
    size_t n = answer < 0 ? 0 : (size_t)answer;
    if (answer >= 0)
        answer = farzhudyl_numbers(kind, n, pairs, FARZHUDYL_PAIRS(n), sets, FARZHUDYL_GROUPS_MAX, indices, FARZHUDYL_GROUPS_MAX);
    if (answer < 0)
        return refused("numbers", answer);
    printf("groups %lld\n", (long long)answer);
    for (size_t g = 0; g < (size_t)answer; g++) {
        printf("index %s: entries", points(indices[g]).text);
        for (size_t i = 0; i < n; i++)
            if (has(sets[g], i))
                printf(" %zu", i);
        if (least_value(sets[g], n, pairs, &least))
            printf(", least value between two of them %s", points(least).text);
        printf("\n");
    }
    return finish("numbers", 0);
}
