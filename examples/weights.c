/* Weighs the splits of a sheet of distances: the refined weight of each.
   usage: weights [SET] < SHEET     SET is one side of a split, written as a listing writes it: 8 lower-case hexadecimal digits
   Writes a line for each split of the listing that has two entries or more on each side: the set, the index and the weight in points,
   and the names of the set. With SET, listed or not, the set, its weight and its names. Or `refused N`, and the exit status is 1. The
   sheet's checks come first here, then the others. Bad usage, and input or output that fails: 2. */
#include "common.h"
#include "names.h"

static bool read_side(const char *text, uint32_t *side)
{
    char again[24];
    unsigned long number = strtoul(text, NULL, 16);
    snprintf(again, sizeof again, "%08lx", number);
    *side = (uint32_t)number;
    return strcmp(text, again) == 0 && number <= UINT32_MAX;
}

/* Weighs the listed splits. A listed split is refused only if one of its sides has fewer than two entries. Answers minus the number of
   the listing's refusal, if there is one. */
static int64_t weigh_listed(size_t n, const int32_t *pairs, const Name *names)
{
    uint32_t sets[FARZHUDYL_GROUPS_MAX];
    int64_t weight, indices[FARZHUDYL_GROUPS_MAX];
    int64_t count = farzhudyl_numbers(FARZHUDYL_SPLITS, n, pairs, FARZHUDYL_PAIRS(n), sets, FARZHUDYL_GROUPS_MAX, indices,
                                      FARZHUDYL_GROUPS_MAX);
    for (int64_t i = 0; i < count; i++) {
        if (farzhudyl_refined_weight(n, pairs, FARZHUDYL_PAIRS(n), sets[i], &weight) != 0)
            continue;
        printf("%08lx index %s weight %s:", (unsigned long)sets[i], points(indices[i]).text, points(weight).text);
        print_names(sets[i], n, names);
        printf("\n");
    }
    return count < 0 ? count : 0;
}

/* Weighs one split. Answers minus the refusal's number, if there is one. */
static int64_t weigh_side(uint32_t side, size_t n, const int32_t *pairs, const Name *names)
{
    int64_t weight;
    int32_t refusal = farzhudyl_refined_weight(n, pairs, FARZHUDYL_PAIRS(n), side, &weight);
    if (refusal != 0)
        return -refusal;
    printf("%08lx weight %s:", (unsigned long)side, points(weight).text);
    print_names(side, n, names);
    printf("\n");
    return 0;
}

int main(int argc, char **argv)
{
    static uint8_t sheet[FARZHUDYL_SHEET_MAX + 1];
    size_t sheet_len;
    int32_t pairs[FARZHUDYL_PAIRS_MAX];
    uint32_t side = 0;
    Name names[FARZHUDYL_ENTRIES_MAX];

    if (argc > 2 || (argc == 2 && !read_side(argv[1], &side))) {
        fprintf(stderr, "usage: weights [SET] < SHEET\n");
        return 2;
    }
    if (!read_sheet("weights", sheet, &sheet_len))
        return 2;
    int64_t answer = farzhudyl_pair_list(sheet, sheet_len, pairs);
    if (answer >= 0) {
        size_t n = read_names(sheet, sheet_len, names);
        answer = argc == 2 ? weigh_side(side, n, pairs, names) : weigh_listed(n, pairs, names);
    }
    return answer < 0 ? refused("weights", answer) : finish("weights", 0);
}
