/* Microseconds of four C calls, by the engine and by the plain engine, in turns
   on the same sheets.  Writes a line for each call, sort of sheets, kind and
   number of entries, with tabs between: `listing`, `halves`, `shared`, `pool` or
   `weight`, the other three, what is told of the sheets, and the best and the
   median of each engine.  Of a listing the bytes of a sheet are told, and the
   lines after the first, and so they are of one with half points, `halves`; of
   the smallest group that the first and the last entry share, the share of the
   sheets that have one; of a pool, which has no kind, the bytes of its two sheets
   and its own; of the refined weight of a split, where the side stands in the
   place of the kind, the quartets of the split. */

#include "farzhudyl.h"
#include "plain.h"
#include "sample.h"

#include <stdio.h>
#include <stdlib.h>
#include <string.h>

enum { REPEATS = 201, FEWEST = 21 };

static const double repeat_us = 1500; /* at least, if not one round */
static const double most_us = 6e6;    /* after this, the fewest repeats do */

typedef int64_t SheetCall(int32_t kind, const uint8_t *sheet, size_t sheet_len,
                          uint8_t *out, size_t out_len);
typedef int64_t PoolCall(const uint8_t *first, size_t first_len,
                         const uint8_t *second, size_t second_len, uint8_t *out,
                         size_t out_len);
typedef int32_t WeightCall(size_t n, const int32_t *pairs, size_t pairs_len,
                           uint32_t side, int64_t *weight);

static SheetCall *const engines[] = {farzhudyl_listing, plain_listing};
enum { ENGINES = sizeof engines / sizeof engines[0] };
static PoolCall *const pools[ENGINES] = {farzhudyl_pool, plain_pool};
static WeightCall *const weights[ENGINES] = {farzhudyl_refined_weight,
                                             plain_refined_weight};

static double mean_bytes(const Sheet *of)
{
    double bytes = 0;
    for (int t = 0; t < SHEETS; t++)
        bytes += (double)of[t].length / SHEETS;
    return bytes;
}

static void show(const Sheet *sheet)
{
    fprintf(stderr, "%.*s", (int)sheet->length, (const char *)sheet->text);
}

static void differ(const char *call, int32_t kind, int t)
{
    fprintf(stderr, "the engines differ: %s, kind %d\n", call, (int)kind);
    show(&sheets[t]);
    exit(1);
}

/* Both listings of each sheet are the same; answers all their lines after the
   first. */
static int count_lines(int32_t kind)
{
    int lines = 0;
    for (int t = 0; t < SHEETS; t++) {
        uint8_t out[ENGINES][FARZHUDYL_LISTING_MAX];
        int64_t length[ENGINES];
        for (int e = 0; e < ENGINES; e++)
            length[e] = engines[e](kind, sheets[t].text, sheets[t].length, out[e],
                                   sizeof out[e]);
        if (length[0] < 0 || length[0] != length[1] ||
            memcmp(out[0], out[1], (size_t)length[0]) != 0)
            differ("listing", kind, t);
        for (int64_t i = 0; i < length[0]; i++)
            lines += out[0][i] == '\n';
        lines--;
    }
    return lines;
}

/* The line and the set of the smallest group that holds a sheet's first and
   last entry, by an engine; the plain one checks nothing. */
static int64_t find_shared(int e, int32_t kind, int t, uint32_t *set)
{
    return e == 0 ? farzhudyl_smallest_shared(kind, entries, pairs[t],
                                              FARZHUDYL_PAIRS(entries), 0,
                                              entries - 1, set)
                  : plain_shared(kind, t, set);
}

/* Both engines find the same; answers how many sheets have such a group. */
static int count_shared(int32_t kind)
{
    int found = 0;
    for (int t = 0; t < SHEETS; t++) {
        uint32_t set[ENGINES];
        int64_t line = find_shared(0, kind, t, &set[0]);
        if (line < 0 || line != find_shared(1, kind, t, &set[1]) ||
            set[0] != set[1])
            differ("shared", kind, t);
        found += line > 0;
    }
    return found;
}

static int64_t pool(int e, int t, uint8_t *out)
{
    return pools[e](sheets[t].text, sheets[t].length, seconds[t].text,
                    seconds[t].length, out, FARZHUDYL_POOL_MAX);
}

/* Both pools of each two sheets are the same; answers their mean bytes. */
static double pool_bytes(void)
{
    double bytes = 0;
    for (int t = 0; t < SHEETS; t++) {
        uint8_t out[ENGINES][FARZHUDYL_POOL_MAX];
        int64_t length = pool(0, t, out[0]);
        if (length < 0 || length != pool(1, t, out[1]) ||
            memcmp(out[0], out[1], (size_t)length) != 0) {
            fprintf(stderr, "the engines differ: pool\n");
            show(&sheets[t]);
            show(&seconds[t]);
            exit(1);
        }
        bytes += (double)length / SHEETS;
    }
    return bytes;
}

static int32_t weigh(int e, int t, int64_t *weight)
{
    return weights[e](entries, pairs[t], FARZHUDYL_PAIRS(entries), sides[t],
                      weight);
}

/* Picks the sides; both engines find the same weights.  Answers the mean
   quartets. */
static double mean_quartets(PickSide *pick)
{
    double mean = 0;
    for (int t = 0; t < SHEETS; t++) {
        int64_t weight[ENGINES];
        sides[t] = pick(t);
        if (weigh(0, t, &weight[0]) != 0 || weigh(1, t, &weight[1]) != 0 ||
            weight[0] != weight[1])
            differ("weight", FARZHUDYL_SPLITS, t);
        mean += (double)quartets(sides[t]) / SHEETS;
    }
    return mean;
}

/* A round through the sheets, by an engine. */
typedef void Round(int e, int32_t kind);

static void list_all(int e, int32_t kind)
{
    uint8_t out[FARZHUDYL_LISTING_MAX];
    for (int t = 0; t < SHEETS; t++)
        engines[e](kind, sheets[t].text, sheets[t].length, out, sizeof out);
}

static void share_all(int e, int32_t kind)
{
    uint32_t set;
    for (int t = 0; t < SHEETS; t++)
        find_shared(e, kind, t, &set);
}

static void pool_all(int e, int32_t kind)
{
    uint8_t out[FARZHUDYL_POOL_MAX];
    (void)kind;
    for (int t = 0; t < SHEETS; t++)
        pool(e, t, out);
}

static void weigh_all(int e, int32_t kind)
{
    int64_t weight;
    (void)kind;
    for (int t = 0; t < SHEETS; t++)
        weigh(e, t, &weight);
}

/* Microseconds per call of some rounds. */
static double time_rounds(Round *round, int e, int32_t kind, int rounds)
{
    double start = now_us();
    for (int r = 0; r < rounds; r++)
        round(e, kind);
    return (now_us() - start) / rounds / SHEETS;
}

static int compare_times(const void *u, const void *v)
{
    double a = *(const double *)u, b = *(const double *)v;
    return (a > b) - (a < b);
}

/* The engines take turns, and in who is first.  Ends the line. */
static void measure(Round *round, int32_t kind)
{
    static double times[ENGINES][REPEATS];
    int rounds[ENGINES], repeats = 0;
    for (int e = 0; e < ENGINES; e++)
        rounds[e] =
            1 + (int)(repeat_us / (time_rounds(round, e, kind, 1) * SHEETS));
    double start = now_us();
    for (; repeats < REPEATS && (repeats < FEWEST || now_us() - start < most_us);
         repeats++)
        for (int turn = 0; turn < ENGINES; turn++) {
            int e = (turn + repeats) % ENGINES;
            times[e][repeats] = time_rounds(round, e, kind, rounds[e]);
        }
    for (int e = 0; e < ENGINES; e++) {
        qsort(times[e], (size_t)repeats, sizeof times[e][0], compare_times);
        printf("\t%.4f\t%.4f", times[e][0], times[e][repeats / 2]);
    }
    printf("\n");
}

static int most_lines(int32_t kind, int n)
{
    return kind == FARZHUDYL_STRONG  ? 2 * n - 2
           : kind == FARZHUDYL_CLEAN ? n - 2
                                     : 2 * n - 3;
}

static const char *const kinds[] = {"", "strong", "clean", "splits"};

/* Of near-trees every possible group is listed. */
static void measure_listing(const char *call, const char *sort, MakePairs *make,
                            int32_t kind, int n)
{
    make_sheets(make, kind, n);
    int lines = count_lines(kind);
    if (make != unstructured && lines != SHEETS * most_lines(kind, n)) {
        fprintf(stderr, "near-tree sheets with too few groups\n");
        exit(1);
    }
    printf("%s\t%s\t%s\t%d\t%.0f\t%.1f", call, sort, kinds[kind], n,
           mean_bytes(sheets), (double)lines / SHEETS);
    measure(list_all, kind);
}

int main(void)
{
    const struct {
        const char *name;
        MakePairs *make;
    } sorts[] = {{"near-tree", near_tree}, {"random", unstructured}};

    for (size_t s = 0; s < sizeof sorts / sizeof sorts[0]; s++)
        for (int32_t kind = 1; kind <= 3; kind++)
            for (int n = 4; n <= MAX_ENTRIES; n *= 2) {
                measure_listing("listing", sorts[s].name, sorts[s].make, kind, n);
                if (kind == FARZHUDYL_SPLITS)
                    continue;
                printf("shared\t%s\t%s\t%d\t%.2f", sorts[s].name, kinds[kind], n,
                       (double)count_shared(kind) / SHEETS);
                measure(share_all, kind);
            }
    /* Sums of the scores of near-trees are in range. */
    for (int n = 8; n <= MAX_ENTRIES; n *= 2) {
        make_sheets(near_tree, FARZHUDYL_STRONG, n);
        make_seconds(n);
        printf("pool\tnear-tree\t\t%d\t%.0f\t%.0f", n,
               mean_bytes(sheets) + mean_bytes(seconds), pool_bytes());
        measure(pool_all, 0);
    }
    const struct {
        const char *name;
        PickSide *pick;
    } picks[] = {{"listed", pick_listed}, {"half", pick_half}};
    for (size_t i = 0; i < sizeof picks / sizeof picks[0]; i++)
        for (int n = 8; n <= MAX_ENTRIES; n *= 2) {
            make_sheets(near_tree, FARZHUDYL_SPLITS, n);
            printf("weight\tnear-tree\t%s\t%d\t%.0f", picks[i].name, n,
                   mean_quartets(picks[i].pick));
            measure(weigh_all, 0);
        }
    /* Last, so that the sheets above are those of earlier figures. */
    for (int32_t kind = 1; kind <= 3; kind++)
        for (int n = 8; n <= MAX_ENTRIES; n *= 2)
            measure_listing("halves", "near-tree", near_tree_halves, kind, n);
    return 0;
}
