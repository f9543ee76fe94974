/* Nanoseconds of the C calls, by the library of before a change, by that of after
   it, by a second copy of the one before, and by plain C where it has the call, in
   turns on the same sheets.  Writes a line for each call, sort of sheets and
   number of entries, with tabs between: these three, and the best of each, `-`
   where there is none.  All must answer the same and write the same; of the
   linkages only the answer is compared, since they may differ where links tie. */

#include "farzhudyl.h"
#include "plain.h"
#include "sample.h"

#include <stdio.h>
#include <stdlib.h>
#include <string.h>

enum { FEWEST = 7 };

static const double turn_us = 200;  /* at least, if not one round */
static const double row_us = 150e3; /* after this, the fewest turns do */

typedef int64_t SheetCall(int32_t kind, const uint8_t *sheet, size_t sheet_len,
                          uint8_t *out, size_t out_len);
typedef int64_t PairListCall(const uint8_t *sheet, size_t sheet_len,
                             int32_t *pairs);
typedef size_t NameCall(const uint8_t *sheet, size_t sheet_len, size_t entry,
                        size_t *start);
typedef int64_t PoolCall(const uint8_t *first, size_t first_len,
                         const uint8_t *second, size_t second_len, uint8_t *out,
                         size_t out_len);
typedef int64_t NumbersCall(int32_t kind, size_t n, const int32_t *pairs,
                            size_t pairs_len, uint32_t *sets, size_t sets_len,
                            int64_t *indices, size_t indices_len);
typedef int64_t SharedCall(int32_t kind, size_t n, const int32_t *pairs,
                           size_t pairs_len, size_t a, size_t b, uint32_t *set);
typedef int64_t LinkageCall(size_t n, const int32_t *pairs, size_t pairs_len,
                            uint32_t *blocks, size_t blocks_len);
typedef int32_t WeightCall(size_t n, const int32_t *pairs, size_t pairs_len,
                           uint32_t side, int64_t *weight);

/* The libraries, each under a name of its own. */
#define DECLARE(name)                                                          \
    SheetCall name##_listing;                                                  \
    PairListCall name##_pair_list;                                             \
    NameCall name##_name;                                                      \
    PoolCall name##_pool;                                                      \
    NumbersCall name##_numbers;                                                \
    SharedCall name##_smallest_shared;                                         \
    LinkageCall name##_single_linkage, name##_average_linkage;                 \
    WeightCall name##_refined_weight
DECLARE(before);
DECLARE(after);
DECLARE(again);

typedef struct {
    const char *name;
    SheetCall *listing;
    PairListCall *pair_list;
    NameCall *entry_name;
    PoolCall *pool;
    NumbersCall *numbers;
    SharedCall *shared;
    LinkageCall *single, *average;
    WeightCall *weight;
} Engine;

#define LIBRARY(name)                                                          \
    {                                                                          \
        #name, name##_listing, name##_pair_list, name##_name, name##_pool,     \
            name##_numbers, name##_smallest_shared, name##_single_linkage,     \
            name##_average_linkage, name##_refined_weight                      \
    }

/* The plain engine, which checks nothing here. */
static int64_t numbers_plainly(int32_t kind, size_t n, const int32_t *list,
                               size_t list_len, uint32_t *sets, size_t sets_len,
                               int64_t *indices, size_t indices_len)
{
    (void)list_len, (void)sets_len, (void)indices_len;
    return plain_numbers(kind, (int32_t)n, list, sets, indices);
}

static const Engine engines[] = {
    LIBRARY(before),
    LIBRARY(after),
    LIBRARY(again),
    {"plain C", plain_listing, NULL, NULL, plain_pool, numbers_plainly, NULL, NULL,
     NULL, plain_refined_weight},
};
enum { ENGINES = sizeof engines / sizeof engines[0], PLAIN = ENGINES - 1 };

/* What a call writes. */
typedef union {
    uint8_t text[FARZHUDYL_POOL_MAX];
    int32_t pairs[FARZHUDYL_PAIRS_MAX];
    struct {
        uint32_t sets[FARZHUDYL_GROUPS_MAX];
        int64_t indices[FARZHUDYL_GROUPS_MAX];
    } groups;
    uint32_t blocks[FARZHUDYL_BLOCKS_MAX];
    uint32_t set;
    int64_t weight;
    size_t start;
} Result;

/* A call on one sheet; NONE where the engine does not have it. */
typedef int64_t Call(int e, int32_t kind, int t, Result *out);
static const int64_t NONE = INT64_MIN;

static int64_t list(int e, int32_t kind, int t, Result *out)
{
    return engines[e].listing(kind, sheets[t].text, sheets[t].length, out->text,
                              FARZHUDYL_LISTING_MAX);
}

static int64_t read_pairs(int e, int32_t kind, int t, Result *out)
{
    (void)kind;
    if (engines[e].pair_list == NULL)
        return NONE;
    return engines[e].pair_list(sheets[t].text, sheets[t].length, out->pairs);
}

static int64_t name_last(int e, int32_t kind, int t, Result *out)
{
    (void)kind;
    if (engines[e].entry_name == NULL)
        return NONE;
    return (int64_t)engines[e].entry_name(sheets[t].text, sheets[t].length,
                                          entries - 1, &out->start);
}

static int64_t pool(int e, int32_t kind, int t, Result *out)
{
    (void)kind;
    return engines[e].pool(sheets[t].text, sheets[t].length, seconds[t].text,
                           seconds[t].length, out->text, sizeof out->text);
}

static int64_t number(int e, int32_t kind, int t, Result *out)
{
    return engines[e].numbers(kind, entries, pairs[t], FARZHUDYL_PAIRS(entries),
                              out->groups.sets, FARZHUDYL_GROUPS_MAX,
                              out->groups.indices, FARZHUDYL_GROUPS_MAX);
}

static int64_t share(int e, int32_t kind, int t, Result *out)
{
    if (e == PLAIN)
        return plain_shared(kind, t, &out->set);
    return engines[e].shared(kind, entries, pairs[t], FARZHUDYL_PAIRS(entries), 0,
                             entries - 1, &out->set);
}

static int64_t link_by(LinkageCall *call, int t, Result *out)
{
    return call == NULL ? NONE
                        : call(entries, pairs[t], FARZHUDYL_PAIRS(entries),
                               out->blocks, FARZHUDYL_BLOCKS_MAX);
}

static int64_t link_singly(int e, int32_t kind, int t, Result *out)
{
    (void)kind;
    return link_by(engines[e].single, t, out);
}

static int64_t link_averagely(int e, int32_t kind, int t, Result *out)
{
    (void)kind;
    return link_by(engines[e].average, t, out);
}

static int64_t weigh(int e, int32_t kind, int t, Result *out)
{
    (void)kind;
    return engines[e].weight(entries, pairs[t], FARZHUDYL_PAIRS(entries), sides[t],
                             &out->weight);
}

static bool has(Call *call, int e)
{
    Result out;
    return call(e, FARZHUDYL_STRONG, 0, &out) != NONE;
}

/* All engines answer the same, and no refusal; and write the same. */
static void check(const char *name, Call *call, int32_t kind)
{
    bool tied = call == link_singly || call == link_averagely;
    for (int t = 0; t < SHEETS; t++) {
        static Result out[ENGINES];
        int64_t answer[ENGINES];
        memset(out, 0, sizeof out);
        for (int e = 0; e < ENGINES; e++) {
            answer[e] = call(e, kind, t, &out[e]);
            if (answer[e] == NONE)
                continue;
            if (answer[0] < 0 || answer[e] != answer[0] ||
                (!tied && memcmp(&out[e], &out[0], sizeof out[0]) != 0)) {
                fprintf(stderr, "%s and %s differ: %s, kind %d\n%.*s",
                        engines[0].name, engines[e].name, name, (int)kind,
                        (int)sheets[t].length, (const char *)sheets[t].text);
                exit(1);
            }
        }
    }
}

/* Nanoseconds per call of some rounds. */
static double time_rounds(Call *call, int e, int32_t kind, int rounds)
{
    static Result out;
    double start = now_us();
    for (int r = 0; r < rounds; r++)
        for (int t = 0; t < SHEETS; t++)
            call(e, kind, t, &out);
    return (now_us() - start) * 1e3 / rounds / SHEETS;
}

/* The engines take turns, and in who is first. */
static void measure(const char *name, const char *sort, Call *call, int32_t kind)
{
    double best[ENGINES], start;
    int rounds[ENGINES];
    check(name, call, kind);
    for (int e = 0; e < ENGINES; e++) {
        best[e] = has(call, e) ? time_rounds(call, e, kind, 1) : 0;
        rounds[e] = 1 + (int)(turn_us * 1e3 / (best[e] * SHEETS + 1));
    }
    start = now_us();
    for (int turn = 0; turn < FEWEST || now_us() - start < row_us; turn++)
        for (int i = 0; i < ENGINES; i++) {
            int e = (turn + i) % ENGINES;
            if (best[e] > 0) {
                double took = time_rounds(call, e, kind, rounds[e]);
                best[e] = took < best[e] ? took : best[e];
            }
        }
    printf("%s\t%s\t%zu", name, sort, entries);
    for (int e = 0; e < ENGINES; e++)
        if (best[e] > 0)
            printf("\t%.2f", best[e]);
        else
            printf("\t-");
    printf("\n");
    fflush(stdout);
}

/* The kinds, from 1. */
static const char *const listings[] = {"", "listing, strong", "listing, clean",
                                       "listing, splits"};
static const char *const numbers[] = {"", "numbers, strong", "numbers, clean",
                                      "numbers, splits"};
static const char *const shares[] = {"", "shared, strong", "shared, clean"};

/* The calls that take sheets of this kind. */
static void measure_kind(const char *sort, MakePairs *make, int32_t kind, int n)
{
    make_sheets(make, kind, n);
    measure(listings[kind], sort, list, kind);
    if (kind != FARZHUDYL_CLEAN)
        measure(kind == FARZHUDYL_SPLITS ? "pair list, distances" : "pair list",
                sort, read_pairs, kind);
    if (make == near_tree_halves)
        return;
    measure(numbers[kind], sort, number, kind);
    if (kind != FARZHUDYL_SPLITS)
        measure(shares[kind], sort, share, kind);
    if (kind == FARZHUDYL_STRONG) {
        measure("name", sort, name_last, kind);
        measure("single linkage", sort, link_singly, kind);
        measure("average linkage", sort, link_averagely, kind);
    }
}

static void measure_weight(const char *name, PickSide *pick, int n)
{
    make_sheets(near_tree, FARZHUDYL_SPLITS, n);
    for (int t = 0; t < SHEETS; t++)
        sides[t] = pick(t);
    measure(name, "near-tree", weigh, FARZHUDYL_SPLITS);
}

int main(void)
{
    const struct {
        const char *name;
        MakePairs *make;
    } sorts[] = {{"near-tree", near_tree},
                 {"random", unstructured},
                 {"half points", near_tree_halves}};
    for (int n = 4; n <= MAX_ENTRIES; n *= 2) {
        for (size_t s = 0; s < sizeof sorts / sizeof sorts[0]; s++)
            for (int32_t kind = 1; kind <= 3; kind++)
                measure_kind(sorts[s].name, sorts[s].make, kind, n);
        /* Sums of the scores of near-trees are in range. */
        make_sheets(near_tree, FARZHUDYL_STRONG, n);
        make_seconds(n);
        measure("pool", "near-tree", pool, FARZHUDYL_STRONG);
        measure_weight("weight, listed", pick_listed, n);
        measure_weight("weight, half", pick_half, n);
    }
    return 0;
}
