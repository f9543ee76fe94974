/* The calls on a pair list: numbers, the smallest group two entries share, the refined weight of a split, the two linkages, anchored
   scores and the way back, the score of two entries. */
#ifndef BUFFERS_PAIR_CALLS_H
#define BUFFERS_PAIR_CALLS_H

#include "lent.h"
#include "sheets.h"

/* A pair list as it is handed over; n and the length need not be right. */
typedef struct {
    const char *what;
    size_t n;
    const int32_t *pairs;
    size_t length;
} List;

static int32_t *lend_list(const List *list, int pass) { return (int32_t *)lend(list->pairs, list->length * sizeof(int32_t), pass); }

static bool list_unchanged(int32_t *lent, const List *list) { return unchanged(lent, list->pairs, list->length * sizeof(int32_t)); }

/* Small lists with unscored pairs. */
static const int32_t mark = UNSCORED;
static const List apart_list = {"C and D unscored", 4, apart_pairs, 10}, unscored_one = {"one entry, unscored", 1, &mark, 1};

/* The worked example with half points. */
static const List halves_list = {"half points", 4, halves_pairs, 10};

/* Lists that checks 6 and 10 refuse, each with its number. */
typedef void VisitList(const List *list, int number);

static void refused_lists(VisitList *visit)
{
    static const int32_t zeros[FARZHUDYL_PAIRS(ENTRIES + 1)] = {0};
    const struct {
        List list;
        int number;
    } refused[] = {
        {{"no entry, no list", 0, zeros, 0}, 6},
        {{"no entry", 0, zeros, 1}, 6},
        {{"33 entries", ENTRIES + 1, zeros, FARZHUDYL_PAIRS(ENTRIES + 1)}, 6},
        {{"2^32 + 1 entries", (size_t)(UINT64_C(1) << 32) + 1, zeros, 1}, 6},
        {{"the most entries", SIZE_MAX, zeros, 0}, 6},
        {{"one entry, no list", 1, zeros, 0}, 10},
        {{"32 entries, no list", ENTRIES, zeros, 0}, 10},
        {{"32 entries, a pair too few", ENTRIES, zeros, PAIRS - 1}, 10},
        {{"32 entries, a pair too many", ENTRIES, zeros, PAIRS + 1}, 10},
    };
    for (size_t i = 0; i < sizeof refused / sizeof refused[0]; i++)
        visit(&refused[i].list, refused[i].number);
}

/* The ladder's list with one value changed. */
static void ladder_but(int32_t pairs[PAIRS], Value *value, int place, int32_t other)
{
    put_pairs(pairs, value);
    pairs[place] = other;
}

/* ---- numbers ---- */

/* One call. Where it is answered, all slots are expected to hold the groups' or 0. */
static void expect_numbers(int32_t kind, const List *list, size_t sets_len, size_t indices_len, int64_t answer, const Groups *groups)
{
    for (int pass = 0; pass < PASSES; pass++) {
        int32_t *pairs = lend_list(list, pass);
        uint32_t *sets = (uint32_t *)lend_room(sets_len * sizeof *sets, pass);
        int64_t *indices = (int64_t *)lend_room(indices_len * sizeof *indices, pass);
        int64_t given = farzhudyl_numbers(kind, list->n, pairs, list->length, sets, sets_len, indices, indices_len);
        bool right = list_unchanged(pairs, list);
        size_t sets_size = sets_len * sizeof *sets, indices_size = indices_len * sizeof *indices;
        right = written_only(sets, sets_size, groups->sets, answer < 0 ? 0 : sets_size, pass) && right;
        right = written_only(indices, indices_size, groups->indices, answer < 0 ? 0 : indices_size, pass) && right;
        report("numbers", list->what, given, answer, right);
    }
}

static const Groups no_groups = {0, {0}, {0}};

static void refused_numbers(const List *list, int number)
{
    for (int32_t kind = 1; kind <= 3; kind++) {
        expect_numbers(kind, list, FARZHUDYL_GROUPS_MAX, FARZHUDYL_GROUPS_MAX, -number, &no_groups);
        expect_numbers(kind, list, 0, 0, -number, &no_groups);
    }
    expect_numbers(0, list, 0, 0, -1, &no_groups);
}

static void found(int32_t kind, const List *list, const Groups *groups)
{
    size_t needed = 2 * list->n;
    const struct {
        size_t sets_len, indices_len;
        bool serves;
    } rooms[] = {
        {needed, needed, true},      {needed + 1, needed, true},  {needed, needed + 7, true}, {needed - 1, needed, false},
        {needed, needed - 1, false}, {0, needed, false},          {needed, 0, false},         {0, 0, false},
    };
    for (size_t i = 0; i < sizeof rooms / sizeof rooms[0]; i++)
        expect_numbers(kind, list, rooms[i].sets_len, rooms[i].indices_len, rooms[i].serves ? (int64_t)groups->count : -13, groups);
}

/* A list with unscored pairs has strong groups, and is refused otherwise, before the rooms are measured. */
static void found_unscored(const List *list, const Groups *groups)
{
    found(FARZHUDYL_STRONG, list, groups);
    for (int32_t kind = FARZHUDYL_CLEAN; kind <= FARZHUDYL_SPLITS; kind++) {
        expect_numbers(kind, list, FARZHUDYL_GROUPS_MAX, FARZHUDYL_GROUPS_MAX, -16, &no_groups);
        expect_numbers(kind, list, 0, 0, -16, &no_groups);
    }
}

static void unscored_numbers(void)
{
    int32_t pairs[PAIRS];
    const List large = {"32 entries, unscored pairs", ENTRIES, pairs, PAIRS};
    Groups groups = no_groups;
    put_apart_groups(&groups);
    found_unscored(&apart_list, &groups);
    found_unscored(&unscored_one, &no_groups);
    groups = no_groups;
    put_pairs(pairs, ladder_apart);
    put_ladder_apart_groups(&groups);
    found_unscored(&large, &groups);
    put_pairs(pairs, unscored);
    found_unscored(&large, &no_groups);
    pairs[0] = UNSCORED + 1;
    for (int32_t kind = 1; kind <= 3; kind++)
        expect_numbers(kind, &large, 0, 0, -11, &no_groups);
}

static void numbers(void)
{
    Groups groups = no_groups;
    put_four_groups(&groups);
    const List example = {"worked example", 4, four_pairs, 10};
    found(FARZHUDYL_STRONG, &example, &groups);
    expect_numbers(FARZHUDYL_SPLITS, &example, 0, 0, -12, &no_groups);
    groups = no_groups;
    put_halves_groups(&groups);
    found(FARZHUDYL_STRONG, &halves_list, &groups);

    const int32_t zero = 0;
    const List one = {"one entry", 1, &zero, 1};
    for (int32_t kind = 1; kind <= 3; kind++) {
        int32_t pairs[PAIRS];
        const List large = {"32 entries", ENTRIES, pairs, PAIRS};
        groups = no_groups;
        put_pairs(pairs, ladder(kind));
        put_ladder_groups(&groups, kind);
        found(kind, &large, &groups);
        ladder_but(pairs, ladder(kind), PAIRS - 1, FAR + 1);
        expect_numbers(kind, &large, 0, 0, -11, &no_groups);
        found(kind, &one, &no_groups);
    }
    unscored_numbers();
    refused_lists(refused_numbers);
}

/* ---- the smallest group two entries share ---- */

/* One call; the set is written to its slot in any case, on refusal as 0. */
static void expect_shared(int32_t kind, const List *list, size_t a, size_t b, int64_t answer, uint32_t set)
{
    for (int pass = 0; pass < PASSES; pass++) {
        int32_t *pairs = lend_list(list, pass);
        uint32_t *slot = (uint32_t *)lend_room(sizeof *slot, pass);
        int64_t given = farzhudyl_smallest_shared(kind, list->n, pairs, list->length, a, b, slot);
        bool right = list_unchanged(pairs, list);
        right = written_only(slot, sizeof *slot, &set, sizeof set, pass) && right;
        report("smallest shared", list->what, given, answer, right);
    }
}

/* The kinds that are refused, whatever else is handed over. */
static void wrong_kinds_shared(const List *list)
{
    const int32_t kinds[] = {FARZHUDYL_SPLITS, 0, 4, -1, 256 + FARZHUDYL_STRONG, 65536 + FARZHUDYL_CLEAN, INT32_MIN, INT32_MAX};
    for (size_t i = 0; i < sizeof kinds / sizeof kinds[0]; i++) {
        expect_shared(kinds[i], list, 0, 0, -1, 0);
        expect_shared(kinds[i], list, SIZE_MAX, list->n, -1, 0);
    }
}

static void refused_shared(const List *list, int number)
{
    for (int32_t kind = FARZHUDYL_STRONG; kind <= FARZHUDYL_CLEAN; kind++) {
        expect_shared(kind, list, 0, 0, -number, 0);
        expect_shared(kind, list, SIZE_MAX, SIZE_MAX, -number, 0);
    }
    wrong_kinds_shared(list);
}

/* The line of the smallest group that holds both; 0 if there is none. */
typedef size_t Line(size_t a, size_t b);

/* Of 32 entries some, of 4 or fewer all, each with each; numbers that are no entries; wrong kinds. */
static void entries_shared(int32_t kind, const List *list, Line *line, const Groups *groups)
{
    const size_t n = list->n, some[] = {0, 1, 2, 3, 15, 16, 30, 31}, far[] = {n, n + 1, (size_t)(UINT64_C(1) << 32), SIZE_MAX};
    const size_t count = n == ENTRIES ? sizeof some / sizeof some[0] : n;
    for (size_t i = 0; i < count; i++)
        for (size_t j = 0; j < count; j++) {
            const size_t at = line(some[i], some[j]);
            expect_shared(kind, list, some[i], some[j], (int64_t)at, at > 0 ? groups->sets[at - 1] : first((int)n));
        }
    for (size_t i = 0; i < sizeof far / sizeof far[0]; i++) {
        expect_shared(kind, list, far[i], n - 1, -15, 0);
        expect_shared(kind, list, 0, far[i], -15, 0);
        expect_shared(kind, list, far[i], far[i], -15, 0);
    }
    wrong_kinds_shared(list);
}

static size_t no_line(size_t a, size_t b)
{
    (void)a, (void)b;
    return 0;
}

static size_t four_strong_line(size_t a, size_t b)
{
    static const size_t lines[4][4] = {{1, 5, 6, 0}, {5, 2, 6, 0}, {6, 6, 3, 0}, {0, 0, 0, 4}};
    return lines[a][b];
}

static size_t four_clean_line(size_t a, size_t b)
{
    static const size_t lines[4][4] = {{1, 1, 2, 0}, {1, 1, 2, 0}, {2, 2, 2, 0}, {0, 0, 0, 0}};
    return lines[a][b];
}

/* The ladder's strong groups are the singles, then the first 2 entries, the first 3 and so on; its clean groups lack the singles. */
static size_t ladder_clean_line(size_t a, size_t b)
{
    const size_t later = a > b ? a : b;
    return later == ENTRIES - 1 ? 0 : later == 0 ? 1 : later;
}

static size_t ladder_strong_line(size_t a, size_t b)
{
    const size_t line = ladder_clean_line(a, b);
    return a == b ? a + 1 : line == 0 ? 0 : ENTRIES + line;
}

static size_t apart_line(size_t a, size_t b) { return a > 1 || b > 1 ? 0 : a == b ? a + 1 : 3; }

/* As the ladder's, without the lines of its last two entries. */
static size_t ladder_apart_line(size_t a, size_t b)
{
    const size_t left = ENTRIES - 2;
    return a >= left || b >= left ? 0 : a == b ? a + 1 : left + ladder_clean_line(a, b);
}

/* A list with unscored pairs has strong groups, and is refused for clean ones. */
static void entries_unscored(const List *list, Line *line, const Groups *groups)
{
    entries_shared(FARZHUDYL_STRONG, list, line, groups);
    expect_shared(FARZHUDYL_CLEAN, list, 0, 0, -16, 0);
    expect_shared(FARZHUDYL_CLEAN, list, SIZE_MAX, list->n, -16, 0);
}

static void unscored_shared(void)
{
    int32_t pairs[PAIRS];
    const List large = {"32 entries, unscored pairs", ENTRIES, pairs, PAIRS};
    Groups groups = no_groups;
    put_apart_groups(&groups);
    entries_unscored(&apart_list, apart_line, &groups);
    entries_unscored(&unscored_one, no_line, &no_groups);
    groups = no_groups;
    put_pairs(pairs, ladder_apart);
    put_ladder_apart_groups(&groups);
    entries_unscored(&large, ladder_apart_line, &groups);
}

static void shared(void)
{
    const List example = {"worked example", 4, four_pairs, 10};
    Groups groups = no_groups;
    put_four_groups(&groups);
    entries_shared(FARZHUDYL_STRONG, &example, four_strong_line, &groups);
    entries_shared(FARZHUDYL_STRONG, &halves_list, four_strong_line, &groups);
    groups = no_groups;
    add_group(&groups, 3, 4);
    add_group(&groups, 7, 12);
    entries_shared(FARZHUDYL_CLEAN, &example, four_clean_line, &groups);

    const int32_t own = -7;
    int32_t pairs[PAIRS];
    const List one = {"one entry", 1, &own, 1}, large = {"32 entries", ENTRIES, pairs, PAIRS};
    put_pairs(pairs, ladder_score);
    for (int32_t kind = FARZHUDYL_STRONG; kind <= FARZHUDYL_CLEAN; kind++) {
        groups = no_groups;
        put_ladder_groups(&groups, kind);
        entries_shared(kind, &large, kind == FARZHUDYL_STRONG ? ladder_strong_line : ladder_clean_line, &groups);
        entries_shared(kind, &one, no_line, &no_groups);
    }
    ladder_but(pairs, ladder_score, PAIRS - 1, FAR + 1);
    refused_shared(&large, 11);
    ladder_but(pairs, ladder_score, 0, -FAR - 1);
    refused_shared(&large, 11);
    unscored_shared();
    refused_lists(refused_shared);
}

/* ---- the refined weight of a split ---- */

/* One call; the weight is written to its slot in any case, on refusal as 0. */
static void expect_weight(const List *list, uint32_t side, int32_t answer, int64_t weight)
{
    for (int pass = 0; pass < PASSES; pass++) {
        int32_t *pairs = lend_list(list, pass);
        int64_t *slot = (int64_t *)lend_room(sizeof *slot, pass);
        int32_t given = farzhudyl_refined_weight(list->n, pairs, list->length, side, slot);
        bool right = list_unchanged(pairs, list);
        right = written_only(slot, sizeof *slot, &weight, sizeof weight, pass) && right;
        report("refined weight", list->what, given, answer, right);
    }
}

static void refused_weight(const List *list, int number)
{
    const uint32_t sides[] = {0, 1, 3, 0xffff, UINT32_MAX};
    for (size_t i = 0; i < sizeof sides / sizeof sides[0]; i++)
        expect_weight(list, sides[i], number, 0);
}

/* A split from either side. */
static void weighed(const List *list, uint32_t side, int64_t weight)
{
    expect_weight(list, side, 0, weight);
    expect_weight(list, first((int)list->n) & ~side, 0, weight);
}

/* Sides of a good list with fewer than two entries, on either side, and with a member beyond the list's entries. */
static void wrong_sides(const List *list)
{
    const size_t n = list->n;
    const uint32_t all = first((int)n);
    expect_weight(list, 0, 19, 0);
    expect_weight(list, all, 19, 0);
    for (size_t a = 0; a < n; a++) {
        expect_weight(list, UINT32_C(1) << a, 19, 0);
        expect_weight(list, all & ~(UINT32_C(1) << a), 19, 0);
    }
    for (size_t a = n; a < ENTRIES; a++) {
        expect_weight(list, UINT32_C(3) | UINT32_C(1) << a, 19, 0);
        expect_weight(list, UINT32_MAX << a, 19, 0);
    }
}

/* All of two values, across the split of even and odd entries, and within its sides. */
static int far_across(int a, int b) { return (a + b) % 2 == 1 ? FAR : 0; }
static int far_within(int a, int b) { return a != b && (a + b) % 2 == 0 ? FAR : 0; }

static void weights_of_32(void)
{
    int32_t pairs[PAIRS];
    const List large = {"32 entries", ENTRIES, pairs, PAIRS};
    const int quartets = ENTRIES - 3;
    const uint32_t odd = UINT32_C(0xaaaaaaaa);
    /* A cut between two nodes of the ladder has at least so many quartets of 10, and none of less. */
    put_pairs(pairs, ladder_distance);
    for (int k = 2; k <= ENTRIES - 2; k++)
        weighed(&large, first(k), quartets * 10);
    wrong_sides(&large);
    put_pairs(pairs, far_across);
    weighed(&large, odd, quartets * INT64_C(2) * FAR);
    put_pairs(pairs, far_within);
    weighed(&large, odd, quartets * INT64_C(-2) * FAR);
    put_pairs(pairs, zero);
    weighed(&large, odd, 0);

    ladder_but(pairs, ladder_distance, PAIRS - 2, FAR + 1);
    refused_weight(&large, 11);
    ladder_but(pairs, ladder_distance, 1, UNSCORED + 1);
    refused_weight(&large, 11);
    ladder_but(pairs, ladder_distance, PAIRS - 1, UNSCORED);
    refused_weight(&large, 16);
    ladder_but(pairs, ladder_distance, PAIRS - 2, -1);
    refused_weight(&large, 12);
    ladder_but(pairs, ladder_distance, PAIRS - 1, 1);
    refused_weight(&large, 12);
}

static void weights(void)
{
    /* The header's example: d(0,1) = d(2,3) = 4, other distances 8. */
    const int32_t copies[] = {0, 4, 0, 8, 8, 0, 8, 8, 4, 0};
    const List four_copies = {"four copies", 4, copies, 10};
    weighed(&four_copies, 0xc, 8);
    weighed(&four_copies, 0x5, -8);
    weighed(&four_copies, 0x9, -8);
    wrong_sides(&four_copies);
    /* The same with half a point more between the first two. */
    const int32_t half_more[] = {0, 5, 0, 8, 8, 0, 8, 8, 4, 0};
    const List copies_and_half = {"four copies and half a point", 4, half_more, 10};
    weighed(&copies_and_half, 0xc, 16 - 9);
    weighed(&copies_and_half, 0x5, 9 - 16);
    /* The entry 0 twice against 2 and 3 would have 1. */
    const int32_t twice[] = {0, 1, 0, 1, 9, 0, 1, 9, 1, 0};
    const List no_entry_twice = {"no entry twice", 4, twice, 10};
    weighed(&no_entry_twice, 0x3, 10 - 2);
    /* 01|23 has 10 - 4, 01|24 has 11 - 4, 01|34 has 12 - 3. */
    const int32_t different[] = {0, 1, 0, 5, 5, 0, 6, 5, 3, 0, 7, 6, 3, 2, 0};
    const List two_of_three = {"two of three quartets", 5, different, 15};
    weighed(&two_of_three, 0x3, 6 + 7);
    for (size_t n = 1; n < 4; n++) {
        const List fewer = {"fewer than four copies", n, copies, FARZHUDYL_PAIRS(n)};
        wrong_sides(&fewer);
    }
    weights_of_32();
    const List scores_of_four = {"worked example", 4, four_pairs, 10};
    refused_weight(&scores_of_four, 12);
    refused_weight(&apart_list, 16);
    refused_weight(&unscored_one, 16);
    refused_lists(refused_weight);
}

/* ---- linkage ---- */

typedef int64_t Linkage(size_t n, const int32_t *pairs, size_t pairs_len, uint32_t *blocks, size_t blocks_len);

/* One call of each. The lists have no equal links where it matters, so there is one tree, and both have the same. */
static void expect_linkages(const List *list, size_t room, int64_t answer, const uint32_t *blocks)
{
    Linkage *const calls[] = {farzhudyl_single_linkage, farzhudyl_average_linkage};
    for (int i = 0; i < 2; i++)
        for (int pass = 0; pass < PASSES; pass++) {
            int32_t *pairs = lend_list(list, pass);
            uint32_t *out = (uint32_t *)lend_room(room * sizeof *out, pass);
            int64_t given = calls[i](list->n, pairs, list->length, out, room);
            bool right = list_unchanged(pairs, list);
            right = written_only(out, room * sizeof *out, blocks, answer > 0 ? (size_t)answer * sizeof *out : 0, pass) && right;
            report(i == 0 ? "single linkage" : "average linkage", list->what, given, answer, right);
        }
}

static void refused_linkages(const List *list, int number)
{
    expect_linkages(list, FARZHUDYL_BLOCKS_MAX, -number, NULL);
    expect_linkages(list, 0, -number, NULL);
}

/* A list of 2 entries or more. */
static void merged(const List *list, const uint32_t *blocks)
{
    const size_t count = list->n - 1;
    for (size_t more = 0; more < 3; more++)
        expect_linkages(list, count + more, (int64_t)count, blocks);
    expect_linkages(list, count - 1, -15, NULL);
    expect_linkages(list, 0, -15, NULL);
}

static void linkages(void)
{
    const uint32_t four_blocks[] = {0x3, 0x7, 0xf};
    const List example = {"worked example", 4, four_pairs, 10};
    merged(&example, four_blocks);
    merged(&halves_list, four_blocks);

    const int32_t own = -7;
    const List one = {"one entry", 1, &own, 1};
    expect_linkages(&one, 0, 0, NULL);
    expect_linkages(&one, 3, 0, NULL);

    int32_t pairs[PAIRS];
    uint32_t blocks[ENTRIES - 1];
    const List large = {"32 entries", ENTRIES, pairs, PAIRS};
    for (int k = 2; k <= ENTRIES; k++)
        blocks[k - 2] = first(k);
    put_pairs(pairs, ladder_score);
    merged(&large, blocks);
    ladder_but(pairs, ladder_score, 0, -FAR - 1);
    refused_linkages(&large, 11);
    ladder_but(pairs, ladder_score, PAIRS - 1, UNSCORED);
    refused_linkages(&large, 16);
    refused_linkages(&apart_list, 16);
    refused_linkages(&unscored_one, 16);
    refused_lists(refused_linkages);
}

/* ---- anchored scores and the way back ---- */

typedef int64_t Anchored(size_t n, size_t anchor, const int32_t *list, size_t list_len, int32_t *out, size_t out_len);

/* One call. Where it is answered, the result has as many slots as the list. */
static void expect_anchored(Anchored *call, const List *list, size_t anchor, size_t room, int number, const int32_t *result)
{
    int64_t answer = number == 0 ? (int64_t)list->length : -number;
    for (int pass = 0; pass < PASSES; pass++) {
        int32_t *lent = lend_list(list, pass);
        int32_t *out = (int32_t *)lend_room(room * sizeof *out, pass);
        int64_t given = call(list->n, anchor, lent, list->length, out, room);
        bool right = list_unchanged(lent, list);
        right = written_only(out, room * sizeof *out, result, number == 0 ? list->length * sizeof *out : 0, pass) && right;
        report(call == farzhudyl_anchored_scores ? "anchored scores" : "distances back", list->what, given, answer, right);
    }
}

static void refused_anchored(const List *list, int number)
{
    Anchored *const calls[] = {farzhudyl_anchored_scores, farzhudyl_distances_back};
    for (int i = 0; i < 2; i++) {
        expect_anchored(calls[i], list, 0, PAIRS, number, NULL);
        expect_anchored(calls[i], list, SIZE_MAX, 0, number, NULL);
    }
}

static void transformed(Anchored *call, const List *list, size_t anchor, const int32_t *result)
{
    const size_t needed = list->length;
    const size_t far[] = {list->n, list->n + 1, SIZE_MAX};
    for (size_t more = 0; more < 3; more++)
        expect_anchored(call, list, anchor, needed + more, 0, result);
    expect_anchored(call, list, anchor, needed - 1, 15, NULL);
    expect_anchored(call, list, anchor, 0, 15, NULL);
    for (size_t i = 0; i < sizeof far / sizeof far[0]; i++)
        expect_anchored(call, list, far[i], needed, 15, NULL);
}

static void anchored(void)
{
    int32_t distances[PAIRS], scores[PAIRS];
    const List there = {"32 entries", ENTRIES, distances, PAIRS}, back = {"32 entries", ENTRIES, scores, PAIRS};
    put_pairs(distances, ladder_distance);
    for (int anchor = 0; anchor < ENTRIES; anchor += ENTRIES - 1) {
        for (int a = 0; a < ENTRIES; a++)
            for (int b = 0; b <= a; b++)
                scores[FARZHUDYL_PAIRS(a) + b] = ladder_distance(a, anchor) + ladder_distance(b, anchor) - ladder_distance(a, b);
        transformed(farzhudyl_anchored_scores, &there, (size_t)anchor, scores);
        transformed(farzhudyl_distances_back, &back, (size_t)anchor, distances);
        expect_anchored(farzhudyl_distances_back, &back, 15, PAIRS, 15, NULL);
    }
    scores[PAIRS - 2] = INT32_MIN;
    expect_anchored(farzhudyl_distances_back, &back, ENTRIES - 1, PAIRS, 15, NULL);
    ladder_but(distances, ladder_distance, PAIRS - 2, FAR + 1);
    expect_anchored(farzhudyl_anchored_scores, &there, 0, 0, 11, NULL);
    ladder_but(distances, ladder_distance, PAIRS - 2, UNSCORED);
    expect_anchored(farzhudyl_anchored_scores, &there, 0, 0, 16, NULL);
    expect_anchored(farzhudyl_anchored_scores, &there, 0, PAIRS, 16, NULL);
    expect_anchored(farzhudyl_distances_back, &there, 0, PAIRS, 15, NULL);
    ladder_but(distances, ladder_distance, PAIRS - 2, -1);
    expect_anchored(farzhudyl_anchored_scores, &there, 0, 0, 12, NULL);
    ladder_but(distances, ladder_distance, PAIRS - 1, 1);
    expect_anchored(farzhudyl_anchored_scores, &there, 0, 0, 12, NULL);

    /* Two entries as far apart as can be, and at half a point; beyond that there are no such distances. */
    const int32_t pair_distances[][3] = {{0, FAR, 0}, {0, 1, 0}}, pair_scores[][3] = {{0, 0, 2 * FAR}, {0, 0, 2}};
    const int32_t no_scores[][3] = {{0, 0, 2 * FAR + 2}, {0, 0, 1}, {0, 0, -2}};
    for (int i = 0; i < 2; i++) {
        const List two = {"two entries", 2, pair_distances[i], 3}, two_back = {"two entries", 2, pair_scores[i], 3};
        transformed(farzhudyl_anchored_scores, &two, 0, pair_scores[i]);
        transformed(farzhudyl_distances_back, &two_back, 0, pair_distances[i]);
    }
    for (int i = 0; i < 3; i++) {
        const List none = {"no distances", 2, no_scores[i], 3};
        expect_anchored(farzhudyl_distances_back, &none, 0, 3, 15, NULL);
    }

    const int32_t zero = 0;
    const List one = {"one entry", 1, &zero, 1};
    transformed(farzhudyl_anchored_scores, &one, 0, &zero);
    transformed(farzhudyl_distances_back, &one, 0, &zero);
    refused_lists(refused_anchored);
}

/* ---- the score of two entries ---- */

/* One call; a refused one leaves the slot. */
static void expect_score(const List *list, size_t a, size_t b, int32_t answer, int64_t score)
{
    for (int pass = 0; pass < PASSES; pass++) {
        int32_t *pairs = lend_list(list, pass);
        int64_t *slot = (int64_t *)lend_room(sizeof *slot, pass);
        int32_t given = farzhudyl_score(list->n, pairs, list->length, a, b, slot);
        bool right = list_unchanged(pairs, list);
        right = written_only(slot, sizeof *slot, &score, answer == 0 ? sizeof score : 0, pass) && right;
        report("score", list->what, given, answer, right);
    }
}

static void refused_score(const List *list, int number)
{
    expect_score(list, 0, 0, number, 0);
    expect_score(list, SIZE_MAX, SIZE_MAX, number, 0);
}

static void all_scores(const List *list)
{
    const size_t n = list->n, far[] = {n, n + 1, (size_t)(UINT64_C(1) << 32), SIZE_MAX};
    for (size_t a = 0; a < n; a++)
        for (size_t b = 0; b < n; b++)
            expect_score(list, a, b, 0, list->pairs[a > b ? FARZHUDYL_PAIRS(a) + b : FARZHUDYL_PAIRS(b) + a]);
    for (size_t i = 0; i < sizeof far / sizeof far[0]; i++) {
        expect_score(list, far[i], n - 1, 15, 0);
        expect_score(list, 0, far[i], 15, 0);
        expect_score(list, far[i], far[i], 15, 0);
    }
}

static void scores(void)
{
    const List example = {"worked example", 4, four_pairs, 10};
    all_scores(&example);
    all_scores(&apart_list);
    all_scores(&halves_list);

    /* Whether values are in range is not asked. */
    const int32_t least = INT32_MIN;
    const List one = {"one entry", 1, &least, 1};
    all_scores(&one);

    int32_t pairs[PAIRS];
    const List large = {"32 entries", ENTRIES, pairs, PAIRS};
    for (int32_t i = 0; i < PAIRS; i++)
        pairs[i] = 7 * i - 1000;
    all_scores(&large);
    refused_lists(refused_score);
}

#endif
