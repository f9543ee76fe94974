/* How much stack each call of the header takes, found by painting the stack of a thread: below the frame of the function that calls,
   all is filled with a pattern, and after the call the lowest word changed is looked for. The figure of a call is by how much it
   reaches lower than an empty call in the same place, the most over all that it is called on, and must not exceed the limit.

   The figure counts the frames of the call and of all that it calls, memcpy and memset too, its arguments on the stack, and the words
   that it wrote below the stack pointer (the red zone). Of the deepest frame it does not count words that were never written.
   usage: stack [LIMIT]     in bytes, FARZHUDYL_STACK_MAX without it */
#define _XOPEN_SOURCE 600

#include <pthread.h>
#include <stdalign.h>
#include <stdbool.h>
#include <stdint.h>
#include <stdio.h>
#include <stdlib.h>
#include <string.h>

#include "../bench/sheets.h"
#include "farzhudyl.h"

enum { STACK = 1 << 20, GAP = 1024, KNOWN = 20000, SHEETS = 10 };

/* The greatest value of a pair list, in half points. */
enum { FAR = 1000000 * FARZHUDYL_POINT };

typedef void Call(void);

/* ---- painting ---- */

alignas(4096) static unsigned char stack[STACK];

/* Fills the stack up to some way below this function's own frame, which the gap keeps. */
static void paint(uint64_t pattern)
{
    volatile uint64_t *word = (uint64_t *)stack;
    volatile unsigned char here = 0;
    uintptr_t end = (uintptr_t)&here - GAP / 2;
    for (; (uintptr_t)word < end; word++)
        *word = pattern;
}

/* The lowest word that does not hold the pattern, as an offset. */
static size_t lowest_changed(uint64_t pattern)
{
    const volatile uint64_t *word = (const uint64_t *)stack;
    while (*word == pattern)
        word++;
    return (size_t)((uintptr_t)word - (uintptr_t)stack);
}

/* Calls from below the gap, so that all that the call takes is painted. */
static void call_below(Call *call)
{
    volatile unsigned char gap[GAP];
    gap[0] = 0;
    call();
    (void)gap[0];
}

/* How low the stack is written to by a call; on a pattern and on its complement, so that no word can hide behind what was there. */
static size_t lowest(Call *call)
{
    const uint64_t patterns[] = {UINT64_C(0x9e3779b97f4a7c15), ~UINT64_C(0x9e3779b97f4a7c15)};
    size_t low = STACK;
    for (int i = 0; i < 2; i++) {
        paint(patterns[i]);
        call_below(call);
        size_t found = lowest_changed(patterns[i]);
        low = found < low ? found : low;
    }
    return low;
}

/* ---- the calls, on what was last made ---- */

static int32_t kind;
static uint8_t sheet[FARZHUDYL_SHEET_MAX + 1];
static uint8_t other[FARZHUDYL_SHEET_MAX]; /* of the same entries, in another order */
static size_t sheet_len, other_len, n, entry;
static int32_t pairs[FARZHUDYL_PAIRS_MAX], anchored[FARZHUDYL_PAIRS_MAX];
static size_t pairs_len;

static uint8_t listing[FARZHUDYL_LISTING_MAX];
static uint8_t pool[FARZHUDYL_POOL_MAX];
static size_t listing_len, pool_len;
static uint32_t sets[FARZHUDYL_GROUPS_MAX];
static int64_t indices[FARZHUDYL_GROUPS_MAX];
static uint32_t blocks[FARZHUDYL_BLOCKS_MAX];
static int32_t result[FARZHUDYL_PAIRS_MAX];
static uint32_t set, side;
static int64_t weight;
static size_t start;
static int64_t answer;

static void call_nothing(void) {}
static void call_listing(void) { answer = farzhudyl_listing(kind, sheet, sheet_len, listing, listing_len); }
static void call_numbers(void)
{
    answer = farzhudyl_numbers(kind, n, pairs, pairs_len, sets, FARZHUDYL_GROUPS_MAX, indices, FARZHUDYL_GROUPS_MAX);
}
static void call_shared(void) { answer = farzhudyl_smallest_shared(kind, n, pairs, pairs_len, entry, 0, &set); }
static void call_weight(void) { answer = farzhudyl_refined_weight(n, pairs, pairs_len, side, &weight); }
static void call_single(void) { answer = farzhudyl_single_linkage(n, pairs, pairs_len, blocks, FARZHUDYL_BLOCKS_MAX); }
static void call_average(void) { answer = farzhudyl_average_linkage(n, pairs, pairs_len, blocks, FARZHUDYL_BLOCKS_MAX); }
static void call_anchored(void) { answer = farzhudyl_anchored_scores(n, entry, pairs, pairs_len, result, FARZHUDYL_PAIRS_MAX); }
static void call_back(void) { answer = farzhudyl_distances_back(n, entry, anchored, pairs_len, result, FARZHUDYL_PAIRS_MAX); }
static void call_pair_list(void) { answer = farzhudyl_pair_list(sheet, sheet_len, result); }
static void call_name(void) { answer = (int64_t)farzhudyl_name(sheet, sheet_len, entry, &start); }
/* The sheet as the second, then as the first. */
static void call_pool(void)
{
    farzhudyl_pool(other, other_len, sheet, sheet_len, pool, pool_len);
    answer = farzhudyl_pool(sheet, sheet_len, other, other_len, pool, pool_len);
}
static void call_score(void) { answer = farzhudyl_score(n, pairs, pairs_len, entry, 0, indices); }

/* A call that is known to take so many bytes, and little more. */
static void call_known(void)
{
    volatile unsigned char bytes[KNOWN];
    bytes[0] = 1;
    (void)bytes[0];
}

enum { ANSWERED, REFUSED };

static struct {
    const char *name;
    Call *call;
    size_t most;
    long met[2]; /* how many calls were answered and how many refused */
} calls[] = {
    {"farzhudyl_listing", call_listing, 0, {0, 0}},
    {"farzhudyl_numbers", call_numbers, 0, {0, 0}},
    {"farzhudyl_smallest_shared", call_shared, 0, {0, 0}},
    {"farzhudyl_refined_weight", call_weight, 0, {0, 0}},
    {"farzhudyl_single_linkage", call_single, 0, {0, 0}},
    {"farzhudyl_average_linkage", call_average, 0, {0, 0}},
    {"farzhudyl_anchored_scores", call_anchored, 0, {0, 0}},
    {"farzhudyl_distances_back", call_back, 0, {0, 0}},
    {"farzhudyl_pair_list", call_pair_list, 0, {0, 0}},
    {"farzhudyl_name", call_name, 0, {0, 0}},
    {"farzhudyl_pool", call_pool, 0, {0, 0}},
    {"farzhudyl_score", call_score, 0, {0, 0}},
};
enum { CALLS = sizeof calls / sizeof calls[0] };

static size_t nothing, known;

static bool refused(Call *call)
{
    if (call == call_name)
        return answer == 0;
    return call == call_score || call == call_weight ? answer != 0 : answer < 0;
}

/* Makes every call on the sheet and the list as they are. */
static void measure(void)
{
    for (int i = 0; i < CALLS; i++) {
        size_t low = lowest(calls[i].call), taken = low < nothing ? nothing - low : 0;
        calls[i].most = taken > calls[i].most ? taken : calls[i].most;
        calls[i].met[refused(calls[i].call) ? REFUSED : ANSWERED]++;
    }
}

/* ---- what they are called on ---- */

typedef void MakePairs(bool distances, int entries, int32_t *to);

/* A ladder: entries join one by one. */
static void ladder(bool distances, int entries, int32_t *to)
{
    for (int a = 0; a < entries; a++)
        for (int b = 0; b <= a; b++)
            *to++ = distances ? (a == b ? 0 : 6 + 5 * (a - b)) : (a == b ? FAR : 101 * (entries - a));
}

/* All values alike: every link ties, and no set has an index above 0 but the ends of a star. */
static void alike(bool distances, int entries, int32_t *to)
{
    for (int a = 0; a < entries; a++)
        for (int b = 0; b <= a; b++)
            *to++ = distances && a == b ? 0 : FAR;
}

/* Values of 9 bytes, such as -999998.5; with minus half of it added, that is -499999.5, of 9 bytes too. */
static void longest(bool distances, int entries, int32_t *to)
{
    for (int a = 0; a < entries; a++)
        for (int b = 0; b <= a; b++)
            *to++ = !distances ? 3 - FAR : a == b ? 0 : FAR - 3;
}

/* A ladder whose last entry has no own score, so no strong group holds that entry. */
static void own_unscored(bool distances, int entries, int32_t *to)
{
    ladder(distances, entries, to);
    to[FARZHUDYL_PAIRS(entries) - 1] = INT32_MIN;
}

static void all_unscored(bool distances, int entries, int32_t *to)
{
    (void)distances;
    for (int i = 0; i < FARZHUDYL_PAIRS(entries); i++)
        to[i] = INT32_MIN;
}

/* Minus half of each score, so that no sum is out of range, in the reverse order; the unscored pairs are 0. */
static void make_other(int entries)
{
    int32_t added[FARZHUDYL_PAIRS_MAX];
    int order[MAX_ENTRIES];
    for (int i = 0; i < FARZHUDYL_PAIRS(entries); i++)
        added[i] = pairs[i] == INT32_MIN ? 0 : -pairs[i] / 2;
    for (int i = 0; i < entries; i++)
        order[i] = entries - 1 - i;
    other_len = write_ordered(entries, order, added, other);
}

static void good(MakePairs *make, int entries)
{
    n = (size_t)entries;
    pairs_len = FARZHUDYL_PAIRS(n);
    for (kind = 1; kind <= 3; kind++) {
        make(kind == FARZHUDYL_SPLITS, entries, pairs);
        sheet_len = write_sheet(entries, pairs, sheet);
        make_other(entries);
        /* What the way back starts from; all 0 if these are no distances. */
        entry = n - 1;
        memset(anchored, 0, sizeof anchored);
        farzhudyl_anchored_scores(n, entry, pairs, pairs_len, anchored, FARZHUDYL_PAIRS_MAX);
        listing_len = sizeof listing;
        pool_len = sizeof pool;
        side = UINT32_C(0x33333333) & UINT32_MAX >> (MAX_ENTRIES - n);
        measure();
        listing_len = 15;
        pool_len = 3;
        entry = n;
        side = 1;
        measure();
    }
}

/* The sheet's bytes as given, and spaces, digits or the like up to a length. */
static void text(const char *begin, char rest, size_t length)
{
    memset(sheet, rest, sizeof sheet);
    memcpy(sheet, begin, strlen(begin));
    sheet_len = length;
}

static void each_kind(void)
{
    listing_len = sizeof listing;
    pool_len = sizeof pool;
    entry = 0;
    for (kind = 0; kind <= 3; kind++)
        measure();
}

/* 12,288 bytes, each refused at another place; and one byte more. */
static void full_sheets(void)
{
    const size_t most = FARZHUDYL_SHEET_MAX;
    const struct {
        const char *begin;
        char rest;
    } sheets[] = {{"", '\n'},       {"", 'A'},      {"A ", 'A'}, {"A\n", '1'}, {"A\n0", '.'},
                  {"A\n0\n", ' '}, {"A B\n-1", '-'}, {"a", '0'}};
    for (size_t i = 0; i < sizeof sheets / sizeof sheets[0]; i++) {
        text(sheets[i].begin, sheets[i].rest, most);
        each_kind();
        sheet_len = most + 1;
        each_kind();
        sheet[most - 1] = '\n';
        sheet_len = most;
        each_kind();
    }
    /* As many names as there can be; the last is the first again, then not. */
    const char signs[] = "ABCDEFGHIJKLMNOPQRSTUVWXYZ0123456789";
    for (size_t i = 0; i < most / 4; i++) {
        const uint8_t name[] = {(uint8_t)signs[i / 36 / 36], (uint8_t)signs[i / 36 % 36], (uint8_t)signs[i % 36], ' '};
        memcpy(sheet + 4 * i, name, sizeof name);
    }
    sheet_len = most;
    sheet[most - 1] = '\n';
    each_kind();
    memcpy(sheet + most - 4, sheet, 3);
    each_kind();
}

/* A sheet of 32 entries with a flaw at its end, and without bytes; a list of a wrong length, and values out of range. */
static void refused_ones(void)
{
    n = MAX_ENTRIES;
    pairs_len = MAX_PAIRS;
    near_tree(false, MAX_ENTRIES, pairs);
    const size_t length = write_sheet(MAX_ENTRIES, pairs, sheet);
    const char *const ends[] = {"-0\n", "0 \n", "00\n", " 7\n", ".7\n", "7.\n", "77\n\n", "77", "7a\n", "7\t\n"};
    for (size_t i = 0; i < sizeof ends / sizeof ends[0]; i++) {
        memcpy(sheet + length - 3, ends[i], strlen(ends[i]));
        sheet_len = length - 3 + strlen(ends[i]);
        each_kind();
    }
    sheet_len = 0;
    each_kind();
    write_sheet(MAX_ENTRIES, pairs, sheet);
    sheet[length - 2] = sheet[length - 2] == '7' ? '8' : '7';
    sheet[3] = sheet[3] == '1' ? '2' : '1';
    sheet_len = length;
    each_kind();
    pairs[MAX_PAIRS - 1] = FAR + 1;
    sheet_len = write_sheet(MAX_ENTRIES, pairs, sheet);
    each_kind();
    pairs_len = MAX_PAIRS - 1;
    each_kind();
    n = 0;
    each_kind();
    n = MAX_ENTRIES + 1;
    each_kind();
}

static void *run(void *unused)
{
    nothing = lowest(call_nothing);
    known = nothing - lowest(call_known);
    MakePairs *const makes[] = {near_tree, unstructured};
    for (int i = 0; i < SHEETS; i++)
        for (int sort = 0; sort < 2; sort++)
            good(makes[sort], MAX_ENTRIES);
    const int sizes[] = {1, 2, 3, 5, 8, 13, 21, 31, 32};
    for (size_t i = 0; i < sizeof sizes / sizeof sizes[0]; i++) {
        good(near_tree, sizes[i]);
        good(ladder, sizes[i]);
        good(alike, sizes[i]);
        good(longest, sizes[i]);
        good(near_tree_halves, sizes[i]);
        good(own_unscored, sizes[i]);
        good(all_unscored, sizes[i]);
    }
    full_sheets();
    refused_ones();
    return unused;
}

int main(int argc, char **argv)
{
    const size_t limit = argc > 1 ? (size_t)strtoul(argv[1], NULL, 10) : FARZHUDYL_STACK_MAX;
    pthread_attr_t attributes;
    pthread_t thread;
    if (pthread_attr_init(&attributes) != 0 || pthread_attr_setstack(&attributes, stack, sizeof stack) != 0 ||
        pthread_create(&thread, &attributes, run, NULL) != 0 || pthread_join(thread, NULL) != 0) {
        fprintf(stderr, "no thread with a stack of its own\n");
        return 2;
    }
    int failed = 0;
    printf("limit: %zu bytes\n", limit);
    for (int i = 0; i < CALLS; i++) {
        const long *met = calls[i].met;
        const bool holds = calls[i].most <= limit && met[ANSWERED] > 0 && met[REFUSED] > 0;
        printf("%s: %s takes up to %zu bytes of stack (%ld calls answered, %ld refused)\n", holds ? "passed" : "failed", calls[i].name,
               calls[i].most, met[ANSWERED], met[REFUSED]);
        failed += !holds;
    }
    /* What is measured of a call that is known must be right, or else the figures mean nothing. */
    const bool right = known >= KNOWN && known < KNOWN + 256;
    printf("%s: a call that takes %d bytes is measured as %zu\n", right ? "passed" : "failed", (int)KNOWN, known);
    failed += !right;
    printf("%d passed, %d failed\n", CALLS + 1 - failed, failed);
    return failed > 0;
}
