/* The calls on a sheet: the listing, the pair list, the name of an entry; and the pool of two sheets. */
#ifndef BUFFERS_SHEET_CALLS_H
#define BUFFERS_SHEET_CALLS_H

#include "lent.h"
#include "sheets.h"

/* ---- the listing ---- */

/* One call. The first `answer` bytes of a listing are expected; a refusal writes none. */
static void expect_listing(const char *what, int32_t kind, const char *sheet, size_t sheet_len, size_t out_len, int64_t answer,
                           const char *listing)
{
    for (int pass = 0; pass < PASSES; pass++) {
        uint8_t *lent = (uint8_t *)lend(sheet, sheet_len, pass), *out = (uint8_t *)lend_room(out_len, pass);
        int64_t given = farzhudyl_listing(kind, lent, sheet_len, out, out_len);
        bool same = unchanged(lent, sheet, sheet_len);
        bool written = written_only(out, out_len, listing, answer > 0 ? (size_t)answer : 0, pass);
        report("listing", what, given, answer, same && written);
    }
}

static void refused_listing(const char *what, int32_t kind, const char *sheet, size_t sheet_len, int number)
{
    const size_t rooms[] = {0, 1, 15, FARZHUDYL_LISTING_MAX};
    for (size_t i = 0; i < sizeof rooms / sizeof rooms[0]; i++)
        expect_listing(what, kind, sheet, sheet_len, rooms[i], -number, NULL);
}

/* Of each kind; the longest sheets, which take long, of one. */
static void refused_listings(const char *what, const char *sheet, size_t sheet_len, int number)
{
    for (int32_t kind = 1; kind <= (sheet_len < MOST ? 3 : 1); kind++)
        refused_listing(what, kind, sheet, sheet_len, number);
}

static void listed(const char *what, int32_t kind, const Text *sheet, const Groups *groups)
{
    Text listing = {{0}, 0};
    put_listing(&listing, groups);
    size_t length = listing.length;
    /* More than any listing of so many lines has. */
    const size_t most = 15 + 34 * groups->count;
    const size_t short_rooms[] = {0, 1, 14, length - 1};
    const size_t rooms[] = {length, length + 1, most, most + 1, FARZHUDYL_LISTING_MAX, 2191};
    for (size_t i = 0; i < sizeof short_rooms / sizeof short_rooms[0]; i++)
        expect_listing(what, kind, sheet->bytes, sheet->length, short_rooms[i], -14, NULL);
    for (size_t i = 0; i < sizeof rooms / sizeof rooms[0]; i++)
        expect_listing(what, kind, sheet->bytes, sheet->length, rooms[i], (int64_t)length, listing.bytes);
}

/* A sheet with unscored pairs has strong groups, and is refused otherwise. */
static void listed_unscored(const char *what, const Text *sheet, const Groups *groups)
{
    listed(what, FARZHUDYL_STRONG, sheet, groups);
    refused_listing(what, FARZHUDYL_CLEAN, sheet->bytes, sheet->length, 16);
    refused_listing(what, FARZHUDYL_SPLITS, sheet->bytes, sheet->length, 16);
}

static void unscored_listings(void)
{
    const Groups none = {0, {0}, {0}};
    Text sheet = {{0}, 0}, one = {{0}, 0}, large = {{0}, 0}, all = {{0}, 0};
    Groups groups = none;
    put(&sheet, "%s", apart);
    put_apart_groups(&groups);
    listed_unscored("C and D unscored", &sheet, &groups);
    put(&one, "A\n-\n");
    listed_unscored("one entry, unscored", &one, &none);
    groups = none;
    put_sheet(&large, "E", ladder_apart);
    put_ladder_apart_groups(&groups);
    listed_unscored("the last two of 32 unscored", &large, &groups);
    put_sheet(&all, "E", unscored);
    listed_unscored("all unscored", &all, &none);
    refused_listings("1000001 and a mark", "A B\n- 1000001\n1000001 0\n", 24, 11);
}

/* In buffers of every length, so that a line is cut before the point, behind it, and behind the half. */
static void half_listings(void)
{
    Text sheet = {{0}, 0}, listing = {{0}, 0};
    Groups groups = {0, {0}, {0}};
    put(&sheet, "%s", halves);
    put_halves_groups(&groups);
    listed("half points", FARZHUDYL_STRONG, &sheet, &groups);
    put_listing(&listing, &groups);
    for (size_t room = 0; room < listing.length; room++)
        expect_listing("half points, short", FARZHUDYL_STRONG, sheet.bytes, sheet.length, room, -14, NULL);
    refused_listing("half points", FARZHUDYL_SPLITS, halves, sizeof halves - 1, 12);
}

static void listings(void)
{
    const Groups none = {0, {0}, {0}};
    Text sheet = {{0}, 0}, one = {{0}, 0}, widest = {{0}, 0}, wider = {{0}, 0};
    Groups groups = none;
    put(&sheet, "%s", four);
    put_four_groups(&groups);
    listed("worked example", FARZHUDYL_STRONG, &sheet, &groups);
    refused_listing("worked example", FARZHUDYL_SPLITS, four, sizeof four - 1, 12);
    refused_listing("kind 0", 0, four, sizeof four - 1, 1);
    refused_listing("kind 4, no sheet", 4, four, 0, 1);
    refused_listings("1000001", "A\n1000001\n", 10, 11);
    refused_listings("1000000.5", "A\n1000000.5\n", 12, 11);
    unscored_listings();
    half_listings();

    put(&one, "A\n0\n");
    for (int32_t kind = 1; kind <= 3; kind++) {
        Text large = {{0}, 0};
        groups = none;
        put_sheet(&large, "E", ladder(kind));
        put_ladder_groups(&groups, kind);
        listed("as many groups as there can be", kind, &large, &groups);
        listed("one entry", kind, &one, &none);
    }

    /* Names of 8 bytes and values of 9: no sheet that passes is longer. Values of 10 bytes are out of range. */
    put_sheet(&widest, "EEEEEE", longest_score);
    put_sheet(&wider, "EEEEEE", longest_value);
    if (widest.length != 10528 || wider.length != 11552)
        abort();
    listed("widest sheet", FARZHUDYL_STRONG, &widest, &none);
    listed("widest sheet", FARZHUDYL_CLEAN, &widest, &none);
    refused_listing("widest sheet", FARZHUDYL_SPLITS, widest.bytes, widest.length, 12);
    refused_listings("wider sheet", wider.bytes, wider.length, 11);

    refused_sheets(refused_listings);
}

/* ---- the pair list ---- */

/* One call; the pairs expected are those of `answer` entries. */
static void expect_pair_list(const char *what, const char *sheet, size_t sheet_len, int64_t answer, const int32_t *pairs)
{
    size_t count = answer > 0 ? FARZHUDYL_PAIRS((size_t)answer) : 0;
    for (int pass = 0; pass < PASSES; pass++) {
        uint8_t *lent = (uint8_t *)lend(sheet, sheet_len, pass);
        int32_t *out = (int32_t *)lend_room(PAIRS * sizeof *out, pass);
        int64_t given = farzhudyl_pair_list(lent, sheet_len, out);
        bool same = unchanged(lent, sheet, sheet_len);
        bool written = written_only(out, PAIRS * sizeof *out, pairs, count * sizeof *out, pass);
        report("pair list", what, given, answer, same && written);
    }
}

static void refused_pair_list(const char *what, const char *sheet, size_t sheet_len, int number)
{
    expect_pair_list(what, sheet, sheet_len, -number, NULL);
}

static void pair_lists(void)
{
    expect_pair_list("worked example", four, sizeof four - 1, 4, four_pairs);
    expect_pair_list("C and D unscored", apart, sizeof apart - 1, 4, apart_pairs);
    expect_pair_list("half points", halves, sizeof halves - 1, 4, halves_pairs);

    /* Whether values are in range is not asked. */
    const int32_t far = 19999998, farther = -19999999;
    expect_pair_list("one entry", "A\n9999999\n", 10, 1, &far);
    expect_pair_list("one entry", "A\n-9999999.5\n", 13, 1, &farther);

    Value *const values[] = {ladder_score, ladder_distance, longest_score, longest_value, least_score, ladder_apart, unscored};
    for (size_t i = 0; i < sizeof values / sizeof values[0]; i++) {
        Text sheet = {{0}, 0};
        int32_t pairs[PAIRS];
        put_sheet(&sheet, "EEEEEE", values[i]);
        put_pairs(pairs, values[i]);
        expect_pair_list("32 entries", sheet.bytes, sheet.length, ENTRIES, pairs);
    }
    refused_sheets(refused_pair_list);
}

/* ---- names ---- */

/* One call; the place is written to its slot in any case. */
static void expect_name(const char *what, const char *sheet, size_t sheet_len, size_t entry, size_t start, size_t length)
{
    for (int pass = 0; pass < PASSES; pass++) {
        uint8_t *lent = (uint8_t *)lend(sheet, sheet_len, pass);
        size_t *slot = (size_t *)lend_room(sizeof *slot, pass);
        size_t given = farzhudyl_name(lent, sheet_len, entry, slot);
        bool same = unchanged(lent, sheet, sheet_len);
        bool written = written_only(slot, sizeof *slot, &start, sizeof start, pass);
        report("name", what, (int64_t)given, (int64_t)length, same && written);
    }
}

static void no_name(const char *what, const char *sheet, size_t sheet_len, int number)
{
    (void)number;
    expect_name(what, sheet, sheet_len, 0, 0, 0);
    expect_name(what, sheet, sheet_len, 1, 0, 0);
}

/* The names of n entries, each of this length; and numbers that are no entries. */
static void all_names(const char *what, const char *sheet, size_t sheet_len, size_t n, size_t length)
{
    const size_t none[] = {n, n + 1, 255, SIZE_MAX - 1, SIZE_MAX};
    for (size_t entry = 0; entry < n; entry++)
        expect_name(what, sheet, sheet_len, entry, entry * (length + 1), length);
    for (size_t i = 0; i < sizeof none / sizeof none[0]; i++)
        expect_name(what, sheet, sheet_len, none[i], 0, 0);
}

static void names(void)
{
    all_names("worked example", four, sizeof four - 1, 4, 1);
    all_names("C and D unscored", apart, sizeof apart - 1, 4, 1);
    all_names("half points", halves, sizeof halves - 1, 4, 1);
    all_names("one entry", "A1\n0\n", 5, 1, 2);
    const char *const within = "BAA AA A\n0 0 0\n0 0 0\n0 0 0\n";
    expect_name("a name within a name", within, strlen(within), 1, 4, 2);
    expect_name("a name within names", within, strlen(within), 2, 7, 1);

    Text sheet = {{0}, 0}, widest = {{0}, 0};
    put_sheet(&sheet, "E", ladder_score);
    all_names("32 entries", sheet.bytes, sheet.length, ENTRIES, 3);
    put_sheet(&widest, "EEEEEE", longest_value);
    all_names("widest sheet", widest.bytes, widest.length, ENTRIES, 8);
    refused_sheets(no_name);
}

/* ---- the pool of two sheets ---- */

/* One call. The first `answer` bytes of a pool are expected; a refusal writes none. */
static void expect_pool(const char *what, Bytes first, Bytes second, size_t out_len, int64_t answer, const char *pool)
{
    for (int pass = 0; pass < PASSES; pass++) {
        uint8_t *lent = (uint8_t *)lend(first.at, first.length, pass), *other = (uint8_t *)lend(second.at, second.length, pass);
        uint8_t *out = (uint8_t *)lend_room(out_len, pass);
        int64_t given = farzhudyl_pool(lent, first.length, other, second.length, out, out_len);
        bool same = unchanged(lent, first.at, first.length), other_same = unchanged(other, second.at, second.length);
        bool written = written_only(out, out_len, pool, answer > 0 ? (size_t)answer : 0, pass);
        report("pool", what, given, answer, same && other_same && written);
    }
}

static void pooled(const char *what, Bytes first, Bytes second, Bytes pool)
{
    const size_t short_rooms[] = {0, 1, pool.length - 1}, rooms[] = {pool.length, pool.length + 1, MOST};
    for (size_t i = 0; i < sizeof short_rooms / sizeof short_rooms[0]; i++)
        expect_pool(what, first, second, short_rooms[i], -14, NULL);
    for (size_t i = 0; i < sizeof rooms / sizeof rooms[0]; i++)
        expect_pool(what, first, second, rooms[i], (int64_t)pool.length, pool.at);
}

static void refused_pool(const char *what, Bytes first, Bytes second, int number)
{
    const size_t rooms[] = {0, 1, FARZHUDYL_POOL_MAX};
    for (size_t i = 0; i < sizeof rooms / sizeof rooms[0]; i++)
        expect_pool(what, first, second, rooms[i], -number, NULL);
}

/* As the first sheet, and as the second; beside another one that is refused, and that is judged if it is the first. */
static void refused_pools(const char *what, const char *sheet, size_t sheet_len, int number)
{
    const Bytes bad = {sheet, sheet_len}, good = bytes(four), far = bytes("A\n1000001\n");
    refused_pool(what, bad, good, number);
    refused_pool(what, good, bad, number);
    refused_pool(what, bad, far, number);
    refused_pool(what, far, bad, 11);
}

/* 32 entries, on the second sheet in the reverse order. */
static void pooled_large(const char *what, Value *first, Value *second, Value *sum)
{
    Text one = {{0}, 0}, other = {{0}, 0}, pool = {{0}, 0};
    put_sheet(&one, "EEEEEE", first);
    put_ordered(&other, "EEEEEE", second, reversed);
    put_sheet(&pool, "EEEEEE", sum);
    pooled(what, whole(&one), whole(&other), whole(&pool));
}

/* One sum out of range by half a point, that of the last two of 32 entries. */
static void refused_large(void)
{
    Text one = {{0}, 0}, other = {{0}, 0};
    put_sheet(&one, "E", last_far);
    put_ordered(&other, "E", last_half, reversed);
    refused_pool("the last sum out of range", whole(&one), whole(&other), 18);
}

static void pools(void)
{
    pooled("worked example", bytes("A B C D\n9 7 2 1\n7 8 3 1\n2 3 9 4\n1 1 4 6\n"),
           bytes("C A D B\n8 2 - 1\n2 9 3 6\n- 3 7 2\n1 6 2 9\n"),
           bytes("A B C D\n18 13 4 4\n13 17 4 3\n4 4 17 -\n4 3 - 13\n"));
    pooled("one entry", bytes("A\n0\n"), bytes("A\n0\n"), bytes("A\n0\n"));
    pooled("half points", bytes("A B\n0.5 -0.5\n-0.5 7\n"), bytes("B A\n6.5 0\n0 0.5\n"), bytes("A B\n1 -0.5\n-0.5 13.5\n"));
    pooled("up to the end of the range", bytes("A\n999999.5\n"), bytes("A\n0.5\n"), bytes("A\n1000000\n"));
    pooled("a name within a name", bytes("AA A\n1 2\n2 3\n"), bytes("A AA\n30 20\n20 10\n"), bytes("AA A\n11 22\n22 33\n"));
    pooled_large("the longest pool", half_longest, other_half, longest_score);
    pooled_large("the least scores", zero, least_score, least_score);
    pooled_large("all sums 0", ladder_score, against_ladder, zero);
    pooled_large("unscored on the first", ladder_apart, zero, ladder_apart);
    pooled_large("unscored on the second", zero, ladder_apart, ladder_apart);
    pooled_large("all unscored", unscored, ladder_score, unscored);

    refused_large();
    refused_pool("one sum too great", bytes("A B\n0 1\n1 1\n"), bytes("B A\n1000000 1\n1 0\n"), 18);
    refused_pool("a name more on the second", bytes("A\n0\n"), bytes("B A\n0 0\n0 0\n"), 17);
    refused_pool("a name more on the first", bytes("A B\n0 0\n0 0\n"), bytes("A\n0\n"), 17);
    refused_pool("another name", bytes("A B\n0 0\n0 0\n"), bytes("A B1\n0 0\n0 0\n"), 17);
    refused_pool("one sum too great by half a point", bytes("A\n0.5\n"), bytes("A\n1000000\n"), 18);
    refused_pool("one sum too low by half a point", bytes("A\n-1000000\n"), bytes("A\n-0.5\n"), 18);
    refused_pools("1000001", "A\n1000001\n", 10, 11);
    refused_pools("-1000000.5", "A\n-1000000.5\n", 13, 11);
    refused_sheets(refused_pools);
}

#endif
