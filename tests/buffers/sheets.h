/* Sheets, pair lists and their groups to make the calls on; and sheets that are refused. */
#ifndef BUFFERS_SHEETS_H
#define BUFFERS_SHEETS_H

#include <inttypes.h>
#include <stdarg.h>
#include <stdint.h>
#include <stdio.h>
#include <stdlib.h>
#include <string.h>

#include "farzhudyl.h"

enum { ENTRIES = FARZHUDYL_ENTRIES_MAX, PAIRS = FARZHUDYL_PAIRS_MAX, MOST = FARZHUDYL_SHEET_MAX };

/* A pair never compared, in a pair list; and the greatest value there, in half points. */
enum { UNSCORED = INT32_MIN, FAR = 1000000 * FARZHUDYL_POINT };

/* Text that grows at its end. */
typedef struct {
    char bytes[MOST + 1];
    size_t length;
} Text;

static void put(Text *text, const char *format, ...)
{
    size_t room = sizeof text->bytes - text->length;
    va_list values;
    va_start(values, format);
    int length = vsnprintf(text->bytes + text->length, room, format, values);
    va_end(values);
    if (length < 0 || (size_t)length >= room)
        abort();
    text->length += (size_t)length;
}

/* Bytes that a call reads. */
typedef struct {
    const char *at;
    size_t length;
} Bytes;

static Bytes bytes(const char *string)
{
    const Bytes all = {string, strlen(string)};
    return all;
}

static Bytes whole(const Text *text)
{
    const Bytes all = {text->bytes, text->length};
    return all;
}

/* Half points, in points. */
static void put_points(Text *text, int64_t halves)
{
    int64_t size = halves < 0 ? -halves : halves;
    put(text, "%s%" PRId64 "%s", halves < 0 ? "-" : "", size / FARZHUDYL_POINT, size % FARZHUDYL_POINT == 0 ? "" : ".5");
}

/* The groups of a list, in the order of the listing, and 0 behind them; the indices in half points. */
typedef struct {
    size_t count;
    uint32_t sets[2 * FARZHUDYL_GROUPS_MAX];
    int64_t indices[2 * FARZHUDYL_GROUPS_MAX];
} Groups;

static void add_group(Groups *groups, uint32_t set, int64_t index)
{
    groups->sets[groups->count] = set;
    groups->indices[groups->count] = index;
    groups->count++;
}

static void put_listing(Text *listing, const Groups *groups)
{
    put(listing, "set size index\n");
    for (size_t i = 0; i < groups->count; i++) {
        int size = 0;
        for (uint32_t set = groups->sets[i]; set != 0; set >>= 1)
            size += set & 1;
        put(listing, "%08" PRIx32 " %d ", groups->sets[i], size);
        put_points(listing, groups->indices[i]);
        put(listing, "\n");
    }
}

/* ---- the header's example ---- */

static const char four[] = "A B C D\n9 8 6 2\n8 9 5 3\n6 5 9 1\n2 3 1 9\n";
static const int32_t four_pairs[] = {18, 16, 18, 12, 10, 18, 4, 6, 2, 18};

static void put_four_groups(Groups *groups)
{
    const uint32_t sets[] = {1, 2, 4, 8, 3, 7};
    const int64_t indices[] = {2, 2, 6, 12, 4, 4};
    for (int i = 0; i < 6; i++)
        add_group(groups, sets[i], indices[i]);
}

/* The same with half points. */
static const char halves[] = "A B C D\n9 8.5 6 2\n8.5 9 5.5 3\n6 5.5 9 -0.5\n2 3 -0.5 9\n";
static const int32_t halves_pairs[] = {18, 17, 18, 12, 11, 18, 4, 6, -1, 18};

static void put_halves_groups(Groups *groups)
{
    const uint32_t sets[] = {1, 2, 4, 8, 3, 7};
    const int64_t indices[] = {1, 1, 6, 12, 5, 5};
    for (int i = 0; i < 6; i++)
        add_group(groups, sets[i], indices[i]);
}

/* The same, C and D never compared: no group holds either. */
static const char apart[] = "A B C D\n9 8 6 2\n8 9 5 3\n6 5 9 -\n2 3 - 9\n";
static const int32_t apart_pairs[] = {18, 16, 18, 12, 10, 18, 4, 6, UNSCORED, 18};

static void put_apart_groups(Groups *groups)
{
    add_group(groups, 1, 2);
    add_group(groups, 2, 2);
    add_group(groups, 3, 4);
}

/* ---- 32 entries ---- */

/* In half points. */
typedef int Value(int a, int b);

static void put_value(Text *sheet, int value, char after)
{
    if (value == UNSCORED)
        put(sheet, "-");
    else
        put_points(sheet, value);
    put(sheet, "%c", after);
}

/* The entry at a place. */
typedef int Order(int place);

static int in_order(int place) { return place; }
static int reversed(int place) { return ENTRIES - 1 - place; }

static void put_ordered(Text *sheet, const char *name, Value *value, Order *order)
{
    for (int i = 0; i < ENTRIES; i++)
        put(sheet, "%s%02d%c", name, order(i), i < ENTRIES - 1 ? ' ' : '\n');
    for (int i = 0; i < ENTRIES; i++)
        for (int j = 0; j < ENTRIES; j++)
            put_value(sheet, value(order(i), order(j)), j < ENTRIES - 1 ? ' ' : '\n');
}

static void put_sheet(Text *sheet, const char *name, Value *value) { put_ordered(sheet, name, value, in_order); }

static void put_pairs(int32_t pairs[PAIRS], Value *value)
{
    for (int a = 0; a < ENTRIES; a++)
        for (int b = 0; b <= a; b++)
            *pairs++ = value(a, b);
}

/* Entries join one by one: 0 and 1, then 2, then 3 and so on, by steps of 50 points and a half. */
enum { STEP = 101 };
static int ladder_score(int a, int b) { return a == b ? FAR : STEP * (ENTRIES - (a > b ? a : b)); }

/* Each entry hangs by a point and a half from a path; the path's nodes are two and a half apart. The first two share a node, and so do
   the last two. */
static int ladder_node(int a) { return a == 0 ? 1 : a == ENTRIES - 1 ? ENTRIES - 2 : a; }
static int ladder_distance(int a, int b) { return a == b ? 0 : 3 + 3 + 5 * abs(ladder_node(a) - ladder_node(b)); }

static Value *ladder(int32_t kind) { return kind == FARZHUDYL_SPLITS ? ladder_distance : ladder_score; }

/* The longest value in range: -999999.5. */
static int longest_score(int a, int b)
{
    (void)a, (void)b;
    return 1 - FAR;
}

static int half_longest(int a, int b) { return longest_score(a, b) / 2; }
static int other_half(int a, int b) { return longest_score(a, b) - half_longest(a, b); }

/* The longest value of all, out of range: -9999999.5. */
static int longest_value(int a, int b)
{
    (void)a, (void)b;
    return -19999999;
}

static int least_score(int a, int b)
{
    (void)a, (void)b;
    return -FAR;
}

/* Scores of which the last two entries have half of the greatest and half a point more. */
static int last_far(int a, int b) { return a + b == 2 * ENTRIES - 3 ? FAR / 2 + 1 : 0; }

/* And half of the greatest: added to these, half a point too much. */
static int last_half(int a, int b) { return a + b == 2 * ENTRIES - 3 ? FAR / 2 : 0; }

/* What added to the ladder of scores gives 0. */
static int against_ladder(int a, int b) { return -ladder_score(a, b); }

static int zero(int a, int b)
{
    (void)a, (void)b;
    return 0;
}

/* The ladder of scores, its last two entries never compared. */
static int ladder_apart(int a, int b) { return a + b == 2 * ENTRIES - 3 ? UNSCORED : ladder_score(a, b); }

static int unscored(int a, int b)
{
    (void)a, (void)b;
    return UNSCORED;
}

/* The first k entries. */
static uint32_t first(int k) { return UINT32_MAX >> (32 - k); }

/* As many groups as there can be: 62 strong groups, 30 clean groups, 61 splits. */
static void put_ladder_groups(Groups *groups, int32_t kind)
{
    if (kind == FARZHUDYL_STRONG) {
        /* A single loses its greatest score from its own. */
        for (int a = 0; a < ENTRIES; a++)
            add_group(groups, UINT32_C(1) << a, FAR - ladder_score(0, a == 0 ? 1 : a));
        for (int k = 2; k < ENTRIES; k++)
            add_group(groups, first(k), STEP);
    } else if (kind == FARZHUDYL_CLEAN) {
        /* The k - 1 smallest weights are those of the newest entry, each one step. */
        for (int k = 2; k < ENTRIES; k++)
            add_group(groups, first(k), STEP * (k - 1));
    } else {
        /* Twice the length of the edge that is cut. */
        for (int a = 1; a < ENTRIES; a++)
            add_group(groups, UINT32_C(1) << a, 6);
        for (int k = ENTRIES - 2; k >= 2; k--)
            add_group(groups, ~first(k), 10);
        add_group(groups, ~first(1), 6);
    }
}

/* The strong groups of the ladder that hold neither of its last two entries: 59. */
static void put_ladder_apart_groups(Groups *groups)
{
    Groups all = {0, {0}, {0}};
    put_ladder_groups(&all, FARZHUDYL_STRONG);
    for (size_t i = 0; i < all.count; i++)
        if ((all.sets[i] & ~first(ENTRIES - 2)) == 0)
            add_group(groups, all.sets[i], all.indices[i]);
}

/* ---- refused sheets ---- */

typedef void VisitSheet(const char *what, const char *sheet, size_t sheet_len, int number);

/* The first line has 8 bytes. Cut within it, a sheet has no line feed; cut later, too few. */
static void cut_sheets(VisitSheet *visit)
{
    for (size_t length = 0; length < sizeof four - 1; length++)
        visit("cut sheet", four, length, length == 0 ? 2 : length < 8 ? 4 : 7);
}

static void flawed_sheets(VisitSheet *visit)
{
    const struct {
        const char *what, *sheet;
        int number;
    } flawed[] = {
        {"ill-formed value", "A B\n0 1\n1 -0\n", 8},
        {"two minus signs", "A B\n0 1\n1 --\n", 8},
        {"a minus sign and a space", "A B\n0 1\n1 - \n", 8},
        {"the mark's number", "A B\n0 1\n1 -2147483648\n", 8},
        {"no digit before the point", "A B\n0 1\n1 .5\n", 8},
        {"no digit behind the point", "A B\n0 1\n1 5.\n", 8},
        {"minus and point", "A B\n0 1\n1 -.\n", 8},
        {"no half", "A B\n0 1\n1 5.0\n", 8},
        {"two digits behind the point", "A B\n0 1\n1 0.50\n", 8},
        {"two halves", "A B\n0 1\n1 5.5.5\n", 8},
        {"eight digits and a half", "A B\n0 1\n1 12345678.5\n", 8},
        {"a point in line 1", "A B.\n0 1\n1 0\n", 4},
        {"a point alone", ".", 4},
        {"a point at the end", "A B\n0 1\n1 5.", 7},
        {"half a point at the end", "A B\n0 1\n1 0.5", 7},
        {"a point behind the sheet", "A B\n0 1\n1 0\n.", 7},
        {"half a point on one side", "A B\n0 1.5\n1 0\n", 9},
        {"mirrored values differ", "A B\n0 1\n2 0\n", 9},
        {"a mark on one side", "A B\n0 -\n2 0\n", 9},
        {"a mark on the other side", "A B\n0 1\n- 0\n", 9},
        {"a mark at the end", "A B\n0 1\n1 -", 7},
    };
    for (size_t i = 0; i < sizeof flawed / sizeof flawed[0]; i++)
        visit(flawed[i].what, flawed[i].sheet, strlen(flawed[i].sheet), flawed[i].number);
}

/* Sheets of 12,288 bytes, and of one more. */
static void long_sheets(VisitSheet *visit)
{
    static char bytes[MOST + 1];
    const struct {
        const char *what;
        const char *start;
        char rest;
        int number;
    } longest[] = {
        {"line feeds", "", '\n', 4},
        {"one name", "", 'A', 4},
        {"names without an end", "A ", 'A', 4},
        {"a sheet and spaces", four, ' ', 7},
        {"a sheet and line feeds", four, '\n', 7},
        {"digits without an end", "A\n", '1', 7},
        {"points without an end", "A\n0", '.', 7},
        {"minus signs", "A B\n-1", '-', 7},
        {"a small letter", "a", '0', 3},
    };
    for (size_t i = 0; i < sizeof longest / sizeof longest[0]; i++) {
        size_t length = strlen(longest[i].start);
        memcpy(bytes, longest[i].start, length);
        memset(bytes + length, longest[i].rest, MOST + 1 - length);
        visit(longest[i].what, bytes, MOST, longest[i].number);
        visit(longest[i].what, bytes, MOST + 1, 2);
    }

    /* A value of 12,285 digits. */
    memset(bytes, '1', MOST);
    memcpy(bytes, "A\n", 2);
    bytes[MOST - 1] = '\n';
    visit("one long value", bytes, MOST, 8);

    /* 3072 different names of three bytes; then the last is the first again. */
    const char signs[] = "ABCDEFGHIJKLMNOPQRSTUVWXYZ0123456789";
    for (int i = 0; i < MOST / 4; i++) {
        const char name[] = {signs[i / 36 / 36], signs[i / 36 % 36], signs[i % 36], ' '};
        memcpy(bytes + 4 * i, name, sizeof name);
    }
    bytes[MOST - 1] = '\n';
    visit("3072 names", bytes, MOST, 6);
    memcpy(bytes + MOST - 4, bytes, 3);
    visit("3072 names, two equal", bytes, MOST, 5);
}

/* Sheets that one of checks 2 to 9 refuses, each with its number. */
static void refused_sheets(VisitSheet *visit)
{
    cut_sheets(visit);
    flawed_sheets(visit);
    long_sheets(visit);
}

#endif
