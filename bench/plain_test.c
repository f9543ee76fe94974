/* Tests of the plain engine: the bench cases, half points, the refusals, a check
   of random sheets against the definitions over all sets, whole points in the
   form that listings had before half points, reordering, pools, and refined
   weights.

   cc -std=c11 -O2 -Wall -Wextra -Werror -pedantic plain.c plain_test.c */

#include "plain.h"

#include <inttypes.h>
#include <stdbool.h>
#include <stdio.h>
#include <stdlib.h>
#include <string.h>

enum { MAX_N = 32, MAX_PAIRS = MAX_N * (MAX_N + 1) / 2, ROOM = 4096 };
enum { MAX_SHEET = 12288, MAX_POOL = 10528 };
enum { POINT = 2, MAX_SCORE = 1000000 * POINT, UNSCORED = INT32_MIN };

static int failures;

static void fail(const char *what)
{
    printf("differs: %s\n", what);
    failures++;
}

/* ---- sheets and expected answers ---- */

/* A copy of exact length, so that a checker of memory sees any access beyond
   it. */
static uint8_t *lend(const char *sheet, size_t len)
{
    uint8_t *lent = malloc(len > 0 ? len : 1);
    if (lent == NULL)
        abort();
    memcpy(lent, sheet, len);
    return lent;
}

/* Room for a text, and a byte more. */
static uint8_t *lend_room(size_t room)
{
    uint8_t *out = malloc(room + 1);
    if (out == NULL)
        abort();
    memset(out, 0xA5, room + 1);
    return out;
}

/* Takes the room back: copies what was written, and checks that nothing else
   was. */
static void take_back(uint8_t *out, size_t room, int64_t answer, uint8_t *text)
{
    for (size_t i = answer > 0 ? (size_t)answer : 0; i <= room; i++) {
        if (out[i] != 0xA5) {
            fail("a byte beyond the text was written");
            break;
        }
    }
    if (answer > 0)
        memcpy(text, out, (size_t)answer);
    free(out);
}

static int64_t call(int32_t kind, const char *sheet, size_t len, uint8_t *text,
                    size_t room)
{
    uint8_t *lent = lend(sheet, len), *out = lend_room(room);
    int64_t answer = plain_listing(kind, lent, len, out, room);
    take_back(out, room, answer, text);
    free(lent);
    return answer;
}

/* The listing is the header and then lines; one byte less of room gives 14. */
static void expect_listing(const char *what, int32_t kind, const char *sheet,
                           const char *lines)
{
    char whole[ROOM];
    uint8_t text[ROOM];
    int length = snprintf(whole, sizeof whole, "set size index\n%s", lines);
    int64_t answer = call(kind, sheet, strlen(sheet), text, ROOM);
    if (answer != length || memcmp(text, whole, (size_t)length) != 0) {
        fail(what);
        return;
    }
    if (call(kind, sheet, strlen(sheet), text, (size_t)length) != length)
        fail("a buffer of the listing's length");
    if (call(kind, sheet, strlen(sheet), text, (size_t)length - 1) != -14)
        fail("a buffer one byte short");
}

static void expect_refusal(const char *what, int32_t kind, const char *sheet,
                           size_t len, int number)
{
    uint8_t text[ROOM];
    int64_t answer = call(kind, sheet, len, text, ROOM);
    if (answer != -number) {
        printf("%s: answer %" PRId64 ", expected %d\n", what, answer, -number);
        fail("refusal");
    }
}

static void refuses(int32_t kind, const char *sheet, int number)
{
    expect_refusal(sheet, kind, sheet, strlen(sheet), number);
}

/* Writes half points as points; answers the length. */
static int write_points(char *to, int64_t halves)
{
    int64_t size = halves < 0 ? -halves : halves;
    return sprintf(to, "%s%" PRId64 "%s", halves < 0 ? "-" : "", size / POINT,
                   size % POINT == 0 ? "" : ".5");
}

/* Writes the sheet of a pair list, in which entry i has the name Ei; the
   entries stand in the given order. */
static size_t write_ordered(int n, const int *order, const int32_t *pairs,
                            char *sheet)
{
    char *to = sheet;
    for (int i = 0; i < n; i++)
        to += sprintf(to, "E%d%c", order[i], i < n - 1 ? ' ' : '\n');
    for (int i = 0; i < n; i++) {
        for (int j = 0; j < n; j++) {
            int a = order[i], b = order[j];
            int high = a > b ? a : b, low = a > b ? b : a;
            int32_t value = pairs[high * (high + 1) / 2 + low];
            to += value == UNSCORED ? sprintf(to, "-") : write_points(to, value);
            *to++ = j < n - 1 ? ' ' : '\n';
        }
    }
    return (size_t)(to - sheet);
}

static size_t write_sheet(int n, const int32_t *pairs, char *sheet)
{
    int order[MAX_N + 1]; /* one entry too many is written too */
    for (int i = 0; i < n; i++)
        order[i] = i;
    return write_ordered(n, order, pairs, sheet);
}

/* ---- bench cases ---- */

static void test_bench_cases(void)
{
    const char *four = "A B C D\n9 8 6 2\n8 9 5 3\n6 5 9 1\n2 3 1 9\n";
    const char *lower = "A B C D\n9 8 6 2\n8 9 2 3\n6 2 9 1\n2 3 1 9\n";
    const char *level = "A B C\n5 5 5\n5 5 5\n5 5 5\n";
    const char *own = "A B C\n6 5 5\n5 6 5\n5 5 6\n";

    expect_listing("four, strong", 1, four,
                   "00000001 1 1\n00000002 1 1\n00000004 1 3\n00000008 1 6\n"
                   "00000003 2 2\n00000007 3 2\n");
    expect_listing("four, clean", 2, four, "00000003 2 2\n00000007 3 6\n");
    expect_listing("s(B,C) = 2, clean", 2, lower, "00000003 2 2\n00000007 3 3\n");
    expect_listing("s(B,C) = 2, strong", 1, lower,
                   "00000001 1 1\n00000002 1 1\n00000004 1 3\n00000008 1 6\n"
                   "00000003 2 2\n");
    expect_listing("all 5, strong", 1, level, "");
    expect_listing("all 5, clean", 2, level, "");
    expect_listing("own 6, strong", 1, own,
                   "00000001 1 1\n00000002 1 1\n00000004 1 1\n");
    expect_listing("four copies", 3,
                   "A B C D\n0 2 4 4\n2 0 4 4\n4 4 0 2\n4 4 2 0\n",
                   "00000002 1 2\n00000004 1 2\n00000008 1 2\n0000000c 2 4\n"
                   "0000000e 3 2\n");
    expect_listing("two copies at 5", 3, "A B\n0 5\n5 0\n", "00000002 1 10\n");
    expect_listing("two copies at 0", 3, "A B\n0 0\n0 0\n", "");
    for (int32_t kind = 1; kind <= 3; kind++)
        expect_listing("one entry", kind, "A\n0\n", "");
    expect_listing("1000000 passes", 1, "A\n1000000\n", "");
    expect_listing("-1000000 passes", 1, "A\n-1000000\n", "");
    expect_listing("greatest strong index", 1,
                   "A B\n1000000 -1000000\n-1000000 1000000\n",
                   "00000001 1 2000000\n00000002 1 2000000\n");
    expect_listing("C and D unscored", 1,
                   "A B C D\n9 8 6 2\n8 9 5 3\n6 5 9 -\n2 3 - 9\n",
                   "00000001 1 1\n00000002 1 1\n00000003 2 2\n");
    expect_listing("own pair unscored", 1, "A B\n- 1\n1 9\n", "00000002 1 8\n");
    expect_listing("one entry unscored", 1, "A\n-\n", "");
    expect_listing("all unscored", 1, "A B\n- -\n- -\n", "");
    expect_listing("unscored at the greatest", 1,
                   "A B\n1000000 -\n- 1000000\n", "");
}

/* ---- half points ---- */

static void test_half_points(void)
{
    const char *half = "A B C D\n9 8.5 6 2\n8.5 9 5.5 3\n6 5.5 9 -0.5\n"
                       "2 3 -0.5 9\n";
    expect_listing("four with halves, strong", 1, half,
                   "00000001 1 0.5\n00000002 1 0.5\n00000004 1 3\n"
                   "00000008 1 6\n00000003 2 2.5\n00000007 3 2.5\n");
    expect_listing("four with halves, clean", 2, half,
                   "00000003 2 2.5\n00000007 3 6.5\n");
    expect_listing("half a point, strong", 1, "A B\n5.5 5\n5 5\n",
                   "00000001 1 0.5\n");
    expect_listing("nothing, strong", 1, "A B\n5 5\n5 4.5\n", "");
    expect_listing("half a point, clean", 2,
                   "A B C\n0 1.5 1\n1.5 0 1\n1 1 0\n", "00000003 2 0.5\n");
    expect_listing("half a point, splits", 3,
                   "A B C\n0 1 1\n1 0 1.5\n1 1.5 0\n",
                   "00000002 1 1.5\n00000004 1 1.5\n00000006 2 0.5\n");
    expect_listing("two copies at 0.5", 3, "A B\n0 0.5\n0.5 0\n",
                   "00000002 1 1\n");
    expect_listing("below 0", 1, "A B\n-0.5 -7.5\n-7.5 -7\n",
                   "00000001 1 7\n00000002 1 0.5\n");
    expect_listing("the ends of the range", 1,
                   "A B\n1000000 -999999.5\n-999999.5 999999.5\n",
                   "00000001 1 1999999.5\n00000002 1 1999999\n");
    expect_listing("a mark beside halves", 1,
                   "A B C\n1000000 - 0.5\n- 9 0.5\n0.5 0.5 1\n",
                   "00000004 1 0.5\n");

    const char *const bad[] = {".5",   "-.5",        "5.",          "-5.",
                               "5.0",  "0.0",        "-0.0",        "00.5",
                               "07.5", "-00.5",      "0.50",        "0.05",
                               "1.4",  "1.6",        "12345678.5",  "5.5.5",
                               "5..5", "5.-5",       "5.5-",        "--0.5",
                               "-.",   ".",          "5 .5",        "5. 5",
                               "0.5 ", "-12345678.5"};
    char sheet[64];
    for (size_t i = 0; i < sizeof bad / sizeof bad[0]; i++) {
        snprintf(sheet, sizeof sheet, "A\n%s\n", bad[i]);
        refuses(1, sheet, 8);
        snprintf(sheet, sizeof sheet, "A B\n0 %s\n0 0\n", bad[i]);
        refuses(3, sheet, 8);
    }
    const char *const far[] = {"1000000.5", "-1000000.5", "9999999.5",
                               "-9999999.5"};
    for (size_t i = 0; i < sizeof far / sizeof far[0]; i++) {
        snprintf(sheet, sizeof sheet, "A\n%s\n", far[i]);
        for (int32_t kind = 1; kind <= 3; kind++)
            refuses(kind, sheet, 11);
    }
    refuses(1, "A.\n0\n", 4);
    refuses(1, ".\n0\n", 4);
    refuses(1, "A .5\n0 0\n0 0\n", 4);
    refuses(1, ".", 4);
    refuses(1, "A\n0.5", 7);
    refuses(1, "A\n0.5\n.", 7);
    refuses(1, "A B\n0 0.5\n-0.5 0\n", 9);
    refuses(1, "A B\n0 7.5\n7 0\n", 9);
    refuses(2, "A B\n0.5 -\n- 0.5\n", 16);
    refuses(3, "A B\n0 -0.5\n-0.5 0\n", 12);
    refuses(3, "A B\n0 1\n1 0.5\n", 12);
}

/* Every value of at most 7 digits before the point, of a few sorts, is read as
   it is written: against a score of 0 it is the index of the first entry. */
static void test_values(void)
{
    for (int64_t halves = 1; halves <= MAX_SCORE; halves += halves / 50 + 1) {
        char sheet[128], line[128], value[32];
        write_points(value, halves);
        snprintf(sheet, sizeof sheet, "A B\n%s 0\n0 0\n", value);
        snprintf(line, sizeof line, "00000001 1 %s\n", value);
        expect_listing(sheet, 1, sheet, line);
        snprintf(sheet, sizeof sheet, "A B\n0 -%s\n-%s 0\n", value, value);
        snprintf(line, sizeof line, "00000001 1 %s\n00000002 1 %s\n", value,
                 value);
        expect_listing(sheet, 1, sheet, line);
    }
}

/* ---- refusals ---- */

static void test_counts_and_lengths(void)
{
    char sheet[16384];
    int32_t pairs[34 * 35 / 2] = {0};
    size_t len = write_sheet(32, pairs, sheet);
    uint8_t text[ROOM];
    for (int32_t kind = 1; kind <= 3; kind++)
        if (call(kind, sheet, len, text, ROOM) != 15)
            fail("32 names");
    len = write_sheet(33, pairs, sheet);
    expect_refusal("33 names", 1, sheet, len, 6);

    memset(sheet, '\n', sizeof sheet);
    expect_refusal("12289 line feeds", 1, sheet, 12289, 2);
    expect_refusal("12288 line feeds", 1, sheet, 12288, 4);
    expect_refusal("no bytes", 1, sheet, 0, 2);

    /* 6144 names of one byte fill the sheet; there are but 26. */
    for (int i = 0; i < 12288; i += 2) {
        sheet[i] = (char)('A' + i / 2 % 26);
        sheet[i + 1] = ' ';
    }
    expect_refusal("no line feed", 1, sheet, 12288, 4);
    sheet[12287] = '\n';
    expect_refusal("6144 names", 1, sheet, 12288, 5);

    /* 2457 different names of four bytes. */
    char *to = sheet;
    for (int i = 0; i < 2457; i++)
        to += sprintf(to, "%c%03d ", 'A' + i / 1000, i % 1000);
    to[-1] = '\n';
    expect_refusal("2457 names", 1, sheet, (size_t)(to - sheet), 6);
    memcpy(to - 5, "A000", 4);
    expect_refusal("first and last equal", 1, sheet, (size_t)(to - sheet), 5);
}

static void test_refusals(void)
{
    const int32_t kinds[] = {0, 4, -1, INT32_MIN, INT32_MAX};
    for (size_t i = 0; i < sizeof kinds / sizeof kinds[0]; i++) {
        refuses(kinds[i], "A\n0\n", 1);
        refuses(kinds[i], "", 1);
    }

    refuses(1, "a\n0\n", 3);
    refuses(1, "A\n0\t\n", 3);
    refuses(1, "A\r\n0\n", 3);
    refuses(1, "A\n+1\n", 3);
    expect_refusal("zero byte", 1, "A\n0\0\n", 5, 3);
    expect_refusal("byte 255", 1, "A\n0\xff\n", 5, 3);

    refuses(1, "A", 4);
    refuses(1, "A B", 4);
    refuses(1, "\n0\n", 4);
    refuses(1, " A\n0\n", 4);
    refuses(1, "A \n0\n", 4);
    refuses(1, "A  B\n0 0\n0 0\n", 4);
    refuses(1, "0A\n0\n", 4);
    refuses(1, "A-B\n0\n", 4);
    refuses(1, "ABCDEFGHI\n0\n", 4);
    refuses(1, "A A  \n0\n", 4);
    expect_listing("name of 8 bytes", 1, "ABCDEFG9\n0\n", "");

    refuses(1, "A A\n", 5);
    refuses(1, "A B A\n0\n", 5);
    refuses(1, "ABCDEFGH ABCDEFGH\n", 5);
    expect_listing("a name that starts another", 1, "A AA\n0 0\n0 0\n", "");

    refuses(1, "A\n", 7);
    refuses(1, "A\n0", 7);
    refuses(1, "A\n0\n0", 7);
    refuses(1, "A\n0\n0\n", 7);
    refuses(1, "A\n0\n\n", 7);
    refuses(1, "A B\n0 0\n0 0", 7);

    refuses(1, "A\n-0\n", 8);
    refuses(1, "A\n007\n", 8);
    refuses(1, "A\n00\n", 8);
    refuses(1, "A\n-07\n", 8);
    refuses(1, "A\n--\n", 8);
    refuses(1, "A\n- \n", 8);
    refuses(1, "A\n -\n", 8);
    refuses(1, "A\n-A\n", 8);
    refuses(1, "A\n--1\n", 8);
    refuses(1, "A\n-2147483648\n", 8);
    refuses(1, "A\n1-\n", 8);
    refuses(1, "A\n\n", 8);
    refuses(1, "A\nA\n", 8);
    refuses(1, "A\n0 \n", 8);
    refuses(1, "A\n 0\n", 8);
    refuses(1, "A\n0 0\n", 8);
    refuses(1, "A\n12345678\n", 8);
    refuses(1, "A\n-12345678\n", 8);
    refuses(1, "A B\n0 0\n0\n", 8);
    refuses(1, "A B\n0  0\n0 0\n", 8);
    refuses(1, "A B\n0 1\n2 x\n", 3);
    refuses(1, "A B\n0 1\n2 --\n", 8);

    refuses(1, "A B\n0 1\n2 0\n", 9);
    refuses(1, "A B\n0 -\n1 0\n", 9);
    refuses(2, "A B\n0 1\n- 0\n", 9);
    refuses(3, "A B\n9 9999999\n-1 0\n", 9);

    refuses(1, "A\n1000001\n", 11);
    refuses(1, "A\n-1000001\n", 11);
    refuses(3, "A B\n5 1000001\n1000001 0\n", 11);
    refuses(2, "A B\n0 -9999999\n-9999999 0\n", 11);
    refuses(1, "A B\n1000001 -\n- 0\n", 11);
    refuses(2, "A B\n- 0\n0 1000001\n", 11);

    refuses(2, "A\n-\n", 16);
    refuses(3, "A\n-\n", 16);
    refuses(2, "A B\n5 -\n- 5\n", 16);
    refuses(3, "A B\n5 -\n- -1\n", 16);

    refuses(3, "A\n1\n", 12);
    refuses(3, "A\n-1\n", 12);
    refuses(3, "A B\n0 -1\n-1 0\n", 12);
    refuses(3, "A B\n0 1\n1 2\n", 12);

    uint8_t none;
    if (plain_listing(1, (const uint8_t *)"A\n0\n", 4, &none, 0) != -14)
        fail("no buffer");
    test_counts_and_lengths();
}

/* ---- the definitions, over all sets ---- */

static int64_t score(const int32_t *pairs, int a, int b)
{
    return a > b ? pairs[a * (a + 1) / 2 + b] : pairs[b * (b + 1) / 2 + a];
}

static bool holds(uint32_t set, int entry) { return set >> entry & 1; }

static int size_of(uint32_t set)
{
    int size = 0;
    for (; set != 0; set >>= 1)
        size += set & 1;
    return size;
}

static int64_t score_or(const int32_t *pairs, int a, int b, int64_t unscored)
{
    return score(pairs, a, b) == UNSCORED ? unscored : score(pairs, a, b);
}

/* The least over all fillings: pairs within the set and pairs across are never
   the same, so the first have the least score and the others the greatest. */
static int64_t defined_strong(int n, const int32_t *s, uint32_t set)
{
    int64_t least = INT64_MAX;
    for (int a = 0; a < n; a++)
        for (int b = 0; b < n; b++)
            for (int x = 0; x < n; x++) {
                int64_t value = score_or(s, a, b, -MAX_SCORE) -
                                score_or(s, a, x, MAX_SCORE);
                if (holds(set, a) && holds(set, b) && !holds(set, x) &&
                    value < least)
                    least = value;
            }
    return least;
}

static int compare_weights(const void *u, const void *v)
{
    int64_t a = *(const int64_t *)u, b = *(const int64_t *)v;
    return (a > b) - (a < b);
}

static int64_t defined_clean(int n, const int32_t *s, uint32_t set)
{
    int64_t weight[MAX_N * MAX_N * MAX_N / 2], sum = 0;
    size_t count = 0;
    for (int a = 0; a < n; a++)
        for (int b = 0; b < a; b++)
            for (int c = 0; c < n; c++) {
                int64_t ac = score(s, a, c), bc = score(s, b, c);
                if (holds(set, a) && holds(set, b) && !holds(set, c))
                    weight[count++] = score(s, a, b) - (ac > bc ? ac : bc);
            }
    qsort(weight, count, sizeof weight[0], compare_weights);
    for (int i = 0; i < size_of(set) - 1; i++)
        sum += weight[i];
    return sum;
}

static int64_t defined_separation(int n, const int32_t *d, uint32_t set)
{
    int64_t least = INT64_MAX;
    for (int a = 0; a < n; a++)
        for (int a2 = 0; a2 < n; a2++) {
            if (!holds(set, a) || !holds(set, a2))
                continue;
            for (int b = 0; b < n; b++)
                for (int b2 = 0; b2 < n; b2++) {
                    if (holds(set, b) || holds(set, b2))
                        continue;
                    int64_t value = score(d, a, b) + score(d, a2, b2) -
                                    score(d, a, a2) - score(d, b, b2);
                    if (value < least)
                        least = value;
                }
        }
    return least;
}

static int64_t defined_index(int32_t kind, int n, const int32_t *s, uint32_t set)
{
    return kind == 1   ? defined_strong(n, s, set)
           : kind == 2 ? defined_clean(n, s, set)
                       : defined_separation(n, s, set);
}

/* Lists by the definitions; answers the count. */
static int list_by_definition(int32_t kind, int n, const int32_t *s,
                              uint32_t *sets, int64_t *indices)
{
    int count = 0;
    uint32_t whole = (UINT32_C(1) << n) - 1;
    for (int size = kind == 2 ? 2 : 1; size < n; size++)
        for (uint32_t set = 1; set < whole; set++) {
            if (size_of(set) != size || (kind == 3 && holds(set, 0)))
                continue;
            int64_t index = defined_index(kind, n, s, set);
            if (index >= 1) {
                if (count == 2 * MAX_N)
                    abort();
                sets[count] = set;
                indices[count++] = index;
            }
        }
    return count;
}

/* ---- random sheets ---- */

static uint64_t seed = 1;

static int32_t random_below(int32_t bound)
{
    seed ^= seed << 13;
    seed ^= seed >> 7;
    seed ^= seed << 17;
    return (int32_t)((seed >> 16) % (uint64_t)bound);
}

/* Values of a tree: scores are a level for the smallest block around both
   entries, distances the length of the path.  Each value is then shifted by
   less than noise. */
static void tree_pairs(bool distances, int n, int32_t step, int32_t noise,
                       int32_t *pairs)
{
    int block[MAX_N], left = n;
    int32_t value[MAX_N][MAX_N] = {{0}}, depth[MAX_N] = {0};
    for (int i = 0; i < n; i++)
        block[i] = i;
    for (int32_t level = n; left > 1; level--) {
        int i = random_below(left), j = random_below(left - 1);
        j += j >= i;
        int32_t up_i = random_below(step + 1), up_j = random_below(step + 1);
        for (int a = 0; a < n; a++)
            depth[a] += block[a] == i ? up_i : block[a] == j ? up_j : 0;
        for (int a = 0; a < n; a++)
            for (int b = 0; b < n; b++)
                if (block[a] == i && block[b] == j)
                    value[a][b] = value[b][a] =
                        distances ? depth[a] + depth[b] : level * step;
        left--;
        for (int a = 0; a < n; a++) {
            if (block[a] == j)
                block[a] = i;
            if (block[a] == left)
                block[a] = j;
        }
    }
    for (int a = 0; a < n; a++) {
        for (int b = 0; b < a; b++)
            *pairs++ = value[a][b] + (noise > 0 ? random_below(noise) : 0);
        *pairs++ = distances ? 0 : (n + 1) * step - random_below(2 * step + 1);
    }
}

/* Independent values: few, so that ties abound, or a wide range. */
static void loose_pairs(bool distances, int n, int32_t *pairs)
{
    int32_t values = random_below(4) == 0 ? 1000001 : 1 + random_below(6);
    int32_t lowest = distances ? 0 : -random_below(values);
    int32_t own_values = values < 10 ? values + 2 : values;
    for (int a = 0; a < n; a++) {
        for (int b = 0; b < a; b++)
            *pairs++ = lowest + random_below(values);
        *pairs++ = distances ? 0 : lowest + random_below(own_values);
    }
}

/* Leaves some pairs unscored: one in so many of those with both ends from a
   certain entry on. */
static void unscore(int n, int32_t *pairs)
{
    int from = random_below(n), one_in = 1 + random_below(8);
    for (int a = from; a < n; a++)
        for (int b = from; b <= a; b++)
            if (random_below(one_in) == 0)
                pairs[a * (a + 1) / 2 + b] = UNSCORED;
}

/* Numbers that are in range as points as well as half points. */
static void random_numbers(int32_t kind, int n, int32_t *pairs)
{
    int32_t step = 1 + random_below(8), noise = random_below(5);
    if (random_below(3) == 0)
        loose_pairs(kind == 3, n, pairs);
    else
        tree_pairs(kind == 3, n, step, noise, pairs);
    if (kind == 1 && random_below(2) == 0)
        unscore(n, pairs);
}

static void double_pairs(int n, int32_t *pairs)
{
    for (int i = 0; i < n * (n + 1) / 2; i++)
        if (pairs[i] != UNSCORED)
            pairs[i] *= POINT;
}

/* Half points: whole points only, any, or half a point less in every value that
   may have it. */
static void random_pairs(int32_t kind, int n, int32_t *pairs)
{
    random_numbers(kind, n, pairs);
    int share = random_below(4);
    if (share >= 2)
        return;
    double_pairs(n, pairs);
    for (int a = 0; a < n && share == 1; a++)
        for (int b = 0; b <= a; b++) {
            int32_t *value = &pairs[a * (a + 1) / 2 + b];
            if (*value != UNSCORED && (kind != 3 || (a != b && *value > 0)))
                *value -= *value > -MAX_SCORE;
        }
}

static void show_sheet(int32_t kind, int n, const int32_t *pairs)
{
    char sheet[16384];
    sheet[write_sheet(n, pairs, sheet)] = '\0';
    printf("kind %" PRId32 "\n%s", kind, sheet);
}

/* ---- engine against the definitions ---- */

/* The numbers call, with the slots beyond the count at 0 and no others
   written, and the sheet's listing of the same lines. */
static int run_engine(int32_t kind, int n, const int32_t *pairs, uint32_t *sets,
                      int64_t *indices)
{
    char sheet[16384], whole[ROOM], *to = whole;
    uint8_t text[ROOM];
    memset(sets, 0xA5, (2 * MAX_N + 1) * sizeof *sets);
    memset(indices, 0xA5, (2 * MAX_N + 1) * sizeof *indices);
    int count = (int)plain_numbers(kind, n, pairs, sets, indices);
    for (int t = count; t < 2 * n; t++)
        if (sets[t] != 0 || indices[t] != 0)
            fail("a slot beyond the count is not 0");
    if (sets[2 * n] != 0xA5A5A5A5)
        fail("a slot beyond 2n was written");

    to += sprintf(to, "set size index\n");
    for (int t = 0; t < count; t++) {
        to += sprintf(to, "%08" PRIx32 " %d ", sets[t], size_of(sets[t]));
        to += write_points(to, indices[t]);
        *to++ = '\n';
    }
    size_t len = write_sheet(n, pairs, sheet);
    int64_t answer = call(kind, sheet, len, text, ROOM);
    if (answer != to - whole || memcmp(text, whole, (size_t)answer) != 0) {
        show_sheet(kind, n, pairs);
        fail("listing and numbers");
    }
    return count;
}

static long lines_seen[4], unscored_seen;
static long indices_seen[3]; /* half a point, whole points, others */

static bool has_unscored(int n, const int32_t *pairs)
{
    for (int i = 0; i < n * (n + 1) / 2; i++)
        if (pairs[i] == UNSCORED)
            return true;
    return false;
}

static void test_against_definitions(int sheets)
{
    for (int round = 0; round < sheets && failures == 0; round++) {
        int32_t kind = 1 + round % 3, pairs[MAX_PAIRS];
        int n = 1 + random_below(10);
        uint32_t sets[2 * MAX_N + 1], expected[2 * MAX_N];
        int64_t indices[2 * MAX_N + 1], expected_indices[2 * MAX_N];
        random_pairs(kind, n, pairs);
        int count = run_engine(kind, n, pairs, sets, indices);
        int wanted =
            list_by_definition(kind, n, pairs, expected, expected_indices);
        lines_seen[kind] += wanted;
        if (has_unscored(n, pairs))
            unscored_seen += wanted;
        for (int t = 0; t < wanted; t++)
            indices_seen[expected_indices[t] == 1           ? 0
                         : expected_indices[t] % POINT == 0 ? 1
                                                            : 2]++;
        if (count != wanted ||
            memcmp(sets, expected, (size_t)count * sizeof *sets) != 0 ||
            memcmp(indices, expected_indices,
                   (size_t)count * sizeof *indices) != 0) {
            show_sheet(kind, n, pairs);
            fail("engine and definitions");
        }
    }
}

/* ---- whole points ---- */

static long whole_seen, doubled_seen;

/* The sheet of a list of points and its listing, as they were before there were
   half points: numbers without a point. */
static void test_whole_points(int sheets)
{
    for (int round = 0; round < sheets && failures == 0; round++) {
        char sheet[4096], whole[ROOM], *to = sheet, *line = whole;
        int32_t kind = 1 + round % 3, points[MAX_PAIRS];
        int n = 1 + random_below(8);
        uint32_t sets[2 * MAX_N];
        int64_t indices[2 * MAX_N];
        random_numbers(kind, n, points);
        for (int i = 0; i < n; i++)
            to += sprintf(to, "E%d%c", i, i < n - 1 ? ' ' : '\n');
        for (int i = 0; i < n; i++)
            for (int j = 0; j < n; j++) {
                int64_t value = score(points, i, j);
                to += value == UNSCORED ? sprintf(to, "-")
                                        : sprintf(to, "%" PRId64, value);
                *to++ = j < n - 1 ? ' ' : '\n';
            }
        *to = '\0';
        int count = list_by_definition(kind, n, points, sets, indices);
        for (int t = 0; t < count; t++)
            line += sprintf(line, "%08" PRIx32 " %d %" PRId64 "\n", sets[t],
                            size_of(sets[t]), indices[t]);
        *line = '\0';
        expect_listing("whole points", kind, sheet, whole);
        if (failures > 0)
            printf("kind %" PRId32 "\n%s", kind, sheet);
        whole_seen += count;
    }
}

/* A list and its double, of up to 32 entries: the same sets, each with twice the
   index. */
static void test_doubled_lists(int lists)
{
    for (int round = 0; round < lists && failures == 0; round++) {
        int32_t kind = 1 + round % 3, pairs[MAX_PAIRS];
        int n = 1 + random_below(MAX_N);
        uint32_t sets[2 * MAX_N], twice_sets[2 * MAX_N];
        int64_t indices[2 * MAX_N], twice[2 * MAX_N];
        random_numbers(kind, n, pairs);
        int64_t count = plain_numbers(kind, n, pairs, sets, indices);
        double_pairs(n, pairs);
        bool same = plain_numbers(kind, n, pairs, twice_sets, twice) == count;
        for (int64_t t = 0; t < count && same; t++)
            same = twice_sets[t] == sets[t] && twice[t] == POINT * indices[t];
        if (!same) {
            show_sheet(kind, n, pairs);
            fail("a doubled list");
        }
        doubled_seen += count;
    }
}

/* ---- reordering, up to 32 entries ---- */

static void random_order(int n, int *order)
{
    for (int i = 0; i < n; i++) {
        int j = random_below(i + 1);
        order[i] = order[j];
        order[j] = i;
    }
}

static void reorder_pairs(int n, const int *p, const int32_t *old, int32_t *new)
{
    for (int i = 0; i < n; i++)
        for (int j = 0; j <= i; j++) {
            int high = p[i] > p[j] ? p[i] : p[j], low = p[i] + p[j] - high;
            new[high * (high + 1) / 2 + low] = old[i * (i + 1) / 2 + j];
        }
}

static uint32_t reorder_set(int32_t kind, int n, const int *p, uint32_t set)
{
    uint32_t moved = 0, whole = UINT32_MAX >> (32 - n);
    for (int i = 0; i < n; i++)
        if (holds(set, i))
            moved |= UINT32_C(1) << p[i];
    return kind == 3 && holds(moved, 0) ? whole & ~moved : moved;
}

static bool has_line(const uint32_t *sets, const int64_t *indices, int count,
                     uint32_t set, int64_t index)
{
    for (int t = 0; t < count; t++)
        if (sets[t] == set)
            return indices[t] == index;
    return false;
}

static void test_reordering(int sheets)
{
    for (int round = 0; round < sheets && failures == 0; round++) {
        int32_t kind = 1 + round % 3, pairs[MAX_PAIRS], moved[MAX_PAIRS];
        int n = round % 2 == 0 ? 32 : 1 + random_below(32), p[MAX_N];
        uint32_t sets[2 * MAX_N + 1], moved_sets[2 * MAX_N + 1];
        int64_t indices[2 * MAX_N + 1], moved_indices[2 * MAX_N + 1];
        random_pairs(kind, n, pairs);
        random_order(n, p);
        reorder_pairs(n, p, pairs, moved);
        int count = run_engine(kind, n, pairs, sets, indices);
        int moved_count = run_engine(kind, n, moved, moved_sets, moved_indices);
        bool same = count == moved_count;
        for (int t = 0; t < count && same; t++)
            same = indices[t] == defined_index(kind, n, pairs, sets[t]) &&
                   has_line(moved_sets, moved_indices, moved_count,
                            reorder_set(kind, n, p, sets[t]), indices[t]);
        if (!same) {
            show_sheet(kind, n, pairs);
            fail("reordering");
        }
    }
}

/* Alters a few bytes of a sheet, or cuts it; answers its length. */
static size_t alter(char *sheet, size_t len)
{
    const char bytes[] = "AZ019- \n\nx.5";
    for (int change = random_below(3); change >= 0; change--)
        sheet[random_below((int32_t)len)] =
            bytes[random_below((int32_t)sizeof bytes - 1)];
    return random_below(4) == 0 ? (size_t)random_below((int32_t)len) : len;
}

/* Altered sheets: every answer is a listing or a refusal of the table, and
   nothing lent is overrun. */
static void test_altered_sheets(int sheets)
{
    for (int round = 0; round < sheets && failures == 0; round++) {
        int32_t kind = 1 + round % 3, pairs[MAX_PAIRS];
        int n = 1 + random_below(round % 50 == 0 ? 32 : 4);
        char sheet[16384];
        uint8_t text[ROOM];
        random_pairs(kind, n, pairs);
        size_t len = alter(sheet, write_sheet(n, pairs, sheet));
        int64_t answer = call(kind, sheet, len, text, ROOM);
        if (answer < -16 || answer == -15 || answer == -13 || answer == -10 ||
            answer == 0)
            fail("altered sheet");
    }
}

/* ---- pools ---- */

static int64_t call_pool(const char *first, size_t first_len, const char *second,
                         size_t second_len, uint8_t *text, size_t room)
{
    uint8_t *lent = lend(first, first_len), *other = lend(second, second_len);
    uint8_t *out = lend_room(room);
    int64_t answer = plain_pool(lent, first_len, other, second_len, out, room);
    take_back(out, room, answer, text);
    free(lent);
    free(other);
    return answer;
}

/* The pool, in as many bytes of room as it has; one byte less gives 14. */
static void expect_pool(const char *what, const char *first, const char *second,
                        const char *pool)
{
    uint8_t text[MAX_POOL];
    size_t first_len = strlen(first), second_len = strlen(second);
    size_t length = strlen(pool);
    if (call_pool(first, first_len, second, second_len, text, length) !=
            (int64_t)length ||
        memcmp(text, pool, length) != 0)
        fail(what);
    if (call_pool(first, first_len, second, second_len, text, length - 1) != -14)
        fail("a pool one byte longer than the buffer");
}

static void refuses_pool(const char *first, const char *second, int number)
{
    uint8_t text[MAX_POOL];
    int64_t answer = call_pool(first, strlen(first), second, strlen(second), text,
                               sizeof text);
    if (answer != -number) {
        printf("%s%s: answer %" PRId64 ", expected %d\n", first, second, answer,
               -number);
        fail("refusal of a pool");
    }
}

static void test_pool_cases(void)
{
    const char *four = "A B C D\n9 8 6 2\n8 9 5 3\n6 5 9 1\n2 3 1 9\n";
    expect_pool("worked example",
                "A B C D\n9 7 2 1\n7 8 3 1\n2 3 9 4\n1 1 4 6\n",
                "C A D B\n8 2 - 1\n2 9 3 6\n- 3 7 2\n1 6 2 9\n",
                "A B C D\n18 13 4 4\n13 17 4 3\n4 4 17 -\n4 3 - 13\n");
    expect_pool("one order", four, four,
                "A B C D\n18 16 12 4\n16 18 10 6\n12 10 18 2\n4 6 2 18\n");
    expect_pool("a name that starts another", "A AA\n1 2\n2 3\n",
                "AA A\n40 30\n30 20\n", "A AA\n21 32\n32 43\n");
    expect_pool("names of 8 bytes", "ABCDEFG9 ABCDEFGH\n1 2\n2 3\n",
                "ABCDEFGH ABCDEFG9\n40 30\n30 20\n",
                "ABCDEFG9 ABCDEFGH\n21 32\n32 43\n");
    expect_pool("unscored in either, and in both", "A B\n- 5\n5 -\n",
                "B A\n- -\n- 7\n", "A B\n- -\n- -\n");
    expect_pool("to 0 and below", "A B\n5 -5\n-5 0\n", "A B\n-5 4\n4 -10\n",
                "A B\n0 -1\n-1 -10\n");
    expect_pool("1000000", "A\n999999\n", "A\n1\n", "A\n1000000\n");
    expect_pool("-1000000", "A\n-1000000\n", "A\n0\n", "A\n-1000000\n");
    expect_pool("1000000 and the mark", "A\n1000000\n", "A\n-\n", "A\n-\n");
    expect_pool("halves", "A B\n0.5 -0.5\n-0.5 7\n", "B A\n6.5 0\n0 0.5\n",
                "A B\n1 -0.5\n-0.5 13.5\n");
    expect_pool("999999.5 and 0.5", "A\n999999.5\n", "A\n0.5\n",
                "A\n1000000\n");
    expect_pool("-1000000 and 0.5", "A\n-1000000\n", "A\n0.5\n",
                "A\n-999999.5\n");
}

/* 32 names of 8 bytes and values of 9. */
static void test_longest_pool(void)
{
    static char sheets[3][MAX_SHEET];
    const char *const values[] = {"-500000", "-499999.5", "-999999.5"};
    for (int t = 0; t < 3; t++) {
        char *to = sheets[t];
        for (int i = 0; i < MAX_N; i++)
            to += sprintf(to, "ENTRY%03d%c", i, i < MAX_N - 1 ? ' ' : '\n');
        for (int i = 0; i < MAX_N * MAX_N; i++)
            to += sprintf(to, "%s%c", values[t],
                          i % MAX_N < MAX_N - 1 ? ' ' : '\n');
    }
    if (strlen(sheets[2]) != MAX_POOL)
        fail("the longest pool is another");
    expect_pool("longest pool", sheets[0], sheets[1], sheets[2]);
}

static void test_pool_refusals(void)
{
    /* A sheet that is refused with each number, without names that match. */
    const struct {
        const char *sheet;
        int number;
    } bad[] = {{"", 2},
               {"A\n+1\n", 3},
               {"A", 4},
               {"A A\n0 0\n0 0\n", 5},
               {"A0 A1 A2 A3 A4 A5 A6 A7 A8 A9 B0 B1 B2 B3 B4 B5 B6 B7 B8 B9 "
                "C0 C1 C2 C3 C4 C5 C6 C7 C8 C9 D0 D1 D2\n",
                6},
               {"A\n0", 7},
               {"A\n-0\n", 8},
               {"A B\n0 1\n- 0\n", 9},
               {"A\n1000001\n", 11}};
    const size_t count = sizeof bad / sizeof bad[0];
    for (size_t i = 0; i < count; i++) {
        refuses_pool(bad[i].sheet, "Z\n1000000\n", bad[i].number);
        refuses_pool("Z\n1000000\n", bad[i].sheet, bad[i].number);
        for (size_t j = 0; j < count; j++)
            refuses_pool(bad[i].sheet, bad[j].sheet, bad[i].number);
    }

    refuses_pool("A\n1000000\n", "B\n1000000\n", 17);
    refuses_pool("A\n0\n", "A B\n0 0\n0 0\n", 17);
    refuses_pool("A B\n0 0\n0 0\n", "A\n0\n", 17);
    refuses_pool("A B\n0 0\n0 0\n", "B C\n0 0\n0 0\n", 17);
    refuses_pool("A1\n0\n", "A11\n0\n", 17);
    refuses_pool("A\n1000000\n", "A\n1\n", 18);
    refuses_pool("A\n-1\n", "A\n-1000000\n", 18);
    refuses_pool("A\n1000000\n", "A\n0.5\n", 18);
    refuses_pool("A\n-999999.5\n", "A\n-1\n", 18);
    refuses_pool("A\n1000000.5\n", "A\n-1\n", 11);
    refuses_pool("A\n0\n", "A\n0.0\n", 8);
    refuses_pool("A B\n0 -\n- 600000\n", "B A\n600000 1\n1 0\n", 18);

    /* 17 before 18, and both before 14. */
    uint8_t text[1];
    if (call_pool("A\n9\n", 4, "B\n9\n", 4, text, 0) != -17)
        fail("17 in no buffer");
    if (call_pool("A\n1000000\n", 10, "A\n1000000\n", 10, text, 0) != -18)
        fail("18 in no buffer");
}

static long pools_seen, sums_refused;

/* Adds two pair lists; answers whether every sum is in range. */
static bool add_pairs(int n, const int32_t *s, const int32_t *t, int32_t *sums)
{
    bool in_range = true;
    for (int i = 0; i < n * (n + 1) / 2; i++) {
        bool scored = s[i] != UNSCORED && t[i] != UNSCORED;
        sums[i] = scored ? s[i] + t[i] : UNSCORED;
        if (scored && (sums[i] > MAX_SCORE || sums[i] < -MAX_SCORE))
            in_range = false;
    }
    return in_range;
}

/* One sum at an end of the range, or half a point or a point beyond. */
static void far_sum(int n, int32_t *s, int32_t *t)
{
    int place = random_below(n * (n + 1) / 2);
    int32_t sign = random_below(2) == 0 ? 1 : -1, part = random_below(MAX_SCORE);
    s[place] = sign * (MAX_SCORE - part);
    t[place] = sign * (part + random_below(POINT + 1));
}

/* Two lists, written in any two orders: the pool is their sum in the first's. */
static void test_random_pools(int sheets)
{
    for (int round = 0; round < sheets && failures == 0; round++) {
        char first[MAX_SHEET], second[MAX_SHEET], pool[MAX_SHEET];
        int32_t s[MAX_PAIRS], t[MAX_PAIRS], sums[MAX_PAIRS];
        int n = 1 + random_below(round % 10 == 0 ? 32 : 6), p[MAX_N], q[MAX_N];
        uint8_t text[MAX_POOL];
        random_pairs(1, n, s);
        random_pairs(1, n, t);
        if (random_below(8) == 0)
            far_sum(n, s, t);
        random_order(n, p);
        random_order(n, q);
        size_t first_len = write_ordered(n, p, s, first);
        size_t second_len = write_ordered(n, q, t, second);
        bool in_range = add_pairs(n, s, t, sums);
        int64_t wanted =
            in_range ? (int64_t)write_ordered(n, p, sums, pool) : -18;
        int64_t answer = call_pool(first, first_len, second, second_len, text,
                                   sizeof text);
        if (answer != wanted ||
            (answer > 0 && memcmp(text, pool, (size_t)answer) != 0)) {
            printf("%.*s%.*s", (int)first_len, first, (int)second_len, second);
            fail("pool of two lists");
        }
        *(in_range ? &pools_seen : &sums_refused) += 1;
    }
}

/* One sheet of the two altered: a pool, or a refusal of the table. */
static void test_altered_pools(int sheets)
{
    for (int round = 0; round < sheets && failures == 0; round++) {
        char sheet[2][MAX_SHEET];
        size_t len[2];
        int n = 1 + random_below(4), order[MAX_N];
        int32_t pairs[MAX_PAIRS];
        uint8_t text[MAX_POOL];
        for (int t = 0; t < 2; t++) {
            random_pairs(1, n, pairs);
            random_order(n, order);
            len[t] = write_ordered(n, order, pairs, sheet[t]);
        }
        len[round % 2] = alter(sheet[round % 2], len[round % 2]);
        int64_t answer = call_pool(sheet[0], len[0], sheet[1], len[1], text,
                                   sizeof text);
        bool of_a_sheet = (answer <= -2 && answer >= -9) || answer == -11;
        if (answer < 4 && !of_a_sheet && answer != -17 && answer != -18)
            fail("altered sheets to pool");
    }
}

/* ---- refined weights ---- */

/* A call on a list of exact length; the weight is written in any case, and
   nothing beside it. */
static int32_t call_weight(size_t n, const int32_t *pairs, size_t pairs_len,
                           uint32_t side, int64_t *weight)
{
    uint8_t *lent = lend((const char *)pairs, pairs_len * sizeof *pairs);
    const int64_t around = INT64_C(0x5A5A5A5A5A5A5A5A);
    int64_t slots[3] = {around, around, around};
    int32_t answer = plain_refined_weight(n, (const int32_t *)(void *)lent,
                                          pairs_len, side, &slots[1]);
    if (slots[0] != around || slots[2] != around)
        fail("a slot beside the weight was written");
    *weight = slots[1];
    free(lent);
    return answer;
}

static void expect_weight(const char *what, size_t n, const int32_t *pairs,
                          uint32_t side, int64_t wanted)
{
    uint32_t whole = UINT32_MAX >> (MAX_N - n);
    const uint32_t sides[] = {side, whole & ~side};
    for (int i = 0; i < 2; i++) {
        int64_t weight;
        int32_t answer =
            call_weight(n, pairs, n * (n + 1) / 2, sides[i], &weight);
        if (answer != 0 || weight != wanted) {
            printf("side %08" PRIx32 ": answer %" PRId32 ", weight %" PRId64
                   ", expected 0 and %" PRId64 "\n",
                   sides[i], answer, weight, wanted);
            fail(what);
        }
    }
}

static void refuses_weight(size_t n, const int32_t *pairs, size_t pairs_len,
                           uint32_t side, int32_t number)
{
    int64_t weight;
    int32_t answer = call_weight(n, pairs, pairs_len, side, &weight);
    if (answer != number || weight != 0) {
        printf("side %08" PRIx32 " of %zu: answer %" PRId32 ", weight %" PRId64
               ", expected %" PRId32 " and 0\n",
               side, n, answer, weight, number);
        fail("refusal of a weight");
    }
}

/* All distances across and all within a side the same. */
static void two_values(int n, uint32_t side, int32_t across, int32_t within,
                       int32_t *pairs)
{
    for (int a = 0; a < n; a++) {
        for (int b = 0; b < a; b++)
            *pairs++ = holds(side, a) != holds(side, b) ? across : within;
        *pairs++ = 0;
    }
}

static void test_weight_cases(void)
{
    const int32_t copies[] = {0, 2, 0, 4, 4, 0, 4, 4, 2, 0};
    expect_weight("four copies", 4, copies, 0xc, 4);
    expect_weight("four copies", 4, copies, 0x5, -4);
    expect_weight("four copies", 4, copies, 0x9, -4);
    /* 01|23 has 10 - 4, 01|24 has 11 - 5, 01|34 has 12 - 3. */
    const int32_t equal[] = {0, 1, 0, 5, 5, 0, 6, 5, 3, 0, 7, 6, 4, 2, 0};
    expect_weight("equal scores", 5, equal, 0x3, 12);
    /* 01|24 has 11 - 4. */
    const int32_t different[] = {0, 1, 0, 5, 5, 0, 6, 5, 3, 0, 7, 6, 3, 2, 0};
    expect_weight("different scores", 5, different, 0x3, 13);
    /* The entry 0 twice against 2 and 3 would have 1. */
    const int32_t twice[] = {0, 1, 0, 1, 9, 0, 1, 9, 1, 0};
    expect_weight("no entry twice", 4, twice, 0x3, 8);

    int32_t pairs[MAX_PAIRS];
    const uint32_t odd = UINT32_C(0xaaaaaaaa);
    two_values(MAX_N, odd, MAX_SCORE, 0, pairs);
    expect_weight("the greatest weight", MAX_N, pairs, odd, 29 * 2 * MAX_SCORE);
    two_values(MAX_N, odd, 0, MAX_SCORE, pairs);
    expect_weight("the least weight", MAX_N, pairs, odd, -29 * 2 * MAX_SCORE);
    two_values(MAX_N, odd, 7, 7, pairs);
    for (int k = 2; k <= MAX_N - 2; k++)
        expect_weight("all alike", MAX_N, pairs, UINT32_MAX >> (MAX_N - k), 0);
}

static void test_weight_refusals(void)
{
    int32_t pairs[34 * 35 / 2] = {0};
    const size_t counts[] = {0, MAX_N + 1, 64, SIZE_MAX};
    for (size_t i = 0; i < sizeof counts / sizeof counts[0]; i++)
        refuses_weight(counts[i], pairs, 561, 3, 6);
    for (size_t n = 1; n <= MAX_N; n++) {
        const size_t length = n * (n + 1) / 2;
        const uint32_t whole = UINT32_MAX >> (MAX_N - n);
        refuses_weight(n, pairs, length - 1, 3, 10);
        refuses_weight(n, pairs, length + 1, 3, 10);
        const uint32_t sides[] = {0, 1, 1u << (n - 1), whole, whole & ~1u,
                                  whole >> 1};
        for (size_t i = 0; i < sizeof sides / sizeof sides[0]; i++)
            refuses_weight(n, pairs, length, sides[i], 19);
        for (uint32_t side = 0; n < 4 && side < 16; side++)
            refuses_weight(n, pairs, length, side, 19);
        for (size_t far = n; n >= 4 && far < MAX_N; far++)
            refuses_weight(n, pairs, length, 3 | UINT32_C(1) << far, 19);
    }

    /* Four entries, one flaw more each time: 19, 12, 16, 11, 10, 6. */
    refuses_weight(4, pairs, 10, 0x1f, 19);
    pairs[3] = -1;
    refuses_weight(4, pairs, 10, 0x1f, 12);
    refuses_weight(4, pairs, 10, 3, 12);
    pairs[3] = 0;
    pairs[9] = 1;
    refuses_weight(4, pairs, 10, 3, 12);
    pairs[0] = UNSCORED;
    refuses_weight(4, pairs, 10, 0x1f, 16);
    pairs[1] = MAX_SCORE + 1;
    refuses_weight(4, pairs, 10, 0x1f, 11);
    pairs[1] = -MAX_SCORE - 1;
    refuses_weight(4, pairs, 10, 3, 11);
    refuses_weight(4, pairs, 9, 0x1f, 10);
    refuses_weight(0, pairs, 9, 0x1f, 6);
}

/* All quartets in a list, sorted. */
static int64_t defined_weight(int n, const int32_t *d, uint32_t side)
{
    static int64_t scores[120 * 120];
    size_t count = 0;
    int64_t sum = 0;
    for (int a = 0; a < n; a++)
        for (int a2 = 0; a2 < a; a2++)
            for (int b = 0; b < n; b++)
                for (int b2 = 0; b2 < b; b2++) {
                    if (!holds(side, a) || !holds(side, a2) ||
                        holds(side, b) || holds(side, b2))
                        continue;
                    int64_t one = score(d, a, b) + score(d, a2, b2);
                    int64_t other = score(d, a, b2) + score(d, a2, b);
                    scores[count++] = (one < other ? one : other) -
                                      (score(d, a, a2) + score(d, b, b2));
                }
    qsort(scores, count, sizeof scores[0], compare_weights);
    for (int i = 0; i < n - 3; i++)
        sum += scores[i];
    return sum;
}

static long weights_seen[3]; /* below 0, 0, above */

static void test_weight(int n, const int32_t *pairs, uint32_t side)
{
    uint32_t whole = UINT32_MAX >> (MAX_N - n);
    int inside = size_of(side & whole);
    if (inside < 2 || inside > n - 2) {
        refuses_weight((size_t)n, pairs, (size_t)n * (n + 1) / 2, side, 19);
        return;
    }
    int64_t wanted = defined_weight(n, pairs, side);
    expect_weight("weight and definition", (size_t)n, pairs, side, wanted);
    weights_seen[wanted < 0 ? 0 : wanted == 0 ? 1 : 2]++;
}

/* Every side of a few entries; of more, the listed splits and some others. */
static void test_weights(int lists)
{
    for (int round = 0; round < lists && failures == 0; round++) {
        int32_t pairs[MAX_PAIRS];
        int n = round % 10 == 0 ? 1 + random_below(MAX_N) : 1 + random_below(7);
        uint32_t whole = UINT32_MAX >> (MAX_N - n), sets[2 * MAX_N + 1];
        int64_t indices[2 * MAX_N + 1];
        random_pairs(3, n, pairs);
        if (n <= 7) {
            for (uint32_t side = 0; side <= whole; side++)
                test_weight(n, pairs, side);
        } else {
            int64_t count = plain_numbers(3, n, pairs, sets, indices);
            for (int64_t t = 0; t < count; t++)
                test_weight(n, pairs, sets[t]);
            for (int t = 0; t < 8; t++)
                test_weight(n, pairs,
                            (uint32_t)random_below(INT32_MAX) << 1 & whole);
        }
        if (failures > 0)
            show_sheet(3, n, pairs);
    }
    if (failures == 0 && (weights_seen[0] == 0 || weights_seen[1] == 0 ||
                          weights_seen[2] == 0))
        fail("weights below 0, 0 or above: none of a sort was met");
}

int main(int argc, char **argv)
{
    int sheets = argc > 1 ? atoi(argv[1]) : 6000;
    test_bench_cases();
    test_half_points();
    test_values();
    test_refusals();
    test_against_definitions(sheets);
    test_whole_points(sheets / 2);
    test_doubled_lists(sheets / 10);
    test_reordering(sheets / 10);
    test_altered_sheets(sheets * 10);
    test_pool_cases();
    test_longest_pool();
    test_pool_refusals();
    test_random_pools(sheets);
    test_altered_pools(sheets);
    test_weight_cases();
    test_weight_refusals();
    test_weights(sheets / 10);
    if (indices_seen[0] == 0 || indices_seen[1] == 0 || indices_seen[2] == 0 ||
        whole_seen == 0 || doubled_seen == 0 || pools_seen == 0 ||
        sums_refused == 0)
        fail("lines of half a point, of whole points, others, of lists of points, "
             "pools, or sums out of range: none of a sort was met");
    if (failures > 0) {
        printf("%d differences\n", failures);
        return 1;
    }
    printf("no difference; lines checked: strong %ld, %ld of them with unscored "
           "pairs, clean %ld, splits %ld; of half a point %ld, of whole points "
           "%ld, others %ld; as before there were half points %ld, doubled %ld; "
           "pools %ld, refused for a sum %ld; weights below 0 %ld, 0 %ld, above "
           "%ld\n",
           lines_seen[1], unscored_seen, lines_seen[2], lines_seen[3],
           indices_seen[0], indices_seen[1], indices_seen[2], whole_seen,
           doubled_seen, pools_seen, sums_refused, weights_seen[0],
           weights_seen[1], weights_seen[2]);
    return 0;
}
