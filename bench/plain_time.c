/* Microseconds per call of the plain engine on near-tree sheets.

   cc -std=c11 -O2 -Wall -Wextra -Werror -pedantic plain.c sheets.c plain_time.c */

#define _POSIX_C_SOURCE 199309L

#include "plain.h"
#include "sheets.h"

#include <stdbool.h>
#include <stdio.h>
#include <time.h>

enum { SHEETS = 64, REPEATS = 100 };

typedef struct {
    int32_t pairs[MAX_PAIRS];
    uint8_t text[MAX_SHEET + 1];
    size_t length;
} Sheet;

static Sheet sheets[SHEETS];

static double now(void)
{
    struct timespec t;
    clock_gettime(CLOCK_MONOTONIC, &t);
    return (double)t.tv_sec * 1e6 + (double)t.tv_nsec / 1e3;
}

/* Runs every sheet the given number of times; answers the microseconds per
   call and the lines listed per sheet. */
static double time_once(bool listing, int32_t kind, int n, int rounds,
                        double *lines)
{
    uint32_t sets[2 * MAX_ENTRIES];
    int64_t indices[2 * MAX_ENTRIES], sum = 0;
    uint8_t out[2048];
    double start = now();
    for (int r = 0; r < rounds; r++)
        for (int t = 0; t < SHEETS; t++)
            sum += listing ? plain_listing(kind, sheets[t].text, sheets[t].length,
                                           out, sizeof out)
                           : plain_numbers(kind, n, sheets[t].pairs, sets, indices);
    double per_call = (now() - start) / rounds / SHEETS;
    *lines = (double)sum / rounds / SHEETS;
    return per_call;
}

/* The best of many repeats of about 3 milliseconds. */
static double time_calls(bool listing, int32_t kind, int n, double *lines)
{
    double best = time_once(listing, kind, n, 1, lines);
    int rounds = 1 + (int)(3000 / (best * SHEETS));
    for (int r = 0; r < REPEATS; r++) {
        double took = time_once(listing, kind, n, rounds, lines);
        best = took < best ? took : best;
    }
    return best;
}

int main(void)
{
    const char *const kinds[] = {"", "strong", "clean", "splits"};
    printf("kind    n   bytes  lines  numbers us  listing us\n");
    for (int32_t kind = 1; kind <= 3; kind++)
        for (int n = 4; n <= MAX_ENTRIES; n *= 2) {
            double lines, bytes = 0, unused;
            for (int t = 0; t < SHEETS; t++) {
                near_tree(kind == 3, n, sheets[t].pairs);
                sheets[t].length = write_sheet(n, sheets[t].pairs, sheets[t].text);
                bytes += (double)sheets[t].length / SHEETS;
            }
            double numbers = time_calls(false, kind, n, &lines);
            double listing = time_calls(true, kind, n, &unused);
            printf("%-6s %2d  %6.0f  %5.1f  %10.3f  %10.3f\n", kinds[kind], n,
                   bytes, lines, numbers, listing);
        }
    return 0;
}
