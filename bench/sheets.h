/* Sheets to measure on, the same in every run.  A pair list counts half points. */
#ifndef SHEETS_H
#define SHEETS_H

#include <stdbool.h>
#include <stddef.h>
#include <stdint.h>

enum {
    MAX_ENTRIES = 32,
    MAX_PAIRS = MAX_ENTRIES * (MAX_ENTRIES + 1) / 2,
    MAX_SHEET = 12288
};

/* The pair list of a random binary tree, with noise, in whole points.  Scores
   fall by 10,000 with each merge, with a noise below 5,000; distances are path
   lengths over edges of 500 to 1,499, with a noise below 200.  Every block of the
   tree is listed, as many groups as a sheet can have. */
void near_tree(bool distances, int n, int32_t *pairs);

/* The same with half a point more in half of the values, chosen at random; the
   own values of distances stay 0. */
void near_tree_halves(bool distances, int n, int32_t *pairs);

/* Values of 0 to 1,000,000, each alike, in whole points; the own values of
   distances are 0. */
void unstructured(bool distances, int n, int32_t *pairs);

/* Writes the sheet of a pair list, in points, INT32_MIN as a lone minus; answers
   its length.  The entries stand in the order of the list, or in any other. */
size_t write_sheet(int n, const int32_t *pairs, uint8_t *text);
size_t write_ordered(int n, const int *order, const int32_t *pairs,
                     uint8_t *text);

/* The numbers 0 to n - 1 in any order. */
void any_order(int n, int *order);

#endif
