/* What calls are measured on: some sheets and pair lists of one sort, which the
   calls go through in rounds; and the time. */
#ifndef SAMPLE_H
#define SAMPLE_H

#include "sheets.h"

enum { SHEETS = 32 };

typedef struct {
    uint8_t text[MAX_SHEET + 1];
    size_t length;
} Sheet;

extern size_t entries;
extern int32_t pairs[SHEETS][MAX_PAIRS];
extern Sheet sheets[SHEETS];
extern Sheet seconds[SHEETS];  /* of the same entries, to pool */
extern uint32_t sides[SHEETS]; /* of the splits to weigh */

typedef void MakePairs(bool distances, int n, int32_t *pairs);

/* New sheets of n entries, of distances if the kind is splits. */
void make_sheets(MakePairs *make, int32_t kind, int n);

/* New second sheets, in any order, of near-tree scores. */
void make_seconds(int n);

/* How many quartets the split of a side has. */
int64_t quartets(uint32_t side);

/* The side of a split of a sheet to weigh: of the listed splits one with the most
   quartets; the first half of the entries. */
typedef uint32_t PickSide(int t);
uint32_t pick_listed(int t);
uint32_t pick_half(int t);

/* The line and the set of the smallest group that holds a sheet's first and last
   entry, by the plain engine; nothing is checked. */
int64_t plain_shared(int32_t kind, int t, uint32_t *set);

/* The time that this process has had. */
double now_us(void);

#endif
