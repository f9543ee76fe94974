/* Isolated groups and splits of a score sheet, the pool of two sheets, and the
   refined weight of a split, in plain C. */
#ifndef PLAIN_H
#define PLAIN_H

#include <stddef.h>
#include <stdint.h>

/* Kinds of question: 1 strong groups, 2 clean groups, 3 Buneman splits.  A pair
   list, and the indices and the weight found from it, count half points. */

/* Writes the listing of a sheet and answers its length in bytes.  A refusal
   answers minus its number and writes nothing. */
int64_t plain_listing(int32_t kind, const uint8_t *sheet, size_t sheet_len,
                      uint8_t *out, size_t out_len);

/* The listed sets and their indices, by size, then by set; answers their
   count.  pairs is the lower triangle with own pairs, row by row.  Both
   results have 2n slots; those beyond the count are set to 0.  Nothing is
   checked: kind is 1 to 3, n is 1 to 32, and the values pass 11, 16 and 12, as
   the kind wants them. */
int64_t plain_numbers(int32_t kind, int32_t n, const int32_t *pairs,
                      uint32_t *sets, int64_t *indices);

/* Writes the pool of two sheets with the same names, which is a sheet, and
   answers its length in bytes.  A refusal answers minus its number and writes
   nothing. */
int64_t plain_pool(const uint8_t *first, size_t first_len, const uint8_t *second,
                   size_t second_len, uint8_t *out, size_t out_len);

/* The refined weight of the split of which side is one side, of the pair list
   of n entries; answers 0.  A refusal answers its number, and the weight is
   0. */
int32_t plain_refined_weight(size_t n, const int32_t *pairs, size_t pairs_len,
                             uint32_t side, int64_t *weight);

#endif
