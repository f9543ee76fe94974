/* The grouping engine: lists every group of entries that belongs together on a sheet of pairwise scores.

   Link with libfarzhudyl.a; `pkg-config --cflags --libs farzhudyl` has the words for the compiler once ./install has run. Of the C
   library it needs memcpy and memset only. A call keeps no state, allocates nothing, and takes at most FARZHUDYL_STACK_MAX bytes
   of stack; calls may run at the same time in several threads, as long as none writes where another reads or writes.

   THE SHEET
   Line 1 holds the names of the n entries, single spaces between. Then come n lines of n values, in the order of the names, single
   spaces between. Each line ends with a line feed (byte 10), the last one too; there is no carriage return, no tab, no further byte.
     A name is 1 to 8 bytes: first A to Z, then A to Z or 0 to 9. No two names are equal.
     A value is an optional minus and 1 to 7 decimal digits, without a leading zero unless they are `0`; then it may end in `.5`, half
     a point. `0.5`, `-0.5` and `7.5` are values; `-0`, `.5`, `5.` and `5.0` are none. It lies from -1000000 to 1000000. Or it is a
     lone minus, `-`: the pair was never compared, and is unscored. An entry's own pair may be unscored too.
     Row i column j equals row j column i; of an unscored pair both are a lone minus.
   Kinds 1 and 2 read the values as scores: the greater, the closer. Kind 3 reads them as distances: none is negative, and each
   entry's distance to itself is 0. Only kind 1 takes a sheet with an unscored pair. Example, four entries:

       A B C D
       9 8 6 2
       8 9 5 3
       6 5 9 1
       2 3 1 9

   THE PAIR LIST
   The calls that take numbers take the lower triangle of the values, row by row, own pairs included: FARZHUDYL_PAIRS(n) numbers.
   They are half points, FARZHUDYL_POINT to a point, from -2000000 to 2000000: a value of 9 on the sheet is 18 in the list, 7.5 is 15.
   Entry i is counted from 0. The value of i and j, where j <= i, stands at FARZHUDYL_PAIRS(i) + j; of the sheet above:
   18, 16 18, 12 10 18, 4 6 2 18. The value of an unscored pair is FARZHUDYL_UNSCORED. All that the calls find from a list, indices,
   weights and scores, is half points too.

   SETS OF ENTRIES
   A set is a uint32_t in which entry i, counted from 0, is bit i: 0x5 is the first and the third entry.

   THE LISTING
   The first line is `set size index`. Then each group has one line: its set as 8 lower-case hexadecimal digits, the number of its
   members, its index; both decimal, single spaces between, a line feed (byte 10) behind each line. The index is in points, with `.5`
   behind it where it has half a point: `0.5`, `1`, `1.5`. The lines rise by size, groups of one size by set. A split has one line too:
   of its two sides the one without the first entry is written, and size is that side's. Exactly the groups of an index of half a point
   or more have a line. There is no byte 0 at the end. The strong groups of the sheet above:

       set size index
       00000001 1 1
       00000002 1 1
       00000004 1 3
       00000008 1 6
       00000003 2 2
       00000007 3 2

   THE INDEX
   A group has an index, a whole number of half points: by how much it stands out. s(a,b) is the score of two entries, d(a,b) their
   distance.
     strong   Of a set of entries, neither empty nor all: the least s(a,b) - s(a,x), a and b in the set, which may be one entry, x
              outside. It is above 0 exactly if each member scores more with every member than with any entry outside. With unscored
              pairs it is the least over all ways to give each of them a score from -1000000 to 1000000 points: a set is listed
              exactly if it would be, whatever they score. No set is listed of which a member has an unscored pair, and scoring more
              pairs removes no set that is listed.
     clean    Of a set of at least 2 entries, not all: of all s(a,b) - the larger of s(a,x) and s(b,x), a and b two different members,
              x outside, the sum of the smallest, one fewer than the set has members.
     splits   Of two sides into which all entries part, neither empty: the least d(a,b) + d(a',b') - d(a,a') - d(b,b'), a and a' on one
              side, b and b' on the other; a and a' may be one entry, and so may b and b'. This is twice the usual isolation index.
   Two groups of one kind are nested or share no entry.

   REFUSALS
   A call that can be refused makes its checks in the order of this table, and the first that fails is the answer; farzhudyl_pool makes
   those up to 11 on its first sheet, then on its second. A refused call has written nothing, but for the set of
   farzhudyl_smallest_shared and the weight of farzhudyl_refined_weight, which are then 0. No call asks anything of the values it is
   handed: any bytes and any numbers get the answer described here.
      1  kind is not 1, 2 or 3; in farzhudyl_smallest_shared, not 1 or 2
      2  the sheet has 0 bytes, or over 12,288
      3  a byte of the sheet is not A to Z, 0 to 9, minus, point, space or line feed
      4  line 1 has no line feed, or is not one or more names, single spaces between
      5  two names are equal
      6  n is 0 or over 32
      7  there are not n line feeds after line 1, or the last byte is no line feed
      8  a line does not have exactly n well-formed values, single spaces between
      9  two mirrored values differ
     10  the pair list's length is not FARZHUDYL_PAIRS(n)
     11  a value is below -1,000,000 or above 1,000,000 points, and not that of an unscored pair
     16  a pair is unscored; not for kind 1
     12  distances: a value is negative, or an own value is not 0
     13  a result slice of farzhudyl_numbers has fewer than 2n slots
     15  an anchor or an entry number is n or more; a result slice is shorter than the result; a list is not the anchored scores, at
         that anchor, of any distances passing 11 and 12
     17  the sets of names of the two sheets differ
     18  a sum of two scores is below -1,000,000 or above 1,000,000 points
     14  the listing or the pool has more bytes than the buffer
     19  a side of a split has fewer than two entries, or a member numbered n or more

   WHAT THE CALLER OWES
   A pointer with a length points to that many bytes or slots; it may be null where the length is 0. A pointer without a length
   points to one slot, or to as many as stand in its brackets. What a call writes overlaps nothing else that is handed to the call.
   These are the only things that the engine cannot check. */
#ifndef FARZHUDYL_H
#define FARZHUDYL_H

#include <stddef.h>
#include <stdint.h>

#ifdef __cplusplus
extern "C" {
#endif

/* The kinds of groups. */
enum {
    FARZHUDYL_STRONG = 1, /* strong groups (Apresjan clusters) */
    FARZHUDYL_CLEAN = 2,  /* clean groups */
    FARZHUDYL_SPLITS = 3  /* splits (Buneman splits) of a sheet of distances */
};

/* The most entries a sheet may have, the most bytes of a name, and the most bytes of a sheet; a longer sheet is refused with 2, so a
   reader of files needs room for one byte more. */
#define FARZHUDYL_ENTRIES_MAX 32
#define FARZHUDYL_NAME_MAX 8
#define FARZHUDYL_SHEET_MAX 12288

/* How many numbers the pair list of n entries has; and that of 32 entries. */
#define FARZHUDYL_PAIRS(n) ((n) * ((n) + 1) / 2)
#define FARZHUDYL_PAIRS_MAX 528

/* A point in the unit of the pair list: its numbers are half points. */
#define FARZHUDYL_POINT 2

/* The value of an unscored pair in a pair list: -2,147,483,648. */
#define FARZHUDYL_UNSCORED INT32_MIN

/* Room that always serves: bytes for a listing; bytes for the pool of two sheets; slots for the groups of farzhudyl_numbers; slots for
   the blocks of a linkage. */
#define FARZHUDYL_LISTING_MAX 2048
#define FARZHUDYL_POOL_MAX 10528
#define FARZHUDYL_GROUPS_MAX 64
#define FARZHUDYL_BLOCKS_MAX 31

/* The most bytes of stack that a call takes; the listing and the pool take the most, some 22,000 each with 32 entries. */
#define FARZHUDYL_STACK_MAX 24576

/* The listing of a kind, as text, of the sheet of sheet_len bytes, to the buffer out of out_len bytes.

   Answers the listing's length in bytes, at least 15, and has then written that many bytes at the start of out and no other; or minus
   the refusal's number. Checks 1 to 9, 11, 16 (kinds 2 and 3 only), 12 (kind 3 only), 14. Room that always serves:
   FARZHUDYL_LISTING_MAX bytes. */
int64_t farzhudyl_listing(int32_t kind, const uint8_t *sheet, size_t sheet_len, uint8_t *out, size_t out_len);

/* The groups of a kind, as numbers, of the pair list of n entries.

   Answers how many groups there are, and has then written their sets and their indices, in half points, in the order of the listing's
   lines, to the first slots of sets and indices, and 0 to all further slots of both; or minus the refusal's number. Checks 1, 6, 10, 11,
   16 (kinds 2 and 3 only), 12 (kind 3 only), 13. Room that always serves: FARZHUDYL_GROUPS_MAX slots each; 2n serve for n entries. */
int64_t farzhudyl_numbers(int32_t kind, size_t n, const int32_t *pairs, size_t pairs_len, uint32_t *sets, size_t sets_len,
                          int64_t *indices, size_t indices_len);

/* The smallest group, of kind 1 or 2, that holds both of two entries a and b, counted from 0, of the pair list of n entries; a and b may
   be the same.

   Answers the group's line in the listing, counted from 1 after the first line, and has then written its set to *set; farzhudyl_numbers
   has that group in slot line - 1. Every other group that holds both holds this one and is larger. Answers 0 if no group holds both,
   and *set is then the set of all n entries. Or answers minus the refusal's number, and *set is then 0. Checks 1 (kind 3 too), 6, 10,
   11, 16 (kind 2 only), 15 (a or b is n or more). */
int64_t farzhudyl_smallest_shared(int32_t kind, size_t n, const int32_t *pairs, size_t pairs_len, size_t a, size_t b, uint32_t *set);

/* The refined weight of a split, of the pair list of distances d of n entries: the refined Buneman index of Moulton and Steel, times
   2(n - 3). side is one side of the split, as a set; the other entries are the other side. Either side may be handed over; each is to
   have two entries or more.

   A quartet is two different entries a and a' of one side and two different entries b and b' of the other, pairs unordered. Its score is
   the smaller of d(a,b) + d(a',b') and d(a,b') + d(a',b), less d(a,a') + d(b,b'). The weight is the sum of the n - 3 smallest scores of
   all quartets, equal ones counted each, in half points. It may be 0 or negative. Example, four entries with d(0,1) = d(2,3) = 4 and all
   other distances 8 in the list, which are 2 and 4 points: a split has one quartet, so the weight of the side 0xc is 16 - 8 = 8, and
   that of the side 0x5 is 8 - 16 = -8.

   Answers 0, and has then written the weight to *weight; or the refusal's number (not minus the number, as in farzhudyl_score), and
   *weight is then 0. Nothing else is written. Checks 6, 10, 11, 16, 12, 19 (side, or the set of the other entries, has fewer than two,
   as always with fewer than 4 entries; or side has a member numbered n or more).

   Two splits of positive weight never cross: some side of one lies within a side of the other. A split that farzhudyl_numbers lists,
   with two entries or more on each side, has a positive weight: n - 3 times its index or more. */
int32_t farzhudyl_refined_weight(size_t n, const int32_t *pairs, size_t pairs_len, uint32_t side, int64_t *weight);

/* A single linkage tree and an average linkage tree of the pair list of n entries, of scores: from the n single entries on, the two
   blocks whose link is the greatest are merged, until one is left. The link is the greatest score between the two blocks (single), or
   the average of all scores between them, compared exactly (average). Of equal links any may be taken.

   Answers n - 1, and has then written the n - 1 merged blocks, as sets, in the order of merging, to the first slots of blocks and no
   other; or minus the refusal's number. Checks 6, 10, 11, 16, 15 (blocks has fewer than n - 1 slots). Room that always serves:
   FARZHUDYL_BLOCKS_MAX slots. */
int64_t farzhudyl_single_linkage(size_t n, const int32_t *pairs, size_t pairs_len, uint32_t *blocks, size_t blocks_len);
int64_t farzhudyl_average_linkage(size_t n, const int32_t *pairs, size_t pairs_len, uint32_t *blocks, size_t blocks_len);

/* The scores of a pair list of distances d of n entries, anchored at the entry x that anchor counts from 0 (the Farris transform,
   doubled): d(a,x) + d(b,x) - d(a,b) for each pair, own pairs and the anchor's included, in half points.

   Answers FARZHUDYL_PAIRS(n), and has then written the scores, in the order of a pair list, to the first slots of out and no other; or
   minus the refusal's number. Checks 6, 10, 11, 16, 12, 15 (anchor is n or more, or out has fewer slots than the result). Room that
   always serves: FARZHUDYL_PAIRS_MAX slots. */
int64_t farzhudyl_anchored_scores(size_t n, size_t anchor, const int32_t *pairs, size_t pairs_len, int32_t *out, size_t out_len);

/* The way back, from the anchored scores of n entries to the distances, both in half points; any numbers may be handed over.

   Answers FARZHUDYL_PAIRS(n), and has then written the distances, in the order of a pair list, to the first slots of out and no other;
   or minus the refusal's number. Checks 6, 10, 15 (anchor is n or more, or out has fewer slots than the result, or the list is not the
   anchored scores, at that anchor, of any distances passing 11 and 12). Room that always serves: FARZHUDYL_PAIRS_MAX slots. */
int64_t farzhudyl_distances_back(size_t n, size_t anchor, const int32_t *scores, size_t scores_len, int32_t *out, size_t out_len);

/* The pair list of the sheet of sheet_len bytes, in half points.

   Answers n, the number of entries, and has then written the pair list to the first FARZHUDYL_PAIRS(n) slots of pairs and no other; or
   minus the refusal's number. Checks 2 to 9; whether the values are in range (11), all scored (16) or distances (12) the calls that are
   handed the list check. pairs has no length: it points to FARZHUDYL_PAIRS_MAX slots. */
int64_t farzhudyl_pair_list(const uint8_t *sheet, size_t sheet_len, int32_t pairs[FARZHUDYL_PAIRS_MAX]);

/* The name of an entry, counted from 0, as its own part of the sheet of sheet_len bytes; nothing is copied.

   Answers the name's length, 1 to 8, and has then written where the name starts to *start: its bytes are sheet[*start] to
   sheet[*start + length - 1]. If one of checks 2 to 9 refuses the sheet, or the sheet has no such entry, the length is 0 and *start
   is 0. */
size_t farzhudyl_name(const uint8_t *sheet, size_t sheet_len, size_t entry, size_t *start);

/* The pool of two sheets of the same entries, as a sheet, to the buffer out of out_len bytes. The entries go by their names, which may
   stand in another order on the second sheet; in the pool they stand in the first's. Each score is the sum of the two sheets' scores, in
   points, with `.5` where needed. A pair unscored on either sheet is unscored in the pool. Example, the first sheet, the second, and
   their pool:

       A B C D     C A D B     A B C D
       9 7 2 1     8 2 - 1     18 13 4 4
       7 8 3 1     2 9 3 6     13 17 4 3
       2 3 9 4     - 3 7 2     4 4 17 -
       1 1 4 6     1 6 2 9     4 3 - 13

   Answers the pool's length in bytes, and has then written that many bytes at the start of out and no other; or minus the refusal's
   number. Checks 2 to 9 and 11 of the first sheet, then 2 to 9 and 11 of the second, 17, 18 (an unscored pair has no sum), 14. Room that
   always serves: FARZHUDYL_POOL_MAX bytes.

   The pool passes 2 to 9 and 11, so every call takes it as far as these go. Any order of the second sheet's names gives the same bytes.
   A set of names that is a strong group of both sheets is one of the pool, with an index of at least the two added: above, A and B have
   4, 3 and 9. The other way round the names stand in the other order, and the groups of each kind are the same. */
int64_t farzhudyl_pool(const uint8_t *first, size_t first_len, const uint8_t *second, size_t second_len, uint8_t *out, size_t out_len);

/* The score of two entries a and b, counted from 0, in the pair list of n entries; any values may stand in it.

   Answers 0, and has then written the score to *score, in half points, FARZHUDYL_UNSCORED if the pair is unscored; or the refusal's
   number (not minus the number: a score may be negative, so it does not come back as the answer). Checks 6, 10, 15 (a or b is n or
   more). */
int32_t farzhudyl_score(size_t n, const int32_t *pairs, size_t pairs_len, size_t a, size_t b, int64_t *score);

#ifdef __cplusplus
}
#endif

#endif
