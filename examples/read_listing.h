/* Reads the bytes of a listing into an array of lines: the part to copy. */
#ifndef READ_LISTING_H
#define READ_LISTING_H

#include <stdbool.h>
#include <string.h>

#include "farzhudyl.h"

/* The index is in half points, as farzhudyl_numbers has it. */
typedef struct {
    uint32_t set;
    unsigned size;
    int64_t index;
} Line;

/* The bytes not read yet; there is no byte 0 behind them. */
typedef struct {
    const uint8_t *at;
    size_t left;
} Bytes;

/* Reads exactly this text. */
static bool read_text(Bytes *bytes, const char *text)
{
    size_t length = strlen(text);
    if (bytes->left < length || memcmp(bytes->at, text, length) != 0)
        return false;
    bytes->at += length;
    bytes->left -= length;
    return true;
}

/* Reads 8 lower-case hexadecimal digits. */
static bool read_set(Bytes *bytes, uint32_t *set)
{
    *set = 0;
    if (bytes->left < 8)
        return false;
    for (int i = 0; i < 8; i++, bytes->at++, bytes->left--) {
        uint8_t c = *bytes->at;
        if (c >= '0' && c <= '9')
            *set = *set << 4 | (uint32_t)(c - '0');
        else if (c >= 'a' && c <= 'f')
            *set = *set << 4 | (uint32_t)(c - 'a' + 10);
        else
            return false;
    }
    return true;
}

/* Reads a decimal number from 0 to 10^18 - 1, without a leading zero unless it is `0`. */
static bool read_number(Bytes *bytes, int64_t *number)
{
    int digits = 0;
    for (*number = 0; bytes->left > 0 && *bytes->at >= '0' && *bytes->at <= '9'; bytes->at++, bytes->left--) {
        if (digits == 18 || (digits > 0 && *number == 0))
            return false;
        *number = *number * 10 + (*bytes->at - '0');
        digits++;
    }
    return digits > 0;
}

/* Reads an index, which is in points and may end in `.5`, as half points: at least one. */
static bool read_index(Bytes *bytes, int64_t *index)
{
    if (!read_number(bytes, index))
        return false;
    *index *= FARZHUDYL_POINT;
    if (read_text(bytes, ".5"))
        ++*index;
    return *index > 0;
}

static unsigned members(uint32_t set)
{
    unsigned count = 0;
    for (; set != 0; set &= set - 1)
        count++;
    return count;
}

/* Reads a whole listing: each line in its form, the size that of the set, the lines rising by size, then by set. Answers how many lines
   there are, or -1 if the bytes are no listing. */
static int read_listing(Bytes bytes, Line lines[FARZHUDYL_GROUPS_MAX])
{
    int count = 0;
    if (!read_text(&bytes, "set size index\n"))
        return -1;
    for (; bytes.left > 0; count++) {
        Line line;
        int64_t size;
        if (count == FARZHUDYL_GROUPS_MAX || !read_set(&bytes, &line.set) || !read_text(&bytes, " ") || !read_number(&bytes, &size) ||
            !read_text(&bytes, " ") || !read_index(&bytes, &line.index) || !read_text(&bytes, "\n"))
            return -1;
        line.size = members(line.set);
        if (line.size == 0 || size != (int64_t)line.size)
            return -1;
        if (count > 0 && (line.size < lines[count - 1].size ||
                          (line.size == lines[count - 1].size && line.set <= lines[count - 1].set)))
            return -1;
        lines[count] = line;
    }
    return count;
}

#endif
