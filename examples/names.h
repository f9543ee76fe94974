/* The names of a sheet's entries, as its own parts, and the names of a set of entries. */
#ifndef NAMES_H
#define NAMES_H

#include "common.h"

/* There is no byte 0 behind a name. */
typedef struct {
    const char *at;
    size_t length;
} Name;

/* Reads the names of a sheet. Answers how many there are: 0 if the sheet is refused. */
static inline size_t read_names(const uint8_t *sheet, size_t sheet_len, Name names[FARZHUDYL_ENTRIES_MAX])
{
    size_t count = 0, start;
    for (; count < FARZHUDYL_ENTRIES_MAX; count++) {
        names[count].length = farzhudyl_name(sheet, sheet_len, count, &start);
        if (names[count].length == 0)
            break;
        names[count].at = (const char *)sheet + start;
    }
    return count;
}

/* Prints the names of a set, in the order of the sheet, a space before each. */
static inline void print_names(uint32_t set, size_t count, const Name *names)
{
    for (size_t i = 0; i < count; i++)
        if (has(set, i))
            printf(" %.*s", (int)names[i].length, names[i].at);
}

#endif
