/* What the clients here do beside their calls: read a kind's number strictly, read the sheet, look into a set, write half points as
   points, see that the output is written. */
#ifndef COMMON_H
#define COMMON_H

#include <stdbool.h>
#include <stdio.h>
#include <stdlib.h>
#include <string.h>

#include "farzhudyl.h"

/* Reads a decimal number that fits the kind, written as printf writes it: not ` 1`, `+1`, `01` or `1x`. */
static inline bool read_kind(const char *text, int32_t *kind)
{
    char again[24];
    long long number = strtoll(text, NULL, 10);
    snprintf(again, sizeof again, "%lld", number);
    if (strcmp(text, again) != 0 || number < INT32_MIN || number > INT32_MAX)
        return false;
    *kind = (int32_t)number;
    return true;
}

/* Reads a file, called by its name where it fails, up to one byte more than a sheet may have, so that a longer sheet is refused. */
static inline bool read_file(const char *program, FILE *file, const char *name, uint8_t sheet[FARZHUDYL_SHEET_MAX + 1],
                             size_t *sheet_len)
{
    *sheet_len = file == NULL ? 0 : fread(sheet, 1, FARZHUDYL_SHEET_MAX + 1, file);
    if (file != NULL && !ferror(file))
        return true;
    fprintf(stderr, "%s: cannot read %s\n", program, name);
    return false;
}

/* Reads standard input. */
static inline bool read_sheet(const char *program, uint8_t sheet[FARZHUDYL_SHEET_MAX + 1], size_t *sheet_len)
{
    return read_file(program, stdin, "standard input", sheet, sheet_len);
}

/* Whether an entry, counted from 0, is in a set. */
static inline bool has(uint32_t set, size_t entry)
{
    return (set >> entry & 1) != 0;
}

/* Points as text. */
typedef struct {
    char text[24];
} Points;

/* Half points, the unit of the calls' numbers, in points as a listing writes them: 3 as `1.5`, 4 as `2`, -1 as `-0.5`. */
static inline Points points(int64_t halves)
{
    Points written;
    long long whole = halves / FARZHUDYL_POINT;
    snprintf(written.text, sizeof written.text, "%s%lld%s", halves < 0 ? "-" : "", whole < 0 ? -whole : whole,
             halves % FARZHUDYL_POINT == 0 ? "" : ".5");
    return written;
}

/* The exit status, once all output is written. */
static inline int finish(const char *program, int status)
{
    if (fflush(stdout) == 0 && !ferror(stdout))
        return status;
    fprintf(stderr, "%s: cannot write standard output\n", program);
    return 2;
}

/* Writes the refusal that an answer below 0 is. */
static inline int refused(const char *program, int64_t answer)
{
    printf("refused %lld\n", (long long)-answer);
    return finish(program, 1);
}

#endif
