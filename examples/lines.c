/* Reads the bytes of a listing into an array of lines.
   usage: lines KIND < SHEET     KIND is 1 (strong), 2 (clean) or 3 (splits)
   Writes how many lines there are, the first of the largest groups and the first of those with the greatest index; or `refused N`, and
   the exit status is 1. Bad usage, input or output that fails, and bytes that are no listing: 2. */
#include "common.h"
#include "read_listing.h"

static void print_line(const char *what, const Line *line)
{
    printf("%s: set %08lx, size %u, index %s\n", what, (unsigned long)line->set, line->size, points(line->index).text);
}

int main(int argc, char **argv)
{
    static uint8_t sheet[FARZHUDYL_SHEET_MAX + 1];
    static uint8_t listing[FARZHUDYL_LISTING_MAX];
    Line lines[FARZHUDYL_GROUPS_MAX];
    int32_t kind;
    size_t sheet_len;

    if (argc != 2 || !read_kind(argv[1], &kind)) {
        fprintf(stderr, "usage: lines 1|2|3 < SHEET\n");
        return 2;
    }
    if (!read_sheet("lines", sheet, &sheet_len))
        return 2;
    int64_t length = farzhudyl_listing(kind, sheet, sheet_len, listing, sizeof listing);
    if (length < 0)
        return refused("lines", length);
    Bytes bytes = {listing, (size_t)length};
    int count = read_listing(bytes, lines);
    if (count < 0) {
        fprintf(stderr, "lines: these bytes are no listing\n");
        return 2;
    }
    const Line *largest = lines, *greatest = lines;
    for (int i = 1; i < count; i++) {
        if (lines[i].size > largest->size)
            largest = &lines[i];
        if (lines[i].index > greatest->index)
            greatest = &lines[i];
    }
    printf("lines %d\n", count);
    if (count > 0) {
        print_line("largest", largest);
        print_line("greatest index", greatest);
    }
    return finish("lines", 0);
}
