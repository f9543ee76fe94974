/* Lists the groups of a sheet, as text.
   usage: client KIND < SHEET     KIND is 1 (strong), 2 (clean) or 3 (splits)
   Writes the listing; or `refused N`, and the exit status is 1. Bad usage, and input or output that fails: 2. */
#include "common.h"

int main(int argc, char **argv)
{
    static uint8_t sheet[FARZHUDYL_SHEET_MAX + 1];
    static uint8_t listing[FARZHUDYL_LISTING_MAX];
    int32_t kind;
    size_t sheet_len;

    if (argc != 2 || !read_kind(argv[1], &kind)) {
        fprintf(stderr, "usage: client 1|2|3 < SHEET\n");
        return 2;
    }
    if (!read_sheet("client", sheet, &sheet_len))
        return 2;
    int64_t length = farzhudyl_listing(kind, sheet, sheet_len, listing, sizeof listing);
    if (length < 0)
        return refused("client", length);
    fwrite(listing, 1, (size_t)length, stdout);
    return finish("client", 0);
}
