/* Pools two sheets: the names in the order of the first, each score the sum of both.
   usage: pool FIRST SECOND     two files, each a sheet; the names are the same, in any order
   Writes the pool, which is a sheet; or `refused N`, and the exit status is 1. Bad usage, and input or output that fails: 2. */
#include "common.h"

static bool read_named(const char *name, uint8_t sheet[FARZHUDYL_SHEET_MAX + 1], size_t *sheet_len)
{
    FILE *file = fopen(name, "rb");
    bool right = read_file("pool", file, name, sheet, sheet_len);
    if (file != NULL)
        fclose(file);
    return right;
}

int main(int argc, char **argv)
{
    static uint8_t first[FARZHUDYL_SHEET_MAX + 1], second[FARZHUDYL_SHEET_MAX + 1];
    static uint8_t pool[FARZHUDYL_POOL_MAX];
    size_t first_len, second_len;

    if (argc != 3) {
        fprintf(stderr, "usage: pool FIRST SECOND\n");
        return 2;
    }
    if (!read_named(argv[1], first, &first_len) || !read_named(argv[2], second, &second_len))
        return 2;
    int64_t length = farzhudyl_pool(first, first_len, second, second_len, pool, sizeof pool);
    if (length < 0)
        return refused("pool", length);
    fwrite(pool, 1, (size_t)length, stdout);
    return finish("pool", 0);
}
