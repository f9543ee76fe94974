/* Finds the smallest group that holds both of two entries.
   usage: shared KIND NAME NAME < SHEET     KIND is 1 (strong) or 2 (clean); the two names may be the same
   Writes the group's line in the listing, counted from 1 after the first line, and its names; or line 0 and all names, if no group holds
   both; or `refused N`, and the exit status is 1. The sheet's checks come first here, then the names, then the other checks. Bad usage,
   a name that is not on the sheet, and input or output that fails: 2. */
#include "common.h"
#include "names.h"

/* Finds the entry of a name, or says that there is none. */
static bool find_entry(const char *name, size_t count, const Name *names, size_t *entry)
{
    for (*entry = 0; *entry < count; ++*entry)
        if (strlen(name) == names[*entry].length && memcmp(name, names[*entry].at, names[*entry].length) == 0)
            return true;
    fprintf(stderr, "shared: no entry of the sheet has the name '%s'\n", name);
    return false;
}

int main(int argc, char **argv)
{
    static uint8_t sheet[FARZHUDYL_SHEET_MAX + 1];
    size_t sheet_len, a, b;
    int32_t kind, pairs[FARZHUDYL_PAIRS_MAX];
    uint32_t set;
    Name names[FARZHUDYL_ENTRIES_MAX];

    if (argc != 4 || !read_kind(argv[1], &kind)) {
        fprintf(stderr, "usage: shared 1|2 NAME NAME < SHEET\n");
        return 2;
    }
    if (!read_sheet("shared", sheet, &sheet_len))
        return 2;
    int64_t answer = farzhudyl_pair_list(sheet, sheet_len, pairs);
    if (answer < 0)
        return refused("shared", answer);
    size_t n = read_names(sheet, sheet_len, names);
    if (!find_entry(argv[2], n, names, &a) || !find_entry(argv[3], n, names, &b))
        return 2;
    int64_t line = farzhudyl_smallest_shared(kind, n, pairs, FARZHUDYL_PAIRS(n), a, b, &set);
    if (line < 0)
        return refused("shared", line);
    printf("line %lld%s:", (long long)line, line == 0 ? ", all entries, as no group holds both" : "");
    print_names(set, n, names);
    printf("\n");
    return finish("shared", 0);
}
