/* Shows the groups of a sheet to people: by the names of their entries, each group indented under the smallest one that contains it.
   usage: show strong|clean|splits < SHEET
   The first line says what is shown. Then each group has a line: its size, its index, its names in the order of the sheet. A group
   stands before the groups inside it; groups side by side stand in the order of their first names on the sheet. A split is shown by its
   side without the first entry.
   A refused sheet: `refused N` on standard output, the reason on standard error, exit status 1. Bad usage, input or output that fails,
   and bytes that are no listing: 2. */
#include "common.h"
#include "names.h"
#include "read_listing.h"

typedef struct {
    const char *word, *title;
    int32_t number;
} Kind;

static const Kind kinds[] = {
    {"strong", "strong groups", FARZHUDYL_STRONG},
    {"clean", "clean groups", FARZHUDYL_CLEAN},
    {"splits", "splits", FARZHUDYL_SPLITS},
};

/* What is shown: the sheet's bytes, the names in them, and the lines of the listing. */
typedef struct {
    uint8_t sheet[FARZHUDYL_SHEET_MAX + 1];
    size_t entries;
    Name names[FARZHUDYL_ENTRIES_MAX];
    int groups;
    Line lines[FARZHUDYL_GROUPS_MAX];
} Shown;

/* What a refusal says, of those that a sheet can meet here. */
static const char *reason(int64_t number)
{
    switch (number) {
    case 2: return "the sheet has no bytes, or over 12,288";
    case 3: return "a byte of the sheet is not A to Z, 0 to 9, minus, point, space or line feed";
    case 4: return "line 1 has no line feed, or is not one or more names, single spaces between";
    case 5: return "two names are equal";
    case 6: return "there are over 32 names";
    case 7: return "there are not as many lines of values as names, or the last line has no line feed";
    case 8: return "a line does not have as many well-formed values as there are names, single spaces between";
    case 9: return "two mirrored values differ";
    case 11: return "a value is below -1,000,000 or above 1,000,000";
    case 12: return "a distance is negative, or that of an entry to itself is not 0";
    case 16: return "a pair is unscored, which only strong groups allow";
    default: return "the header farzhudyl.h says what this number means";
    }
}

static void print_group(const Shown *shown, const Line *line, int depth)
{
    printf("%4u %9s %*s", line->size, points(line->index).text, 2 * depth, "");
    print_names(line->set, shown->entries, shown->names);
    printf("\n");
}

/* The smallest group that contains a group; the number of groups if there is none. The listing rises by size, so it comes later there,
   and the first that contains the group is the smallest. */
static int parent(const Shown *shown, int group)
{
    int g = group + 1;
    while (g < shown->groups && (shown->lines[group].set & ~shown->lines[g].set) != 0)
        g++;
    return g;
}

/* Prints the groups directly inside a group, by their first entries, and each time what is inside them. Two groups are nested or
   disjoint, so of the groups with one parent no two have the same first entry. */
static void print_inside(const Shown *shown, int outer, int depth)
{
    for (size_t first = 0; first < shown->entries; first++) {
        uint32_t bit = (uint32_t)1 << first;
        for (int g = 0; g < shown->groups; g++) {
            if ((shown->lines[g].set & (bit | (bit - 1))) == bit && parent(shown, g) == outer) {
                print_group(shown, &shown->lines[g], depth);
                print_inside(shown, g, depth + 1);
            }
        }
    }
}

/* Reads the groups and the names of the sheet. Answers the listing's length, or minus the refusal's number. */
static int64_t read_groups(Shown *shown, int32_t kind, size_t sheet_len)
{
    uint8_t listing[FARZHUDYL_LISTING_MAX];
    int64_t length = farzhudyl_listing(kind, shown->sheet, sheet_len, listing, sizeof listing);
    if (length < 0)
        return length;
    Bytes bytes = {listing, (size_t)length};
    shown->groups = read_listing(bytes, shown->lines);
    shown->entries = read_names(shown->sheet, sheet_len, shown->names);
    return length;
}

static void print_all(const Shown *shown, const Kind *kind)
{
    printf("%s of %zu %s: ", kind->title, shown->entries, shown->entries == 1 ? "entry" : "entries");
    if (shown->groups == 0) {
        printf("none\n");
        return;
    }
    printf("%d\n", shown->groups);
    if (kind->number == FARZHUDYL_SPLITS) {
        printf("each line names the side without");
        print_names(1, shown->entries, shown->names);
        printf("; the other side is all other entries\n");
    }
    printf("\nsize     index  names\n");
    print_inside(shown, shown->groups, 0);
}

int main(int argc, char **argv)
{
    static Shown shown;
    const Kind *kind = NULL;
    const char *program = argc > 0 ? argv[0] : "show";
    if (strrchr(program, '/') != NULL)
        program = strrchr(program, '/') + 1;
    for (size_t i = 0; argc == 2 && i < sizeof kinds / sizeof kinds[0]; i++)
        if (strcmp(argv[1], kinds[i].word) == 0)
            kind = &kinds[i];
    if (kind == NULL) {
        fprintf(stderr, "usage: %s strong|clean|splits < SHEET\n", program);
        return 2;
    }
    size_t sheet_len;
    if (!read_sheet(program, shown.sheet, &sheet_len))
        return 2;
    int64_t answer = read_groups(&shown, kind->number, sheet_len);
    if (shown.groups < 0) {
        fprintf(stderr, "%s: these bytes are no listing\n", program);
        return 2;
    }
    if (answer < 0) {
        int status = refused(program, answer);
        if (status == 1)
            fprintf(stderr, "%s: %s\n", program, reason(-answer));
        return status;
    }
    print_all(&shown, kind);
    return finish(program, 0);
}
