/* Builds the tree of a sheet, walks it on a panel, and shows what is bound: the calls as a controller makes them.
 *
 *     walk_panel SHEET PANEL
 */
#include "dewmycel.h"

#include <stdio.h>

static uint8_t sheet[DEWMYCEL_SHEET_MOST + 1];
static uint8_t panel[DEWMYCEL_PANEL_MOST + 1];
static uint8_t tree[DEWMYCEL_TREE_BYTES];
static uint8_t work[DEWMYCEL_WORK_BYTES];
static uint16_t bound[DEWMYCEL_BOUND_WORDS];

/* A byte more than the largest file is enough: the call refuses it by its length. */
static int read_file(const char *name, uint8_t *to, size_t room, size_t *length)
{
    FILE *file = fopen(name, "rb");
    if (file == NULL) {
        fprintf(stderr, "walk_panel: cannot open %s\n", name);
        return 0;
    }
    *length = fread(to, 1, room, file);
    int bad = ferror(file);
    fclose(file);
    if (bad)
        fprintf(stderr, "walk_panel: cannot read %s\n", name);
    return !bad;
}

/* Says a refusal with its place: of 32 a node of the tree and a step of its path, of every other one number. */
static int refused(uint64_t answer)
{
    unsigned number = dewmycel_refusal(answer);
    if (number == 0)
        return 0;
    if (number == DEWMYCEL_STUCK)
        printf("refused %u %u %u\n", number, (unsigned)dewmycel_stuck_node(answer), (unsigned)dewmycel_stuck_step(answer));
    else
        printf("refused %u %u\n", number, (unsigned)dewmycel_place(answer));
    return 1;
}

static void show(const uint16_t *binding, size_t panel_length)
{
    printf("n%u record %u dropped %u", (unsigned)binding[0], (unsigned)binding[1], (unsigned)binding[2]);
    uint64_t text = dewmycel_text(panel, panel_length, binding[1], binding[2]);
    if (dewmycel_refusal(text) == 0) {
        printf(" text ");
        for (unsigned i = 0; i < dewmycel_text_length(text); i++)
            printf("%02x", panel[dewmycel_text_start(text) + i]);
    }
    printf("\n");
}

int main(int argc, char **argv)
{
    size_t sheet_length, panel_length;
    if (argc != 3) {
        fprintf(stderr, "usage: walk_panel SHEET PANEL\n");
        return 2;
    }
    if (!read_file(argv[1], sheet, sizeof sheet, &sheet_length) || !read_file(argv[2], panel, sizeof panel, &panel_length))
        return 2;

    if (refused(dewmycel_fit(sheet, sheet_length, panel, panel_length)))
        return 1;
    uint64_t built = dewmycel_build(sheet, sheet_length, tree, sizeof tree, work, sizeof work);
    if (refused(built))
        return 1;
    uint64_t walked =
        dewmycel_walk(tree, dewmycel_tree_length(built), panel, panel_length, bound, DEWMYCEL_BOUND_WORDS);
    if (refused(walked))
        return 1;
    if (!dewmycel_is_leaf(walked)) {
        printf("no leaf\n");
        return 0;
    }
    printf("leaf %u\n", (unsigned)dewmycel_clause(walked));
    for (unsigned i = 0; i < dewmycel_bound(walked); i++)
        show(bound + 3 * i, panel_length);
    return 0;
}
