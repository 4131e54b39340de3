/* How much stack a build takes: a thread's stack is painted, the build is called on it, and the paint that is left is counted.
 *
 *     stack COLUMNS
 *
 * The sheet has one clause, a tuple of so many integers, of which each is a column of its own: building tests one after the other and
 * calls itself for each, so that 191 columns are the deepest build that there is (192 patterns, one of them the tuple). */
#include "dewmycel.h"

#include <pthread.h>
#include <stdio.h>
#include <stdlib.h>
#include <string.h>

#define STACK ((size_t)16 << 20)
#define PAINT 0xa5

static uint8_t sheet[DEWMYCEL_SHEET_MOST];
static uint8_t tree[DEWMYCEL_TREE_BYTES];
static uint8_t work[DEWMYCEL_WORK_BYTES];
static size_t length;
static uint64_t answer;

static void word(size_t value)
{
    sheet[length++] = (uint8_t)value;
    sheet[length++] = (uint8_t)(value >> 8);
}

static void record(size_t kind, size_t a, size_t first, size_t count)
{
    word(kind);
    word(a);
    word(first);
    word(count);
}

static void make_sheet(size_t columns)
{
    size_t starts[7];
    starts[0] = length;
    word(0), word(0), word(0);       /* type 0, Int */
    word(4), word(0), word(columns); /* type 1, the tuple */
    starts[1] = starts[2] = length;
    for (size_t i = 0; i < columns; i++)
        word(0);
    starts[3] = length;
    record(9, 0, 0, columns);
    for (size_t i = 0; i < columns; i++)
        record(3, 0, 0, 1);
    starts[4] = length;
    for (size_t i = 0; i < columns; i++)
        word(i + 1);
    starts[5] = length;
    word(0);
    starts[6] = length;
    sheet[length++] = '7';
    for (size_t i = 0; i < 7; i++)
        word(starts[i]);
    word(1);
    word(length + 2);
}

static void *build(void *unused)
{
    answer = dewmycel_build(sheet, length, tree, sizeof tree, work, sizeof work);
    return unused;
}

int main(int argc, char **argv)
{
    size_t columns = argc == 2 ? strtoul(argv[1], NULL, 10) : 0;
    if (columns < 2 || columns > 191) {
        fprintf(stderr, "usage: stack COLUMNS, 2 to 191\n");
        return 2;
    }
    make_sheet(columns);
    uint8_t *stack;
    if (posix_memalign((void **)&stack, 4096, STACK) != 0)
        return 1;
    memset(stack, PAINT, STACK);
    pthread_attr_t attributes;
    pthread_t thread;
    pthread_attr_init(&attributes);
    pthread_attr_setstack(&attributes, stack, STACK);
    if (pthread_create(&thread, &attributes, build, NULL) != 0)
        return 1;
    pthread_join(thread, NULL);
    size_t left = 0;
    while (left < STACK && stack[left] == PAINT)
        left++;
    printf("%zu columns: refusal %u, %u nodes, %zu bytes of stack\n", columns, (unsigned)dewmycel_refusal(answer),
           (unsigned)dewmycel_nodes(answer), STACK - left);
    return 0;
}
