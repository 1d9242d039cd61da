/* A desk gives groups other numbers in a layer that is full, or nearly: by a strike and an add, which a full layer stops between the two,
 * and by kw_renumber, which is one edit.
 *
 * Build and run, from the repository's top:
 *     (cd crates/card && rt lib) && mkdir -p target && gcc -Iinclude examples/renumber.c crates/card/out/libcard.a -o target/renumber && target/renumber
 */
#include "kwadirumpe.h"
#include <stdio.h>
#include <string.h>

enum { C = 3, N = 4, ENTRIES = 4, LEN = ENTRIES * (C + 2), OUT = 64 };

/* the whole table, its columns end to end: group, source, mask */
static const uint64_t table[C * N] = {10, 20, 30, 40, 1, 1, 2, 2, 1, 2, 4, 8};
static const uint64_t *const group = table;

static size_t say(const char *what, size_t m, struct kw_answer a) {
    if (a.number)
        printf("%-44s refused %llu, m stays %zu\n", what, (unsigned long long)a.number, m);
    else
        printf("%-44s done, m is %llu\n", what, (unsigned long long)a.value);
    return a.number ? m : a.value;
}

static void show(size_t m, const uint64_t *layer) {
    uint64_t out[C][OUT];
    struct kw_answer rows = {0, 0};
    for (size_t j = 0; j < C; j++)
        rows = kw_read(C, m, layer, LEN, table + j * N, N, j, out[j], OUT);
    for (size_t i = 0; !rows.number && i < rows.value; i++)
        printf("    %zu %llu %llu %llu\n", i, (unsigned long long)out[0][i], (unsigned long long)out[1][i],
               (unsigned long long)out[2][i]);
}

int main(void) {
    /* room for four entries; three stand: group 25 added, two changes of group 20 */
    uint64_t layer[LEN] = {0}, copy[LEN];
    const uint64_t row[C] = {25, 7, 16};
    size_t m = 0;
    m = say("add group 25", m, kw_add(C, m, layer, LEN, group, N, row, C));
    m = say("source of row 1 (group 20)", m, kw_change(C, m, layer, LEN, group, N, 1, 1, 9));
    m = say("mask of row 1 (group 20)", m, kw_change(C, m, layer, LEN, group, N, 1, 2, 32));

    /* group 40, which has no entry, would need two more: struck it can be, and then not added again */
    const uint64_t again[C] = {45, 2, 8};
    memcpy(copy, layer, sizeof layer);
    size_t k = say("on a copy: strike row 4 (group 40)", m, kw_strike(C, m, copy, LEN, group, N, 4));
    k = say("on a copy: add it again as 45", k, kw_add(C, k, copy, LEN, group, N, again, C));
    puts("the copy has lost the group:");
    show(k, copy);

    m = say("renumber row 4 (group 40) to 45", m, kw_renumber(C, N, m, layer, LEN, table, C * N, 4, 45));
    puts("the layer has it as it stood:");
    show(m, layer);

    /* the layer is filled; what needs no more entries goes through */
    m = say("strike row 4 (group 40)", m, kw_strike(C, m, layer, LEN, group, N, 4));
    m = say("renumber row 2 (group 25) to 5", m, kw_renumber(C, N, m, layer, LEN, table, C * N, 2, 5));
    m = say("renumber row 2 (group 20) to 35", m, kw_renumber(C, N, m, layer, LEN, table, C * N, 2, 35));
    m = say("renumber row 3 (group 35) to its own number", m, kw_renumber(C, N, m, layer, LEN, table, C * N, 3, 35));
    m = say("renumber row 3 (group 35) to 30, shown", m, kw_renumber(C, N, m, layer, LEN, table, C * N, 3, 30));
    m = say("renumber row 3 (group 35) back to 20", m, kw_renumber(C, N, m, layer, LEN, table, C * N, 3, 20));
    m = say("renumber row 4, which is not shown", m, kw_renumber(C, N, m, layer, LEN, table, C * N, 4, 50));
    puts("group 20 is back with its source and mask, group 25 is group 5:");
    show(m, layer);
    return 0;
}
