/* Two desks edit one group table at once; one desk's layer is moved past the other's, the two are combined and read.
 *
 * Build and run, from the repository's top:
 *     (cd crates/card && rt lib) && mkdir -p target && gcc -Iinclude examples/driver.c crates/card/out/libcard.a -o target/driver && target/driver
 */
#include "kwadirumpe.h"
#include <stdio.h>

enum { C = 3, N = 4, ROOM = 16 * (C + 2), OUT = 64 };

static const uint64_t group[N] = {10, 20, 30, 40};
static const uint64_t source[N] = {1, 1, 2, 2};
static const uint64_t mask[N] = {1, 2, 4, 8};

static void say(const char *what, struct kw_answer a) {
    if (a.number)
        printf("%-36s refused %llu, place %llu\n", what, (unsigned long long)a.number, (unsigned long long)a.value);
    else
        printf("%-36s done, %llu\n", what, (unsigned long long)a.value);
}

static void show(size_t m, const uint64_t *layer, size_t len) {
    const uint64_t *base[C] = {group, source, mask};
    uint64_t out[C][OUT];
    struct kw_answer rows = {0, 0};
    for (size_t j = 0; j < C; j++) {
        rows = kw_read(C, m, layer, len, base[j], N, j, out[j], OUT);
        if (rows.number) {
            say("read", rows);
            return;
        }
    }
    for (size_t i = 0; i < rows.value; i++)
        printf("    %llu %llu %llu %llu\n", (unsigned long long)i, (unsigned long long)out[0][i],
               (unsigned long long)out[1][i], (unsigned long long)out[2][i]);
}

int main(void) {
    /* The morning desk strikes group 10, which stands above; the evening desk gives group 30 a new mask and adds group 25. */
    uint64_t morning[ROOM] = {0}, evening[ROOM] = {0}, both[2 * ROOM] = {0};
    const uint64_t row[C] = {25, 7, 16};
    struct kw_answer a;
    size_t m1 = 0, m2 = 0;

    a = kw_strike(C, m1, morning, ROOM, group, N, 0);
    say("morning: strike row 0 (group 10)", a);
    m1 = a.number ? m1 : a.value;

    a = kw_change(C, m2, evening, ROOM, group, N, 2, 2, 64);
    say("evening: mask of row 2 (group 30)", a);
    m2 = a.number ? m2 : a.value;
    a = kw_add(C, m2, evening, ROOM, group, N, row, C);
    say("evening: add group 25", a);
    m2 = a.number ? m2 : a.value;
    a = kw_add(C, m2, evening, ROOM, group, N, row, C);
    say("evening: add group 25 again", a);

    puts("the evening's table:");
    show(m2, evening, ROOM);

    a = kw_move(C, group, N, m2, evening, ROOM, m1, morning, ROOM);
    say("evening moved past morning", a);
    if (a.number)
        return 1;
    a = kw_combine(C, group, N, m1, morning, ROOM, m2, evening, ROOM, both, 2 * ROOM);
    say("morning and evening combined", a);
    if (a.number)
        return 1;
    puts("the table after both, each change with its own group:");
    show(a.value, both, 2 * ROOM);

    /* A second desk that strikes what the first changed is told so, by number and place. */
    uint64_t late[ROOM] = {0};
    size_t m3 = 0;
    uint64_t first[ROOM] = {0};
    a = kw_change(C, 0, first, ROOM, group, N, 2, 2, 1);
    a = kw_strike(C, m3, late, ROOM, group, N, 2);
    m3 = a.value;
    a = kw_move(C, group, N, m3, late, ROOM, 1, first, ROOM);
    say("late desk strikes a changed group", a);

    /* Two desks answer one phone call: to one value both pass, and one entry is left; to another value the second is refused. */
    uint64_t same[ROOM] = {0}, other[ROOM] = {0};
    kw_change(C, 0, same, ROOM, group, N, 2, 2, 1);
    kw_change(C, 0, other, ROOM, group, N, 2, 2, 6);
    a = kw_move(C, group, N, 1, same, ROOM, 1, first, ROOM);
    say("two desks set mask 1 of group 30", a);
    if (a.number)
        return 1;
    a = kw_combine(C, group, N, 1, first, ROOM, 1, same, ROOM, both, 2 * ROOM);
    say("their layers combined", a);
    a = kw_move(C, group, N, 1, other, ROOM, 1, first, ROOM);
    say("a third desk sets mask 6", a);
    return 0;
}
