/* The night desk edits a layer and saves it to a file; the morning desk opens the file, checks it, and reads a column through it.
 *
 * Build and run, from the repository's top:
 *     (cd crates/card && rt lib) && mkdir -p target && gcc -Iinclude examples/morning.c crates/card/out/libcard.a -o target/morning && target/morning target/night.layer
 */
#include "kwadirumpe.h"
#include <stdio.h>

enum { C = 3, N = 4, ROOM = KW_MOST_ENTRIES * (C + 2), BYTES = 32 + 8 * ROOM, NOTE = 256 };

static const uint64_t group[N] = {10, 20, 30, 40};
static const uint64_t mask[N] = {1, 2, 4, 8};

static void say(const char *what, struct kw_answer a) {
    if (a.number)
        printf("%-40s refused %llu, place %llu\n", what, (unsigned long long)a.number, (unsigned long long)a.value);
    else
        printf("%-40s done, %llu\n", what, (unsigned long long)a.value);
}

static size_t kept(const char *what, size_t m, struct kw_answer a) {
    say(what, a);
    return a.number ? m : a.value;
}

/* In the evening: two edits, saved as they stand. */
static int night(const char *name) {
    static uint64_t layer[ROOM];
    static uint8_t bytes[BYTES];
    const uint64_t row[C] = {25, 7, 16};
    size_t m = 0;
    m = kept("night: add group 25", m, kw_add(C, m, layer, ROOM, group, N, row, C));
    m = kept("night: mask of row 3 (group 30)", m, kw_change(C, m, layer, ROOM, group, N, 3, 2, 64));
    struct kw_answer a = kw_save(C, N, m, layer, ROOM, bytes, BYTES);
    say("night: saved", a);
    if (a.number)
        return 1;
    FILE *f = fopen(name, "wb");
    if (!f)
        return 1;
    size_t put = fwrite(bytes, 1, a.value, f);
    return (fclose(f) != 0) | (put != a.value);
}

/* What a desk does with the bytes of a file that it has not made itself. */
static void opened(const char *what, const uint8_t *bytes, size_t len) {
    static uint64_t layer[ROOM];
    uint64_t out[N + KW_MOST_ENTRIES];
    printf("%s, %zu bytes: check %llu, entries %llu, columns %llu, base rows %llu\n", what, len,
           (unsigned long long)kw_file_check(bytes, len), (unsigned long long)kw_file_entries(bytes, len),
           (unsigned long long)kw_file_columns(bytes, len), (unsigned long long)kw_file_rows(bytes, len));
    struct kw_answer a = kw_load(bytes, len, layer, ROOM);
    say("    loaded", a);
    if (a.number || kw_file_columns(bytes, len) != C || kw_file_rows(bytes, len) != N)
        return;
    struct kw_answer rows = kw_read(C, a.value, layer, ROOM, mask, N, 2, out, N + KW_MOST_ENTRIES);
    say("    masks read", rows);
    for (size_t i = 0; !rows.number && i < rows.value; i++)
        printf("    %zu %llu\n", i, (unsigned long long)out[i]);
}

/* In the morning: the file, then a damaged and a truncated copy. */
static int morning(const char *name) {
    static uint8_t bytes[NOTE + BYTES];
    FILE *f = fopen(name, "rb");
    if (!f)
        return 1;
    size_t len = fread(bytes, 1, sizeof bytes, f);
    fclose(f);
    opened("morning", bytes, len);
    bytes[8] ^= 1; /* the kind of the first entry */
    opened("a damaged copy", bytes, len);
    bytes[8] ^= 1;
    bytes[len - 16] = 9; /* the columns */
    opened("nine columns", bytes, len);
    bytes[len - 16] = C;
    opened("a truncated copy", bytes, len - 9);
    opened("a copy without its front", bytes + 9, len - 9);
    opened("the first 20 bytes", bytes, 20);
    return 0;
}

int main(int argc, char **argv) {
    const char *name = argc > 1 ? argv[1] : "night.layer";
    return night(name) || morning(name);
}
