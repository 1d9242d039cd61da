/* Kwadirumpe: layers over a replication card's multicast group table.
 *
 * Link with the archive that `rt lib` writes in crates/card: crates/card/out/libcard.a
 *
 * A TABLE has c columns (1 to 8) of unsigned 64-bit numbers and n rows (0 to 4,096). Column 0 is the key, the group number,
 * strictly ascending. Columns are lent one at a time, as a pointer and a length in numbers; n is that length. (kw_renumber alone
 * is lent the whole table: its columns end to end.)
 *
 * A LAYER is m entries (0 to 512) in a slice of numbers, c + 2 numbers each:
 *     position, kind, value 0, .. value c-1
 *     kind 65535  add      values: the row
 *     kind 65534  strike   the struck key, then zeros
 *     kind j      change   of column j, 1 to c-1: the new value, then zeros
 * You start with m = 0 and a slice of any contents. Each edit answers the new m, which you keep.
 * The room of a slice is the smaller of 512 and the whole entries that it can hold.
 *
 * EVERY CALL ANSWERS EVERY INPUT. number 0: accepted, and value is the result. Else number is the refusal and value its place,
 * and no lent number was changed. Refusals are tested in number order. (kw_view alone gives no number: the read before it does.)
 *
 *      1  an argument passes its limit: c not 1 to 8, n over 4,096, m over 512 or over its slice, a column number
 *         not below c, a row not c long, a position past n, a whole table under c n numbers
 *      2  a layer breaks form       place: the least entry at fault, or m for the row total
 *      3  the key column is not strictly ascending
 *      4  a layer does not fit the keys   place: the least entry at fault
 *      5  row number not below the shown rows
 *      6  change of column 0
 *      7  key is shown already
 *      8  conflict: one strikes a row that the other strikes or changes, both change one cell to different values, or both
 *         add one key               place: the lowest entry of X in any conflict
 *      9  the result needs more entries than the room
 *     10  the result passes 4,096 rows
 *     11  buffer shorter than what is to be written
 *     12  no file of ours: under 32 bytes, a trailer that does not match the length, or a note over 256 bytes
 *
 * For the second of two layers (W, Y) 1,000 is added to the place of 2 and 4. Other places are 0.
 *
 * MEMORY. A const pointer is only read, and may be shared by calls that run at once. A pointer that is not const must be
 * yours alone during the call, and overlap nothing else that the call is lent. A length of 0 takes any pointer that is not null
 * and is aligned. Nothing is kept after a call, nothing is allocated. kw_combine and kw_move use about 5 KiB of stack, kw_renumber
 * about 1, any other less.
 */
#ifndef KWADIRUMPE_H
#define KWADIRUMPE_H

#include <stddef.h>
#include <stdint.h>

#ifdef __cplusplus
extern "C" {
#endif

#define KW_MOST_COLUMNS 8
#define KW_MOST_ENTRIES 512
#define KW_MOST_ROWS 4096
#define KW_ADD 65535
#define KW_STRIKE 65534
/* kw_back: an added entry number i is KW_ADDED + i */
#define KW_ADDED 65536

struct kw_answer {
    uint64_t number;
    uint64_t value;
};

struct kw_shift {
    uint64_t number;
    int64_t value;
};

/* What kw_view hands back: 1, the front of the buffer, or 0, a part of the base column; and how long that part is. */
struct kw_part {
    uint64_t of_buffer;
    uint64_t length;
};

/* Does the layer keep form and fit the key column? Refusals 1 2 3 4. value: 0. */
struct kw_answer kw_fit(size_t c, size_t m, const uint64_t *layer, size_t layer_len, const uint64_t *keys, size_t n);

/* Reads column j through the layer into the front of out; the rest of out stays. Refusals 1 2 11. value: the row count. */
struct kw_answer kw_read(size_t c, size_t m, const uint64_t *layer, size_t layer_len, const uint64_t *base, size_t n,
                         size_t j, uint64_t *out, size_t out_len);

/* After a read, where to look: at the base column, all of it, where the layer leaves column j as it is, and none of it where the
 * read was refused (of_buffer 0); else at the front of out, as many numbers as there are rows (of_buffer 1). */
struct kw_part kw_view(size_t c, size_t m, const uint64_t *layer, size_t layer_len, const uint64_t *base, size_t n,
                       size_t j, const uint64_t *out, size_t out_len);

/* The shift at base position s, 0 to n: adds at positions up to s, less strikes before s. Refusals 1 2. */
struct kw_shift kw_shift_at(size_t c, size_t n, size_t m, const uint64_t *layer, size_t layer_len, size_t s);

/* The row number of base position s, 0 to n; of a struck row, that of the next shown row, or the row count where none follows.
 * Refusals 1 2. */
struct kw_answer kw_row(size_t c, size_t n, size_t m, const uint64_t *layer, size_t layer_len, size_t s);

/* What row number r is: base row s, or KW_ADDED + i for the added entry number i. Refusals 1 2 5. */
struct kw_answer kw_back(size_t c, size_t n, size_t m, const uint64_t *layer, size_t layer_len, size_t r);

/* THE EDITS alter the layer in place. Entries that they free become zero; what stood behind the layer, old and new, stays.
 * For layers in slow memory: an accepted edit stores each number of the layer at most once (the C library may clear a freed one
 * twice) and none in front of its place; the entries behind it are moved once, and not at all where as many come as go; a cell
 * that the layer holds already costs one store. A refused edit stores nothing. (What the slice holds afterwards is proved; the
 * stores were counted in the built archive, on x86-64.)
 * Adds a row of c numbers. Refusals 1 2 3 4 7 9 10. value: the new m. */
struct kw_answer kw_add(size_t c, size_t m, uint64_t *layer, size_t layer_len, const uint64_t *keys, size_t n,
                        const uint64_t *row, size_t row_len);

/* Strikes row number r: an added row's entry goes; a base row loses its changes and gains a strike. Refusals 1 2 3 4 5 9. value: the new m. */
struct kw_answer kw_strike(size_t c, size_t m, uint64_t *layer, size_t layer_len, const uint64_t *keys, size_t n, size_t r);

/* Changes column j of row number r to v. Refusals 1 2 3 4 5 6 9. value: the new m. */
struct kw_answer kw_change(size_t c, size_t m, uint64_t *layer, size_t layer_len, const uint64_t *keys, size_t n, size_t r,
                           size_t j, uint64_t v);

/* Renumbers row number r: it gets the number g, and its other values stay as they are shown, changes included. The layer is the one
 * that kw_strike of the row and then kw_add of it, with g as its key, would leave; but it is one edit, and no full layer stops it
 * between the two: 9 is judged on the layer that would be left in the end, and a refused row stands as it stood. That layer has as many
 * entries as before for an added row; for a base row two more, less one for each of its changes. The row's own number is accepted
 * and stores nothing. As many rows are shown as before: there is no refusal 10.
 * table is the whole table, its c columns of n rows end to end, at least c n numbers; the first n of them are the keys. The edit has
 * two places, where the row goes and where it comes again: nothing in front of the first is stored, what stands between them and
 * what stands behind both is moved once, and not at all where it need not.
 * Refusals 1 2 3 4 5 7 9; 7 where g is shown in another row. value: the new m. */
struct kw_answer kw_renumber(size_t c, size_t n, size_t m, uint64_t *layer, size_t layer_len, const uint64_t *table,
                             size_t table_len, size_t r, uint64_t g);

/* One layer into out that reads as r and then w, where w stands over r's result. Refusals 1 2 3 4 9 (and 10, which no input
 * reaches). value: its m; the rest of out stays. */
struct kw_answer kw_combine(size_t c, const uint64_t *keys, size_t n, size_t mr, const uint64_t *r, size_t r_len, size_t mw,
                            const uint64_t *w, size_t w_len, uint64_t *out, size_t out_len);

/* Moves x past y, both over the same rows: x then stands over y's result. Only x's positions change. Two changes of one
 * cell to one value pass each other, and combining then leaves one. Refusals 1 2 3 4 8 10. value: m of x. */
struct kw_answer kw_move(size_t c, const uint64_t *keys, size_t n, size_t mx, uint64_t *x, size_t x_len, size_t my,
                         const uint64_t *y, size_t y_len);

/* A LAYER IN A FILE is bytes: a note of 0 to 256 bytes, which is yours; the entries as 64-bit numbers, little end first; a trailer of
 * four such numbers: bytes from the file's end back to the first entry (32 + 8 m (c + 2)), entries m, columns c, base rows n.
 * Refusals, in this order: 12 for a file under 32 bytes, 1 for the trailer's c, n or m past its limits, 12 for a trailer that does
 * not match the length or a note over 256 bytes, 2 for a layer that breaks form, 11 for a buffer that is too short.
 *
 * These four answer a plain number. The check: the refusal's number, 0 where the file is accepted. The others: of an accepted
 * file, and 0 of a refused one. No accepted file has 0 columns. Ask for them before you lend kw_load a slice of m (c + 2) numbers. */
uint64_t kw_file_check(const uint8_t *file, size_t len);
uint64_t kw_file_entries(const uint8_t *file, size_t len);
uint64_t kw_file_columns(const uint8_t *file, size_t len);
uint64_t kw_file_rows(const uint8_t *file, size_t len);
/* Where the note of an accepted file ends, which is where the first entry begins; 0 where it has none, or is refused. */
size_t kw_file_note(const uint8_t *file, size_t len);

/* Reads the entries to the front of layer; the rest of it stays. Refusals 12 1 12 2 11, as above. value: m. */
struct kw_answer kw_load(const uint8_t *file, size_t len, uint64_t *layer, size_t layer_len);

/* Writes a layer over n base rows to the front of file, with no note; the rest of it stays. Refusals 1 2 11. value: the bytes written. */
struct kw_answer kw_save(size_t c, size_t n, size_t m, const uint64_t *layer, size_t layer_len, uint8_t *file, size_t len);

#ifdef __cplusplus
}
#endif

#endif
