/* The file calls in plain C, to measure beside the proved ones: what a careful C programmer would write. */
#include "../../include/kwadirumpe.h"
#include <stdbool.h>
#include <string.h>

typedef struct kw_answer answer;

static answer done(uint64_t value) { return (answer){0, value}; }
static answer refused(uint64_t number, uint64_t place) { return (answer){number, place}; }

/* eight bytes, little end first: one load and one store on the machines that are measured */
#if __BYTE_ORDER__ != __ORDER_LITTLE_ENDIAN__
#error "the numbers of a file stand little end first"
#endif

static inline uint64_t number_at(const uint8_t *b) {
    uint64_t v;
    memcpy(&v, b, 8);
    return v;
}

static inline void put_number(uint8_t *b, uint64_t v) { memcpy(b, &v, 8); }

/* an entry at s of kind k, after one at p of kind q; `tail` is zero where the values after the first are */
static inline bool good(size_t c, size_t n, uint64_t p, uint64_t q, uint64_t s, uint64_t k, uint64_t tail) {
    bool ok = k == KW_ADD ? s <= n : s < n && (k == KW_STRIKE || (k >= 1 && k < c)) && tail == 0;
    return ok && (p < s || (p == s && (q == KW_ADD || (q != KW_STRIKE && k != KW_ADD && k != KW_STRIKE && q < k))));
}

answer plain_file_check(const uint8_t *file, size_t len) {
    if (len < 32)
        return refused(12, 0);
    const uint8_t *end = file + len;
    uint64_t back = number_at(end - 32), m = number_at(end - 24), c = number_at(end - 16), n = number_at(end - 8);
    if (c < 1 || c > KW_MOST_COLUMNS || n > KW_MOST_ROWS || m > KW_MOST_ENTRIES)
        return refused(1, 0);
    if (back != 32 + 8 * m * (c + 2) || back > len || len - back > 256)
        return refused(12, 0);
    uint64_t p = 0, q = KW_ADD;
    size_t adds = 0, strikes = 0;
    const uint8_t *e = end - back;
    for (size_t i = 0; i < m; i++, e += 8 * (c + 2)) {
        uint64_t s = number_at(e), k = number_at(e + 8), tail = 0;
        if (k != KW_ADD)
            for (size_t j = 1; j < c; j++)
                tail |= number_at(e + 16 + 8 * j);
        if (!good(c, n, p, q, s, k, tail))
            return refused(2, i);
        adds += k == KW_ADD;
        strikes += k == KW_STRIKE;
        p = s;
        q = k;
    }
    if (n + adds > KW_MOST_ROWS + strikes)
        return refused(2, m);
    return done(m);
}

answer plain_load(const uint8_t *file, size_t len, uint64_t *layer, size_t layer_len) {
    answer a = plain_file_check(file, len);
    if (a.number != 0)
        return a;
    const uint8_t *end = file + len;
    size_t k = a.value * (number_at(end - 16) + 2);
    if (layer_len < k)
        return refused(11, 0);
    const uint8_t *e = end - 32 - 8 * k;
    for (size_t i = 0; i < k; i++)
        layer[i] = number_at(e + 8 * i);
    return a;
}

answer plain_save(size_t c, size_t n, size_t m, const uint64_t *layer, size_t layer_len, uint8_t *file, size_t len) {
    if (c < 1 || c > KW_MOST_COLUMNS || n > KW_MOST_ROWS || m > KW_MOST_ENTRIES || m * (c + 2) > layer_len)
        return refused(1, 0);
    uint64_t p = 0, q = KW_ADD;
    size_t adds = 0, strikes = 0;
    const uint64_t *e = layer;
    for (size_t i = 0; i < m; i++, e += c + 2) {
        uint64_t s = e[0], k = e[1], tail = 0;
        if (k != KW_ADD)
            for (size_t j = 1; j < c; j++)
                tail |= e[2 + j];
        if (!good(c, n, p, q, s, k, tail))
            return refused(2, i);
        adds += k == KW_ADD;
        strikes += k == KW_STRIKE;
        p = s;
        q = k;
    }
    if (n + adds > KW_MOST_ROWS + strikes)
        return refused(2, m);
    size_t k = m * (c + 2), bytes = 32 + 8 * k;
    if (len < bytes)
        return refused(11, 0);
    for (size_t i = 0; i < k; i++)
        put_number(file + 8 * i, layer[i]);
    put_number(file + 8 * k, bytes);
    put_number(file + 8 * k + 8, m);
    put_number(file + 8 * k + 16, c);
    put_number(file + 8 * k + 24, n);
    return done(bytes);
}
