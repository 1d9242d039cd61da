/* A strike, and a renumbering, that do what they should in a way that they should not, so that the count of stores and loads is seen
   to fail. The k changes of a base row, from entry number i on, become one strike. Answers the new m. */
#include "../../include/kwadirumpe.h"

static void move_by_one(size_t w, uint64_t *layer, size_t from, size_t end, int up) {
    volatile uint64_t *l = layer;
    if (up)
        for (size_t x = end; x > from; x--)
            l[x - 1 + w] = l[x - 1];
    else
        for (size_t x = from; x < end; x++)
            l[x - w] = l[x];
}

size_t control_strike(size_t way, size_t c, size_t m, uint64_t *layer, const uint64_t *keys, size_t i, size_t k) {
    size_t w = c + 2, end = m * w, to = (m + 1 - k) * w;
    uint64_t s = layer[i * w];
    volatile uint64_t *l = layer;
    if (way == 0) {
        /* the tail goes down entry by entry, and up again for the strike */
        for (size_t h = 0; h < k; h++, end -= w)
            move_by_one(w, layer, (i + 1) * w, end, 0);
        move_by_one(w, layer, i * w, end, 1);
    } else {
        /* in the place of one change (the last way) the tail is stored where it stays */
        for (size_t x = (i + k) * w; x < end; x++)
            l[x - (k - 1) * w] = l[x];
    }
    /* freed numbers that are zero already are left */
    for (size_t x = to; x < m * w; x++)
        if (way != 1 || l[x])
            l[x] = 0;
    l[i * w] = s;
    l[i * w + 1] = KW_STRIKE;
    l[i * w + 2] = keys[s];
    for (size_t j = 1; j < c; j++)
        l[i * w + 2 + j] = 0;
    /* a number in front of the strike is stored again */
    if (way == 2)
        l[i * w - 1] = l[i * w - 1];
    /* a number behind the layer is loaded, or stored again */
    if (way == 3)
        (void)l[m * w];
    if (way == 4)
        l[m * w] = l[m * w];
    return m + 1 - k;
}

/* A renumbering of a base row with one change, entry number i, to a greater number: its add comes before entry number t, at position p.
   The entries between the two stay where they are, and are stored again. Answers the new m. */
size_t control_renumber(size_t c, size_t m, uint64_t *layer, const uint64_t *keys, const uint64_t *row, size_t i, size_t t, size_t p) {
    size_t w = c + 2;
    uint64_t s = layer[i * w];
    volatile uint64_t *l = layer;
    move_by_one(w, layer, t * w, m * w, 1);
    for (size_t x = (i + 1) * w; x < t * w; x++)
        l[x] = l[x];
    l[i * w] = s;
    l[i * w + 1] = KW_STRIKE;
    l[i * w + 2] = keys[s];
    l[t * w] = p;
    l[t * w + 1] = KW_ADD;
    l[t * w + 2] = row[0];
    for (size_t j = 1; j < c; j++) {
        l[i * w + 2 + j] = 0;
        l[t * w + 2 + j] = row[j];
    }
    return m + 1;
}
