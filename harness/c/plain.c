/* The same algorithms with the same checks in plain C, to measure beside the proved ones: what a careful C programmer would write. */
#include "../../include/kwadirumpe.h"
#include <stdbool.h>
#include <string.h>

typedef struct kw_answer answer;

static answer done(uint64_t value) { return (answer){0, value}; }
static answer refused(uint64_t number, uint64_t place) { return (answer){number, place}; }

static bool args_ok(size_t c, size_t n, size_t m, size_t len) {
    return c >= 1 && c <= KW_MOST_COLUMNS && n <= KW_MOST_ROWS && m <= KW_MOST_ENTRIES && m * (c + 2) <= len;
}

/* form: arguments and rules; the rows after the layer */
static answer check(size_t c, size_t n, size_t m, const uint64_t *layer, size_t len) {
    if (!args_ok(c, n, m, len))
        return refused(1, 0);
    uint64_t p = 0, q = KW_ADD;
    size_t adds = 0, strikes = 0;
    const uint64_t *e = layer;
    for (size_t i = 0; i < m; i++, e += c + 2) {
        uint64_t s = e[0], k = e[1];
        bool ok;
        if (k == KW_ADD) {
            ok = s <= n;
        } else {
            ok = s < n && (k == KW_STRIKE || (k >= 1 && k < c));
            for (size_t j = 1; j < c; j++)
                if (e[2 + j] != 0)
                    ok = false;
        }
        ok = ok && (p < s || (p == s && (q == KW_ADD || (q != KW_STRIKE && k != KW_ADD && k != KW_STRIKE && q < k))));
        if (!ok)
            return refused(2, i);
        adds += k == KW_ADD;
        strikes += k == KW_STRIKE;
        p = s;
        q = k;
    }
    if (n + adds > KW_MOST_ROWS + strikes)
        return refused(2, m);
    return done(n + adds - strikes);
}

/* a function of its own, so that its loop stands well in every call */
static __attribute__((noinline)) bool ascend(const uint64_t *keys, size_t n) {
    for (size_t i = 1; i < n; i++)
        if (keys[i - 1] >= keys[i])
            return false;
    return true;
}

static bool struck_later(size_t c, size_t m, size_t i, const uint64_t *layer) {
    uint64_t s = layer[i * (c + 2)];
    for (size_t h = i; h < m && layer[h * (c + 2)] == s; h++)
        if (layer[h * (c + 2) + 1] == KW_STRIKE)
            return true;
    return false;
}

/* fit: the least entry at fault, or m */
static size_t fit_place(size_t c, size_t m, const uint64_t *layer, const uint64_t *keys, size_t n) {
    uint64_t last = 0, before = 0;
    bool any = false;
    const uint64_t *e = layer;
    for (size_t i = 0; i < m; i++, e += c + 2) {
        uint64_t s = e[0], k = e[2];
        if (e[1] == KW_STRIKE) {
            if (keys[s] != k)
                return i;
        } else if (e[1] == KW_ADD) {
            if (s > 0 && keys[s - 1] >= k)
                return i;
            if (s < n && (k > keys[s] || (k == keys[s] && !struck_later(c, m, i, layer))))
                return i;
            if (any && before == s && last >= k)
                return i;
            any = true;
            before = s;
            last = k;
        }
    }
    return m;
}

static answer check_fit(size_t c, size_t m, const uint64_t *layer, size_t len, const uint64_t *keys, size_t n) {
    answer a = check(c, n, m, layer, len);
    if (a.number)
        return a;
    if (!ascend(keys, n))
        return refused(3, 0);
    size_t p = fit_place(c, m, layer, keys, n);
    return p < m ? refused(4, p) : a;
}

answer plain_fit(size_t c, size_t m, const uint64_t *layer, size_t len, const uint64_t *keys, size_t n) {
    answer a = check_fit(c, m, layer, len, keys, n);
    return a.number ? a : done(0);
}

static size_t read_part(size_t c, size_t m, const uint64_t *layer, const uint64_t *base, size_t n, size_t j, uint64_t *out) {
    size_t s = 0, o = 0;
    const uint64_t *e = layer;
    for (size_t i = 0; i < m; i++, e += c + 2) {
        size_t p = e[0];
        if (e[1] == KW_ADD) {
            memcpy(out + o, base + s, (p - s) * 8);
            o += p - s;
            out[o++] = e[2 + j];
            s = p;
        } else if (e[1] == KW_STRIKE) {
            memcpy(out + o, base + s, (p - s) * 8);
            o += p - s;
            s = p + 1;
        } else if (e[1] == j) {
            memcpy(out + o, base + s, (p - s) * 8);
            o += p - s;
            out[o++] = e[2];
            s = p + 1;
        }
    }
    memcpy(out + o, base + s, (n - s) * 8);
    return o + n - s;
}

answer plain_read(size_t c, size_t m, const uint64_t *layer, size_t len, const uint64_t *base, size_t n, size_t j, uint64_t *out,
                  size_t out_len) {
    if (j >= c)
        return refused(1, 0);
    answer a = check(c, n, m, layer, len);
    if (a.number)
        return a;
    if (out_len < a.value)
        return refused(11, 0);
    return done(read_part(c, m, layer, base, n, j, out));
}

static bool touched(size_t c, size_t m, const uint64_t *layer, size_t j) {
    const uint64_t *e = layer;
    for (size_t i = 0; i < m; i++, e += c + 2)
        if (e[1] == KW_ADD || e[1] == KW_STRIKE || e[1] == j)
            return true;
    return false;
}

answer plain_view(size_t c, size_t m, const uint64_t *layer, size_t len, const uint64_t *base, size_t n, size_t j,
                  const uint64_t *out, size_t out_len) {
    (void)base;
    (void)out;
    if (j >= c)
        return done(0);
    answer a = check(c, n, m, layer, len);
    if (a.number || out_len < a.value)
        return done(0);
    return touched(c, m, layer, j) ? (answer){1, a.value} : done(n);
}

/* a merge by key, as the paper of 2010 compares with: added rows and struck keys, each ascending, against the key column */
size_t plain_by_key(const uint64_t *keys, const uint64_t *base, size_t n, const uint64_t *added, const uint64_t *value, size_t na,
                    const uint64_t *gone, size_t ng, uint64_t *out) {
    size_t a = 0, g = 0, o = 0;
    for (size_t s = 0; s < n; s++) {
        uint64_t k = keys[s];
        while (a < na && added[a] < k)
            out[o++] = value[a++];
        if (g < ng && gone[g] == k) {
            g++;
            continue;
        }
        out[o++] = base[s];
    }
    while (a < na)
        out[o++] = value[a++];
    return o;
}

struct kw_shift plain_shift_at(size_t c, size_t n, size_t m, const uint64_t *layer, size_t len, size_t s) {
    if (s > n)
        return (struct kw_shift){1, 0};
    answer a = check(c, n, m, layer, len);
    if (a.number)
        return (struct kw_shift){a.number, (int64_t)a.value};
    int64_t d = 0;
    const uint64_t *e = layer;
    for (size_t i = 0; i < m && e[0] <= s; i++, e += c + 2) {
        d += e[1] == KW_ADD;
        d -= e[1] == KW_STRIKE && e[0] < s;
    }
    return (struct kw_shift){0, d};
}

answer plain_row(size_t c, size_t n, size_t m, const uint64_t *layer, size_t len, size_t s) {
    struct kw_shift d = plain_shift_at(c, n, m, layer, len, s);
    return d.number ? refused(d.number, (uint64_t)d.value) : done(s + (uint64_t)d.value);
}

/* what row r is: the entry number where it stands or would be entered, and the base row, or the added entry */
struct origin {
    bool added;
    size_t at; /* base row, or entry number */
};

static struct origin origin_of(size_t c, size_t m, const uint64_t *layer, size_t r) {
    size_t adds = 0, strikes = 0;
    const uint64_t *e = layer;
    for (size_t i = 0; i < m; i++, e += c + 2) {
        size_t row = e[0] + adds - strikes;
        if (r < row)
            break;
        if (e[1] == KW_ADD) {
            if (r == row)
                return (struct origin){true, i};
            adds++;
        } else if (e[1] == KW_STRIKE) {
            strikes++;
        }
    }
    return (struct origin){false, r + strikes - adds};
}

answer plain_back(size_t c, size_t n, size_t m, const uint64_t *layer, size_t len, size_t r) {
    answer a = check(c, n, m, layer, len);
    if (a.number)
        return a;
    if (r >= a.value)
        return refused(5, 0);
    struct origin o = origin_of(c, m, layer, r);
    return done(o.added ? KW_ADDED + o.at : o.at);
}

static size_t room(size_t c, size_t len) {
    size_t k = len / (c + 2);
    return k < KW_MOST_ENTRIES ? k : KW_MOST_ENTRIES;
}

/* k entries from number i on are replaced by one, or by none; freed entries become zero */
static void splice(size_t c, size_t m, uint64_t *layer, size_t i, size_t k, size_t one) {
    size_t w = c + 2;
    if (one != k)
        memmove(layer + (i + one) * w, layer + (i + k) * w, (m - i - k) * w * 8);
    if (one < k)
        memset(layer + (m + one - k) * w, 0, (k - one) * w * 8);
}

answer plain_add(size_t c, size_t m, uint64_t *layer, size_t len, const uint64_t *keys, size_t n, const uint64_t *row, size_t row_len) {
    if (row_len != c)
        return refused(1, 0);
    answer a = check_fit(c, m, layer, len, keys, n);
    if (a.number)
        return a;
    uint64_t k = row[0];
    size_t lo = 0, hi = n;
    while (lo < hi) {
        size_t mid = (lo + hi) / 2;
        if (keys[mid] < k)
            lo = mid + 1;
        else
            hi = mid;
    }
    size_t s = lo, i = 0, w = c + 2;
    while (i < m && (layer[i * w] < s || (layer[i * w] == s && layer[i * w + 1] == KW_ADD && layer[i * w + 2] < k)))
        i++;
    if (i < m && layer[i * w] == s && layer[i * w + 1] == KW_ADD && layer[i * w + 2] == k)
        return refused(7, 0);
    if (s < n && keys[s] == k && !(i < m && struck_later(c, m, i, layer) && layer[i * w] == s))
        return refused(7, 0);
    if (m + 1 > room(c, len))
        return refused(9, 0);
    if (a.value + 1 > KW_MOST_ROWS)
        return refused(10, 0);
    splice(c, m, layer, i, 0, 1);
    layer[i * w] = s;
    layer[i * w + 1] = KW_ADD;
    memcpy(layer + i * w + 2, row, c * 8);
    return done(m + 1);
}

static void write_one(size_t c, uint64_t *e, uint64_t s, uint64_t kind, uint64_t v) {
    e[0] = s;
    e[1] = kind;
    e[2] = v;
    for (size_t j = 1; j < c; j++)
        e[2 + j] = 0;
}

answer plain_strike(size_t c, size_t m, uint64_t *layer, size_t len, const uint64_t *keys, size_t n, size_t r) {
    answer a = check_fit(c, m, layer, len, keys, n);
    if (a.number)
        return a;
    if (r >= a.value)
        return refused(5, 0);
    struct origin o = origin_of(c, m, layer, r);
    if (o.added) {
        if (m - 1 > room(c, len))
            return refused(9, 0);
        splice(c, m, layer, o.at, 1, 0);
        return done(m - 1);
    }
    size_t i = 0, w = c + 2, k = 0;
    while (i < m && (layer[i * w] < o.at || (layer[i * w] == o.at && layer[i * w + 1] == KW_ADD)))
        i++;
    while (i + k < m && layer[(i + k) * w] == o.at)
        k++;
    if (m + 1 - k > room(c, len))
        return refused(9, 0);
    splice(c, m, layer, i, k, 1);
    write_one(c, layer + i * w, o.at, KW_STRIKE, keys[o.at]);
    return done(m + 1 - k);
}

answer plain_change(size_t c, size_t m, uint64_t *layer, size_t len, const uint64_t *keys, size_t n, size_t r, size_t j, uint64_t v) {
    if (j >= c)
        return refused(1, 0);
    answer a = check_fit(c, m, layer, len, keys, n);
    if (a.number)
        return a;
    if (r >= a.value)
        return refused(5, 0);
    if (j == 0)
        return refused(6, 0);
    size_t w = c + 2;
    struct origin o = origin_of(c, m, layer, r);
    if (o.added) {
        if (m > room(c, len))
            return refused(9, 0);
        layer[o.at * w + 2 + j] = v;
        return done(m);
    }
    size_t i = 0;
    while (i < m && (layer[i * w] < o.at || (layer[i * w] == o.at && (layer[i * w + 1] == KW_ADD || layer[i * w + 1] < j))))
        i++;
    size_t k = i < m && layer[i * w] == o.at && layer[i * w + 1] == j;
    if (m + 1 - k > room(c, len))
        return refused(9, 0);
    splice(c, m, layer, i, k, 1);
    write_one(c, layer + i * w, o.at, j, v);
    return done(m + 1 - k);
}

/* n entries from number i on are moved by d places */
static void shift(size_t w, uint64_t *layer, size_t i, size_t n, ptrdiff_t d) {
    if (d)
        memmove(layer + (i + d) * w, layer + i * w, n * w * 8);
}

answer plain_renumber(size_t c, size_t n, size_t m, uint64_t *layer, size_t len, const uint64_t *table, size_t table_len, size_t r,
                      uint64_t g) {
    if (!args_ok(c, n, m, len) || table_len < c * n)
        return refused(1, 0);
    const uint64_t *keys = table;
    answer a = check_fit(c, m, layer, len, keys, n);
    if (a.number)
        return a;
    if (r >= a.value)
        return refused(5, 0);

    /* the row as it is shown, and its entries: gone of them from number i on, and a strike in their place where it is a base row */
    struct origin o = origin_of(c, m, layer, r);
    uint64_t row[KW_MOST_COLUMNS];
    size_t w = c + 2, i = 0, gone = 1, strike = 0;
    if (o.added) {
        i = o.at;
        memcpy(row, layer + i * w + 2, c * 8);
    } else {
        strike = 1;
        for (size_t j = 0; j < c; j++)
            row[j] = table[j * n + o.at];
        while (i < m && (layer[i * w] < o.at || (layer[i * w] == o.at && layer[i * w + 1] == KW_ADD)))
            i++;
        for (gone = 0; i + gone < m && layer[(i + gone) * w] == o.at; gone++)
            row[layer[(i + gone) * w + 1]] = layer[(i + gone) * w + 2];
    }
    uint64_t own = row[0];
    if (g == own)
        return done(m);
    row[0] = g;

    /* where it comes again: at base position s, as entry number t of the layer as it stands */
    size_t lo = 0, hi = n;
    while (lo < hi) {
        size_t mid = (lo + hi) / 2;
        if (keys[mid] < g)
            lo = mid + 1;
        else
            hi = mid;
    }
    size_t s = lo, t = g < own ? 0 : i + gone;
    while (t < m && (layer[t * w] < s || (layer[t * w] == s && layer[t * w + 1] == KW_ADD && layer[t * w + 2] < g)))
        t++;
    if (t < m && layer[t * w] == s && layer[t * w + 1] == KW_ADD && layer[t * w + 2] == g)
        return refused(7, 0);
    if (s < n && keys[s] == g && !(t < m && struck_later(c, m, t, layer) && layer[t * w] == s))
        return refused(7, 0);
    size_t k = m + 1 + strike - gone;
    if (k > room(c, len))
        return refused(9, 0);

    /* the entries between the two places, and those behind both */
    ptrdiff_t behind = (ptrdiff_t)(1 + strike) - (ptrdiff_t)gone;
    size_t from = g < own ? t : i + gone, to = g < own ? i : t, rest = g < own ? i + gone : t;
    ptrdiff_t between = g < own ? 1 : behind - 1;
    if (behind > 0)
        shift(w, layer, rest, m - rest, behind);
    shift(w, layer, from, to - from, between);
    if (behind < 0)
        shift(w, layer, rest, m - rest, behind);
    if (k < m)
        memset(layer + k * w, 0, (m - k) * w * 8);
    if (strike)
        write_one(c, layer + (g < own ? i + 1 : i) * w, o.at, KW_STRIKE, own);
    uint64_t *e = layer + (g < own ? t : t + strike - gone) * w;
    e[0] = s;
    e[1] = KW_ADD;
    memcpy(e + 2, row, c * 8);
    return done(k);
}

/* the entry d stands before e */
static bool before(const uint64_t *d, const uint64_t *e) {
    if (d[0] != e[0])
        return d[0] < e[0];
    if (d[1] == KW_ADD)
        return e[1] != KW_ADD || d[2] < e[2];
    return d[1] != KW_STRIKE && e[1] != KW_ADD && e[1] != KW_STRIKE && d[1] < e[1];
}

static bool clash(const uint64_t *d, const uint64_t *e) {
    if (d[1] == KW_ADD || e[1] == KW_ADD)
        return d[1] == e[1] && d[2] == e[2];
    return d[0] == e[0] && (d[1] == KW_STRIKE || e[1] == KW_STRIKE || (d[1] == e[1] && d[2] != e[2]));
}

answer plain_move(size_t c, const uint64_t *keys, size_t n, size_t mx, uint64_t *x, size_t x_len, size_t my, const uint64_t *y,
                  size_t y_len) {
    if (!args_ok(c, n, mx, x_len) || !args_ok(c, n, my, y_len))
        return refused(1, 0);
    answer a = check(c, n, mx, x, x_len);
    if (a.number)
        return a;
    answer b = check(c, n, my, y, y_len);
    if (b.number)
        return refused(b.number, b.value + 1000);
    if (!ascend(keys, n))
        return refused(3, 0);
    size_t p = fit_place(c, mx, x, keys, n);
    if (p < mx)
        return refused(4, p);
    p = fit_place(c, my, y, keys, n);
    if (p < my)
        return refused(4, p + 1000);
    size_t w = c + 2, h = 0, adds = 0, strikes = 0;
    uint64_t to[KW_MOST_ENTRIES];
    for (size_t i = 0; i < mx; i++) {
        while (h < my && before(y + h * w, x + i * w)) {
            adds += y[h * w + 1] == KW_ADD;
            strikes += y[h * w + 1] == KW_STRIKE;
            h++;
        }
        if (h < my && clash(y + h * w, x + i * w))
            return refused(8, i);
        to[i] = x[i * w] + adds - strikes;
    }
    if (a.value + b.value > KW_MOST_ROWS + n)
        return refused(10, 0);
    for (size_t i = 0; i < mx; i++)
        x[i * w] = to[i];
    return done(mx);
}

/* A place in the lower layer on the way to a row of what it leaves: were there no entries but those from number i on, the row would be
   base row t. */
struct mark {
    size_t i, row, t;
};

/* the mark of a row, which does not lie before the mark's own */
static struct mark seek(size_t c, size_t m, const uint64_t *r, struct mark k, size_t row) {
    k.t += row - k.row;
    k.row = row;
    for (const uint64_t *e = r + k.i * (c + 2); k.i < m; k.i++, e += c + 2) {
        if (e[1] == KW_ADD) {
            if (k.t <= e[0])
                break;
            k.t--;
        } else if (e[1] == KW_STRIKE) {
            if (k.t < e[0])
                break;
            k.t++;
        }
    }
    return k;
}

static uint64_t key_there(size_t c, size_t m, const uint64_t *r, const uint64_t *keys, size_t n, struct mark k) {
    const uint64_t *e = r + k.i * (c + 2);
    if (k.i < m && e[1] == KW_ADD && e[0] == k.t)
        return e[2];
    return k.t < n ? keys[k.t] : 0;
}

/* fit of the upper layer to the keys that the lower leaves: the least entry at fault, or m; and the key that each entry concerns */
static size_t fit_over(size_t c, const uint64_t *keys, size_t n, size_t mr, const uint64_t *r, size_t rows, size_t mw, const uint64_t *w,
                       uint64_t *names) {
    struct mark low = {0, 0, 0}, here = {0, 0, 0};
    uint64_t last = 0, before = 0;
    bool any = false;
    const uint64_t *f = w;
    for (size_t j = 0; j < mw; j++, f += c + 2) {
        uint64_t s = f[0], k = f[2];
        here = seek(c, mr, r, here, s);
        uint64_t next = key_there(c, mr, r, keys, n, here);
        names[j] = k;
        if (f[1] == KW_STRIKE) {
            if (next != k)
                return j;
        } else if (f[1] == KW_ADD) {
            if (s > 0) {
                low = seek(c, mr, r, low, s - 1);
                if (key_there(c, mr, r, keys, n, low) >= k)
                    return j;
            }
            if (s < rows && (k > next || (k == next && !struck_later(c, mw, j, w))))
                return j;
            if (any && before == s && last >= k)
                return j;
            any = true;
            before = s;
            last = k;
        } else {
            names[j] = next;
        }
    }
    return mw;
}

static inline void put(size_t wd, uint64_t *to, const uint64_t *e, uint64_t position) {
    for (size_t k = 1; k < wd; k++)
        to[k] = e[k];
    to[0] = position;
}

/* One walk along both layers by key: the entries into `to`, or only counted. */
static inline __attribute__((always_inline)) size_t walk(bool write, size_t c, const uint64_t *keys, const uint64_t *names, size_t mr,
                                                         const uint64_t *r, size_t mw, const uint64_t *w, uint64_t *to) {
    size_t wd = c + 2, i = 0, j = 0, o = 0, adds = 0, strikes = 0;
    while (i < mr || j < mw) {
        const uint64_t *e = r + i * wd, *f = w + j * wd;
        uint64_t ke = i < mr ? (e[1] == KW_ADD || e[1] == KW_STRIKE ? e[2] : keys[e[0]]) : 0, kf = j < mw ? names[j] : 0;
        if (j == mw || (i < mr && ke < kf)) {
            if (write)
                put(wd, to + o * wd, e, e[0]);
            o++;
            adds += e[1] == KW_ADD;
            strikes += e[1] == KW_STRIKE;
            i++;
        } else if (i == mr || kf < ke) {
            if (write)
                put(wd, to + o * wd, f, f[0] + strikes - adds);
            o++;
            j++;
        } else if (e[1] == KW_ADD) {
            adds++;
            i++;
            if (f[1] == KW_STRIKE) {
                j++;
            } else if (f[1] == KW_ADD) {
                if (write)
                    put(wd, to + o * wd, f, e[0]);
                o++;
                j += 2;
            } else {
                if (write)
                    put(wd, to + o * wd, e, e[0]);
                uint64_t p = f[0];
                while (j < mw && w[j * wd] == p) {
                    if (write)
                        to[o * wd + 2 + w[j * wd + 1]] = w[j * wd + 2];
                    j++;
                }
                o++;
            }
        } else if (f[1] == KW_ADD) {
            if (write)
                put(wd, to + o * wd, f, e[0]);
            o++;
            j++;
        } else if (f[1] == KW_STRIKE) {
            uint64_t s = e[0];
            while (i < mr && r[i * wd] == s)
                i++;
            if (write)
                put(wd, to + o * wd, f, s);
            o++;
            j++;
        } else if (e[1] < f[1]) {
            if (write)
                put(wd, to + o * wd, e, e[0]);
            o++;
            i++;
        } else {
            i += e[1] == f[1];
            if (write)
                put(wd, to + o * wd, f, e[0]);
            o++;
            j++;
        }
    }
    return o;
}

answer plain_combine(size_t c, const uint64_t *keys, size_t n, size_t mr, const uint64_t *r, size_t r_len, size_t mw,
                     const uint64_t *w, size_t w_len, uint64_t *out, size_t out_len) {
    if (!args_ok(c, n, mr, r_len) || !args_ok(c, n, mw, w_len))
        return refused(1, 0);
    answer a = check(c, n, mr, r, r_len);
    if (a.number)
        return a;
    answer b = check(c, a.value, mw, w, w_len);
    if (b.number)
        return refused(b.number, b.value + 1000);
    if (!ascend(keys, n))
        return refused(3, 0);
    size_t p = fit_place(c, mr, r, keys, n);
    if (p < mr)
        return refused(4, p);
    uint64_t names[KW_MOST_ENTRIES];
    p = fit_over(c, keys, n, mr, r, a.value, mw, w, names);
    if (p < mw)
        return refused(4, p + 1000);
    size_t most = room(c, out_len);
    if (mr + mw > most && walk(false, c, keys, names, mr, r, mw, w, out) > most)
        return refused(9, 0);
    return done(walk(true, c, keys, names, mr, r, mw, w, out));
}
