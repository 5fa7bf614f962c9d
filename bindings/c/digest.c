/* digest.c: one number for what the plain and the accumulating call answer and leave on tables drawn by a fixed rule,
 * one for what the ordered call does on the same, and one for what the three calls by profile number do, so that two
 * builds of the library can be held side by side: where they print the same numbers, they gave the same bits, all NaNs
 * alike.
 *
 * Tables have every shape up to 48 x 48, small ones more often; readings are ordinary, tiny, huge, whole, zeros among
 * them, repeated rows, any bits, or infinities and NaNs among them; limits, credits and bounds are the defaults or
 * drawn, and some calls are unfit. The profiles go round from 0, which there is not, to 4. */
#include "merotunki.h"

#include <math.h>
#include <stdio.h>
#include <string.h>

#define TABLES 12000
#define MOST MEROTUNKI_MOST

static uint64_t state = 88172645463325252u;
static uint64_t drawn(void) {
    state ^= state << 13;
    state ^= state >> 7;
    state ^= state << 17;
    return state;
}
static size_t below(size_t n) { return (size_t)((drawn() >> 16) % n); }
static double ordinary(void) { return (double)(int64_t)(drawn() >> 12) / 2251799813685248.0 - 1.0; }

static double reading(size_t kind) {
    double x = ordinary();
    uint64_t bits = drawn();
    switch (kind) {
        case 0: return x * 1e-150;
        case 1: return x * 1e150;
        case 2: return (double)(int)(x * 5);
        case 3: return below(3) ? x : (below(2) ? 0.0 : -0.0);
        case 4: return memcpy(&x, &bits, sizeof x), x;
        case 5: return x * 1e-21;
        case 6: return below(30) ? x : below(2) ? NAN : x * INFINITY;
        default: return 3 + x;
    }
}

#define EMPTY 1469598103934665603u
static uint64_t two_calls = EMPTY, in_order = EMPTY, by_profile = EMPTY, *digest;
static void word(uint64_t w) {
    for (int i = 0; i < 8; i++, w >>= 8) *digest = (*digest ^ (w & 255)) * 1099511628211u;
}
static void list(const double *a, size_t n) {
    for (size_t i = 0; i < n; i++) {
        uint64_t bits = 0x7FF8000000000000u;
        if (a[i] == a[i]) memcpy(&bits, &a[i], sizeof bits);
        word(bits);
    }
}
static void told(const merotunki_answer *a) {
    word(a->number), word(a->row), word(a->column), word(a->bad);
    word(a->word), word(a->passes), word(a->sweeps), word(a->drops), word(a->range), word(a->rotations);
}

/* The three calls by profile number on copies of one table, U and V. */
static size_t by_number(const double *table, const double *from_u, const double *from_v, size_t rows, size_t cols,
                        size_t profile) {
    static double b[MOST * MOST], u[MOST * MOST], v[MOST * MOST], values[MOST];
    const size_t bl = rows * cols, ul = rows * rows, vl = cols * cols, wl = rows < cols ? rows : cols;
    size_t accepted = 0;
    merotunki_answer a;
    digest = &by_profile;
    memcpy(b, table, bl * sizeof *b);
    told(merotunki_profile_svd(&a, b, bl, rows, cols, profile)), list(b, bl);
    accepted += a.number == 0;
    memcpy(b, table, bl * sizeof *b), memcpy(u, from_u, ul * sizeof *u), memcpy(v, from_v, vl * sizeof *v);
    told(merotunki_profile_full_svd(&a, b, bl, u, ul, v, vl, rows, cols, profile));
    list(b, bl), list(u, ul), list(v, vl);
    accepted += a.number == 0;
    memcpy(b, table, bl * sizeof *b), memcpy(u, from_u, ul * sizeof *u), memcpy(v, from_v, vl * sizeof *v);
    for (size_t i = 0; i < wl; i++) values[i] = (double)i;
    told(merotunki_profile_ordered_svd(&a, b, bl, u, ul, v, vl, values, wl, rows, cols, profile));
    list(b, bl), list(u, ul), list(v, vl), list(values, wl);
    return accepted + (a.number == 0);
}

int main(void) {
    static double b[MOST * MOST], c[MOST * MOST], d[MOST * MOST], u[MOST * MOST], v[MOST * MOST];
    static double ordered_u[MOST * MOST], ordered_v[MOST * MOST], values[MOST];
    size_t accepted = 0, ordered = 0, by_profiles = 0;
    for (int k = 0; k < TABLES; k++) {
        size_t most = below(8) ? 12 : MOST, rows = 1 + below(most), cols = 1 + below(most), kind = below(10);
        size_t bl = rows * cols, ul = rows * rows, vl = cols * cols, wl = rows < cols ? rows : cols;
        merotunki_choice s;
        merotunki_defaults(&s);
        if (!below(2)) {
            s.limit = below(300), s.credit = below(60);
            s.tolerance = below(4) ? 1e-10 : 0.0, s.absolute = below(4) ? 1e-12 : 1e300;
            s.floor = below(4) ? 1e-21 : 2.2250738585072014e-308;
        }
        if (!below(40)) s.floor = -1.0;
        for (size_t i = 0; i < bl; i++) b[i] = reading(kind);
        if (kind == 7)
            for (size_t i = cols; i < bl; i++) b[i] = b[i - cols];
        memcpy(c, b, bl * sizeof *b);
        memcpy(d, b, bl * sizeof *b);
        merotunki_identity(u, ul, rows);
        merotunki_identity(v, vl, cols);
        if (!below(4))
            for (size_t i = 0; i < ul; i++) u[i] = ordinary();
        by_profiles += by_number(b, u, v, rows, cols, (size_t)k % 5);
        memcpy(ordered_u, u, ul * sizeof *u);
        memcpy(ordered_v, v, vl * sizeof *v);
        for (size_t i = 0; i < wl; i++) values[i] = (double)i;
        merotunki_answer full, plain, sorted;
        merotunki_full_svd(&full, b, bl, u, ul, v, vl, rows, cols, s.limit, s.credit, s.tolerance, s.absolute, s.floor);
        merotunki_svd(&plain, c, bl, rows, cols, s.limit, s.credit, s.tolerance, s.absolute, s.floor);
        merotunki_ordered_svd(&sorted, d, bl, ordered_u, ul, ordered_v, vl, values, wl - (k % 64 == 0), rows, cols,
                              s.limit, s.credit, s.tolerance, s.absolute, s.floor);
        digest = &two_calls;
        told(&full), list(b, bl), list(u, ul), list(v, vl);
        told(&plain), list(c, bl);
        digest = &in_order;
        told(&sorted), list(d, bl), list(ordered_u, ul), list(ordered_v, vl), list(values, wl);
        accepted += full.number == 0;
        ordered += sorted.number == 0;
    }
    printf("%d tables, %d accepted, digest %016llx; %d put in order, digest %016llx; ", TABLES, (int)accepted,
           (unsigned long long)two_calls, (int)ordered, (unsigned long long)in_order);
    printf("%d calls by profile number accepted, digest %016llx\n", (int)by_profiles, (unsigned long long)by_profile);
    return 0;
}
