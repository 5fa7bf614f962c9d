/* x18.c: x18 belongs to the system on Android and iOS, and a caller with a shadow call stack keeps its stack there. A
 * value is put into it before each call of merotunki.h, on tables of many shapes, and must be there afterwards. This
 * program is itself compiled without x18. Prints `N checks passed`. */
#include "merotunki.h"

#include <stdio.h>

#define ENTRIES (MEROTUNKI_MOST * MEROTUNKI_MOST)

static double matrix[ENTRIES], u[ENTRIES], v[ENTRIES], values[MEROTUNKI_MOST];
static unsigned passed, failed;

#if !defined __aarch64__
#error "x18 is a register of 64-bit Arm"
#endif
static inline void put(uint64_t value) { __asm__ volatile("mov x18, %0" : : "r"(value) : "x18", "memory"); }
static inline uint64_t got(void) {
    uint64_t value;
    __asm__ volatile("mov %0, x18" : "=r"(value) : : "memory");
    return value;
}

/* What is kept in x18 around the call; the call is a whole statement. */
#define KEPT(call) \
    do { \
        put(UINT64_C(0x5AFE57AC5AFE57AC)); \
        call; \
        if (got() == UINT64_C(0x5AFE57AC5AFE57AC)) passed++; \
        else failed++, printf("x18 is lost: %s\n", #call); \
    } while (0)

static void drawn(size_t length) {
    static uint64_t seed;
    for (size_t i = 0; i < length; i++) {
        seed = seed * 6364136223846793005u + 1442695040888963407u;
        matrix[i] = (double)(seed >> 11) / 562949953421312.0 - 8.0;
    }
}

int main(void) {
    static const size_t shapes[][2] = {{48, 48}, {48, 3}, {3, 48}, {17, 16}, {2, 2}, {1, 1}, {1, 5}, {5, 1}, {49, 2}};
    merotunki_answer a;
    merotunki_choice c;
    merotunki_profile_answer told;
    volatile double root;
    volatile uint64_t number;
    KEPT(merotunki_defaults(&c));
    KEPT(number = merotunki_layout());
    for (size_t profile = 0; profile <= 5; profile++) KEPT(merotunki_profile(&told, profile));
    KEPT(root = merotunki_square_root(2.0));
    KEPT(root = merotunki_square_root(5e-324));
    for (size_t s = 0; s < sizeof shapes / sizeof *shapes; s++) {
        size_t r = shapes[s][0], n = shapes[s][1];
        drawn(r * n);
        KEPT(number = merotunki_identity(u, r * r, r));
        KEPT(number = merotunki_identity(v, n * n, n));
        KEPT(merotunki_full_svd(&a, matrix, r * n, u, r * r, v, n * n, r, n, 100, 50, 1e-10, 1e-12, 1e-21));
        KEPT(number = merotunki_row(u, r * r, v, n * n, r, n, MEROTUNKI_V, 0).length);
        drawn(r * n);
        KEPT(merotunki_ordered_svd(&a, matrix, r * n, u, r * r, v, n * n, values, r < n ? r : n, r, n, 100, 50, 1e-10,
                                   1e-12, 1e-21));
        drawn(r * n);
        KEPT(merotunki_svd(&a, matrix, r * n, r, n, 100, 50, 1e-10, 1e-12, 1e-21));
        for (size_t profile = 0; profile <= 5; profile++) { /* 0 and 5 are none */
            drawn(r * n);
            KEPT(merotunki_profile_full_svd(&a, matrix, r * n, u, r * r, v, n * n, r, n, profile));
            drawn(r * n);
            KEPT(merotunki_profile_ordered_svd(&a, matrix, r * n, u, r * r, v, n * n, values, r < n ? r : n, r, n,
                                               profile));
            drawn(r * n);
            KEPT(merotunki_profile_svd(&a, matrix, r * n, r, n, profile));
        }
    }
    (void)root, (void)number;
    if (failed) printf("%u checks FAILED\n", failed);
    printf("%u checks passed\n", passed);
    return failed != 0;
}
