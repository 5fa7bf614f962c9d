/* stack.c: how many bytes of stack each call of merotunki.h uses, its arguments and return address not counted.
 *
 * A thread runs on a stack that this program lends it. Before a call the free part is painted; after it the deepest
 * byte that lost its paint is found. The same is done with a function of the same arguments that does nothing, and the
 * difference is the call's own use, that of all it calls included. The most over all cases is printed: tables that
 * settle, stop, are quiet and are refused, 48 x 48 and others, with three limits and, by profile number, all four
 * profiles and two numbers that are none. What a call reserves and never writes is not seen. */
#include "merotunki.h"

#include <math.h>
#include <pthread.h>
#include <stdio.h>
#include <stdlib.h>
#include <string.h>

#define MOST MEROTUNKI_MOST
#define ENTRIES (MOST * MOST)
#define ROOM (1 << 18)    /* of the thread */
#define PAINTED (1 << 14) /* below the caller, more than any call uses */
#define PAINT 0xC3

#define SVD_LIST \
    merotunki_answer *answer, double *m, size_t ml, size_t r, size_t c, size_t limit, size_t credit, double t, \
        double a, double f
#define FULL_LIST \
    merotunki_answer *answer, double *m, size_t ml, double *u, size_t ul, double *v, size_t vl, size_t r, size_t c, \
        size_t limit, size_t credit, double t, double a, double f
#define ORDERED_LIST \
    merotunki_answer *answer, double *m, size_t ml, double *u, size_t ul, double *v, size_t vl, double *w, size_t wl, \
        size_t r, size_t c, size_t limit, size_t credit, double t, double a, double f
#define BY_SVD_LIST merotunki_answer *answer, double *m, size_t ml, size_t r, size_t c, size_t profile
#define BY_FULL_LIST \
    merotunki_answer *answer, double *m, size_t ml, double *u, size_t ul, double *v, size_t vl, size_t r, size_t c, \
        size_t profile
#define BY_ORDERED_LIST \
    merotunki_answer *answer, double *m, size_t ml, double *u, size_t ul, double *v, size_t vl, double *w, size_t wl, \
        size_t r, size_t c, size_t profile
#define ROW_LIST const double *u, size_t ul, const double *v, size_t vl, size_t r, size_t c, size_t side, size_t row

typedef struct calls {
    merotunki_answer *(*svd)(SVD_LIST);
    merotunki_answer *(*full)(FULL_LIST);
    merotunki_answer *(*ordered)(ORDERED_LIST);
    merotunki_answer *(*svd_by)(BY_SVD_LIST);
    merotunki_answer *(*full_by)(BY_FULL_LIST);
    merotunki_answer *(*ordered_by)(BY_ORDERED_LIST);
    merotunki_profile_answer *(*profile)(merotunki_profile_answer *told, size_t profile);
    uint64_t (*identity)(double *a, size_t al, size_t n);
    merotunki_part (*row)(ROW_LIST);
    double (*root)(double x);
    merotunki_choice *(*defaults)(merotunki_choice *choice);
    uint64_t (*layout)(void);
} calls;

#pragma GCC diagnostic ignored "-Wunused-parameter"
static merotunki_answer *no_svd(SVD_LIST) { return answer; }
static merotunki_answer *no_full(FULL_LIST) { return answer; }
static merotunki_answer *no_ordered(ORDERED_LIST) { return answer; }
static merotunki_answer *no_svd_by(BY_SVD_LIST) { return answer; }
static merotunki_answer *no_full_by(BY_FULL_LIST) { return answer; }
static merotunki_answer *no_ordered_by(BY_ORDERED_LIST) { return answer; }
static merotunki_profile_answer *no_profile(merotunki_profile_answer *told, size_t profile) { return told; }
static uint64_t no_identity(double *a, size_t al, size_t n) { return 0; }
static merotunki_part no_row(ROW_LIST) { return (merotunki_part){0, 0}; }
static double no_root(double x) { return x; }
static merotunki_choice *no_defaults(merotunki_choice *choice) { return choice; }
static uint64_t no_layout(void) { return 0; }
#pragma GCC diagnostic warning "-Wunused-parameter"

static const calls real = {
    merotunki_svd,         merotunki_full_svd,         merotunki_ordered_svd,
    merotunki_profile_svd, merotunki_profile_full_svd, merotunki_profile_ordered_svd,
    merotunki_profile,     merotunki_identity,         merotunki_row,
    merotunki_square_root, merotunki_defaults,         merotunki_layout};
static const calls none = {no_svd,     no_full,     no_ordered, no_svd_by, no_full_by,  no_ordered_by,
                           no_profile, no_identity, no_row,     no_root,   no_defaults, no_layout};
static const calls *volatile chosen; /* not known to the compiler, so that none of them is left out */

/* What the next call is made on. */
static size_t rows, columns, limit, number, picked;
static double matrix[ENTRIES], u[ENTRIES], v[ENTRIES], values[MOST], value;
static merotunki_answer answer;
static merotunki_choice choice;
static merotunki_profile_answer told;
static merotunki_part part;

static void svd(void) {
    chosen->svd(&answer, matrix, rows * columns, rows, columns, limit, 50, 1e-10, 1e-12, 1e-21);
}
static void full(void) {
    chosen->full(&answer, matrix, rows * columns, u, rows * rows, v, columns * columns, rows, columns, limit, 50, 1e-10,
                 1e-12, 1e-21);
}
static void ordered(void) {
    chosen->ordered(&answer, matrix, rows * columns, u, rows * rows, v, columns * columns, values,
                    rows < columns ? rows : columns, rows, columns, limit, 50, 1e-10, 1e-12, 1e-21);
}
static void svd_by(void) { chosen->svd_by(&answer, matrix, rows * columns, rows, columns, picked); }
static void full_by(void) {
    chosen->full_by(&answer, matrix, rows * columns, u, rows * rows, v, columns * columns, rows, columns, picked);
}
static void ordered_by(void) {
    chosen->ordered_by(&answer, matrix, rows * columns, u, rows * rows, v, columns * columns, values,
                       rows < columns ? rows : columns, rows, columns, picked);
}
static void profile(void) {
    told.number = 0;
    chosen->profile(&told, picked);
    number = told.number;
}
static void identity(void) { number = chosen->identity(u, rows * rows, rows); }
static void row(void) { part = chosen->row(u, rows * rows, v, columns * columns, rows, columns, limit % 3, rows - 1); }
static void root(void) { value = chosen->root(value); }
static void defaults(void) { chosen->defaults(&choice); }
static void layout(void) { number = chosen->layout(); }

static inline unsigned char *pointer(void) {
    unsigned char *here;
#if defined __x86_64__
    __asm__ volatile("mov %%rsp, %0" : "=r"(here));
#elif defined __aarch64__
    __asm__ volatile("mov %0, sp" : "=r"(here));
#else
#error "where the stack pointer is on this machine is not known here"
#endif
    return here;
}

/* How far below this function's frame the call reaches. */
static __attribute__((noinline)) size_t depth(void (*volatile call)(void), const calls *which) {
    chosen = which;
    unsigned char *top = pointer();
    for (volatile unsigned char *at = top - PAINTED; at < top; at++) *at = PAINT;
    call();
    volatile unsigned char *low = top - PAINTED;
    while (low < top && *low == PAINT) low++;
    return (size_t)(top - low);
}

/* The tables: 0 drawn, 1 zeros, 2 ones; and two that are refused: 3 drawn with a last reading that is none, 4 with none
 * at all. */
static void fill(int kind) {
    static uint64_t seed;
    for (size_t i = 0; i < rows * columns; i++) {
        seed = seed * 6364136223846793005u + 1442695040888963407u;
        matrix[i] = kind == 1 ? 0.0 : kind == 2 ? 1.0 : (double)(seed >> 11) / 562949953421312.0 - 8.0;
    }
    for (size_t i = 0; i < rows * columns; i++)
        if (kind == 4 || (kind == 3 && i + 1 == rows * columns)) matrix[i] = NAN;
    for (size_t i = 0; i < ENTRIES; i++) u[i] = v[i] = i % (MOST + 1) == 0 ? 1.0 : 0.0;
    value = kind == 1 ? 5e-324 : kind == 2 ? -1.0 : 2.0;
}

static void most(const char *name, void (*call)(void), int reports) {
    static const size_t shapes[][2] = {{48, 48}, {48, 47}, {47, 48}, {48, 1}, {1, 48}, {1, 1}, {2, 2}, {0, 3}};
    static const struct {
        size_t limit, profile;
    } ways[] = {{100, MEROTUNKI_VANE},       {1, MEROTUNKI_HOT_WIRE}, {100001, 0},
                {100, MEROTUNKI_ULTRASONIC}, {1, MEROTUNKI_SMOKE_TUBE}, {100001, SIZE_MAX}};
    size_t accepted = 0, refused = 0;
    for (size_t s = 0; s < sizeof shapes / sizeof *shapes; s++)
        for (size_t w = 0; w < sizeof ways / sizeof *ways; w++)
            for (int kind = 0; kind < 5; kind++) {
                rows = shapes[s][0], columns = shapes[s][1], limit = ways[w].limit, picked = ways[w].profile;
                fill(kind);
                size_t empty = depth(call, &none);
                fill(kind);
                number = 0, answer.number = 0;
                size_t used = depth(call, &real) - empty;
                size_t *kept = answer.number != 0 || number != 0 ? &refused : &accepted;
                if (used > *kept) *kept = used;
            }
    printf("%-30s %6zu", name, accepted);
    if (reports) printf("   refused %6zu", refused);
    printf("\n");
}

static void *measure(void *given) {
    most("merotunki_svd", svd, 1);
    most("merotunki_full_svd", full, 1);
    most("merotunki_ordered_svd", ordered, 1);
    most("merotunki_profile_svd", svd_by, 1);
    most("merotunki_profile_full_svd", full_by, 1);
    most("merotunki_profile_ordered_svd", ordered_by, 1);
    most("merotunki_profile", profile, 1);
    most("merotunki_identity", identity, 1);
    most("merotunki_row", row, 0);
    most("merotunki_square_root", root, 0);
    most("merotunki_defaults", defaults, 0);
    most("merotunki_layout", layout, 0);
    return given;
}

int main(void) {
    pthread_attr_t attributes;
    pthread_t thread;
    void *room;
    if (posix_memalign(&room, 4096, ROOM) != 0) return 1;
    if (pthread_attr_init(&attributes) != 0 || pthread_attr_setstack(&attributes, room, ROOM) != 0) return 1;
    if (pthread_create(&thread, &attributes, measure, NULL) != 0) return 1;
    return pthread_join(thread, NULL);
}
