/* test.c: calls every function that merotunki.h declares, refusals too, and compares what comes back with known
 * answers. Prints each check that fails with its line, then `N checks passed`; status 1 where one failed. */
#include "merotunki.h"

#include <float.h>
#include <math.h>
#include <pthread.h>
#include <stdio.h>
#include <string.h>

#define MOST MEROTUNKI_MOST
#define ENTRIES (MOST * MOST)
#define LONG (ENTRIES + 2 * MOST + 2) /* one entry more than a table of 49 x 49 */

static unsigned passed, failed;

static void check(int good, int line, const char *what) {
    if (good) {
        passed++;
    } else {
        failed++;
        printf("line %d: %s does not hold\n", line, what);
    }
}
#define CHECK(what) check((what) != 0, __LINE__, #what)

static uint64_t bits(double x) {
    uint64_t pattern;
    memcpy(&pattern, &x, sizeof pattern);
    return pattern;
}

static double of_bits(uint64_t pattern) {
    double x;
    memcpy(&x, &pattern, sizeof x);
    return x;
}

/* The same numbers each time, between -8 and 8. */
static uint64_t seed;
static double drawn(void) {
    seed = seed * 6364136223846793005u + 1442695040888963407u;
    return (double)(seed >> 11) / 562949953421312.0 - 8.0;
}
static void draw(double *a, size_t length) {
    for (size_t i = 0; i < length; i++) a[i] = drawn();
}

/* A call and all that it is lent. */
typedef struct job {
    size_t rows, columns, matrix_length, u_length, v_length, values_length, limit, credit, profile;
    double tolerance, absolute, floor;
    double matrix[LONG], u[LONG], v[LONG], values[MOST + 2];
    merotunki_answer answer;
} job;

static void prepare(job *j, size_t rows, size_t columns) {
    merotunki_choice choice;
    merotunki_defaults(&choice);
    j->rows = rows, j->columns = columns;
    j->matrix_length = rows * columns, j->u_length = rows * rows, j->v_length = columns * columns;
    j->values_length = rows < columns ? rows : columns;
    j->limit = choice.limit, j->credit = choice.credit, j->profile = MEROTUNKI_VANE;
    j->tolerance = choice.tolerance, j->absolute = choice.absolute, j->floor = choice.floor;
    draw(j->matrix, LONG);
    draw(j->values, MOST + 2);
    merotunki_identity(j->u, rows * rows, rows);
    merotunki_identity(j->v, columns * columns, columns);
    memset(&j->answer, 0xAA, sizeof j->answer);
}

static void set(job *j, const double *entries) { memcpy(j->matrix, entries, j->matrix_length * sizeof(double)); }

static merotunki_answer *plain(job *j) {
    return merotunki_svd(&j->answer, j->matrix, j->matrix_length, j->rows, j->columns, j->limit, j->credit,
                         j->tolerance, j->absolute, j->floor);
}

static merotunki_answer *full(job *j) {
    return merotunki_full_svd(&j->answer, j->matrix, j->matrix_length, j->u, j->u_length, j->v, j->v_length, j->rows,
                              j->columns, j->limit, j->credit, j->tolerance, j->absolute, j->floor);
}

static merotunki_answer *ordered(job *j) {
    return merotunki_ordered_svd(&j->answer, j->matrix, j->matrix_length, j->u, j->u_length, j->v, j->v_length,
                                 j->values, j->values_length, j->rows, j->columns, j->limit, j->credit, j->tolerance,
                                 j->absolute, j->floor);
}

/* The same by profile number: the settings of the job are not handed in. */
static merotunki_answer *plain_by(job *j) {
    return merotunki_profile_svd(&j->answer, j->matrix, j->matrix_length, j->rows, j->columns, j->profile);
}

static merotunki_answer *full_by(job *j) {
    return merotunki_profile_full_svd(&j->answer, j->matrix, j->matrix_length, j->u, j->u_length, j->v, j->v_length,
                                      j->rows, j->columns, j->profile);
}

static merotunki_answer *ordered_by(job *j) {
    return merotunki_profile_ordered_svd(&j->answer, j->matrix, j->matrix_length, j->u, j->u_length, j->v,
                                         j->v_length, j->values, j->values_length, j->rows, j->columns, j->profile);
}

static int answered(const job *j, uint64_t word, uint64_t passes, uint64_t sweeps, uint64_t drops, uint64_t range,
                    uint64_t rotations) {
    merotunki_answer a = {.word = word, .passes = passes, .sweeps = sweeps, .drops = drops, .range = range};
    a.rotations = rotations;
    return memcmp(&a, &j->answer, sizeof a) == 0;
}

static int same(const double *a, const double *b, size_t length) { return memcmp(a, b, length * sizeof *a) == 0; }

/* Equal as numbers: 0 is -0. */
static int equal(const double *a, const double *b, size_t length) {
    for (size_t i = 0; i < length; i++)
        if (a[i] != b[i]) return 0;
    return 1;
}

/* The same bits, or two NaNs. */
static int alike(double a, double b) { return bits(a) == bits(b) || (isnan(a) && isnan(b)); }
static int all_alike(const double *a, const double *b, size_t length) {
    for (size_t i = 0; i < length; i++)
        if (!alike(a[i], b[i])) return 0;
    return 1;
}

/* The call refuses by that number with that row, column and count of bad readings, all else in its answer is 0, and
 * nothing that it was lent changes. */
static job now, before;
static int refused(merotunki_answer *(*call)(job *), uint64_t number, uint64_t row, uint64_t column, uint64_t bad) {
    merotunki_answer wanted = {.number = number, .row = row, .column = column, .bad = bad};
    for (size_t i = 0; i < LONG; i++) { /* U, V and the list are never examined: no numbers at all */
        now.u[i] = of_bits(UINT64_C(0x7FF8000000000000) + i);
        now.v[i] = of_bits(UINT64_C(0xFFF0000000000001) + i);
    }
    for (size_t i = 0; i < MOST + 2; i++) now.values[i] = of_bits(UINT64_C(0x7FF4000000000000) + i);
    memset(&now.answer, 0xAA, sizeof now.answer);
    before = now;
    before.answer = wanted;
    return call(&now) == &now.answer && memcmp(&now, &before, sizeof now) == 0;
}

/* Makes `now` unfit for the number n and for no other. */
static void unfit(unsigned n) {
    switch (n) {
    case 1: now.columns = 0; break;
    case 2: now.rows = 49; break;
    case 3: now.matrix_length -= 1; break;
    case 4: now.u_length += 1; break;
    case 5: now.v_length -= 1; break;
    case 6: now.limit = MEROTUNKI_MOST_LIMIT + 1; break;
    case 7: now.floor = 0.0; break;
    case 8: now.matrix[5] = -INFINITY, now.matrix[7] = NAN; break;
    case 10: now.profile = MEROTUNKI_SMOKE_TUBE + 1; break;
    case 11: now.values_length -= 1; break;
    }
}

/* Which calls have which numbers: by settings 6 and 7, by profile number 10 in their place; the list's is the ordered
 * calls' alone, and the plain ones have no U and V. */
static int by_settings(unsigned number) { return number != 10; }
static int by_profile(unsigned number) { return number != 6 && number != 7; }
static int in_full(unsigned number) { return number != 11; }
static int in_plain(unsigned number) { return number != 11 && number != 4 && number != 5; }

/* A 4 x 3 job, changed so, is refused so by each call that has the number. */
#define REFUSED_IN(has, number, row, column, bad, ordered, full, plain)                                  \
    do {                                                                                                 \
        if (has(number)) CHECK(refused(ordered, number, row, column, bad));                              \
        if (has(number) && in_full(number)) CHECK(refused(full, number, row, column, bad));              \
        if (has(number) && in_plain(number)) CHECK(refused(plain, number, row, column, bad));            \
    } while (0)
#define REFUSED_AT(number, row, column, bad, change)                                                     \
    do {                                                                                                 \
        prepare(&now, 4, 3);                                                                             \
        change;                                                                                          \
        REFUSED_IN(by_settings, number, row, column, bad, ordered, full, plain);                         \
        REFUSED_IN(by_profile, number, row, column, bad, ordered_by, full_by, plain_by);                 \
    } while (0)
#define REFUSED(number, change) REFUSED_AT(number, 0, 0, 0, change)
#define BAD(row, column, bad, change) REFUSED_AT(8, row, column, bad, change)

static void refusals(void) {
    REFUSED(1, now.rows = 0);
    REFUSED(1, now.columns = 0);
    REFUSED(1, now.rows = 0; now.matrix_length = 0; now.u_length = 0);
    REFUSED(1, now.rows = 49; now.columns = 0);
    REFUSED(2, prepare(&now, 49, 3));
    REFUSED(2, prepare(&now, 3, 49));
    REFUSED(2, now.rows = SIZE_MAX);
    REFUSED(2, now.rows = (size_t)1 << 32; now.columns = (size_t)1 << 32; now.matrix_length = 0);
    REFUSED(3, now.matrix_length = 11);
    REFUSED(3, now.matrix_length = 13);
    REFUSED(3, now.matrix_length = 0);
    REFUSED(4, now.u_length = 15);
    REFUSED(4, now.u_length = 17);
    REFUSED(4, now.u_length = 9; now.v_length = 16);
    REFUSED(5, now.v_length = 8);
    REFUSED(5, now.v_length = 10);
    REFUSED(11, now.values_length = 2);
    REFUSED(11, now.values_length = 4);
    REFUSED(11, now.values_length = 0);
    REFUSED(11, now.values_length = MOST + 2);
    REFUSED(11, prepare(&now, 3, 4); now.values_length = 4);
    REFUSED(6, now.limit = 100001);
    REFUSED(6, now.limit = SIZE_MAX);
    REFUSED(6, now.credit = 1001);
    REFUSED(6, now.credit = SIZE_MAX);
    REFUSED(7, now.tolerance = -5e-324);
    REFUSED(7, now.tolerance = INFINITY);
    REFUSED(7, now.tolerance = NAN);
    REFUSED(7, now.absolute = -1.0);
    REFUSED(7, now.absolute = INFINITY);
    REFUSED(7, now.absolute = NAN);
    REFUSED(7, now.floor = 0.0);
    REFUSED(7, now.floor = -0.0);
    REFUSED(7, now.floor = -1.0);
    REFUSED(7, now.floor = INFINITY);
    REFUSED(7, now.floor = NAN);
    REFUSED(10, now.profile = 0);
    REFUSED(10, now.profile = 5);
    REFUSED(10, now.profile = SIZE_MAX);
    REFUSED(10, now.profile = ((size_t)1 << 32) + MEROTUNKI_HOT_WIRE); /* all of its 64 bits count */
    REFUSED(10, now.profile = ((size_t)1 << 63) + MEROTUNKI_VANE);
    REFUSED(10, now.profile = 256 + MEROTUNKI_SMOKE_TUBE);
    /* the order: whatever else is unfit, the first number is given; bad readings are told with 8 alone */
    static const unsigned order[] = {1, 2, 3, 4, 5, 11, 6, 7, 10, 8};
    for (size_t first = 0; first < sizeof order / sizeof *order; first++) {
        for (size_t other = first + 1; other < sizeof order / sizeof *order; other++) {
            REFUSED(order[first], unfit(order[first]); unfit(order[other]));
        }
    }
    /* a pointer with length 0 is not followed */
    merotunki_answer answer;
    CHECK(merotunki_svd(&answer, NULL, 0, 4, 3, 100, 50, 0, 0, 1)->number == 3);
    CHECK(merotunki_full_svd(&answer, NULL, 0, NULL, 0, NULL, 0, 4, 3, 100, 50, 0, 0, 1)->number == 3);
    CHECK(merotunki_ordered_svd(&answer, NULL, 0, NULL, 0, NULL, 0, NULL, 0, 4, 3, 100, 50, 0, 0, 1)->number == 3);
    CHECK(merotunki_profile_svd(&answer, NULL, 0, 4, 3, 1)->number == 3);
    CHECK(merotunki_profile_full_svd(&answer, NULL, 0, NULL, 0, NULL, 0, 4, 3, 1)->number == 3);
    CHECK(merotunki_profile_ordered_svd(&answer, NULL, 0, NULL, 0, NULL, 0, NULL, 0, 4, 3, 1)->number == 3);
    double one[3] = {1, 1, 1};
    CHECK(merotunki_ordered_svd(&answer, one, 1, one + 1, 1, one + 2, 1, NULL, 0, 1, 1, 0, 0, 0, 0, 1)->number == 11);
    CHECK(merotunki_profile_ordered_svd(&answer, one, 1, one + 1, 1, one + 2, 1, NULL, 0, 1, 1, 1)->number == 11);
    CHECK(merotunki_identity(NULL, 0, 2) == 4);
    /* and what is not refused */
    static const size_t sizes[][2] = {{1, 1}, {48, 48}, {48, 1}, {1, 48}};
    for (size_t i = 0; i < 4; i++) {
        prepare(&now, sizes[i][0], sizes[i][1]);
        CHECK(full(&now)->number == 0);
        prepare(&now, sizes[i][0], sizes[i][1]);
        CHECK(ordered(&now)->number == 0);
    }
    prepare(&now, 3, 4);
    now.limit = 100000, now.credit = 1000, now.tolerance = -0.0, now.absolute = 1e300, now.floor = 5e-324;
    CHECK(full(&now)->number == 0 && now.answer.word == MEROTUNKI_STOPPED); /* nothing is below a bound of 0 */
    prepare(&now, 4, 3);
    now.u[3] = NAN, now.v[2] = INFINITY, now.matrix[12] = NAN; /* the entry after the table is not its own */
    CHECK(full(&now)->number == 0 && isnan(now.matrix[12]) && now.answer.bad == 0);
}

/* A reading that is bad: infinite, of either sign, or a NaN of some kind. */
static double bad_one(size_t which) {
    static const uint64_t patterns[] = {UINT64_C(0x7FF8000000000000), UINT64_C(0x7FF0000000000000),
                                        UINT64_C(0xFFF0000000000000), UINT64_C(0x7FF0000000000001),
                                        UINT64_C(0xFFFFFFFFFFFFFFFF)};
    return of_bits(patterns[which % 5]);
}

/* Makes `now` a drawn table with a bad reading at `at` and at every step-th entry behind it, and says how many. */
static size_t spoil(size_t r, size_t c, size_t at, size_t step) {
    size_t bad = 0;
    prepare(&now, r, c);
    for (; at < r * c; at += step, bad++) now.matrix[at] = bad_one(at);
    return bad;
}

/* Number 8 names station and pass of the first bad reading, and says how many there are in the whole table. */
static void bad_readings(void) {
    BAD(0, 0, 1, now.matrix[0] = NAN);
    BAD(1, 2, 1, now.matrix[5] = -INFINITY);
    BAD(3, 2, 1, now.matrix[11] = INFINITY);
    BAD(1, 2, 2, unfit(8));
    BAD(2, 1, 4, now.matrix[7] = INFINITY; now.matrix[8] = NAN; now.matrix[9] = -INFINITY; now.matrix[11] = NAN);
    BAD(2, 1, 1, now.matrix[7] = NAN; now.matrix[12] = NAN); /* the entry after the table is not its own */
    /* what is as large or as small as can be is no bad reading */
    BAD(3, 0, 1, set(&now, (double[]){DBL_MAX, -DBL_MAX, 5e-324, -5e-324, -0.0, 0, 1, 1, 1, NAN, DBL_MAX, -DBL_MAX}));
    static const size_t shapes[][2] = {{1, 1}, {1, 48}, {48, 1}, {3, 7}, {7, 3}, {48, 3}, {3, 48}};
    for (size_t s = 0; s < sizeof shapes / sizeof *shapes; s++) {
        const size_t r = shapes[s][0], c = shapes[s][1];
        for (size_t i = 0; i < r; i++)
            for (size_t j = 0; j < c; j++) {
                size_t all;
                BAD(i, j, 1, spoil(r, c, i * c + j, r * c)); /* alone */
                BAD(i, j, all, all = spoil(r, c, i * c + j, 2));
            }
    }
    BAD(47, 47, 1, spoil(48, 48, ENTRIES - 1, 1));
    BAD(0, 0, 2304, spoil(48, 48, 0, 1));
}

static void known(void) {
    static job a;
    prepare(&a, 2, 1);
    set(&a, (double[]){3, 4});
    CHECK(plain(&a) == &a.answer && answered(&a, MEROTUNKI_SETTLED, 0, 0, 0, 1, 0));
    CHECK(bits(a.matrix[0]) == bits(-5.0) && bits(a.matrix[1]) == 0);
    prepare(&a, 1, 2);
    set(&a, (double[]){3, 4});
    CHECK(full(&a) == &a.answer && answered(&a, MEROTUNKI_SETTLED, 0, 0, 0, 1, 0));
    CHECK(same(a.matrix, (double[]){-5, 0}, 2) && a.u[0] == 1.0);
    prepare(&a, 1, 1);
    set(&a, (double[]){-3});
    CHECK(full(&a) && answered(&a, MEROTUNKI_SETTLED, 0, 0, 0, 1, 0) && a.matrix[0] == -3.0);
    prepare(&a, 2, 2);
    set(&a, (double[]){2, 0, 0, 1});
    CHECK(full(&a) && answered(&a, MEROTUNKI_SETTLED, 1, 0, 1, 1, 0));
    CHECK(a.matrix[0] == -2 && a.matrix[1] == 0 && a.matrix[2] == 0 && a.matrix[3] == 1);
    CHECK(a.u[0] == -1 && a.u[1] == 0 && a.u[2] == 0 && a.u[3] == 1);
    prepare(&a, 2, 2);
    set(&a, (double[]){2, 0, 0, 1});
    a.limit = 0;
    CHECK(plain(&a) && answered(&a, MEROTUNKI_QUIET, 0, 0, 0, 2, 0) && a.matrix[0] == -2);
    prepare(&a, 2, 2);
    set(&a, (double[]){0, 0, 0, 0});
    a.limit = 3;
    CHECK(full(&a) && answered(&a, MEROTUNKI_QUIET, 3, 3, 0, 2, 6) && same(a.matrix, (double[4]){0}, 4));
    CHECK(same(a.u, (double[]){-0.0, 1, -1, -0.0}, 4) && same(a.v, (double[]){-0.0, 1, -1, -0.0}, 4));
    prepare(&a, 3, 3); /* the first sweep leaves 3, 0, 0 and no coupling, and beside two zeros none is negligible */
    set(&a, (double[]){1, 1, 1, 1, 1, 1, 1, 1, 1});
    CHECK(plain(&a) && answered(&a, MEROTUNKI_QUIET, 100, 100, 0, 3, 400));
    prepare(&a, 2, 2);
    set(&a, (double[]){0, 1, 0, 1});
    CHECK(plain(&a) && answered(&a, MEROTUNKI_STOPPED, 100, 100, 0, 2, 200) && a.matrix[1] == -1);
    /* not from the identity: U and V are multiplied from the right as they stand */
    prepare(&a, 2, 2);
    set(&a, (double[]){2, 0, 0, 1});
    memcpy(a.u, (double[]){7, 5, 3, 2}, 4 * sizeof(double));
    CHECK(full(&a) && a.u[0] == -7 && a.u[1] == 5 && a.u[2] == -3 && a.u[3] == 2);
}

/* Whether position i comes before j: its magnitude is larger, or they are equal and i is the lower. */
static int before_in_order(double at_i, size_t i, double at_j, size_t j) {
    return fabs(at_i) > fabs(at_j) || (fabs(at_i) == fabs(at_j) && i < j);
}

/* Whether `out` is what the ordered call has to leave where the run alone leaves `run`, entry by entry: what stood at
 * position i stands at k, the number of positions that come before i. */
static int put_in_order(const job *run, const job *out) {
    const size_t r = run->rows, n = run->columns, c = r < n ? r : n;
    static job wanted;
    wanted = *run;
    for (size_t i = 0; i < c; i++) {
        const double value = run->matrix[i * n + i];
        size_t k = 0;
        for (size_t j = 0; j < c; j++) k += before_in_order(run->matrix[j * n + j], j, value, i);
        wanted.values[k] = fabs(value);
        for (size_t row = 0; row < r; row++) {
            const double was = run->u[row * r + i];
            wanted.u[row * r + k] = signbit(value) ? -was : was;
        }
        for (size_t row = 0; row < n; row++) wanted.v[row * n + k] = run->v[row * n + i];
    }
    return memcmp(&out->answer, &run->answer, sizeof out->answer) == 0 && out->answer.number == 0 &&
           all_alike(out->matrix, wanted.matrix, LONG) && all_alike(out->u, wanted.u, LONG) &&
           all_alike(out->v, wanted.v, LONG) && same(out->values, wanted.values, MOST + 2);
}

/* Whether the ordered call on this job is refused by that number after its run: all is as the accumulating call leaves
 * it, word and counts too, and the list is as it was. Then `after` is what was left, but for the number, which is 0. */
static job after;
static int refused_after_run(const job *start, uint64_t number) {
    static job run;
    run = after = *start;
    full(&run);
    return run.answer.number == 0 && ordered(&after) == &after.answer && after.answer.number == number &&
           (after.answer.number = 0, memcmp(&after.answer, &run.answer, sizeof run.answer) == 0) &&
           all_alike(after.matrix, run.matrix, LONG) && all_alike(after.u, run.u, LONG) &&
           all_alike(after.v, run.v, LONG) && same(after.values, start->values, MOST + 2);
}

static void in_order(void) {
    static job a;
    /* the diagonal is -1, 2: the values come in the other order, and the column of U that goes with -1 is negated */
    prepare(&a, 2, 2);
    set(&a, (double[]){1, 0, 0, 2});
    CHECK(ordered(&a) == &a.answer && answered(&a, MEROTUNKI_SETTLED, 1, 0, 1, 1, 0));
    CHECK(equal(a.matrix, (double[]){-1, 0, 0, 2}, 4) && same(a.values, (double[]){2, 1}, 2));
    CHECK(equal(a.u, (double[]){0, 1, 1, 0}, 4) && equal(a.v, (double[]){0, 1, 1, 0}, 4));
    /* equal magnitudes keep their order: -1, 1 */
    prepare(&a, 2, 2);
    set(&a, (double[]){1, 0, 0, 1});
    CHECK(ordered(&a)->number == 0 && equal(a.matrix, (double[]){-1, 0, 0, 1}, 4));
    CHECK(same(a.values, (double[]){1, 1}, 2));
    CHECK(equal(a.u, (double[]){1, 0, 0, 1}, 4) && equal(a.v, (double[]){1, 0, 0, 1}, 4));
    /* -0 has its sign bit set, too */
    prepare(&a, 1, 1);
    set(&a, (double[]){-0.0});
    CHECK(ordered(&a)->number == 0 && same(a.matrix, (double[]){-0.0}, 1) && same(a.values, (double[]){0}, 1));
    CHECK(a.u[0] == -1 && a.v[0] == 1);
    prepare(&a, 2, 2);
    set(&a, (double[]){-0.0, 0, 0, 3});
    CHECK(ordered(&a)->number == 0 && same(a.matrix, (double[]){-0.0}, 1) && same(a.values, (double[]){3, 0}, 2));
    CHECK(equal(a.u, (double[]){0, -1, 1, 0}, 4) && equal(a.v, (double[]){0, 1, 1, 0}, 4));
    /* more rows than columns: U's third column stays. More columns than rows: V's. Both diagonals are -1, -2. */
    prepare(&a, 3, 2);
    set(&a, (double[]){1, 0, 0, 2, 0, 0});
    CHECK(ordered(&a)->number == 0 && equal(a.matrix, (double[]){-1, 0, 0, -2, 0, 0}, 6));
    CHECK(same(a.values, (double[]){2, 1}, 2));
    CHECK(equal(a.u, (double[]){0, 1, 0, 1, 0, 0, 0, 0, 1}, 9) && equal(a.v, (double[]){0, 1, 1, 0}, 4));
    prepare(&a, 2, 3);
    set(&a, (double[]){1, 0, 0, 0, 2, 0});
    CHECK(ordered(&a)->number == 0 && equal(a.matrix, (double[]){-1, 0, 0, 0, -2, 0}, 6));
    CHECK(same(a.values, (double[]){2, 1}, 2));
    CHECK(equal(a.u, (double[]){0, -1, -1, 0}, 4) && equal(a.v, (double[]){0, -1, 0, -1, 0, 0, 0, 0, 1}, 9));
    /* 12: the run did not settle: it stopped */
    prepare(&a, 2, 2);
    set(&a, (double[]){0, 1, 0, 1});
    CHECK(refused_after_run(&a, 12) && answered(&after, MEROTUNKI_STOPPED, 100, 100, 0, 2, 200));
    /* or is quiet */
    prepare(&a, 2, 2);
    set(&a, (double[]){0, 0, 0, 0});
    a.limit = 3;
    CHECK(refused_after_run(&a, 12) && answered(&after, MEROTUNKI_QUIET, 3, 3, 0, 2, 6));
    CHECK(same(after.u, (double[]){-0.0, 1, -1, -0.0}, 4) && same(after.v, (double[]){-0.0, 1, -1, -0.0}, 4));
    prepare(&a, 2, 2);
    set(&a, (double[]){1, 0, 0, 2});
    a.limit = 0;
    CHECK(refused_after_run(&a, 12) && answered(&after, MEROTUNKI_QUIET, 0, 0, 0, 2, 0));
    CHECK(equal(after.matrix, (double[]){-1, 0, 0, 2}, 4) && equal(after.u, (double[]){-1, 0, 0, 1}, 4));
    /* 13: it settled, and a value is not finite. The root of 2 times the largest double is too large for one. */
    static const size_t shapes[][2] = {{1, 2}, {2, 1}};
    for (size_t i = 0; i < 2; i++) {
        prepare(&a, shapes[i][0], shapes[i][1]);
        set(&a, (double[]){DBL_MAX, DBL_MAX});
        CHECK(refused_after_run(&a, 13) && answered(&after, MEROTUNKI_SETTLED, 0, 0, 0, 1, 0));
        CHECK(equal(after.matrix, (double[]){-INFINITY, 0}, 2));
    }
    prepare(&a, 3, 2); /* the last value alone */
    set(&a, (double[]){1, 0, 0, DBL_MAX, 0, DBL_MAX});
    CHECK(refused_after_run(&a, 13) && answered(&after, MEROTUNKI_SETTLED, 1, 0, 1, 1, 0));
    CHECK(equal(after.matrix, (double[]){-1, 0, 0, -INFINITY, 0, 0}, 6));
    prepare(&a, 2, 1); /* NaN: 0 times the infinity that is 1 over the smallest double */
    set(&a, (double[]){0, of_bits(1)});
    a.floor = of_bits(1);
    CHECK(refused_after_run(&a, 13) && answered(&after, MEROTUNKI_SETTLED, 0, 0, 0, 1, 0) && isnan(after.matrix[0]));
    /* 12 comes before 13 */
    prepare(&a, 2, 2);
    set(&a, (double[]){1e160, 1e160, 0, 1e160});
    CHECK(refused_after_run(&a, 12) && after.answer.word == MEROTUNKI_STOPPED && isnan(after.matrix[0]));
}

/* The word by the rule, from what a run has left: settled where the range is 1; where it is more, quiet if every
 * coupling of the live corner is +0 or -0, and stopped if not. */
static uint64_t word_by_rule(const job *j) {
    const size_t n = j->columns, range = (size_t)j->answer.range;
    int still = 1;
    for (size_t k = 0; k + 1 < range; k++) still &= j->matrix[n > j->rows ? (k + 1) * n + k : k * n + k + 1] == 0;
    return range == 1 ? MEROTUNKI_SETTLED : still ? MEROTUNKI_QUIET : MEROTUNKI_STOPPED;
}

/* Whether the rotations are as many as can be: 2 x (r - 1) in each sweep, where r is no more than the smaller of rows
 * and columns and no less than the range left. */
static int rotations_in_bounds(const job *j) {
    const uint64_t c = j->rows < j->columns ? j->rows : j->columns, n = j->answer.rotations;
    return n % 2 == 0 && n >= 2 * (j->answer.range - 1) * j->answer.sweeps && n <= 2 * (c - 1) * j->answer.sweeps;
}

/* Whether the three calls on this job end with the word of the rule: the plain and the accumulating one are accepted
 * with the same answer and matrix, the ordered one is where that settled with finite values, and is refused by 12 where
 * it did not settle. Then `after` is what it left, but for the number, which is 0. */
static int ended(const job *start) {
    static job run;
    run = after = *start;
    plain(&run);
    full(&after);
    if (run.answer.number != 0 || memcmp(&run.answer, &after.answer, sizeof run.answer) != 0) return 0;
    if (!all_alike(run.matrix, after.matrix, LONG) || run.answer.word != word_by_rule(&run)) return 0;
    if (!rotations_in_bounds(&run)) return 0;
    if (run.answer.word != MEROTUNKI_SETTLED) return refused_after_run(start, 12);
    run = after = *start;
    full(&run);
    return ordered(&after)->number == 0 ? put_in_order(&run, &after) : refused_after_run(start, 13);
}

/* Tables of which the word can be read off. A floor of 1,000 leaves the entries of a row where they stand. */
static const struct ending {
    size_t rows, columns, limit, credit;
    double floor;
    uint64_t word, passes, sweeps, drops, range, rotations;
    double entries[16];
} endings[] = {
#define QUIET MEROTUNKI_QUIET
#define STOPPED MEROTUNKI_STOPPED
    {2, 2, 3, 50, 1e-21, QUIET, 3, 3, 0, 2, 6, {0}}, /* zeros: their bound is 0, and 0 is not below it */
    {2, 2, 0, 50, 1e-21, QUIET, 0, 0, 0, 2, 0, {0}},
    {5, 3, 100, 50, 1e-21, QUIET, 100, 100, 0, 3, 400, {0}},
    {2, 3, 3, 50, 1e-21, QUIET, 3, 3, 0, 2, 6, {0}}, /* the lower form */
    {2, 5, 100, 50, 1e-21, QUIET, 100, 100, 0, 2, 200, {0, -0.0, 0, 0, -0.0, 0, 0, -0.0, 0, 0}},
    {2, 2, 0, 50, 1e-21, QUIET, 0, 0, 0, 2, 0, {2, 0, 0, 1}}, /* not final: the same at limit 1 settles */
    {2, 2, 1, 50, 1e-21, MEROTUNKI_SETTLED, 1, 0, 1, 1, 0, {2, 0, 0, 1}},
    {3, 4, 0, 50, 1e-21, QUIET, 0, 0, 0, 3, 0, {1, 0, 0, 0, 0, 2, 0, 0, 0, 0, 4, 0}},
    {2, 2, 0, 50, 1e-21, QUIET, 0, 0, 0, 2, 0, {1, -0.0, 0, 1}}, /* the couplings are -0 */
    {3, 3, 0, 50, 1e-21, QUIET, 0, 0, 0, 3, 0, {1, -0.0, 0, 0, 2, -0.0, 0, 0, 3}},
    {2, 2, 0, 50, 1e-21, QUIET, 0, 0, 0, 2, 0, {-0.0, -0.0, -0.0, -0.0}},
    /* one coupling that is not 0 is enough: the first, the last, the one between, in either form */
    {3, 3, 0, 50, 1e-21, STOPPED, 0, 0, 0, 3, 0, {1, 2, 0, 0, 3, 0, 0, 0, 4}},
    {3, 3, 0, 50, 1e-21, STOPPED, 0, 0, 0, 3, 0, {1, 0, 0, 0, 2, 3, 0, 0, 4}},
    {4, 4, 0, 50, 1e-21, STOPPED, 0, 0, 0, 4, 0, {1, 0, 0, 0, 0, 2, 5, 0, 0, 0, 3, 0, 0, 0, 0, 4}},
    {4, 3, 0, 50, 1e-21, STOPPED, 0, 0, 0, 3, 0, {1, 2, 0, 0, 3, 0, 0, 0, 4, 0, 0, 0}},
    {4, 3, 0, 50, 1e-21, STOPPED, 0, 0, 0, 3, 0, {1, 0, 0, 0, 3, 2, 0, 0, 4, 0, 0, 0}},
    {3, 4, 0, 50, 1e-21, STOPPED, 0, 0, 0, 3, 0, {1, 0, 0, 0, 2, 3, 0, 0, 0, 0, 4, 0}},
    {3, 4, 0, 50, 1e-21, STOPPED, 0, 0, 0, 3, 0, {1, 0, 0, 0, 0, 2, 0, 0, 0, 3, 4, 0}},
    {2, 2, 0, 50, 1e-21, STOPPED, 0, 0, 0, 2, 0, {1, 5e-324, 0, 1}}, /* as small as can be, and not 0 */
    {2, 2, 0, 50, 1e-21, STOPPED, 0, 0, 0, 2, 0, {1, -5e-324, 0, 1}},
    {2, 3, 0, 50, 1e-21, STOPPED, 0, 0, 0, 2, 0, {1, 0, 0, 5e-324, 1, 0}},
    {2, 2, 100, 50, 1e-21, STOPPED, 100, 100, 0, 2, 200, {1e160, 1e160, 0, 1e160}}, /* NaN is not 0 */
    /* behind the corner: a drop has left the last coupling, 1e-13, which is not asked; and no help where it is 0 */
    {3, 3, 1, 0, 1e-21, QUIET, 1, 0, 1, 2, 0, {1, 0, 0, 0, 2, 1e-13, 0, 0, 4}},
    {3, 4, 1, 0, 1e-21, QUIET, 1, 0, 1, 2, 0, {1, 0, 0, 0, 0, 2, 0, 0, 0, 1e-13, 4, 0}},
    {3, 3, 1, 0, 1e-21, STOPPED, 1, 0, 1, 2, 0, {1, 3, 0, 0, 2, 0, 0, 0, 4}},
    /* on the other side of the diagonal: not asked, and no help where it is 0. A sweep of the first leaves -2^-54 */
    {2, 2, 1, 50, 1e-21, QUIET, 1, 1, 0, 2, 2, {0, 3, 1, 3}},
    {2, 3, 0, 50, 1000, QUIET, 0, 0, 0, 2, 0, {1, 2, 3, 0, 4, 5}},
    {2, 3, 0, 50, 1000, STOPPED, 0, 0, 0, 2, 0, {1, 0, 0, 7, 4, 5}},
    {2, 2, 0, 50, 1000, STOPPED, 0, 0, 0, 2, 0, {1, 7, 0, 4}},
    {3, 3, 0, 50, 1000, QUIET, 0, 0, 0, 3, 0, {1, 0, 3, 0, 4, 0, 0, 0, 5}}, /* a row's tail is no coupling */
#undef QUIET
#undef STOPPED
};

/* A job whose entries are mostly zeros, with a limit that often runs out. */
static void sparse(job *j, size_t rows, size_t columns) {
    prepare(j, rows, columns);
    for (size_t i = 0; i < rows * columns; i++) {
        double x = drawn();
        j->matrix[i] = x > 2 ? (double)(int)x : x > -4 ? 0.0 : x > -6 ? -0.0 : x;
    }
    j->limit = (size_t)(drawn() + 8) * 2 % 11;
    j->credit = (size_t)(drawn() + 8) % 3;
    if (drawn() > 6) j->floor = 1000;
}

static void quiet(void) {
    static job a;
    for (size_t i = 0; i < sizeof endings / sizeof *endings; i++) {
        const struct ending *e = &endings[i];
        prepare(&a, e->rows, e->columns);
        set(&a, e->entries);
        a.limit = e->limit, a.credit = e->credit, a.floor = e->floor;
        int good = ended(&a) && answered(&after, e->word, e->passes, e->sweeps, e->drops, e->range, e->rotations);
        if (!good) printf("ending %d: word %d\n", (int)i, (int)after.answer.word);
        CHECK(good);
    }
    /* two of them once more: what the run leaves there is what is meant */
    prepare(&a, 2, 2);
    set(&a, (double[]){1, -0.0, 0, 1});
    a.limit = 0;
    CHECK(plain(&a)->word == MEROTUNKI_QUIET && bits(a.matrix[1]) == bits(-0.0));
    prepare(&a, 2, 2);
    set(&a, (double[]){0, 3, 1, 3});
    a.limit = 1;
    CHECK(plain(&a)->word == MEROTUNKI_QUIET && bits(a.matrix[1]) == 0 && a.matrix[2] == -0x1p-54);
    /* quiet is not final: with a bound of 0 the next sweep of the same table leaves a coupling, 2^-51.4 */
    a.limit = 2, a.tolerance = 0;
    set(&a, (double[]){0, 3, 1, 3});
    CHECK(plain(&a) && answered(&a, MEROTUNKI_STOPPED, 2, 2, 0, 2, 4));
    CHECK(a.matrix[1] > 0x1p-52 && a.matrix[1] < 0x1p-51);
    /* drawn tables of many shapes, and how often each word came, in either form */
    size_t met[2][4] = {{0}};
    for (size_t i = 0; i < 4000; i++) {
        seed = i;
        sparse(&a, 1 + i % 7, 1 + i / 7 % 7);
        CHECK(ended(&a));
        met[a.columns > a.rows][after.answer.word & 3]++;
    }
    for (size_t form = 0; form < 2; form++)
        for (size_t word = MEROTUNKI_SETTLED; word <= MEROTUNKI_QUIET; word++) CHECK(met[form][word] > 50);
}

/* Pass by pass, with the credit 0: at each limit the run makes one pass more than at the one before, until it settles.
 * A sweep over range r adds 2 x (r - 1) rotations, a drop none. Counts the passes of each kind. */
static void pass_by_pass(const job *start, uint64_t most, size_t *sweeps, size_t *drops) {
    static job run;
    merotunki_answer was = {0};
    for (uint64_t limit = 0; limit <= most; limit++) {
        run = *start;
        run.limit = limit, run.credit = 0;
        const merotunki_answer now_at = *plain(&run);
        if (limit == 0) {
            CHECK(now_at.number == 0 && now_at.passes == 0 && now_at.rotations == 0);
        } else if (now_at.sweeps > was.sweeps) {
            CHECK(now_at.sweeps == was.sweeps + 1 && now_at.drops == was.drops && now_at.range == was.range);
            CHECK(now_at.rotations == was.rotations + 2 * (was.range - 1));
            ++*sweeps;
        } else if (now_at.drops > was.drops) {
            CHECK(now_at.drops == was.drops + 1 && now_at.range == was.range - 1);
            CHECK(now_at.rotations == was.rotations);
            ++*drops;
        } else {
            CHECK(now_at.word == MEROTUNKI_SETTLED && memcmp(&now_at, &was, sizeof was) == 0);
            return;
        }
        was = now_at;
    }
}

/* Rotations: by the rule, from pass to pass; by hand, where there is no drop; the three calls alike. */
static void rotations(void) {
    static job a;
    size_t sweeps = 0, drops = 0;
    static const size_t shapes[][2] = {{2, 2}, {5, 3}, {3, 5}, {8, 8}, {13, 16}, {16, 13}};
    for (size_t i = 0; i < sizeof shapes / sizeof *shapes; i++) {
        seed = i;
        prepare(&a, shapes[i][0], shapes[i][1]);
        CHECK(ended(&a));
        pass_by_pass(&a, 100, &sweeps, &drops);
    }
    for (size_t i = 0; i < 60; i++) { /* with zeros among them, so that some rotations take no root */
        seed = i;
        sparse(&a, 2 + i % 5, 2 + i / 5 % 5);
        pass_by_pass(&a, 12, &sweeps, &drops);
    }
    CHECK(sweeps > 200 && drops > 50);
    /* zeros: every pass is a sweep over all, and every rotation is one of (0, 0) */
    for (size_t c = 2; c <= MOST; c++) {
        prepare(&a, c, c);
        memset(a.matrix, 0, sizeof a.matrix);
        a.limit = 3;
        CHECK(ended(&a) && answered(&after, MEROTUNKI_QUIET, 3, 3, 0, c, 2 * (c - 1) * 3));
    }
    /* as many as one range can come to: 48 x 48 at the greatest limit */
    a.limit = MEROTUNKI_MOST_LIMIT, a.credit = MEROTUNKI_MOST_CREDIT;
    CHECK(plain(&a) && answered(&a, MEROTUNKI_QUIET, 100000, 100000, 0, MOST, 9400000));
    /* one value: none, whatever the limit */
    static const size_t thin[][2] = {{1, 1}, {48, 1}, {1, 48}};
    for (size_t i = 0; i < 3; i++) {
        prepare(&a, thin[i][0], thin[i][1]);
        a.limit = MEROTUNKI_MOST_LIMIT;
        CHECK(ended(&a) && answered(&after, MEROTUNKI_SETTLED, 0, 0, 0, 1, 0));
    }
}

/* The settings of each instrument, from profile 1 on. */
static const merotunki_profile_answer instruments[] = {
    {0, 100, 50, 1e-10, 1e-12, 1e-21},
    {0, 200, 50, 1e-12, 1e-13, 1e-21},
    {0, 400, 100, 1e-13, 1e-14, 1e-21},
    {0, 50, 25, 1e-6, 1e-8, 1e-21},
};
#define INSTRUMENTS (sizeof instruments / sizeof *instruments)

/* The job with that profile, and with its settings. */
static void take(job *j, size_t profile) {
    const merotunki_profile_answer *s = &instruments[profile - 1];
    j->profile = profile, j->limit = s->limit, j->credit = s->credit;
    j->tolerance = s->tolerance, j->absolute = s->absolute, j->floor = s->floor;
}

/* Whether two calls came to the same: the same answer, and all that they were lent alike. */
static int same_outcome(const job *a, const job *b) {
    return memcmp(&a->answer, &b->answer, sizeof a->answer) == 0 && all_alike(a->matrix, b->matrix, LONG) &&
           all_alike(a->u, b->u, LONG) && all_alike(a->v, b->v, LONG) && all_alike(a->values, b->values, MOST + 2);
}

/* Whether passes and rotations are within the bounds of the profile. */
static int within_bounds(const job *j) {
    const uint64_t c = j->rows < j->columns ? j->rows : j->columns, passes = j->answer.passes;
    const merotunki_profile_answer *s = &instruments[j->profile - 1];
    return passes <= (c > 1 ? s->limit + s->credit * (c - 2) : 0) && j->answer.rotations <= 2 * (c - 1) * passes;
}

/* Whether each call by the profile does with this job what the call with its settings does. Counts the numbers of all
 * three and, where there was a run, its word. */
static size_t numbers_met[14], words_met[4];
static int as_with_settings(const job *start, size_t profile) {
    static merotunki_answer *(*const calls[][2])(job *) = {{plain, plain_by}, {full, full_by}, {ordered, ordered_by}};
    static job with, by;
    for (size_t i = 0; i < 3; i++) {
        with = *start;
        take(&with, profile);
        by = with;
        calls[i][0](&with);
        if (calls[i][1](&by) != &by.answer || !same_outcome(&with, &by)) return 0;
        if (by.answer.word != MEROTUNKI_NONE && !within_bounds(&by)) return 0;
        numbers_met[by.answer.number % 14]++, words_met[by.answer.word & 3]++;
    }
    return 1;
}

static void profiles(void) {
    static job a;
    merotunki_profile_answer told, none = {.number = 10};
    merotunki_choice choice;
    CHECK(MEROTUNKI_VANE == 1 && MEROTUNKI_HOT_WIRE == 2 && MEROTUNKI_ULTRASONIC == 3 && MEROTUNKI_SMOKE_TUBE == 4);
    for (size_t n = 1; n <= INSTRUMENTS; n++) { /* to the bit */
        memset(&told, 0xAA, sizeof told);
        CHECK(merotunki_profile(&told, n) == &told && memcmp(&told, &instruments[n - 1], sizeof told) == 0);
    }
    static const size_t others[] = {0, 5, 6, 256 + 1, ((size_t)1 << 32) + 2, (size_t)1 << 63, SIZE_MAX};
    for (size_t i = 0; i < sizeof others / sizeof *others; i++) {
        memset(&told, 0xAA, sizeof told);
        CHECK(merotunki_profile(&told, others[i]) == &told && memcmp(&told, &none, sizeof told) == 0);
    }
    merotunki_defaults(&choice); /* the vane's settings are the defaults */
    merotunki_profile(&told, MEROTUNKI_VANE);
    CHECK(memcmp(&told.limit, &choice, sizeof choice) == 0);

    /* by hand. Zeros: every pass is a sweep over all values, as many as the limit says */
    for (size_t n = 1; n <= INSTRUMENTS; n++) {
        const uint64_t limit = instruments[n - 1].limit;
        prepare(&a, MOST, MOST);
        memset(a.matrix, 0, sizeof a.matrix);
        a.profile = n;
        CHECK(plain_by(&a) && answered(&a, MEROTUNKI_QUIET, limit, limit, 0, MOST, 2 * (MOST - 1) * limit));
    }
    /* (d, x), (0, d): the first pass is a drop where x is below both 2 x d x tolerance and absolute, else a sweep */
    static const struct first {
        double d, x;
        int drops[INSTRUMENTS];
    } firsts[] = {
        {1, 5e-15, {1, 1, 1, 1}},    {1, 2e-14, {1, 1, 0, 1}},    {1, 5e-14, {1, 1, 0, 1}},
        {1, 2e-13, {1, 0, 0, 1}},    {1, 5e-13, {1, 0, 0, 1}},    {1, 2e-12, {0, 0, 0, 1}},
        {1, 5e-9, {0, 0, 0, 1}},     {1, 2e-8, {0, 0, 0, 0}},     {1e-3, 1e-16, {1, 1, 1, 1}},
        {1e-3, 4e-16, {1, 1, 0, 1}}, {1e-3, 4e-15, {1, 0, 0, 1}}, {1e-3, 1e-13, {1, 0, 0, 1}},
        {1e-3, 4e-13, {0, 0, 0, 1}}, {1e-3, 1e-9, {0, 0, 0, 1}},  {1e-3, 4e-9, {0, 0, 0, 0}},
    };
    for (size_t i = 0; i < sizeof firsts / sizeof *firsts; i++)
        for (size_t n = 1; n <= INSTRUMENTS; n++) {
            prepare(&a, 2, 2);
            set(&a, (double[]){firsts[i].d, firsts[i].x, 0, firsts[i].d});
            CHECK(as_with_settings(&a, n));
            a.profile = n;
            CHECK(full_by(&a)->number == 0 && (a.answer.sweeps == 0) == firsts[i].drops[n - 1]);
        }

    /* on many tables: by profile number and with its settings alike */
    for (size_t n = 1; n <= INSTRUMENTS; n++) {
        memset(numbers_met, 0, sizeof numbers_met), memset(words_met, 0, sizeof words_met);
        for (size_t i = 0; i < 1200; i++) {
            const size_t r = 1 + i / 3 % 9, c = 1 + i / 27 % 9;
            seed = i;
            sparse(&a, r, c);
            if (i % 3 == 0) prepare(&a, r, c);
            for (size_t k = 0; i % 3 == 1 && k < r * c; k++) /* one row alone, or all rows alike */
                a.matrix[k] = k >= c && i % 2 == 0 ? 0 : a.matrix[k % c];
            CHECK(as_with_settings(&a, n));
        }
        static const size_t shapes[][2] = {{48, 48}, {48, 3}, {3, 48}, {30, 29}, {16, 17}, {1, 48}, {48, 1}, {1, 1}};
        for (size_t i = 0; i < sizeof shapes / sizeof *shapes; i++) {
            prepare(&a, shapes[i][0], shapes[i][1]);
            CHECK(as_with_settings(&a, n));
            for (size_t k = 0; k < LONG; k++) a.matrix[k] = a.matrix[k % 7]; /* next to no rank */
            draw(a.u, a.u_length); /* not from the identity */
            draw(a.v, a.v_length);
            CHECK(as_with_settings(&a, n));
            for (size_t k = 0; k < LONG; k++) a.matrix[k] = DBL_MAX; /* infinities and NaN */
            CHECK(as_with_settings(&a, n));
        }
        static const unsigned order[] = {1, 2, 3, 4, 5, 11, 8};
        for (size_t i = 0; i < sizeof order / sizeof *order; i++) {
            prepare(&now, 4, 3);
            unfit(order[i]);
            CHECK(as_with_settings(&now, n));
        }
        static const unsigned met[] = {0, 1, 2, 3, 4, 5, 8, 11, 12, 13};
        for (size_t i = 0; i < sizeof met / sizeof *met; i++) CHECK(numbers_met[met[i]] > 0);
        CHECK(numbers_met[6] == 0 && numbers_met[7] == 0 && numbers_met[10] == 0 && numbers_met[12] > 100);
        for (size_t word = MEROTUNKI_SETTLED; word <= MEROTUNKI_QUIET; word++) CHECK(words_met[word] > 100);
    }
}

/* The distances between the table as it was and U x matrix x (V transposed), added up. */
static double distance(const job *j, const double *was) {
    static double half[ENTRIES];
    double total = 0;
    size_t r = j->rows, c = j->columns;
    for (size_t i = 0; i < r; i++)
        for (size_t k = 0; k < c; k++) {
            half[i * c + k] = 0;
            for (size_t l = 0; l < r; l++) half[i * c + k] += j->u[i * r + l] * j->matrix[l * c + k];
        }
    for (size_t i = 0; i < r; i++)
        for (size_t k = 0; k < c; k++) {
            double sum = 0;
            for (size_t l = 0; l < c; l++) sum += half[i * c + l] * j->v[k * c + l];
            total += fabs(sum - was[i * c + k]);
        }
    return total;
}

/* Drawn tables, and for each the passes and a sum over the bits of matrix, U and V, as the original Rust gives them
 * (by the oracle in beside/), and the rotations of these passes by the rule: 2 x (r - 1) for a sweep over range r. */
static const struct known {
    size_t rows, columns;
    uint64_t passes, rotations, sum;
} answers[] = {
    {1, 1, 0, 0, UINT64_C(0x3159F754ACA15057)},      {1, 7, 0, 0, UINT64_C(0x014C4C0133E42B9D)},
    {7, 1, 0, 0, UINT64_C(0x881D90FA72676BAC)},      {2, 2, 2, 2, UINT64_C(0xA0D61E8BEA8827CC)},
    {3, 5, 5, 10, UINT64_C(0xD8E8EA386B72070B)},     {5, 3, 8, 22, UINT64_C(0x959C80C81842B9B5)},
    {8, 8, 21, 142, UINT64_C(0x010B05660EF4375E)},   {16, 48, 46, 552, UINT64_C(0xF251AC3E5A1E9DE9)},
    {48, 17, 52, 710, UINT64_C(0x3AC4289425D94029)}, {48, 48, 128, 4312, UINT64_C(0xE5CEE60EB3644596)},
};
#define ANSWERS (sizeof answers / sizeof *answers)

static uint64_t summed(uint64_t sum, const double *a, size_t length) {
    for (size_t i = 0; i < length; i++) sum = (sum ^ bits(a[i])) * UINT64_C(0x100000001B3);
    return sum;
}

static void drawn_tables(void) {
    static job a, b, c;
    static double was[LONG];
    size_t moved = 0;
    for (size_t i = 0; i < ANSWERS; i++) {
        seed = i;
        prepare(&a, answers[i].rows, answers[i].columns);
        c = b = a;
        memcpy(was, a.matrix, sizeof was);
        plain(&a);
        full(&b);
        CHECK(a.answer.number == 0 && a.answer.word == MEROTUNKI_SETTLED && a.answer.range == 1);
        CHECK(a.answer.passes == answers[i].passes && a.answer.passes == a.answer.sweeps + a.answer.drops);
        CHECK(a.answer.rotations == answers[i].rotations && rotations_in_bounds(&a));
        CHECK(same(a.matrix, b.matrix, LONG) && memcmp(&a.answer, &b.answer, sizeof a.answer) == 0);
        CHECK(same(a.matrix + a.matrix_length, was + a.matrix_length, LONG - a.matrix_length));
        CHECK(distance(&b, was) < 1e-9);
        uint64_t sum = summed(UINT64_C(0xCBF29CE484222325), b.matrix, b.matrix_length);
        CHECK(summed(summed(sum, b.u, b.u_length), b.v, b.v_length) == answers[i].sum);
        ordered(&c);
        CHECK(put_in_order(&b, &c));
        for (size_t k = 0; k < c.values_length; k++) moved += fabs(b.matrix[k * b.columns + k]) != c.values[k];
    }
    CHECK(moved > 0); /* some values did not stand where they belong */
    /* not from the identity: U and V are any numbers, and none */
    prepare(&b, 7, 5);
    draw(b.u, 49);
    draw(b.v, 25);
    b.u[3] = NAN, b.u[20] = INFINITY, b.v[2] = NAN;
    c = b;
    full(&b);
    ordered(&c);
    CHECK(put_in_order(&b, &c));
}

static void identities(void) {
    static double a[LONG], was[LONG];
    draw(a, LONG);
    memcpy(was, a, sizeof a);
    CHECK(merotunki_identity(a, 0, 0) == 1 && merotunki_identity(a, 9, 0) == 1);
    CHECK(merotunki_identity(a, 49 * 49, 49) == 2 && merotunki_identity(a, 0, (size_t)1 << 32) == 2);
    CHECK(merotunki_identity(a, 8, 3) == 4 && merotunki_identity(a, 10, 3) == 4 && merotunki_identity(a, 0, 1) == 4);
    CHECK(same(a, was, LONG));
    for (size_t n = 1; n <= MOST; n++) {
        draw(a, LONG);
        memcpy(was, a, sizeof a);
        for (size_t i = 0; i < n * n; i++) was[i] = i / n == i % n ? 1.0 : 0.0;
        CHECK(merotunki_identity(a, n * n, n) == 0 && same(a, was, LONG));
    }
}

static int lies(merotunki_part part, uint64_t start, uint64_t length) {
    return part.start == start && part.length == length;
}

static void rows(void) {
    static double u[LONG], v[LONG];
    for (size_t i = 0; i < 5; i++) CHECK(lies(merotunki_row(u, 25, v, 9, 5, 3, MEROTUNKI_U, i), 5 * i, 5));
    for (size_t i = 0; i < 3; i++) CHECK(lies(merotunki_row(u, 25, v, 9, 5, 3, MEROTUNKI_V, i), 3 * i, 3));
    CHECK(lies(merotunki_row(u, 2304, v, 2304, 48, 48, MEROTUNKI_V, 47), 47 * 48, 48));
    CHECK(lies(merotunki_row(u, 1, v, 1, 1, 1, MEROTUNKI_U, 0), 0, 1));
    /* not fit */
    CHECK(lies(merotunki_row(u, 25, v, 9, 5, 3, MEROTUNKI_U, 5), 0, 0));
    CHECK(lies(merotunki_row(u, 25, v, 9, 5, 3, MEROTUNKI_V, 3), 0, 0));
    CHECK(lies(merotunki_row(u, 25, v, 9, 5, 3, MEROTUNKI_U, SIZE_MAX), 0, 0));
    CHECK(lies(merotunki_row(u, 25, v, 9, 5, 3, 2, 1), 0, 0));
    CHECK(lies(merotunki_row(u, 25, v, 9, 5, 3, SIZE_MAX, 1), 0, 0));
    CHECK(lies(merotunki_row(u, 24, v, 9, 5, 3, MEROTUNKI_U, 1), 0, 0));
    CHECK(lies(merotunki_row(u, 26, v, 9, 5, 3, MEROTUNKI_V, 1), 0, 0));
    CHECK(lies(merotunki_row(u, 25, v, 8, 5, 3, MEROTUNKI_U, 1), 0, 0));
    CHECK(lies(merotunki_row(u, 25, v, 10, 5, 3, MEROTUNKI_V, 1), 0, 0));
    CHECK(lies(merotunki_row(u, 0, v, 9, 0, 3, MEROTUNKI_V, 1), 0, 0));
    CHECK(lies(merotunki_row(u, 25, v, 0, 5, 0, MEROTUNKI_U, 1), 0, 0));
    CHECK(lies(merotunki_row(u, 2401, v, 9, 49, 3, MEROTUNKI_V, 1), 0, 0));
    CHECK(lies(merotunki_row(u, 25, v, 2401, 5, 49, MEROTUNKI_U, 1), 0, 0));
}

static void settings_and_roots(void) {
    merotunki_choice choice;
    memset(&choice, 0xAA, sizeof choice);
    CHECK(merotunki_defaults(&choice) == &choice);
    CHECK(choice.limit == 100 && choice.credit == 50);
    CHECK(choice.tolerance == 1e-10 && choice.absolute == 1e-12 && choice.floor == 1e-21);
    CHECK(merotunki_layout() == MEROTUNKI_LAYOUT && merotunki_fits() == 1);
    CHECK(bits(merotunki_square_root(2.0)) == UINT64_C(0x3FF6A09E667F3BCD));
    CHECK(isnan(merotunki_square_root(-1.0)) && isnan(merotunki_square_root(NAN)));
    CHECK(bits(merotunki_square_root(-0.0)) == bits(-0.0) && bits(merotunki_square_root(0.0)) == 0);
    CHECK(merotunki_square_root(INFINITY) == INFINITY && isnan(merotunki_square_root(-INFINITY)));
    CHECK(merotunki_square_root(of_bits(1)) == 0x1p-537); /* of 2^-1074 */
    CHECK(merotunki_square_root(of_bits(UINT64_C(0x3FF0000000000001))) == 1.0);
    CHECK(bits(merotunki_square_root(of_bits(UINT64_C(0x7FEFFFFFFFFFFFFF)))) == UINT64_C(0x5FEFFFFFFFFFFFFF));
}

/* A thread's own job, run again and again; `wrong` counts the runs that came out otherwise than the first one alone. */
typedef struct worker {
    job start, wanted, own;
    unsigned wrong, runs;
    pthread_barrier_t *line;
} worker;

static void *work(void *given) {
    worker *w = given;
    pthread_barrier_wait(w->line);
    for (w->runs = 0; w->runs < 60; w->runs++) {
        w->own = w->start;
        full(&w->own);
        w->wrong += memcmp(&w->own, &w->wanted, sizeof w->own) != 0;
    }
    return NULL;
}

static void threads(void) {
    static worker two[2];
    pthread_t names[2];
    pthread_barrier_t line;
    pthread_barrier_init(&line, NULL, 2);
    for (int i = 0; i < 2; i++) {
        memset(&two[i], 0, sizeof two[i]);
        prepare(&two[i].start, i ? 48 : 31, i ? 29 : 48);
        two[i].wanted = two[i].start;
        full(&two[i].wanted);
        two[i].line = &line;
    }
    CHECK(!same(two[0].wanted.u, two[1].wanted.u, ENTRIES));
    for (int i = 0; i < 2; i++) CHECK(pthread_create(&names[i], NULL, work, &two[i]) == 0);
    for (int i = 0; i < 2; i++) CHECK(pthread_join(names[i], NULL) == 0 && two[i].runs == 60 && two[i].wrong == 0);
}

int main(void) {
    settings_and_roots();
    refusals();
    bad_readings();
    known();
    in_order();
    quiet();
    rotations();
    profiles();
    drawn_tables();
    identities();
    rows();
    threads();
    if (failed) printf("%u checks FAILED\n", failed);
    printf("%u checks passed\n", passed);
    return failed != 0;
}
