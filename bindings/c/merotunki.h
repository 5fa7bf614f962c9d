/* merotunki.h: the proved singular value split of a survey's table, for C and C++.
 *
 * Link libmerotunki.a for the machine that you build for: 64-bit Arm or x86-64, Linux, Android or iOS. It needs nothing
 * else. The program calls merotunki_fits() once at its start: it tells whether the library linked is this header's.
 *
 * TABLES are packed and row-major. Stations are the rows, passes are the columns: the reading of station i in pass j
 * is matrix[i * columns + j]. U has rows x rows entries and goes with the stations (row 4 of U is station 4), V has
 * columns x columns entries and goes with the passes. Sizes are 1 to 48 each.
 *
 * REFUSALS. Any numbers may be handed in. What is unfit is refused by number, checked in this order; nothing else is
 * refused, and a call refused by 1 to 8, 10 or 11 writes nothing but its answer:
 *   0  accepted
 *   1  rows or columns is 0
 *   2  rows or columns is above 48
 *   3  the matrix has not rows x columns entries
 *   4  U has not rows x rows entries (the identity: not n x n)
 *   5  V has not columns x columns entries
 *  11  the list of values has not as many entries as the smaller of rows and columns
 *   6  the limit is above 100,000 or the credit above 1,000
 *   7  tolerance or absolute is below zero, infinite or NaN (-0 is allowed), or floor is not above zero or not finite
 *  10  there is no such profile: its number is not 1 to 4
 *   8  a reading is infinite or NaN: `row` and `column` are the first one's station and pass, `bad` counts them all
 *  12  the run did not settle: it stopped or is quiet, so that its values are not final
 *  13  the run settled, and a value on the diagonal is infinite or NaN
 * Only the calls by profile number have 10. They have it in the place of 6 and 7, which never come from them: every
 * profile's settings are fit. 11, 12 and 13 are the two ordered calls' alone. 12 and 13 are the one exception to what a
 * refusal writes: they come after the run, so matrix, U and V are as the run leaves them, and the answer has the run's
 * word and counts. The list of values is as it was.
 *
 * WHAT A C CALLER SEES TO, since no library can check it:
 *   - Each pointer is good for as many entries as the length after it says, and aligned as its type is. A pointer with
 *     length 0 is not followed; it may be NULL. That of the answer or choice may not.
 *   - The slices of one call, and its answer, do not overlap.
 *   - The thread's floating point is as C starts it: round to nearest, subnormal numbers kept (no flush to zero).
 *
 * MEMORY AND THREADS. No heap, no global state, no locks, no files; of other libraries memcpy and memset alone (on
 * iOS bzero) are called. Several threads may call at once, each on buffers of its own. The two ordered calls use less
 * than 3,584 bytes of stack, every other call less than 2,304: measured, at most 2,872 and 1,816 on x86-64, 2,752 and
 * 1,696 on 64-bit Arm. On 64-bit Arm x18 is left alone: a caller built with a shadow call stack keeps it.
 *
 * HOW THE CALLS ARE MADE. A slice is a pointer and a length, one after the other. An answer or choice is written where
 * the first argument points, and that pointer is handed back. On x86-64 (System V, so not Windows) this is also how C
 * returns such a struct: the pointer comes in rdi and goes back in rax. On 64-bit Arm it is not, C would use x8: here
 * the pointer comes in x0 and goes back in x0. So keep to the declarations below. A part comes back by value as C does
 * it: start and length in rax and rdx, on Arm in x0 and x1. Seen in the machine code of both builds.
 */
#ifndef MEROTUNKI_H
#define MEROTUNKI_H

#include <stddef.h>
#include <stdint.h>

#ifdef __cplusplus
extern "C" {
#endif

/* The version of library and header, and the number of the layout of the structs below. The layout rises whenever a
 * struct changes, so that a program built for one is not run on another. */
#define MEROTUNKI_VERSION "0.7.1"
#define MEROTUNKI_LAYOUT 3

/* The largest number of rows and of columns, and the largest limit and credit. */
#define MEROTUNKI_MOST 48
#define MEROTUNKI_MOST_LIMIT 100000
#define MEROTUNKI_MOST_CREDIT 1000

/* The instruments, each with the number of its profile, for the calls by profile number. The surveyor picks the
 * instrument, and the program hands on its number; its settings are the library's own. merotunki_profile tells them:
 *
 *       instrument   limit   credit   tolerance   absolute   floor   most passes   most rotations, both at 48 x 48
 *   1   vane           100       50   1e-10       1e-12      1e-21         2,400   225,600
 *   2   hot wire       200       50   1e-12       1e-13      1e-21         2,500   235,000
 *   3   ultrasonic     400      100   1e-13       1e-14      1e-21         5,000   470,000
 *   4   smoke tube      50       25   1e-6        1e-8       1e-21         1,200   112,800
 *
 * The vane's are the default settings. Passes are at most limit + credit x (c - 2), c being the smaller of rows and
 * columns, for c = 2 on; rotations are at most 2 x (c - 1) x as many. */
#define MEROTUNKI_VANE 1       /* vane anemometer */
#define MEROTUNKI_HOT_WIRE 2   /* hot wire anemometer */
#define MEROTUNKI_ULTRASONIC 3 /* ultrasonic anemometer */
#define MEROTUNKI_SMOKE_TUBE 4 /* smoke tube */

/* The words of an answer. The couplings are the entries beside the diagonal, right of it where columns is at most rows,
 * else below it; the live corner, which is the first `range` rows and columns, has range - 1 of them. A settled answer
 * is the same at every greater limit. One that stopped or is quiet is not final: a greater limit can give another. */
#define MEROTUNKI_NONE 0    /* refused, and nothing was run */
#define MEROTUNKI_SETTLED 1 /* every coupling was found negligible; range is 1 */
#define MEROTUNKI_STOPPED 2 /* the limit ran out before; range is above 1, and a coupling of the live corner is not 0 */
#define MEROTUNKI_QUIET 3   /* the limit ran out before; range is above 1, and every coupling of the live corner is +0
                             * or -0: nothing was left to work out. No failure, a table of zeros ends so. */

/* The sides of merotunki_row. */
#define MEROTUNKI_U 0
#define MEROTUNKI_V 1

/* What a split answers. row, column and bad are 0 but with number 8. The words after them are 0 in a refusal; with 12
 * and 13 they are the run's. */
typedef struct merotunki_answer {
    uint64_t number; /* 0 accepted, 1 to 8 and 10 to 13 refused */
    uint64_t row;    /* station of the first reading that is infinite or NaN, row by row, counted from 0 */
    uint64_t column; /* its pass, counted from 0 */
    uint64_t bad;    /* how many such readings the whole matrix has, the first one too */
    uint64_t word;   /* MEROTUNKI_NONE, MEROTUNKI_SETTLED, MEROTUNKI_STOPPED or MEROTUNKI_QUIET */
    uint64_t passes; /* of the walk: each is a sweep or a drop */
    uint64_t sweeps;
    uint64_t drops;
    uint64_t range;     /* how much of the diagonal is still live: 1 where settled */
    uint64_t rotations; /* computed by the sweeps: 2 x (r - 1) by a sweep over range r, none by a drop. A call's
                         * time goes with them rather than with its passes. One counts once, whether it turns the matrix alone or U
                         * and V as well, and one of (0, b), which takes no root, counts too. At most
                         * 2 x (c - 1) x sweeps, c being the smaller of rows and columns; never above 13,724,000. */
} merotunki_answer;

/* Where a row lies: its first entry and how many there are. */
typedef struct merotunki_part {
    uint64_t start;
    uint64_t length;
} merotunki_part;

/* The settings of a split. */
typedef struct merotunki_choice {
    uint64_t limit;
    uint64_t credit;
    double tolerance;
    double absolute;
    double floor;
} merotunki_choice;

/* What merotunki_profile answers: the settings of a profile. Where number is 10 all else is 0. */
typedef struct merotunki_profile_answer {
    uint64_t number; /* 0, or 10: there is no such profile */
    uint64_t limit;
    uint64_t credit;
    double tolerance;
    double absolute;
    double floor;
} merotunki_profile_answer;

/* Does not compile where the structs or the lengths are laid out otherwise than the library has them. */
typedef char merotunki_answer_has_80_bytes[sizeof(merotunki_answer) == 80 ? 1 : -1];
typedef char merotunki_choice_has_40_bytes[sizeof(merotunki_choice) == 40 ? 1 : -1];
typedef char merotunki_profile_answer_has_48_bytes[sizeof(merotunki_profile_answer) == 48 ? 1 : -1];
typedef char merotunki_part_has_16_bytes[sizeof(merotunki_part) == 16 ? 1 : -1];
typedef char merotunki_length_has_8_bytes[sizeof(size_t) == 8 && sizeof(double) == 8 ? 1 : -1];

/* Writes the default settings: limit 100, credit 50, tolerance 1e-10, absolute 1e-12, floor 1e-21. */
merotunki_choice *merotunki_defaults(merotunki_choice *choice);

/* Splits the table. The matrix then holds what the method leaves: its values on the diagonal, matrix[k * columns + k],
 * in no order and of either sign; beside them may stay what the method found negligible and, where it did not settle,
 * what it did not. Passes are none where rows or columns is 1, otherwise at most
 * limit + credit * (the smaller of rows and columns - 2). Refuses with 1, 2, 3, 6, 7, 8. */
merotunki_answer *merotunki_svd(merotunki_answer *answer, double *matrix, size_t matrix_length, size_t rows,
                                size_t columns, size_t limit, size_t credit, double tolerance, double absolute,
                                double floor);

/* The same split, with U and V kept: matrix and answer are those of merotunki_svd. U and V are multiplied from the
 * right as they stand and their entries are never examined, so fill both by merotunki_identity first; then the table
 * as it was is U x matrix x (V transposed), but for rounding. Refuses with 1 to 8. */
merotunki_answer *merotunki_full_svd(merotunki_answer *answer, double *matrix, size_t matrix_length, double *u,
                                     size_t u_length, double *v, size_t v_length, size_t rows, size_t columns,
                                     size_t limit, size_t credit, double tolerance, double absolute, double floor);

/* The split of merotunki_full_svd, and then its values in order of size. With c the smaller of rows and columns:
 *   - `values` holds the c magnitudes of the diagonal, largest first; equal ones in the order of the diagonal.
 *   - The first c columns of U and V have moved with their values: column k of U, values[k] and column k of V belong
 *     together. Where the value was below zero or -0 on the diagonal, its column of U is negated. Other columns stay.
 *   - The matrix is as merotunki_full_svd leaves it: its diagonal is in no order and of either sign.
 * So from U and V that began as the identity the table as it was is the sum over k of
 * values[k] x (column k of U) x (column k of V, transposed), but for rounding and what stays beside the diagonal.
 * Refuses with 1 to 8 and 11 before the run, with 12 and 13 after it. */
merotunki_answer *merotunki_ordered_svd(merotunki_answer *answer, double *matrix, size_t matrix_length, double *u,
                                        size_t u_length, double *v, size_t v_length, double *values,
                                        size_t values_length, size_t rows, size_t columns, size_t limit, size_t credit,
                                        double tolerance, double absolute, double floor);

/* The three splits by profile number, MEROTUNKI_VANE to MEROTUNKI_SMOKE_TUBE: where the surveyor picks the instrument
 * make one of these; no settings are to be seen. With a number from 1 to 4 each is on every input the same as its split
 * above with that profile's settings: answer, refusals and all that is written. With any other number it refuses by 10
 * where that one would look at its settings, before the readings, and writes nothing but its answer.
 *   merotunki_profile_svd          refuses with 1, 2, 3, 10, 8
 *   merotunki_profile_full_svd     refuses with 1 to 5, 10, 8
 *   merotunki_profile_ordered_svd  refuses with 1 to 5, 11, 10, 8 before the run, with 12 and 13 after it */
merotunki_answer *merotunki_profile_svd(merotunki_answer *answer, double *matrix, size_t matrix_length, size_t rows,
                                        size_t columns, size_t profile);
merotunki_answer *merotunki_profile_full_svd(merotunki_answer *answer, double *matrix, size_t matrix_length, double *u,
                                             size_t u_length, double *v, size_t v_length, size_t rows, size_t columns,
                                             size_t profile);
merotunki_answer *merotunki_profile_ordered_svd(merotunki_answer *answer, double *matrix, size_t matrix_length,
                                                double *u, size_t u_length, double *v, size_t v_length,
                                                double *values, size_t values_length, size_t rows, size_t columns,
                                                size_t profile);

/* Writes the settings of a profile, with number 0; with a number other than 1 to 4, number 10 and zeros. */
merotunki_profile_answer *merotunki_profile(merotunki_profile_answer *answer, size_t profile);

/* Fills a with the identity of n rows and n columns. Answers 0, or refuses with 1, 2 or 4. */
uint64_t merotunki_identity(double *a, size_t a_length, size_t n);

/* Where row number `row` of U (side MEROTUNKI_U) or V (MEROTUNKI_V) lies: its entries are u[start] to
 * u[start + length - 1], or v likewise. Not fit, and answered by start 0 and length 0: sizes outside 1 to 48, a wrong
 * length of U or V, a side above 1, a row that there is not. Reads neither U nor V. */
merotunki_part merotunki_row(const double *u, size_t u_length, const double *v, size_t v_length, size_t rows,
                             size_t columns, size_t side, size_t row);

/* The double nearest to the root of x. -0, +0 and +infinity stay; below zero and NaN give NaN. */
double merotunki_square_root(double x);

/* The number of the library's own layout, and whether it is this header's: 1, or 0 where the program was linked with
 * another library than it was compiled for. Then make no other call. */
uint64_t merotunki_layout(void);
static inline int merotunki_fits(void) { return merotunki_layout() == MEROTUNKI_LAYOUT; }

#ifdef __cplusplus
}
#endif

#endif
