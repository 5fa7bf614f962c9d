/* profile.c: splits the survey of samples/leaking-stopping.csv and prints what an app would show of it. The profile
 * shown is the roadway's; the calls by profile number are named for the settings of an instrument.
 * No sign has to be chosen: (-u, -v) for (u, v), or (-u, -s) for (u, s), gives the same profile and the same drift. */
#include "merotunki.h"
#include <math.h>
#include <stdio.h>

enum { M = 12, N = 6, VALUES = M < N ? M : N }; /* stations, passes, and the smaller of the two */
static const double readings[M * N] = {
    2.45, 2.56, 2.51, 2.37, 2.40, 2.29, 2.63, 2.56, 2.49, 2.47, 2.47, 2.48, 2.47, 2.38, 2.29, 2.39, 2.36, 2.20,
    2.36, 2.25, 2.27, 2.21, 2.16, 2.12, 2.48, 2.48, 2.33, 2.38, 2.31, 2.24, 2.52, 2.65, 2.47, 2.49, 2.54, 2.44,
    1.77, 1.73, 1.80, 1.69, 1.70, 1.72, 1.68, 1.73, 1.67, 1.65, 1.65, 1.64, 1.66, 1.59, 1.61, 1.58, 1.56, 1.53,
    1.80, 1.81, 1.82, 1.76, 1.72, 1.68, 1.89, 1.88, 1.87, 1.79, 1.84, 1.78, 1.73, 1.71, 1.68, 1.69, 1.71, 1.64};
static double table[M * N], u[M * M], v[N * N], values[VALUES], rest[M * N];

/* The sum of products, from one entry to the next by steps: 1 along a row, the row's length along a column. */
static double dot(const double *a, int a_step, const double *b, int b_step, int count) {
    double sum = 0;
    for (int i = 0; i < count; i++) sum += a[i * a_step] * b[i * b_step];
    return sum;
}

/* Where the greatest magnitude stands. */
static int largest(const double *a, int count) {
    int at = 0;
    for (int i = 1; i < count; i++)
        if (fabs(a[i]) > fabs(a[at])) at = i;
    return at;
}

/* Whether every reading is +0 or -0. */
static int calm(void) {
    for (int at = 0; at < M * N; at++)
        if (readings[at] != 0) return 0;
    return 1;
}

/* Part k of the split: value k, column k of U (an entry for each station i), column k of V (one for each pass j). */
static double share(int k) { return 100 * values[k] * values[k] / dot(readings, 1, readings, 1, M * N); }
static double mean(int k) { return dot(v + k, N, (double[]){1}, 0, N) / N; } /* of v: every entry times the same 1 */
static double profile(int k, int i) { return values[k] * u[i * M + k] * mean(k); }
static double drift(int k, int j) { return 100 * (v[j * N + k] / mean(k) - 1); }
static double residual(int k, int i, int j) { return readings[i * N + j] - values[k] * u[i * M + k] * v[j * N + k]; }

/* The length of (T v - s u, T' u - s v), T being the readings: next to 0 where (s, u, v) is a part of them. */
static double miss(int k) {
    double off[M + N];
    for (int i = 0; i < M; i++) off[i] = dot(readings + i * N, 1, v + k, N, N) - values[k] * u[i * M + k];
    for (int j = 0; j < N; j++) off[M + j] = dot(readings + j, N, u + k, M, M) - values[k] * v[j * N + k];
    return merotunki_square_root(dot(off, 1, off, 1, M + N));
}

int main(void) {
    merotunki_answer a;
    if (!merotunki_fits()) return puts("linked with another library than merotunki.h is for"), 1;
    for (int at = 0; at < M * N; at++) table[at] = readings[at];
    merotunki_identity(u, M * M, M);
    merotunki_identity(v, N * N, N);
    merotunki_profile_ordered_svd(&a, table, M * N, u, M * M, v, N * N, values, VALUES, M, N, MEROTUNKI_VANE);
    int settled = a.number == 0, k = 0; /* in order the strongest is the first */
    if (!settled && a.number != 12) return printf("refused by %d\n", (int)a.number), 1; /* split.c has the text of 8 */
    printf("%s, passes %d\n", settled ? "settled" : a.word == MEROTUNKI_QUIET ? "quiet" : "stopped", (int)a.passes);
    if (calm()) return puts("Calm: no air moved at any station. There is nothing to split."), 0;
    if (!settled) { /* it stopped or is quiet. Nothing is in order: the run's values stand on the diagonal */
        for (int i = 0; i < VALUES; i++) values[i] = table[i * N + i];
        k = largest(values, VALUES);
    }
    for (int at = 0; at < M * N; at++) rest[at] = residual(k, at / N, at % N);
    double s = fabs(values[k]), left = merotunki_square_root(dot(rest, 1, rest, 1, M * N));
    int usable = isfinite(dot(table, 1, table, 1, M * N) + share(k) + left + 1 / mean(k)); /* so is each */
    int confirmed = miss(k) <= 1e-10 * s && left < s, worst = largest(rest, M * N);
    if (!usable || (!settled && !confirmed)) return puts("no split to show"), 1;
    int end = settled ? VALUES : k + 1; /* not settled, only the strongest is known, and only where it is confirmed */
    for (int i = k; i < end; i++) printf("strength %7.4f, share %7.4f %%\n", fabs(values[i]), share(i));
    printf("the readings %s the strongest part\n", confirmed ? "confirm" : "do not confirm");
    for (int i = 0; i < M; i++) printf("station %2d: profile %.2f m/s\n", i, profile(k, i));
    for (int j = 0; j < N; j++) printf("pass %d: drift %+.2f %%\n", j, drift(k, j));
    printf("left over: largest %+.4f m/s, station %d in pass %d; root mean square %.4f m/s\n", rest[worst], worst / N,
           worst % N, left / merotunki_square_root(M * N));
    return 0;
}
