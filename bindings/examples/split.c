/* split.c: splits a table of 4 stations and 3 passes, read with a vane, and prints what an app would show. */
#include "merotunki.h"
#include <stdio.h>

int main(void) {
    double table[12] = {1.2, 1.4, 1.1, 2.4, 2.5, 2.9, 1.9, 2.6, 1.8, 0.7, 0.9, 1.3}, u[16], v[9];
    merotunki_answer a;
    if (!merotunki_fits()) return puts("linked with another library than merotunki.h is for"), 1;
    merotunki_identity(u, 16, 4);
    merotunki_identity(v, 9, 3);
    merotunki_profile_full_svd(&a, table, 12, u, 16, v, 9, 4, 3, MEROTUNKI_VANE); /* the surveyor's instrument */
    if (a.number == 8) { /* a reading is infinite or NaN */
        printf("Station %d, pass %d: no usable reading", (int)a.row, (int)a.column);
        if (a.bad > 1) printf(", and %d more", (int)a.bad - 1);
        return puts("."), 1;
    }
    if (a.number != 0) return printf("refused by %d\n", (int)a.number), 1;
    const char *word = a.word == MEROTUNKI_SETTLED ? "settled" : a.word == MEROTUNKI_QUIET ? "quiet" : "stopped";
    printf("%s, passes %d\n", word, (int)a.passes);
    printf("values [%f, %f, %f]\n", table[0], table[4], table[8]);
    const double *row = u + merotunki_row(u, 16, v, 9, 4, 3, MEROTUNKI_U, 0).start;
    printf("station 0 [%f, %f, %f, %f]\n", row[0], row[1], row[2], row[3]);
    return 0;
}
