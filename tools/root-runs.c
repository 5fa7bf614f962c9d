// Compares merotunki_square_root with the machine's own square root on random bit patterns, and prints how many
// differ. All NaNs count as one. A generator with a fixed seed makes the patterns: a half of them uniform, the rest
// subnormals, values next to powers of two, squares and their neighbours, and special values.
#include <math.h>
#include <stdint.h>
#include <stdio.h>
#include <stdlib.h>
#include <string.h>

double merotunki_square_root(double x);

static uint64_t state = 0x6d65726f74756e6b;

static uint64_t next(void) {
    uint64_t z = state += 0x9e3779b97f4a7c15;
    z = (z ^ (z >> 30)) * 0xbf58476d1ce4e5b9;
    z = (z ^ (z >> 27)) * 0x94d049bb133111eb;
    return z ^ (z >> 31);
}

static uint64_t bits_of(double x) {
    uint64_t b;
    memcpy(&b, &x, sizeof b);
    return x != x ? 0x7ff8000000000000 : b;
}

static double value_of(uint64_t b) {
    double x;
    memcpy(&x, &b, sizeof x);
    return x;
}

static uint64_t pattern(uint64_t kind) {
    uint64_t r = next();
    uint64_t near = (next() % 9) - 4;
    switch (kind) {
    case 0:
        return (r & 0x000fffffffffffff) >> (next() % 52);          // subnormal
    case 1:
        return ((r % 2047) << 52) + near;                          // next to a power of two
    case 2: {
        double v = (double)(r >> 38);
        return bits_of(v * v) + near;                              // next to a square
    }
    case 3: {
        double v = value_of((r & 0x3fffffffffffffff) | 0x2000000000000000);
        return bits_of(v * v) + near;                              // next to a rounded square
    }
    case 4:
        return 0x7ff0000000000000 + near + ((r & 1) << 63);        // next to an infinity, and NaNs
    case 5:
        return near + ((r & 1) << 63);                             // next to a zero
    case 6:
        return r & 0x7fffffffffffffff;                             // not negative
    default:
        return r;
    }
}

int main(int count, char **words) {
    long runs = count > 1 ? atol(words[1]) : 10000000;
    long differ = 0;
    for (long i = 0; i < runs; i++) {
        uint64_t b = pattern((uint64_t)i % 14);
        uint64_t got = bits_of(merotunki_square_root(value_of(b)));
        uint64_t want = bits_of(sqrt(value_of(b)));
        if (got != want && differ++ < 10)
            printf("%016llX: %016llX, the machine %016llX\n", (unsigned long long)b, (unsigned long long)got, (unsigned long long)want);
    }
    printf("%ld square roots compared with the machine's, %ld differ\n", runs, differ);
    return differ != 0;
}
