// The loops of `bench`, compiled as they stand: `plain NAME TIMES CELLS` computes one so many times over so many cells, and
// prints what its cells hold as one number.
#include <stdint.h>
#include <stdio.h>
#include <stdlib.h>
#include <string.h>

enum { MOST = 1000 };

// unsigned, so that it is modulo 2^64
typedef uint64_t cell;

static cell x[MOST + 2], y[MOST + 2];
static int64_t cells;

static int64_t value(cell c) { return (int64_t)c; }

__attribute__((noinline)) static void increase(void) {
    for (int64_t i = 1; i < cells + 1; i++) y[i] = x[i] + 1;
}

__attribute__((noinline)) static void scale(void) {
    for (int64_t i = 1; i < cells + 1; i++) y[i] = 3 * x[i] + 7;
}

__attribute__((noinline)) static void smooth(void) {
    for (int64_t i = 1; i < cells + 1; i++) y[i] = x[i - 1] + 2 * x[i] + x[i + 1];
}

__attribute__((noinline)) static void choose(void) {
    for (int64_t i = 1; i < cells + 1; i++) y[i] = value(x[i]) < 50 ? x[i] * x[i] : -x[i];
}

__attribute__((noinline)) static void quartic(void) {
    for (int64_t i = 1; i < cells + 1; i++) {
        cell n = (cell)i;
        y[i] = (((x[i] * n + 1) * n + 2) * n + 3) * n + 4;
    }
}

__attribute__((noinline)) static void powers(void) {
    for (int64_t i = 1; i < cells + 1; i++) {
        cell n = (cell)i;
        y[i] = ((((x[i] * n + 1) * n + 2) * n + 3) * n + 4) * n + 5;
    }
}

int main(int words, char **word) {
    static const struct {
        const char *name;
        void (*loop)(void);
    } loops[] = {
        {"increase", increase}, {"scale", scale},     {"smooth", smooth},
        {"choose", choose},     {"quartic", quartic}, {"powers", powers},
    };
    if (words != 4) return 2;
    long times = atol(word[2]);
    cells = atol(word[3]);
    if (cells < 0 || cells > MOST) return 2;
    for (int n = 0; n < cells + 2; n++) x[n] = (cell)(n * 37 % 101);
    for (size_t k = 0; k < sizeof loops / sizeof *loops; k++) {
        if (strcmp(loops[k].name, word[1])) continue;
        void (*volatile loop)(void) = loops[k].loop;
        for (long t = 0; t < times; t++) loop();
    }
    cell sum = 0;
    for (int n = 1; n <= cells; n++) sum = sum * 31 + y[n];
    printf("%lld\n", (long long)value(sum));
    return 0;
}
