/* The works on numbers of bench/works by hand, as plain loops, in the blocks of the scripts. Words as of bench/script.
 * Arithmetic that wraps is done on uint64_t. Matrices stand column after column. */
#include <stdlib.h>
#include <string.h>
#include <unistd.h>
#include "put.h"

#define WORK __attribute__((noinline)) static void
typedef uint64_t u64;
typedef uint64_t *restrict out;
typedef const uint64_t *restrict in;

static u64 *room(size_t n) {
    u64 *x = calloc(n, sizeof(u64));
    if (!x) exit(1);
    return x;
}

static u64 lcg(u64 seed, size_t place) {
    return ((seed + place + 1) * 6364136223846793005 + 1442695040888963407) >> 33;
}

static u64 *scattered(size_t n, u64 seed) {
    u64 *x = room(n);
    for (size_t i = 0; i < n; i++) x[i] = lcg(seed, i);
    return x;
}

static void print_sum(const char *name, in x, size_t n) {
    char line[64] = "sum ";
    u64 sum = 0;
    for (size_t i = 0; i < n; i++) sum += x[i];
    char *at = stpcpy(stpcpy(line + 4, name), " ");
    at = put(at, sum);
    *at++ = '\n';
    if (write(1, line, at - line) < 0) exit(5);
}

// adds the product of a block of a and one of b to one of c, in matrices of `edge` rows
WORK gemm(out c, in a, in b, size_t edge, size_t block) {
    for (size_t j = 0; j < block; j++)
        for (size_t q = 0; q < block; q++)
            for (size_t i = 0; i < block; i++) c[j * edge + i] += a[q * edge + i] * b[j * edge + q];
}

static void product(size_t edge, size_t block) {
    u64 *a = scattered(edge * edge, 1), *b = scattered(edge * edge, 2), *c = room(edge * edge);
    for (size_t j = 0; j < edge; j += block)
        for (size_t i = 0; i < edge; i += block)
            for (size_t q = 0; q < edge; q += block)
                gemm(c + j * edge + i, a + q * edge + i, b + j * edge + q, edge, block);
    print_sum("C", c, edge * edge);
}

WORK axpy(out x, in y, size_t n, u64 k) {
    for (size_t i = 0; i < n; i++) x[i] += k * y[i];
}

static void axpys(void) {
    size_t rows = 1000000;
    u64 *v = scattered(4 * rows, 1);
    for (size_t n = 0; n < 32; n++) axpy(v + n % 4 * rows, v + (n + 1) % 4 * rows, rows, n + 2);
    print_sum("V", v, 4 * rows);
}

// columns of `rows` elements, which in `y` lie between zeros, `rows + 2` places apart
WORK stencil5(out x, in y, size_t rows, size_t cols) {
    size_t step = rows + 2;
    for (size_t j = 0; j < cols; j++) {
        in here = y + j * step, above = here - 1, below = here + 1, left = here - step, right = here + step;
        for (size_t i = 0; i < rows; i++) x[j * rows + i] = above[i] + below[i] + left[i] + right[i] - 4 * here[i];
    }
}

static void stencils(void) {
    size_t edge = 1024, band = 128, step = edge + 2;
    u64 *a = room(step * step), *first = a + step + 1, *t = room(edge * edge);
    for (size_t j = 0; j < edge; j++)
        for (size_t i = 0; i < edge; i++) first[j * step + i] = lcg(1, j * edge + i);
    for (int n = 0; n < 16; n++) {
        for (size_t j = 0; j < edge; j += band) stencil5(t + j * edge, first + j * step, edge, band);
        for (size_t j = 0; j < edge; j++) memcpy(first + j * step, t + j * edge, edge * sizeof(u64));
    }
    print_sum("A", a, step * step);
}

static void print(void) {
    size_t edge = 2048;
    u64 *a = scattered(edge * edge, 1);
    char *line = malloc(21 * edge);
    for (size_t i = 0; i < edge; i++) {
        char *at = line;
        for (size_t j = 0; j < edge; j++) {
            at = put(at, a[j * edge + i]);
            *at++ = ' ';
        }
        at[-1] = '\n';
        if (write(1, line, at - line) < 0) exit(5);
    }
}

int main(int count, char **words) {
    if (count < 2) return 9;
#define IS(word) if (!strcmp(words[1], #word))
    IS(product) product(atol(words[2]), atol(words[3]));
    else IS(axpy) axpys();
    else IS(stencil) stencils();
    else IS(print) print();
    else return 9;
}
