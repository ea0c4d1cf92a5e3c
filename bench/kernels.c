/* The 24 kernels by hand, as plain loops: the measure that the proved ones are held to. Words as of kernel_bench.
 * Arithmetic that wraps is done on uint64_t. Matrices stand column after column. */
#include <inttypes.h>
#include <stdint.h>
#include <stdio.h>
#include <stdlib.h>
#include <string.h>

#define KERNEL __attribute__((noinline)) static void
#define EACH for (size_t i = 0; i < n; i++)
typedef uint64_t u64;
typedef int64_t i64;
typedef uint64_t *restrict out;
typedef const uint64_t *restrict in;

void sort_rising(i64 *x, size_t n);

KERNEL fill(out x, size_t n, u64 k) { EACH x[i] = k; }
KERNEL addk(out x, size_t n, u64 k) { EACH x[i] += k; }
KERNEL scale(out x, size_t n, u64 k) { EACH x[i] *= k; }
KERNEL neg(out x, size_t n) { EACH x[i] = 0 - x[i]; }
KERNEL iota(out x, size_t n, u64 k) { EACH x[i] = k + i; }
KERNEL copy(out x, in y, size_t n) { EACH x[i] = y[i]; }
KERNEL add(out x, in y, size_t n) { EACH x[i] += y[i]; }
KERNEL sub(out x, in y, size_t n) { EACH x[i] -= y[i]; }
KERNEL mul(out x, in y, size_t n) { EACH x[i] *= y[i]; }
KERNEL axpy(out x, in y, size_t n, u64 k) { EACH x[i] += k * y[i]; }
KERNEL xor(out x, in y, size_t n) { EACH x[i] ^= y[i]; }
KERNEL min(i64 *restrict x, const i64 *restrict y, size_t n) { EACH x[i] = x[i] < y[i] ? x[i] : y[i]; }
KERNEL max(i64 *restrict x, const i64 *restrict y, size_t n) { EACH x[i] = x[i] > y[i] ? x[i] : y[i]; }
KERNEL swap(out x, out y, size_t n) { EACH { u64 old = x[i]; x[i] = y[i]; y[i] = old; } }
KERNEL scan(out x, size_t n) { u64 sum = 0; EACH { sum += x[i]; x[i] = sum; } }
KERNEL sum(out x, in y, size_t n) { u64 sum = 0; EACH sum += y[i]; x[0] = sum; }
KERNEL dot(out x, in y, in z, size_t n) { u64 sum = 0; EACH sum += y[i] * z[i]; x[0] = sum; }

static inline void turn(u64 *x, size_t n) {
    for (size_t i = 0; i < n / 2; i++) { u64 old = x[i]; x[i] = x[n - 1 - i]; x[n - 1 - i] = old; }
}
KERNEL rev(u64 *x, size_t n) { turn(x, n); }
KERNEL rot(u64 *x, size_t n, i64 k) {
    if (!n) return;
    i64 rest = k % (i64)n;
    size_t places = rest < 0 ? rest + n : rest;
    turn(x, places);
    turn(x + places, n - places);
    turn(x, n);
}

KERNEL copyt(out x, in y, size_t rows, size_t cols) {
    for (size_t j = 0; j < cols; j++)
        for (size_t i = 0; i < rows; i++) x[j * rows + i] = y[i * cols + j];
}
KERNEL gemv(out y, in a, in x, size_t rows, size_t inner) {
    for (size_t q = 0; q < inner; q++)
        for (size_t i = 0; i < rows; i++) y[i] += a[q * rows + i] * x[q];
}
KERNEL gemm(out c, in a, in b, size_t rows, size_t inner, size_t cols) {
    for (size_t j = 0; j < cols; j++)
        for (size_t q = 0; q < inner; q++)
            for (size_t i = 0; i < rows; i++) c[j * rows + i] += a[q * rows + i] * b[j * inner + q];
}
static inline u64 place(in y, size_t rows, size_t cols, size_t i, size_t j) {
    u64 sum = 0 - 4 * y[j * rows + i];
    if (i > 0) sum += y[j * rows + i - 1];
    if (i + 1 < rows) sum += y[j * rows + i + 1];
    if (j > 0) sum += y[(j - 1) * rows + i];
    if (j + 1 < cols) sum += y[(j + 1) * rows + i];
    return sum;
}
KERNEL stencil5(out x, in y, size_t rows, size_t cols) {
    for (size_t j = 0; j < cols; j++) {
        if (j == 0 || j + 1 == cols || rows < 2) {
            for (size_t i = 0; i < rows; i++) x[j * rows + i] = place(y, rows, cols, i, j);
            continue;
        }
        in here = y + j * rows, left = here - rows, right = here + rows;
        x[j * rows] = place(y, rows, cols, 0, j);
        for (size_t i = 1; i + 1 < rows; i++) x[j * rows + i] = here[i - 1] + here[i + 1] + left[i] + right[i] - 4 * here[i];
        x[j * rows + rows - 1] = place(y, rows, cols, rows - 1, j);
    }
}

static size_t rows[3], cols[3];
static u64 *bufs[3];

static void trmv(u64 *restrict x, const u64 *restrict l, size_t n) {
    const u64 *column = l + n * (n + 1) / 2;
    for (size_t j = n; j-- > 0;) {
        column -= n - j;
        u64 k = x[j];
        for (size_t i = 1; i < n - j; i++) x[j + i] += k * column[i];
        x[j] = k * column[0];
    }
}

static void trsv_unit(u64 *restrict x, const u64 *restrict p, size_t n) {
    for (size_t j = 0; j < n; j++) {
        u64 k = x[j];
        for (size_t i = 0; i < n - j - 1; i++) x[j + 1 + i] -= k * p[i];
        p += n - j - 1;
    }
}

static void mirror(const u64 *restrict p, u64 *restrict q, size_t n) {
    for (size_t j = 1; j < n; j++) {
        size_t place = j - 1, step = n - 1;
        for (size_t i = 0; i < j; i++) {
            *q++ = p[place];
            place += --step;
        }
    }
}

static void syrk_packed(u64 *restrict l, const u64 *restrict a, size_t n, size_t p) {
    for (size_t j = 0; j < n; j++) {
        for (size_t q = 0; q < p; q++) {
            const u64 *part = a + q * n + j;
            u64 k = part[0];
            for (size_t i = 0; i < n - j; i++) l[i] += k * part[i];
        }
        l += n - j;
    }
}

// the order of a strict triangle of so many elements
static size_t order_of(size_t len) {
    size_t n = 1;
    while (n * (n - 1) / 2 < len) n++;
    return n;
}

static void run(const char *name, i64 k) {
    u64 *x = bufs[0], *y = bufs[1], *z = bufs[2];
    size_t n = rows[0] * cols[0], m = rows[1] * cols[1];
#define IS(word) if (!strcmp(name, #word))
    IS(fill) fill(x, n, k);
    else IS(addk) addk(x, n, k);
    else IS(scale) scale(x, n, k);
    else IS(copy) copy(x, y, n);
    else IS(copyt) copyt(x, y, rows[0], cols[0]);
    else IS(add) add(x, y, n);
    else IS(sub) sub(x, y, n);
    else IS(mul) mul(x, y, n);
    else IS(axpy) axpy(x, y, n, k);
    else IS(xor) xor(x, y, n);
    else IS(min) min((i64 *)x, (i64 *)y, n);
    else IS(max) max((i64 *)x, (i64 *)y, n);
    else IS(neg) neg(x, n);
    else IS(rev) rev(x, n);
    else IS(rot) rot(x, n, k);
    else IS(sort) sort_rising((i64 *)x, n);
    else IS(scan) scan(x, n);
    else IS(sum) sum(x, y, m);
    else IS(dot) dot(x, y, z, m);
    else IS(swap) swap(x, y, n);
    else IS(iota) iota(x, n, k);
    else IS(gemm) gemm(x, y, z, rows[1], cols[1], cols[2]);
    else IS(gemv) gemv(x, y, z, rows[1], cols[1]);
    else IS(stencil5) stencil5(x, y, rows[1], cols[1]);
    else IS(trmv) trmv(x, y, n);
    else IS(trsv_unit) trsv_unit(x, y, n);
    else IS(trsm_unit) for (size_t j = 0; j < cols[0]; j++) trsv_unit(x + j * rows[0], y, rows[0]);
    else IS(mirror) mirror(x, y, order_of(n));
    else IS(syrk_packed) syrk_packed(x, y, rows[1], cols[1]);
    else exit(9);
}

int main(int count, char **words) {
    if (count < 7) return 9;
    long rounds = atol(words[2]), times = atol(words[3]);
    i64 k = strtoll(words[4], 0, 10);
    int accesses = (count - 5) / 2;
    u64 check = 0;
    for (int b = 0; b < accesses; b++) {
        rows[b] = atol(words[5 + 2 * b]);
        cols[b] = atol(words[6 + 2 * b]);
    }
    for (long round = 0; round < rounds; round++) {
        u64 seed = round;
        for (int b = 0; b < accesses; b++) {
            u64 state = seed += 0x9E3779B9;
            bufs[b] = calloc(rows[b] * cols[b], sizeof(u64));
            for (size_t i = 0; i < rows[b] * cols[b]; i++) {
                state = state * 6364136223846793005 + 1442695040888963407;
                bufs[b][i] = state >> 1;
            }
        }
        for (long time = 0; time < times; time++) run(words[1], k);
        for (int b = 0; b < accesses; b++) {
            for (size_t i = 0; i < rows[b] * cols[b]; i++) check = check * 31 + bufs[b][i];
            free(bufs[b]);
        }
    }
    printf("%" PRId64 "\n", (i64)check);
}
