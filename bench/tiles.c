// tiles WHICH TIMES [versions]: what copy_bench does with a tile, as one writes it in C. The part of a tile of 128 by 128 values that is in a
// block of 128 by 128 is copied out of it and back into it, column by column, by memcpy, for two sets of values in turn and so many times.
// The tile is the block, or lies `across` four, of which a quarter is in this one. With `versions` each value that is stored gets a number
// of 4 bytes beside it. With 0 times only the lists are made.
#include <stdint.h>
#include <stdio.h>
#include <stdlib.h>
#include <string.h>

enum { EDGE = 128, ROWS = 1024 };

static int64_t *filled(int64_t value) {
    int64_t *values = malloc(8 * EDGE * EDGE);
    if (!values) exit(1);
    for (long i = 0; i < EDGE * EDGE; i++) values[i] = value;
    return values;
}

int main(int argc, char **argv) {
    if (argc < 3) return 1;
    long from = strcmp(argv[1], "across") ? 0 : EDGE / 2;
    long many = EDGE - from, times = atol(argv[2]);
    int versions = argc > 3;
    int64_t *block = filled(0), *tile = filled(0), *made[] = {filled(1), filled(2)};
    uint32_t *numbers = calloc(EDGE * EDGE, 4);
    if (!numbers) return 1;
    for (long col = 0; col < EDGE; col++)
        for (long row = 0; row < EDGE; row++) block[col * EDGE + row] = col * ROWS + row + 1;
    for (long n = 0; n < 2 * times; n++) {
        for (long col = 0; col < many; col++) memcpy(tile + col * EDGE, block + (from + col) * EDGE + from, 8 * (size_t)many);
        __asm__ volatile("" : : "r"(tile) : "memory");
        for (long col = 0; col < many; col++) {
            long first = (from + col) * EDGE + from;
            memcpy(block + first, made[n % 2] + col * EDGE, 8 * (size_t)many);
            if (versions)
                for (long i = 0; i < many; i++) numbers[first + i] = (uint32_t)(n % 2 + 1);
        }
        __asm__ volatile("" : : "r"(block), "r"(numbers) : "memory");
    }
    uint64_t sum = 0;
    for (long i = 0; i < EDGE * EDGE; i++) sum += (uint64_t)block[i] + (uint64_t)tile[i];
    printf("%lld\n", (long long)sum);
    return 0;
}
