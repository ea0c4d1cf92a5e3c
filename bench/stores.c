// stores FOLDER BLOCKS ELEMENTS [each]: what store_bench does, as one writes it in C. The files of all blocks are made and
// written in pieces of 512 values of 8 bytes, the highest first; then each is read in such pieces and removed. With `each` a
// file is opened anew for each piece, as a slot is; without it, once to be written and once to be read. Prints the sum of all values.
#include <fcntl.h>
#include <stdint.h>
#include <stdio.h>
#include <stdlib.h>
#include <sys/stat.h>
#include <unistd.h>

enum { PIECE = 512 };

static char name[4096];

static void fail(void) {
    perror(name);
    exit(1);
}

static int opened(int how) {
    int file = open(name, how, 0666);
    if (file < 0) fail();
    return file;
}

static void put(int file, const int64_t *values, long count) {
    uint64_t bytes[PIECE];
    for (long i = 0; i < count; i++) bytes[i] = __builtin_bswap64((uint64_t)values[i]);
    if (write(file, bytes, 8 * (size_t)count) != 8 * count) fail();
}

static void get(int file, int64_t *values, long count) {
    uint64_t bytes[PIECE];
    if (read(file, bytes, 8 * (size_t)count) != 8 * count) fail();
    for (long i = 0; i < count; i++) values[i] = (int64_t)__builtin_bswap64(bytes[i]);
}

static long piece(long elements, long first) { return elements - first < PIECE ? elements - first : PIECE; }

int main(int argc, char **argv) {
    if (argc < 4) return 1;
    const char *folder = argv[1];
    long blocks = atol(argv[2]), elements = atol(argv[3]);
    int each = argc > 4;
    int64_t *values = malloc(8 * (size_t)elements + 1);
    uint64_t sum = 0;
    for (long i = 0; i < elements; i++) values[i] = (int64_t)((uint64_t)i * 0x0123456789ABCDEFu);
    if (blocks > 0) mkdir(folder, 0777);
    for (long n = 0; n < blocks; n++) {
        snprintf(name, sizeof name, "%s/slot-%ld.bin", folder, n);
        int file = opened(O_WRONLY | O_CREAT | O_TRUNC);
        for (long first = 0; first < elements; first += PIECE) {
            if (each) close(file), file = opened(O_WRONLY | O_APPEND);
            put(file, values + first, piece(elements, first));
        }
        close(file);
    }
    for (long n = 0; n < blocks; n++) {
        snprintf(name, sizeof name, "%s/slot-%ld.bin", folder, n);
        int64_t *back = malloc(8 * (size_t)elements + 1);
        int file = opened(O_RDONLY);
        for (long first = 0; first < elements; first += PIECE) {
            if (each && first > 0) {
                close(file), file = opened(O_RDONLY);
                lseek(file, 8 * first, SEEK_SET);
            }
            get(file, back + first, piece(elements, first));
        }
        close(file);
        for (long i = 0; i < elements; i++) sum += (uint64_t)back[i];
        free(back);
        unlink(name);
    }
    printf("%lld\n", (long long)sum);
    return 0;
}
