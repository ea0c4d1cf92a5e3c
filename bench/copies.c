// copies STEP TIMES: what copy_bench does at most, as one writes it in C. All values, of 8 bytes, and all versions, of 4, are copied
// by memcpy, so many times, whatever the step. With 0 times only the lists are made.
#include <stdint.h>
#include <stdio.h>
#include <stdlib.h>
#include <string.h>

int main(int argc, char **argv) {
    if (argc < 3) return 1;
    size_t elements = 1000000;
    long times = atol(argv[2]);
    int64_t *ours = malloc(elements * 8), *theirs = malloc(elements * 8);
    uint32_t *our_versions = malloc(elements * 4), *their_versions = malloc(elements * 4);
    if (!ours || !theirs || !our_versions || !their_versions) return 1;
    for (size_t i = 0; i < elements; i++) {
        ours[i] = theirs[i] = 0;
        our_versions[i] = their_versions[i] = UINT32_MAX;
    }
    for (long n = 0; n < times; n++) {
        memcpy(ours, theirs, elements * 8);
        memcpy(our_versions, their_versions, elements * 4);
        __asm__ volatile("" : : "r"(ours), "r"(our_versions) : "memory");
    }
    uint64_t sum = 0;
    for (size_t i = 0; i < elements; i++) sum += (uint64_t)ours[i];
    printf("%lld\n", (long long)sum);
    return 0;
}
