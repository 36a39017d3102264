/* Copies the bytes of a file in memory, several times, and prints the nanoseconds of the best. copy FILE TIMES */
#include <stdio.h>
#include <stdlib.h>
#include <string.h>
#include <time.h>

static long long now(void) {
    struct timespec t;
    clock_gettime(CLOCK_MONOTONIC, &t);
    return t.tv_sec * 1000000000LL + t.tv_nsec;
}

int main(int words, char **word) {
    FILE *file = words == 3 ? fopen(word[1], "rb") : NULL;
    if (!file || fseek(file, 0, SEEK_END))
        return 5;
    size_t size = (size_t)ftell(file);
    char *bytes = malloc(size);
    rewind(file);
    if (!bytes || fread(bytes, 1, size, file) != size)
        return 5;
    long long best = -1;
    for (int times = atoi(word[2]); times > 0; times--) {
        /* as a spelling is, the copy is new memory each time */
        long long start = now();
        char *copy = malloc(size);
        if (!copy)
            return 7;
        memcpy(copy, bytes, size);
        long long took = now() - start;
        if (memcmp(copy, bytes, size))
            return 1;
        free(copy);
        if (best < 0 || took < best)
            best = took;
    }
    printf("%lld\n", best);
    return 0;
}
