/* Reads a store's file whole, hops from record to record, and counts them: what any replay does at least. hops FILE */
#include <stdio.h>
#include <stdlib.h>

enum { HEADER = 24, PAGE = 4096 };

static size_t number(const unsigned char *at, int bytes) {
    size_t n = 0;
    while (bytes--)
        n = n << 8 | *at++;
    return n;
}

int main(int words, char **word) {
    FILE *file = words == 2 ? fopen(word[1], "rb") : NULL;
    if (!file || fseek(file, 0, SEEK_END))
        return 5;
    size_t size = (size_t)ftell(file), records = 0, sum = 0;
    unsigned char *store = malloc(size);
    rewind(file);
    if (!store || size < HEADER || fread(store, 1, size, file) != size)
        return 5;
    size_t at = HEADER + PAGE * number(store + 16, 8);
    while (at + 5 <= size && store[at] == 0xa5) {
        size_t end = at + 5 + number(store + at + 1, 4);
        for (at += 5; at < end && at < size; at++)
            sum += store[at];
        at = end;
        records++;
    }
    printf("%zu records, %zu\n", records, sum);
    return 0;
}
