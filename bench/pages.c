/* The pages of a side of the store, with SHA-256 in plain C.
     pages sums FILE        makes the seals of all pages in memory, and prints the nanoseconds of that alone
     pages read FILE        the same, where each page is read in one call: what an opening can't leave out
     pages copy FILE        reads each page in one call and makes no seal
     pages write FILE NEW   writes the contents of FILE's pages as a side, in the calls and syncs of a compaction, and prints the
                            nanoseconds of that alone; the file NEW is written over where it is there
     pages put FILE NEW     the same with the seals that FILE has
   A seal that is not the stored one ends it with 1. */
#include <fcntl.h>
#include <stdint.h>
#include <stdio.h>
#include <stdlib.h>
#include <string.h>
#include <sys/stat.h>
#include <time.h>
#include <unistd.h>

enum { HEADER = 24, PAGE = 4096, CONTENT = 4064, SEAL = 32, BLOCK = 64 };

static const uint32_t ROUND[64] = {
    0x428a2f98, 0x71374491, 0xb5c0fbcf, 0xe9b5dba5, 0x3956c25b, 0x59f111f1, 0x923f82a4, 0xab1c5ed5, 0xd807aa98, 0x12835b01, 0x243185be,
    0x550c7dc3, 0x72be5d74, 0x80deb1fe, 0x9bdc06a7, 0xc19bf174, 0xe49b69c1, 0xefbe4786, 0x0fc19dc6, 0x240ca1cc, 0x2de92c6f, 0x4a7484aa,
    0x5cb0a9dc, 0x76f988da, 0x983e5152, 0xa831c66d, 0xb00327c8, 0xbf597fc7, 0xc6e00bf3, 0xd5a79147, 0x06ca6351, 0x14292967, 0x27b70a85,
    0x2e1b2138, 0x4d2c6dfc, 0x53380d13, 0x650a7354, 0x766a0abb, 0x81c2c92e, 0x92722c85, 0xa2bfe8a1, 0xa81a664b, 0xc24b8b70, 0xc76c51a3,
    0xd192e819, 0xd6990624, 0xf40e3585, 0x106aa070, 0x19a4c116, 0x1e376c08, 0x2748774c, 0x34b0bcb5, 0x391c0cb3, 0x4ed8aa4a, 0x5b9cca4f,
    0x682e6ff3, 0x748f82ee, 0x78a5636f, 0x84c87814, 0x8cc70208, 0x90befffa, 0xa4506ceb, 0xbef9a3f7, 0xc67178f2,
};

static uint32_t turn(uint32_t x, int by) {
    return x >> by | x << (32 - by);
}

static void put_number(unsigned char *at, uint64_t n, int bytes) {
    while (bytes--) {
        at[bytes] = (unsigned char)n;
        n >>= 8;
    }
}

static uint64_t number(const unsigned char *at, int bytes) {
    uint64_t n = 0;
    while (bytes--)
        n = n << 8 | *at++;
    return n;
}

static void add_block(uint32_t state[8], const unsigned char *block) {
    uint32_t w[64];
    uint32_t a = state[0], b = state[1], c = state[2], d = state[3], e = state[4], f = state[5], g = state[6], h = state[7];
    for (int i = 0; i < 16; i++)
        w[i] = (uint32_t)block[4 * i] << 24 | (uint32_t)block[4 * i + 1] << 16 | (uint32_t)block[4 * i + 2] << 8 | block[4 * i + 3];
    for (int i = 16; i < 64; i++) {
        uint32_t x = w[i - 15], y = w[i - 2];
        w[i] = w[i - 16] + (turn(x, 7) ^ turn(x, 18) ^ x >> 3) + w[i - 7] + (turn(y, 17) ^ turn(y, 19) ^ y >> 10);
    }
    for (int i = 0; i < 64; i++) {
        uint32_t one = h + (turn(e, 6) ^ turn(e, 11) ^ turn(e, 25)) + ((e & f) ^ (~e & g)) + ROUND[i] + w[i];
        uint32_t two = (turn(a, 2) ^ turn(a, 13) ^ turn(a, 22)) + ((a & b) ^ (a & c) ^ (b & c));
        h = g, g = f, f = e, e = d + one;
        d = c, c = b, b = a, a = one + two;
    }
    state[0] += a, state[1] += b, state[2] += c, state[3] += d;
    state[4] += e, state[5] += f, state[6] += g, state[7] += h;
}

/* The seal of a page: of the epoch, the page's number and its content, which fill 63 blocks and 48 bytes of the last. */
static void seal(unsigned char *to, uint64_t epoch, uint64_t page, const unsigned char *content) {
    static unsigned char text[64 * BLOCK];
    uint32_t state[8] = {0x6a09e667, 0xbb67ae85, 0x3c6ef372, 0xa54ff53a, 0x510e527f, 0x9b05688c, 0x1f83d9ab, 0x5be0cd19};
    put_number(text, epoch, 8);
    put_number(text + 8, page, 8);
    memcpy(text + 16, content, CONTENT);
    text[16 + CONTENT] = 0x80;
    put_number(text + sizeof text - 8, 8 * (16 + CONTENT), 8);
    for (size_t at = 0; at < sizeof text; at += BLOCK)
        add_block(state, text + at);
    for (int i = 0; i < 8; i++)
        put_number(to + 4 * i, state[i], 4);
}

static long long now(void) {
    struct timespec t;
    clock_gettime(CLOCK_MONOTONIC, &t);
    return t.tv_sec * 1000000000LL + t.tv_nsec;
}

static int is_sealed(const unsigned char *page, uint64_t epoch, uint64_t n) {
    unsigned char made[SEAL];
    seal(made, epoch, n, page);
    return !memcmp(made, page + CONTENT, SEAL);
}

static int get(int file, off_t at, void *bytes, size_t length) {
    return lseek(file, at, SEEK_SET) == at && read(file, bytes, length) == (ssize_t)length;
}

static int put(int file, off_t at, const void *bytes, size_t length) {
    return lseek(file, at, SEEK_SET) == at && write(file, bytes, length) == (ssize_t)length;
}

/* Reads page after page. */
static int look_through(int file, const unsigned char *header, int sums) {
    unsigned char page[PAGE];
    for (uint64_t n = 0; n < number(header + 16, 8); n++) {
        if (!get(file, HEADER + (off_t)n * PAGE, page, PAGE))
            return 5;
        if (sums && !is_sealed(page, number(header + 8, 8), n))
            return 1;
    }
    return 0;
}

/* All pages in memory. */
static unsigned char *pages_of(int file, uint64_t pages) {
    unsigned char *bytes = malloc((size_t)pages * PAGE);
    for (size_t held = 0; bytes && held < pages * PAGE;) {
        ssize_t n = pread(file, bytes + held, pages * PAGE - held, HEADER + (off_t)held);
        if (n <= 0)
            return NULL;
        held += (size_t)n;
    }
    return bytes;
}

static int print_sums(const unsigned char *header, const unsigned char *bytes) {
    long long start = now();
    for (uint64_t n = 0; n < number(header + 16, 8); n++)
        if (!is_sealed(bytes + n * PAGE, number(header + 8, 8), n))
            return 1;
    printf("%lld\n", now() - start);
    return 0;
}

static int print_writing(const unsigned char *header, unsigned char *bytes, const char *path, int sums) {
    uint64_t pages = number(header + 16, 8);
    int file = open(path, O_RDWR | O_CREAT, 0644);
    long long start = now();
    if (file < 0 || !put(file, 0, "", 1) || fdatasync(file) || !put(file, 1, header + 1, HEADER - 1))
        return 5;
    for (uint64_t n = 0; n < pages; n++) {
        if (sums)
            seal(bytes + n * PAGE + CONTENT, number(header + 8, 8), n, bytes + n * PAGE);
        if (!put(file, HEADER + (off_t)n * PAGE, bytes + n * PAGE, PAGE))
            return 5;
    }
    if (!put(file, HEADER + (off_t)pages * PAGE, "", 1) || fdatasync(file) || !put(file, 0, "\xa5", 1) || fdatasync(file))
        return 5;
    printf("%lld\n", now() - start);
    return 0;
}

int main(int words, char **word) {
    unsigned char header[HEADER];
    int file = words >= 3 ? open(word[2], O_RDONLY) : -1;
    if (file < 0 || !get(file, 0, header, HEADER))
        return 5;
    if (!strcmp(word[1], "read") || !strcmp(word[1], "copy"))
        return look_through(file, header, word[1][0] == 'r');
    unsigned char *bytes = pages_of(file, number(header + 16, 8));
    if (!bytes)
        return 7;
    if (!strcmp(word[1], "sums"))
        return print_sums(header, bytes);
    return words == 4 ? print_writing(header, bytes, word[3], word[1][0] == 'w') : 2;
}
