/* The keys that `sample SEED COUNT` makes, by another program than the one that is timed.
     made SEED COUNT           makes them in memory and prints a sum over all of it: the least that making them takes
     made SEED COUNT listing   prints them as a listing
     made SEED COUNT trusts    prints their ownertrust */
#include <inttypes.h>
#include <stdio.h>
#include <stdlib.h>
#include <string.h>

enum { CERTS = 4, MADE = 1600000000, EXPIRES = 1700000000 };

struct cert {
    uint64_t issuer;
    uint32_t made;
    uint8_t depth, amount;
};

struct key {
    uint64_t seed, id;
    uint32_t expires;
    int revoked, certs, trust;
    char *text;
    struct cert cert[CERTS];
};

static uint64_t mix(uint64_t x) {
    uint64_t z = x + UINT64_C(0x9e3779b97f4a7c15);
    z = (z ^ (z >> 30)) * UINT64_C(0xbf58476d1ce4e5b9);
    z = (z ^ (z >> 27)) * UINT64_C(0x94d049bb133111eb);
    return z ^ (z >> 31);
}

static uint64_t draw(uint64_t seed, uint64_t i, uint64_t k) {
    return mix(seed + mix(16 * i + k));
}

static uint64_t key_id(uint64_t seed, uint64_t i) {
    return (seed << 32) + i;
}

static struct cert made_cert(uint64_t seed, uint64_t i, int c) {
    int trusts = draw(seed, i, 8 + c) % 8 == 0;
    return (struct cert){
        .issuer = key_id(seed, draw(seed, i, c) % (i / 3 + 1)),
        .made = MADE + (uint32_t)(draw(seed, i, 4 + c) % 100000000),
        .depth = trusts ? 2 : 0,
        .amount = trusts ? 60 : 0,
    };
}

static struct key made_key(uint64_t seed, uint64_t i) {
    static const int trusts[] = {5, 4, 4, 0};
    char text[64];
    snprintf(text, sizeof text, "Key %" PRIu64 " <k%" PRIu64 "@d%" PRIu64 ".example>", i, i, i % 7);
    struct key key = {
        .seed = seed,
        .id = key_id(seed, i),
        .expires = i % 50 == 49 ? EXPIRES : 0,
        .revoked = i % 97 == 96,
        .certs = i ? CERTS : 0,
        .trust = i ? trusts[draw(seed, i, 12) % 4] : 6,
        .text = strdup(text),
    };
    for (int c = 0; c < key.certs; c++)
        key.cert[c] = made_cert(seed, i, c);
    return key;
}

static void print_key(const struct key *key) {
    char expires[16] = "";
    if (key->expires)
        snprintf(expires, sizeof expires, "%" PRIu32, key->expires);
    printf("pub:%s:255:22:%016" PRIX64 ":%d:%s::-:::scSC:\n", key->revoked ? "r" : "-", key->id, MADE, expires);
    printf("fpr:::::::::%016" PRIX64 "00000000%016" PRIX64 ":\n", key->seed, key->id);
    printf("uid:-::::%d::::%s:\n", MADE, key->text);
    for (int c = 0; c < key->certs; c++) {
        const struct cert *cert = &key->cert[c];
        printf("sig:!:::%016" PRIX64 ":%" PRIu32 "::%s:::10x:\n", cert->issuer, cert->made, cert->depth ? "2 60" : "");
    }
}

static uint64_t sum_of(const struct key *key) {
    uint64_t sum = key->id + key->expires + (uint64_t)key->revoked + (uint64_t)key->trust + strlen(key->text);
    for (int c = 0; c < key->certs; c++)
        sum += key->cert[c].issuer + key->cert[c].made + key->cert[c].depth + key->cert[c].amount;
    return sum;
}

static void print_trust(const struct key *key) {
    if (key->trust)
        printf("%016" PRIX64 "00000000%016" PRIX64 ":%d:\n", key->seed, key->id, key->trust);
}

int main(int words, char **word) {
    if (words < 3)
        return 2;
    uint64_t seed = strtoull(word[1], NULL, 10), count = strtoull(word[2], NULL, 10), sum = 0;
    struct key *keys = malloc((size_t)count * sizeof *keys);
    if (!keys)
        return 7;
    for (uint64_t i = 0; i < count; i++)
        keys[i] = made_key(seed, i);
    for (uint64_t i = 0; i < count; i++) {
        if (words == 3)
            sum += sum_of(&keys[i]);
        else if (!strcmp(word[3], "listing"))
            print_key(&keys[i]);
        else
            print_trust(&keys[i]);
    }
    if (words == 3)
        printf("%" PRIu64 "\n", sum);
    return 0;
}
