/* Prints a keyring that is in memory: what the reply to `list` or `sigs` needs at least. `print FILE` reads what `sigs` printed into structs
   of numbers, bytes and texts, and then answers each line of standard input: at `list` or `sigs` it makes all lines anew, and then `ok`. */
#include <stdint.h>
#include <stdio.h>
#include <stdlib.h>
#include <string.h>
#include <unistd.h>

enum { FIELDS = 16, PIECE = 1 << 20, ROOM = 1 << 14 };

struct text {
    const unsigned char *at;
    size_t length;
};

struct cert {
    uint64_t issuer;
    uint32_t made, expires;
    uint8_t class, depth, amount, local;
    struct text scope, named;
};

struct user {
    struct text kind, hash, text;
    uint32_t made, expires, certs;
    char letter;
};

struct key {
    uint64_t id;
    struct text caps, fpr;
    uint32_t bits, algo, made, expires, users;
    char letter, trust;
};

static struct text head;
static struct key *keys;
static struct user *users;
static struct cert *certs;
static size_t key_count, user_count, cert_count;

/* ---- reading, which is not timed */

static uint64_t number(struct text f, unsigned base) {
    uint64_t n = 0;
    for (size_t i = 0; i < f.length; i++)
        n = n * base + (f.at[i] <= '9' ? f.at[i] - '0' : (f.at[i] | 32) - 'a' + 10);
    return n;
}

/* The bytes that pairs of digits spell, in their place; with a mark, those that follow it, and every other byte for itself. */
static struct text spelled(struct text f, char mark) {
    unsigned char *to = (unsigned char *)f.at;
    size_t length = 0;
    for (size_t i = 0; i < f.length; length++) {
        int plain = mark && f.at[i] != mark;
        size_t digits = i + (mark ? 2 : 0);
        to[length] = plain ? f.at[i] : (unsigned char)number((struct text){f.at + digits, 2}, 16);
        i = plain ? i + 1 : digits + 2;
    }
    return (struct text){f.at, length};
}

static struct key read_key(const struct text *f) {
    return (struct key){
        .letter = (char)*f[1].at, .bits = (uint32_t)number(f[2], 10), .algo = (uint32_t)number(f[3], 10), .id = number(f[4], 16),
        .made = (uint32_t)number(f[5], 10), .expires = (uint32_t)number(f[6], 10), .trust = (char)*f[8].at, .caps = f[11],
    };
}

static struct user read_user(const struct text *f) {
    return (struct user){
        .kind = f[0], .letter = (char)*f[1].at, .made = (uint32_t)number(f[5], 10), .expires = (uint32_t)number(f[6], 10),
        .hash = f[7], .text = spelled(f[9], '\\'),
    };
}

static struct cert read_cert(const struct text *f) {
    const unsigned char *space = memchr(f[7].at, ' ', f[7].length);
    size_t first = space ? (size_t)(space - f[7].at) : 0;
    return (struct cert){
        .issuer = number(f[4], 16), .made = (uint32_t)number(f[5], 10), .expires = (uint32_t)number(f[6], 10),
        .depth = (uint8_t)number((struct text){f[7].at, first}, 10),
        .amount = space ? (uint8_t)number((struct text){space + 1, f[7].length - first - 1}, 10) : 0,
        .scope = spelled(f[8], '\\'), .class = (uint8_t)number((struct text){f[10].at, 2}, 16), .local = f[10].at[2] == 'l',
        .named = spelled(f[12], 0),
    };
}

static void read_line(const unsigned char *line, const unsigned char *end) {
    struct text f[FIELDS] = {{line, 0}};
    int n = 0;
    for (const unsigned char *at = line; at < end; at++)
        if (*at != ':')
            f[n].length++;
        else if (++n < FIELDS)
            f[n] = (struct text){at + 1, 0};
        else
            return;
    if (!memcmp(line, "tru", 3))
        head = (struct text){line, (size_t)(end - line) + 1};
    else if (!memcmp(line, "pub", 3))
        keys[key_count++] = read_key(f);
    else if (!memcmp(line, "fpr", 3))
        keys[key_count - 1].fpr = spelled(f[9], 0);
    else if (!memcmp(line, "uid", 3) || !memcmp(line, "uat", 3))
        users[user_count++] = read_user(f), keys[key_count - 1].users++;
    else if (!memcmp(line, "sig", 3) || !memcmp(line, "rev", 3))
        certs[cert_count++] = read_cert(f), users[user_count - 1].certs++;
}

static int read_all(const char *path) {
    FILE *file = fopen(path, "rb");
    if (!file || fseek(file, 0, SEEK_END))
        return 0;
    size_t size = (size_t)ftell(file), lines = 1;
    unsigned char *listing = malloc(size + 1), *at = listing, *newline;
    rewind(file);
    if (!listing || fread(listing, 1, size, file) != size)
        return 0;
    for (size_t i = 0; i < size; i++)
        lines += listing[i] == '\n';
    keys = calloc(lines, sizeof *keys), users = calloc(lines, sizeof *users), certs = calloc(lines, sizeof *certs);
    if (!keys || !users || !certs)
        return 0;
    for (; (newline = memchr(at, '\n', size - (size_t)(at - listing))); at = newline + 1)
        read_line(at, newline);
    return 1;
}

/* ---- printing */

static unsigned char piece[PIECE], *to = piece;

static int flushed(void) {
    for (unsigned char *at = piece; at < to;) {
        ssize_t n = write(1, at, (size_t)(to - at));
        if (n < 0)
            return 0;
        at += n;
    }
    to = piece;
    return 1;
}

#define PUT(word) (memcpy(to, word, sizeof(word) - 1), to += sizeof(word) - 1)

static void put_text(struct text text) {
    memcpy(to, text.at, text.length);
    to += text.length;
}

static void put_number(uint32_t n) {
    unsigned char digits[10];
    int at = sizeof digits;
    do
        digits[--at] = (unsigned char)('0' + n % 10);
    while (n /= 10);
    put_text((struct text){digits + at, sizeof digits - (size_t)at});
}

static void put_expiry(uint32_t n) {
    if (n)
        put_number(n);
    *to++ = ':';
}

static void put_byte(unsigned byte, const char *digits) {
    *to++ = (unsigned char)digits[byte / 16];
    *to++ = (unsigned char)digits[byte % 16];
}

static void put_id(uint64_t id) {
    for (int shift = 56; shift >= 0; shift -= 8)
        put_byte(id >> shift & 255, "0123456789ABCDEF");
    *to++ = ':';
}

static void put_quoted(struct text text) {
    for (size_t i = 0; i < text.length; i++) {
        unsigned char b = text.at[i];
        if (b < ' ' || b == 127 || b == ':' || b == '\\')
            PUT("\\x"), put_byte(b, "0123456789abcdef");
        else
            *to++ = b;
    }
    *to++ = ':';
}

static void put_fingerprint(struct text fpr) {
    for (size_t i = 0; i < fpr.length; i++)
        put_byte(fpr.at[i], "0123456789ABCDEF");
}

static void put_key(const struct key *key) {
    PUT("pub:"), *to++ = (unsigned char)key->letter, *to++ = ':';
    put_number(key->bits), *to++ = ':';
    put_number(key->algo), *to++ = ':';
    put_id(key->id);
    put_number(key->made), *to++ = ':';
    put_expiry(key->expires);
    PUT(":"), *to++ = (unsigned char)key->trust, PUT(":::");
    put_text(key->caps), PUT(":\nfpr:::::::::");
    put_fingerprint(key->fpr);
    PUT(":\n");
}

static void put_user(const struct user *user) {
    put_text(user->kind), *to++ = ':', *to++ = (unsigned char)user->letter, PUT("::::");
    put_number(user->made), *to++ = ':';
    put_expiry(user->expires);
    put_text(user->hash), PUT("::");
    put_quoted(user->text);
    *to++ = '\n';
}

static void put_cert(const struct cert *cert) {
    if (cert->class == 0x30)
        PUT("rev:!:::");
    else
        PUT("sig:!:::");
    put_id(cert->issuer);
    put_number(cert->made), *to++ = ':';
    put_expiry(cert->expires);
    if (cert->depth || cert->amount)
        put_number(cert->depth), *to++ = ' ', put_number(cert->amount);
    *to++ = ':';
    put_quoted(cert->scope);
    *to++ = ':';
    put_byte(cert->class, "0123456789abcdef");
    *to++ = cert->local ? 'l' : 'x', *to++ = ':';
    if (cert->named.length)
        *to++ = ':', put_fingerprint(cert->named), *to++ = ':';
    *to++ = '\n';
}

/* Whether there is room for one line more, whose texts are so long. */
static int has_room(size_t length) {
    return 4 * length + ROOM < (size_t)(piece + PIECE - to) || (flushed() && 4 * length + ROOM < PIECE);
}

static int printed(int sigs) {
    const struct user *user = users;
    const struct cert *cert = certs;
    put_text(head);
    for (const struct key *key = keys; key < keys + key_count; key++) {
        if (!has_room(key->caps.length + key->fpr.length))
            return 0;
        put_key(key);
        for (uint32_t u = 0; u < key->users; u++, user++) {
            if (!has_room(user->text.length + user->hash.length))
                return 0;
            put_user(user);
            for (uint32_t c = 0; c < user->certs; c++, cert++) {
                if (sigs && !has_room(cert->scope.length))
                    return 0;
                if (sigs)
                    put_cert(cert);
            }
        }
    }
    return 1;
}

int main(int words, char **word) {
    char line[256];
    if (words != 2 || !read_all(word[1]))
        return 5;
    while (fgets(line, sizeof line, stdin)) {
        int known = !strcmp(line, "list\n") || !strcmp(line, "sigs\n");
        if (known && !printed(line[0] == 's'))
            return 4;
        if (known)
            PUT("ok\n");
        else
            PUT("err\n");
        if (!flushed())
            return 4;
    }
    return 0;
}
