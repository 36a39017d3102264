/* Cuts standard input into lines and each line into fields, by the place and length of each field, and counts them: what any reader
   of a listing does at least. Nothing is looked at or kept beyond the line. */
#include <stdio.h>
#include <string.h>
#include <unistd.h>

struct field {
    const char *at;
    size_t length;
};

static unsigned long lines, fields;
static size_t widest;

static void cut(const char *line, size_t length) {
    static struct field cut_fields[4096];
    size_t n = 0;
    const char *end = line + length, *at = line;
    for (;;) {
        const char *colon = memchr(at, ':', (size_t)(end - at));
        cut_fields[n % 4096].at = at;
        cut_fields[n % 4096].length = (size_t)((colon ? colon : end) - at);
        if (cut_fields[n % 4096].length > widest)
            widest = cut_fields[n % 4096].length;
        n++;
        if (!colon)
            break;
        at = colon + 1;
    }
    lines++;
    fields += n;
}

int main(void) {
    static char buffer[1 << 17];
    size_t held = 0;
    ssize_t n;
    while ((n = read(0, buffer + held, sizeof buffer - held)) > 0) {
        held += (size_t)n;
        char *at = buffer, *end = buffer + held, *newline;
        while ((newline = memchr(at, '\n', (size_t)(end - at)))) {
            cut(at, (size_t)(newline - at));
            at = newline + 1;
        }
        held = (size_t)(end - at);
        memmove(buffer, at, held);
    }
    if (held)
        cut(buffer, held);
    printf("%lu lines, %lu fields, the widest of %zu bytes\n", lines, fields, widest);
    return 0;
}
