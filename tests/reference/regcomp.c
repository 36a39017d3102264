/* What the C library's own matcher answers: of each line an expression and a text in hexadecimal digits, with a space between, a line `1` where
   it finds a match, `0` where it finds none, and `-` where it can't read the expression. */
#include <regex.h>
#include <stdio.h>
#include <string.h>

static const char *bytes(const char *digits, char *out) {
    for (unsigned byte; sscanf(digits, "%2x", &byte) == 1 && *digits != ' '; digits += 2) *out++ = (char)byte;
    *out = 0;
    return digits;
}

int main(void) {
    static char line[4096], scope[2048], text[2048];
    for (regex_t expression; fgets(line, sizeof line, stdin);) {
        bytes(bytes(line, scope) + 1, text);
        if (regcomp(&expression, scope, REG_EXTENDED | REG_ICASE | REG_NOSUB)) {
            puts("-");
            continue;
        }
        puts(regexec(&expression, text, 0, NULL, 0) ? "0" : "1");
        regfree(&expression);
    }
    return 0;
}
