/* What an edit needs at least: for each line of standard input the four calls of the disk that one `trust` makes, and then `ok`.
   edits FILE */
#include <fcntl.h>
#include <stdio.h>
#include <string.h>
#include <unistd.h>

enum { RECORD = 28 };

static int put(int file, off_t at, const void *bytes, size_t length) {
    return lseek(file, at, SEEK_SET) == at && write(file, bytes, length) == (ssize_t)length && fdatasync(file) == 0;
}

int main(int words, char **word) {
    char line[256], record[RECORD] = {0, 0, 0, 23, 3, 20};
    if (words != 2)
        return 2;
    int file = open(word[1], O_RDWR | O_CREAT | O_TRUNC, 0644);
    off_t end = 24;
    if (file < 0 || !put(file, 0, "\xa5WOTBASE\0\0\0\0\0\0\0\1\0\0\0\0\0\0\0\0", 25))
        return 5;
    while (fgets(line, sizeof line, stdin)) {
        if (!put(file, end + 1, record, sizeof record) || !put(file, end, "\xa5", 1))
            return 5;
        end += RECORD;
        if (write(1, "ok\n", 3) != 3)
            return 4;
    }
    return 0;
}
