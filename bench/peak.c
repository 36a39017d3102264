/* Runs a program and prints on standard error how many kilobytes of memory it held at its peak. A process that is made by a large one
   counts the memory of that one too, so this small one makes it. peak PROGRAM [WORD]... */
#include <stdio.h>
#include <sys/resource.h>
#include <sys/wait.h>
#include <unistd.h>

int main(int words, char **word) {
    int status;
    struct rusage usage;
    pid_t child = words < 2 ? -1 : fork();
    if (child == 0) {
        execv(word[1], word + 1);
        _exit(127);
    }
    if (child < 0 || wait4(child, &status, 0, &usage) != child)
        return 1;
    fprintf(stderr, "%ld\n", usage.ru_maxrss);
    return WIFEXITED(status) ? WEXITSTATUS(status) : 1;
}
