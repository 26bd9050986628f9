// Starts a program under its own first word and waits for it: peak FILE PROGRAM WORD.. writes to the file its status, or 128 and the
// signal that ended it, and the most kilobytes that it, or a program that it waited for, had resident.
#include <stdio.h>
#include <sys/resource.h>
#include <sys/wait.h>
#include <unistd.h>

int main(int count, char **words) {
    struct rusage used;
    int status;
    if (count < 4) {
        return 2;
    }
    // a program that is forked from a small one begins with a small peak
    pid_t child = fork();
    if (child == 0) {
        execv(words[2], words + 3);
        _exit(127);
    }
    if (child < 0 || wait4(child, &status, 0, &used) != child) {
        return 2;
    }
    FILE *file = fopen(words[1], "w");
    if (file == NULL) {
        return 2;
    }
    fprintf(file, "%d %ld\n", WIFEXITED(status) ? WEXITSTATUS(status) : 128 + WTERMSIG(status), used.ru_maxrss);
    return fclose(file) != 0;
}
