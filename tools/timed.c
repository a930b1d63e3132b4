/* Runs a program once:  timed SECONDS INPUT OUTPUT PROGRAM WORD ..
 *
 * Prints its status (or, for a signal, 128 and the signal), the nanoseconds from its start to its end, and
 * the most bytes that it held in memory at a time. SECONDS are what it may take, of the processor's time and
 * of the clock's: a program whose threads all wait takes none of the former.
 *
 * It is small because Linux counts what the parent holds at the start as the program's own.
 */
#define _GNU_SOURCE
#include <fcntl.h>
#include <stdio.h>
#include <stdlib.h>
#include <sys/resource.h>
#include <sys/wait.h>
#include <time.h>
#include <unistd.h>

/* Opens a file in the place of a standard stream. */
static void stand_for(int stream, const char *path, int flags) {
    int opened = open(path, flags, 0600);
    if (opened < 0 || dup2(opened, stream) < 0) _exit(126);
    close(opened);
}

static void start(char **words) {
    struct rlimit seconds = {atoi(words[1]), atoi(words[1])};
    stand_for(STDIN_FILENO, words[2], O_RDONLY);
    stand_for(STDOUT_FILENO, words[3], O_WRONLY | O_CREAT | O_TRUNC);
    alarm(atoi(words[1]));
    if (setrlimit(RLIMIT_CPU, &seconds) == 0) execv(words[4], words + 4);
    _exit(127);
}

int main(int count, char **words) {
    struct timespec begun, ended;
    struct rusage used;
    int status;
    if (count < 5) return 2;
    clock_gettime(CLOCK_MONOTONIC, &begun);
    pid_t child = fork();
    if (child == 0) start(words);
    if (child < 0 || wait4(child, &status, 0, &used) < 0) return 2;
    clock_gettime(CLOCK_MONOTONIC, &ended);
    printf("%d %lld %lld\n", WIFEXITED(status) ? WEXITSTATUS(status) : 128 + WTERMSIG(status),
           (ended.tv_sec - begun.tv_sec) * 1000000000LL + ended.tv_nsec - begun.tv_nsec, used.ru_maxrss * 1024LL);
    return 0;
}
