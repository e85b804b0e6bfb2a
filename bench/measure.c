/* measure PROGRAM WORD..: runs a program, and writes to standard error its wall time and its processor
 * time, that of all its threads, in microseconds, and the most memory that it had in bytes. Its status
 * is the program's.
 *
 * A program of its own, and a small one: Linux counts the memory of the process that starts a program
 * towards that program's peak. */
#include <stdio.h>
#include <sys/resource.h>
#include <sys/types.h>
#include <sys/wait.h>
#include <time.h>
#include <unistd.h>

static long microseconds(struct timeval time) { return time.tv_sec * 1000000L + time.tv_usec; }

static long wall_clock(void) {
    struct timespec now;
    clock_gettime(CLOCK_MONOTONIC, &now);
    return now.tv_sec * 1000000L + now.tv_nsec / 1000;
}

int main(int count, char **words) {
    if (count < 2) {
        return 2;
    }
    long start = wall_clock();
    pid_t child = fork();
    if (child == 0) {
        execv(words[1], words + 1);
        _exit(127);
    }
    int status = 0;
    struct rusage usage;
    if (child < 0 || wait4(child, &status, 0, &usage) < 0 || !WIFEXITED(status)) {
        return 126;
    }
    fprintf(stderr, "%ld %ld %ld\n", wall_clock() - start,
            microseconds(usage.ru_utime) + microseconds(usage.ru_stime), usage.ru_maxrss * 1024L);
    return WEXITSTATUS(status);
}
