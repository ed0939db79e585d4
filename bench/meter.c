// meter INPUT OUTPUT COMMAND ..: runs the command, and writes on standard error its exit status, and its nanoseconds by the wall,
// microseconds of processor and most KiB of memory. It is small itself, since what starts a process counts as memory of it.
#include <fcntl.h>
#include <stdio.h>
#include <sys/resource.h>
#include <sys/wait.h>
#include <time.h>
#include <unistd.h>

int main(int count, char **words) {
    struct timespec begin, end;
    struct rusage used;
    int status, null = open("/dev/null", O_WRONLY);
    if (count < 4) return 2;
    int in = open(words[1], O_RDONLY), out = open(words[2], O_WRONLY | O_CREAT | O_TRUNC, 0600);
    clock_gettime(CLOCK_MONOTONIC, &begin);
    pid_t child = fork();
    if (child == 0) {
        dup2(in, 0), dup2(out, 1), dup2(null, 2);
        execvp(words[3], words + 3);
        _exit(127);
    }
    if (child < 0 || wait4(child, &status, 0, &used) < 0) return 2;
    clock_gettime(CLOCK_MONOTONIC, &end);
    fprintf(stderr, "%d %lld %lld %ld\n", WIFEXITED(status) ? WEXITSTATUS(status) : 128 + WTERMSIG(status),
            (end.tv_sec - begin.tv_sec) * 1000000000ll + end.tv_nsec - begin.tv_nsec,
            (used.ru_utime.tv_sec + used.ru_stime.tv_sec) * 1000000ll + used.ru_utime.tv_usec + used.ru_stime.tv_usec, used.ru_maxrss);
    return 0;
}
