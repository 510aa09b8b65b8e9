/* Runs a program once on a file and prints the nanoseconds of the processor that it took, its own and the kernel's for it:
   cpu_time FILE PROGRAM ARGS.. */

#define _DEFAULT_SOURCE
#include <errno.h>
#include <fcntl.h>
#include <stdio.h>
#include <sys/resource.h>
#include <sys/time.h>
#include <sys/types.h>
#include <sys/wait.h>
#include <unistd.h>

/* Becomes the program, with the file as its input and its output thrown away. */
static void become(const char *file, char **program)
{
    int from = open(file, O_RDONLY);
    int to = open("/dev/null", O_WRONLY);
    if (from < 0 || to < 0 || dup2(from, 0) < 0 || dup2(to, 1) < 0)
        perror(file);
    else if (execvp(program[0], program) < 0)
        perror(program[0]);
    _exit(127);
}

/* The nanoseconds of a span of time. */
static long long nanoseconds(struct timeval span)
{
    return span.tv_sec * 1000000000LL + span.tv_usec * 1000LL;
}

/* Prints the program's own time and the kernel's for it, or tells that it did not end well. */
int main(int count, char **words)
{
    if (count < 3) {
        fprintf(stderr, "usage: cpu_time FILE PROGRAM ARGS..\n");
        return 2;
    }
    pid_t child = fork();
    if (child == 0)
        become(words[1], words + 2);
    int status;
    struct rusage used;
    pid_t ended;
    do
        ended = wait4(child, &status, 0, &used);
    while (ended < 0 && errno == EINTR);
    if (ended < 0 || !WIFEXITED(status) || WEXITSTATUS(status) != 0) {
        fprintf(stderr, "cpu_time: %s did not end well\n", words[2]);
        return 1;
    }
    printf("%lld %lld\n", nanoseconds(used.ru_utime), nanoseconds(used.ru_stime));
    return 0;
}
