/* cost COMMAND [WORD]...: runs a command with its output thrown away, and prints the microseconds of a
   processor that it took, its own and the system's for it, and its peak memory in KiB. Small itself, since
   what a process held before it became the command counts as the command's. */
#include <fcntl.h>
#include <stdio.h>
#include <sys/resource.h>
#include <sys/wait.h>
#include <unistd.h>

static long micros(struct timeval time) { return time.tv_sec * 1000000L + time.tv_usec; }

int main(int count, char **words) {
    struct rusage used;
    int status;
    if (count < 2) return 2;
    pid_t child = fork();
    if (child < 0) return 1;
    if (child == 0) {
        dup2(open("/dev/null", O_WRONLY), 1);
        execvp(words[1], words + 1);
        _exit(127);
    }
    if (wait4(child, &status, 0, &used) < 0 || !WIFEXITED(status) || WEXITSTATUS(status)) {
        fprintf(stderr, "%s failed\n", words[1]);
        return 1;
    }
    printf("%ld %ld\n", micros(used.ru_utime) + micros(used.ru_stime), used.ru_maxrss);
}
