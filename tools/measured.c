/* Runs a program once, with its standard output and error to /dev/null, and prints the seconds of the processor that it had
   (user and system together), the most memory that it had, in kilobytes, and its status. It is in C because the most memory
   that Linux tells of a program is at least what the program that made it had: this one has little. */
#include <fcntl.h>
#include <stdio.h>
#include <sys/resource.h>
#include <sys/wait.h>
#include <unistd.h>

static void become(char **command) {
    int nowhere = open("/dev/null", O_WRONLY);
    dup2(nowhere, 1);
    dup2(nowhere, 2);
    execv(command[0], command);
    _exit(127);
}

static double seconds(struct timeval time) {
    return time.tv_sec + time.tv_usec / 1e6;
}

int main(int count, char **words) {
    struct rusage used;
    int status;
    pid_t child = count > 1 ? fork() : -1;
    if (child == 0)
        become(words + 1);
    if (child < 0 || wait4(child, &status, 0, &used) != child) {
        fprintf(stderr, "usage: measured PROGRAM ARGUMENT...\n");
        return 2;
    }
    int ended = WIFEXITED(status) ? WEXITSTATUS(status) : 128 + WTERMSIG(status);
    printf("%.6f %ld %d\n", seconds(used.ru_utime) + seconds(used.ru_stime), used.ru_maxrss, ended);
    return 0;
}
