// Runs the command from the second word on, and writes into the file that the first word names: how many milliseconds
// of processors it took, and how many KiB it had resident at most. It ends with the command's status, or 128 and the
// signal that ended it.
#include <stdio.h>
#include <sys/resource.h>
#include <sys/wait.h>
#include <unistd.h>

static long milliseconds(struct timeval time) {
    return time.tv_sec * 1000L + time.tv_usec / 1000;
}

int main(int count, char **words) {
    if (count < 3) {
        return 2;
    }
    pid_t child = fork();
    if (child == 0) {
        execv(words[2], words + 2);
        _exit(127);
    }
    int status;
    struct rusage usage;
    if (child < 0 || wait4(child, &status, 0, &usage) != child) {
        return 2;
    }
    FILE *told = fopen(words[1], "w");
    if (!told) {
        return 2;
    }
    fprintf(told, "%ld %ld\n", milliseconds(usage.ru_utime) + milliseconds(usage.ru_stime), usage.ru_maxrss);
    fclose(told);
    return WIFEXITED(status) ? WEXITSTATUS(status) : 128 + WTERMSIG(status);
}
