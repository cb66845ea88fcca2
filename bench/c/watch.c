/* Runs a program and tells what it took:
 *
 *     watch PROGRAM [WORD..]
 *
 * The program has the standard input, output and error of this one. At its end a line goes to descriptor 3: seconds of user and
 * of system time, the peak of resident memory in KiB, and the status, which is 128 and the number of the signal that
 * ended it. A process that was started by a large one, such as a script, may be told to have had that one's peak: this one is small.
 */

#include <stdio.h>
#include <stdlib.h>
#include <sys/resource.h>
#include <sys/wait.h>
#include <unistd.h>

static double seconds(struct timeval time) {
    return (double)time.tv_sec + (double)time.tv_usec / 1e6;
}

int main(int count, char **words) {
    if (count < 2) {
        fprintf(stderr, "watch PROGRAM [WORD..]\n");
        return 64;
    }
    pid_t child = fork();
    if (child < 0) {
        perror("fork");
        return 4;
    }
    if (child == 0) {
        close(3);
        execv(words[1], words + 1);
        perror(words[1]);
        _exit(127);
    }
    int status;
    struct rusage used;
    if (wait4(child, &status, 0, &used) != child) {
        perror("wait4");
        return 4;
    }
    int ended = WIFEXITED(status) ? WEXITSTATUS(status) : 128 + WTERMSIG(status);
    dprintf(3, "%.6f %.6f %ld %d\n", seconds(used.ru_utime), seconds(used.ru_stime), used.ru_maxrss, ended);
    return 0;
}
