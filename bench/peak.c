/* Runs a program, and writes how many KiB it had at its most, and its status, on a line of standard error. A process that
   Python starts begins with the memory of Python, and its peak counts that; one that this program starts does not. */
#include <stdio.h>
#include <sys/resource.h>
#include <sys/wait.h>
#include <unistd.h>

int main(int count, char **words) {
    pid_t child = count > 1 ? fork() : -1;
    if (child == 0) {
        execv(words[1], words + 1);
        _exit(127);
    }
    int status;
    struct rusage used;
    if (child < 0 || wait4(child, &status, 0, &used) != child)
        return 127;
    fprintf(stderr, "peak %ld status %d\n", used.ru_maxrss, WIFEXITED(status) ? WEXITSTATUS(status) : 127);
    return 0;
}
