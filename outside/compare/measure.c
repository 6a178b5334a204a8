/* measure.c: runs a command and notes what it took.
 *
 *   ./measure FILE COMMAND...
 *
 * FILE gets its processor time in milliseconds and its most memory in kilobytes.
 */
#define _DEFAULT_SOURCE
#include <stdio.h>
#include <sys/resource.h>
#include <sys/wait.h>
#include <unistd.h>

static long milliseconds(struct timeval t)
{
    return (long)t.tv_sec * 1000 + (long)t.tv_usec / 1000;
}

int main(int argc, char **argv)
{
    int status;
    struct rusage used;
    if (argc < 3)
        return 2;
    pid_t child = fork();
    if (child == 0) {
        execvp(argv[2], argv + 2);
        _exit(127);
    }
    if (child < 0 || wait4(child, &status, 0, &used) != child)
        return 2;
    FILE *notes = fopen(argv[1], "w");
    if (notes == NULL)
        return 2;
    fprintf(notes, "%ld %ld\n", milliseconds(used.ru_utime) + milliseconds(used.ru_stime), used.ru_maxrss);
    return fclose(notes) != 0 || !WIFEXITED(status) || WEXITSTATUS(status) != 0;
}
