/* Stands for fsync in a build of the command: before a file is whole, the signal strikes whose number LEF_STRUCK has. Whether the program was
 * started with that signal ignored is said by LEF_IGNORED, and not left to whoever runs the tests. */
#include <signal.h>
#include <stdlib.h>

int struck_fsync(int fd);

__attribute__((constructor)) static void start(void) {
    const char *number = getenv("LEF_STRUCK");
    if (number != NULL)
        signal(atoi(number), getenv("LEF_IGNORED") == NULL ? SIG_DFL : SIG_IGN);
}

int struck_fsync(int fd) {
    const char *number = getenv("LEF_STRUCK");
    if (number != NULL)
        raise(atoi(number));
    return fd < 0 ? -1 : 0;
}
