/* Files: read up to a limit, and written whole or not at all. */
#include "command.h"

#include <errno.h>
#include <fcntl.h>
#include <limits.h>
#include <signal.h>
#include <stdlib.h>
#include <string.h>
#include <sys/stat.h>
#include <unistd.h>

int failed(const char *what, const char *name) {
    fprintf(stderr, "lef: %s: %s: %s\n", name, what, strerror(errno));
    return FAILED;
}

/* ---- names */

/* The number behind a prefix, or -1. */
static int number_behind(const char *name, const char *prefix) {
    size_t n = strlen(prefix);
    char *end;
    long number;
    if (strncmp(name, prefix, n) != 0 || name[n] < '0' || name[n] > '9')
        return -1;
    number = strtol(name + n, &end, 10);
    return *end == 0 && number <= INT_MAX ? (int)number : -1;
}

/* The open file that a name stands for, or -1: `-` for the standard one, and the names that the system has for open files. They are
 * used as they are, since to open such a name anew would begin at the front of what is behind it. */
static int descriptor_of(const char *name, int standard) {
    static const char *const STANDARD[] = {"/dev/stdin", "/dev/stdout", "/dev/stderr"};
    int i, number = number_behind(name, "/dev/fd/");
    if (strcmp(name, "-") == 0)
        return standard;
    for (i = 0; i < 3; i++)
        if (strcmp(name, STANDARD[i]) == 0)
            return i;
    return number >= 0 ? number : number_behind(name, "/proc/self/fd/");
}

int is_standard_input(const char *name) {
    return descriptor_of(name, STDIN_FILENO) == STDIN_FILENO;
}

static int status_of(const char *name, int standard, struct stat *s) {
    int fd = descriptor_of(name, standard);
    return fd >= 0 ? fstat(fd, s) : stat(name, s);
}

int is_same_file(const char *input, const char *output) {
    struct stat i, o;
    return status_of(input, STDIN_FILENO, &i) == 0 && status_of(output, STDOUT_FILENO, &o) == 0 && i.st_dev == o.st_dev && i.st_ino == o.st_ino &&
           (S_ISREG(i.st_mode) || S_ISBLK(i.st_mode));
}

/* Where a name leads by symbolic links, also where nothing is there yet; NULL where they lead nowhere. */
static char *followed(const char *name) {
    static char place[2 * PATH_MAX], link[PATH_MAX];
    struct stat s;
    int steps;
    if (strlen(name) >= PATH_MAX)
        return errno = ENAMETOOLONG, NULL;
    strcpy(place, name);
    for (steps = 0; descriptor_of(place, STDOUT_FILENO) < 0 && lstat(place, &s) == 0 && S_ISLNK(s.st_mode); steps++) {
        ssize_t n = readlink(place, link, sizeof link - 1);
        char *folder = strrchr(place, '/');
        size_t kept = n > 0 && link[0] == '/' ? 0 : folder == NULL ? 0 : (size_t)(folder - place) + 1;
        if (n < 0 || steps == 40 || kept + (size_t)n >= PATH_MAX)
            return errno = n < 0 ? errno : steps == 40 ? ELOOP : ENAMETOOLONG, NULL;
        memcpy(place + kept, link, (size_t)n);
        place[kept + (size_t)n] = 0;
    }
    return place;
}

/* ---- reading */

int load(const char *name, size_t most, struct bytes *b) {
    int fd = descriptor_of(name, STDIN_FILENO);
    size_t room = 0;
    ssize_t n = 1;
    if (fd < 0)
        fd = open(name, O_RDONLY);
    if (fd < 0)
        return failed("cannot open", name);
    b->at = NULL;
    b->len = 0;
    while (n > 0 && b->len <= most) {
        if (b->len == room) {
            room = room == 0 ? 65536 : 2 * room;
            b->at = realloc(b->at, room);
            if (b->at == NULL)
                return failed("no memory", name);
        }
        n = read(fd, b->at + b->len, room - b->len < most + 1 - b->len ? room - b->len : most + 1 - b->len);
        if (n < 0 && errno == EINTR)
            n = 1;
        else if (n < 0)
            return failed("cannot read", name);
        else
            b->len += (size_t)n;
    }
    if (fd > STDERR_FILENO)
        close(fd);
    return DONE;
}

/* ---- writing */

/* The file that is being written beside its place, if there is one; a signal that ends the program removes it. */
static char *volatile beside;
static sigset_t ends;

static void struck(int number) {
    if (beside != NULL)
        unlink(beside);
    raise(number);
}

static void set_beside(char *name) {
    sigprocmask(SIG_BLOCK, &ends, NULL);
    beside = name;
    sigprocmask(SIG_UNBLOCK, &ends, NULL);
}

/* Has the signals that end the program remove what is half written; those that are ignored stay so. */
static void heed(void) {
    static const int ENDS[] = {SIGHUP, SIGINT, SIGQUIT, SIGTERM};
    struct sigaction old, new;
    size_t i;
    memset(&new, 0, sizeof new);
    new.sa_handler = struck;
    new.sa_flags = SA_RESETHAND;
    sigemptyset(&ends);
    for (i = 0; i < sizeof ENDS / sizeof *ENDS; i++)
        if (sigaction(ENDS[i], NULL, &old) == 0 && old.sa_handler != SIG_IGN) {
            sigaddset(&ends, ENDS[i]);
            sigaction(ENDS[i], &new, NULL);
        }
    /* a file over the limit of its size is an error as any other */
    signal(SIGXFSZ, SIG_IGN);
}

static int put(int fd, struct bytes b) {
    size_t done = 0;
    while (done < b.len) {
        ssize_t n = write(fd, b.at + done, b.len - done);
        if (n < 0 && errno != EINTR)
            return 0;
        done += n < 0 ? 0 : (size_t)n;
    }
    return 1;
}

/* Writes to what is there already and is no regular file. */
static int write_through(const char *place, int fd, struct bytes b) {
    if (fd < 0)
        fd = open(place, O_WRONLY);
    if (fd < 0)
        return failed("cannot open", place);
    if (!put(fd, b) || (fd > STDERR_FILENO && close(fd) != 0))
        return failed("cannot write", place);
    return DONE;
}

/* Writes a file beside its place, with the permissions of the one that is there, and moves it there when it is whole. */
static int replace(const char *place, mode_t mode, struct bytes b) {
    static char made[2 * PATH_MAX + 8];
    int fd, done;
    strcpy(made, place);
    strcat(made, ".XXXXXX");
    heed();
    sigprocmask(SIG_BLOCK, &ends, NULL);
    fd = mkstemp(made);
    if (fd >= 0)
        beside = made;
    sigprocmask(SIG_UNBLOCK, &ends, NULL);
    if (fd < 0)
        return failed("cannot make a file beside it", place);
    done = fchmod(fd, mode) == 0 && put(fd, b) && fsync(fd) == 0;
    done = close(fd) == 0 && done && rename(made, place) == 0;
    if (!done) {
        failed("cannot write", place);
        unlink(made);
    }
    set_beside(NULL);
    return done ? DONE : FAILED;
}

int store(const char *name, struct bytes b) {
    char *place = followed(name);
    struct stat old;
    mode_t mask = umask(0);
    int fd, there;
    umask(mask);
    if (place == NULL)
        return failed("cannot follow its links", name);
    fd = descriptor_of(place, STDOUT_FILENO);
    there = fd < 0 && stat(place, &old) == 0;
    if (fd >= 0 || (there && !S_ISREG(old.st_mode)))
        return write_through(place, fd, b);
    if (there && access(place, W_OK) != 0)
        return failed("cannot write", place);
    return replace(place, there ? old.st_mode & 0777 : 0666 & ~mask, b);
}
