/* A `read` that stands before the C library's (LD_PRELOAD), with which tests/program_runs.py makes reads short or fail:
 * no file does that when asked. READ_FILE is the name of the file. READ_STEPS has a number for each of its reads in
 * turn: the most bytes that the read gives, or -1 for a failure. Later reads, and those of other files, are as ever. */
#include <errno.h>
#include <stdio.h>
#include <stdlib.h>
#include <string.h>
#include <sys/syscall.h>
#include <unistd.h>

static int is_chosen(int file) {
    char link[40], path[4096];
    snprintf(link, sizeof link, "/proc/self/fd/%d", file);
    ssize_t length = readlink(link, path, sizeof path - 1);
    if (length < 0) {
        return 0;
    }
    path[length] = 0;
    const char *slash = strrchr(path, '/');
    return slash && strcmp(slash + 1, getenv("READ_FILE")) == 0;
}

ssize_t read(int file, void *bytes, size_t count) {
    static char *steps_left;
    if (!steps_left) {
        steps_left = getenv("READ_STEPS");
    }
    if (*steps_left && is_chosen(file)) {
        long most = strtol(steps_left, &steps_left, 10);
        if (most < 0) {
            errno = EIO;
            return -1;
        }
        count = (size_t)most < count ? (size_t)most : count;
    }
    return syscall(SYS_read, file, bytes, count);
}
