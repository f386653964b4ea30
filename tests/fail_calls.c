/* Makes reads and writes of the program that it is loaded into fail, or do less, as the environment says. Built and
 * used by process.py.
 *
 *   FAULT_BEHIND=N  each read that begins N bytes or more into an opened file fails with EIO
 *   FAULT_SHORT=N   a read or write moves N bytes at most
 *   FAULT_EACH=N    each N-th read or write is interrupted: it moves nothing, and fails with EINTR
 */
#define _GNU_SOURCE
#include <dlfcn.h>
#include <errno.h>
#include <stdlib.h>
#include <unistd.h>

static long number(const char *name) {
    const char *said = getenv(name);
    return said ? atol(said) : 0;
}

static size_t at_most(size_t count) {
    long most = number("FAULT_SHORT");
    return most > 0 && count > (size_t)most ? (size_t)most : count;
}

static int is_interrupted(void) {
    static long calls;
    long each = number("FAULT_EACH");
    if (each <= 0 || ++calls % each) return 0;
    errno = EINTR;
    return 1;
}

ssize_t read(int file, void *into, size_t count) {
    static ssize_t (*below)(int, void *, size_t);
    if (!below) below = (ssize_t(*)(int, void *, size_t))dlsym(RTLD_NEXT, "read");
    if (is_interrupted()) return -1;
    long behind = number("FAULT_BEHIND");
    if (behind > 0 && file > 2 && lseek(file, 0, SEEK_CUR) >= behind) {
        errno = EIO;
        return -1;
    }
    return below(file, into, at_most(count));
}

ssize_t write(int file, const void *from, size_t count) {
    static ssize_t (*below)(int, const void *, size_t);
    if (!below) below = (ssize_t(*)(int, const void *, size_t))dlsym(RTLD_NEXT, "write");
    if (is_interrupted()) return -1;
    return below(file, from, at_most(count));
}
