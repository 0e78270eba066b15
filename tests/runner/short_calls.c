// Preloaded in front of the C library: read and write move fewer bytes than asked, as signals, pipes and terminals make them do, or fail after some.
#include <errno.h>
#include <stdlib.h>
#include <sys/syscall.h>
#include <unistd.h>

// The number that an environment variable holds; a very large one where it isn't set.
static unsigned long limit(const char *name) {
    const char *text = getenv(name);
    return text ? strtoul(text, 0, 10) : -1UL;
}

// How many of so many bytes this call moves: by turns one, and up to SHORT_MOST. Below 0 once LAST bytes have gone.
static long allowed(unsigned long asked, unsigned long *moved, unsigned long last) {
    static unsigned long turn;
    unsigned long most = limit("SHORT_MOST");
    unsigned long n = ++turn % 3 == 0 ? 1 : most;
    if (asked < n) n = asked;
    if (last < *moved + n) n = last - *moved;
    *moved += n;
    return n == 0 && asked != 0 ? -1 : (long)n;
}

ssize_t read(int fd, void *bytes, size_t asked) {
    static unsigned long moved;
    long n = allowed(asked, &moved, limit("READ_LAST"));
    if (n < 0) {
        errno = EIO;
        return -1;
    }
    return syscall(SYS_read, fd, bytes, n);
}

ssize_t write(int fd, const void *bytes, size_t asked) {
    static unsigned long moved;
    if (fd != STDOUT_FILENO) return syscall(SYS_write, fd, bytes, asked);
    long n = allowed(asked, &moved, limit("WRITE_LAST"));
    if (n < 0) {
        errno = ENOSPC;
        return -1;
    }
    return syscall(SYS_write, fd, bytes, n);
}
