// Makes the program that this library is preloaded into read standard input and write standard output in
// pieces, and makes one of its reads or writes fail.
//
// READS and WRITES are each `PIECE,AFTER,ERROR`: a call takes at most PIECE bytes, and the one after AFTER
// calls fails with the error number ERROR.
#define _GNU_SOURCE
#include <errno.h>
#include <stdio.h>
#include <stdlib.h>
#include <sys/syscall.h>
#include <unistd.h>

// One of the two streams. It is left alone if the piece is 0.
struct faults {
    size_t piece;
    long after;
    int error;
};

static struct faults reads, writes;

static void get_faults(const char *name, struct faults *faults) {
    const char *given = getenv(name);
    if (given && sscanf(given, "%zu,%ld,%d", &faults->piece, &faults->after, &faults->error) != 3) {
        _exit(99);
    }
}

__attribute__((constructor)) static void begin(void) {
    get_faults("READS", &reads);
    get_faults("WRITES", &writes);
}

static ssize_t call(struct faults *faults, long number, int file, void *bytes, size_t len) {
    if (faults->piece > 0) {
        if (faults->after-- == 0) {
            errno = faults->error;
            return -1;
        }
        len = len < faults->piece ? len : faults->piece;
    }
    return syscall(number, file, bytes, len);
}

ssize_t read(int file, void *bytes, size_t len) {
    static struct faults none;
    return call(file == STDIN_FILENO ? &reads : &none, SYS_read, file, bytes, len);
}

ssize_t write(int file, const void *bytes, size_t len) {
    static struct faults none;
    return call(file == STDOUT_FILENO ? &writes : &none, SYS_write, file, (void *)bytes, len);
}
