/* Logs what a program writes to files, syncs, and says on standard output, in order; for bench/serve_power.
 *
 * It is preloaded. Each record has a head of 32 bytes (a letter; the file's inode; the place; how many bytes follow) and those bytes:
 * W a write, before it is made; S a sync that was answered, and s its begin; A bytes of an answer, after they were written.
 * A sync is not handed on, so that runs are quick: bench/serve_power supposes of each that it was done. */
#define _GNU_SOURCE
#include <dlfcn.h>
#include <fcntl.h>
#include <stdint.h>
#include <stdlib.h>
#include <sys/stat.h>
#include <sys/uio.h>
#include <unistd.h>

struct head {
    uint64_t kind, inode, place, count;
};

static int log_file(void) {
    static int file = -1;
    if (file < 0) {
        int opened = open(getenv("CALLS_LOG"), O_WRONLY | O_CREAT | O_APPEND, 0644);
        file = fcntl(opened, F_DUPFD, 100);
        close(opened);
    }
    return file;
}

static ssize_t do_write(int file, const void *bytes, size_t count) {
    static ssize_t (*next)(int, const void *, size_t);
    if (!next) next = dlsym(RTLD_NEXT, "write");
    return next(file, bytes, count);
}

static void note(char kind, int file, uint64_t place, const void *bytes, uint64_t count) {
    struct stat about = {0};
    fstat(file, &about);
    struct head head = {(uint64_t)kind, about.st_ino, place, count};
    if (do_write(log_file(), &head, sizeof head) != sizeof head) abort();
    if (count && do_write(log_file(), bytes, count) != (ssize_t)count) abort();
}

ssize_t pwrite(int file, const void *bytes, size_t count, off_t place) {
    static ssize_t (*next)(int, const void *, size_t, off_t);
    if (!next) next = dlsym(RTLD_NEXT, "pwrite");
    note('W', file, place, bytes, count);
    return next(file, bytes, count, place);
}

ssize_t pwrite64(int file, const void *bytes, size_t count, off_t place) {
    return pwrite(file, bytes, count, place);
}

int fdatasync(int file) {
    note('s', file, 0, 0, 0);
    note('S', file, 0, 0, 0);
    return 0;
}

int fsync(int file) {
    return fdatasync(file);
}

ssize_t write(int file, const void *bytes, size_t count) {
    ssize_t written = do_write(file, bytes, count);
    if (file == 1 && written > 0) note('A', file, 0, bytes, written);
    return written;
}

ssize_t writev(int file, const struct iovec *parts, int count) {
    ssize_t all = 0;
    for (int k = 0; k < count; k++) {
        if (parts[k].iov_len == 0) continue;
        ssize_t written = write(file, parts[k].iov_base, parts[k].iov_len);
        if (written < 0) return all ? all : written;
        all += written;
        if ((size_t)written < parts[k].iov_len) break;
    }
    return all;
}
