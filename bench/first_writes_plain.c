/* The file calls of first writes alone, as `lochknife serve` makes them and with nothing around them; for bench/serve_speed.
 *
 *     first_writes_plain ORIGIN COW CHUNK BATCH COUNT
 *
 * Of COUNT chunks of ORIGIN in no order, so many at a time: each is read, and written to its place of COW; COW is synced, an area of it
 * is written, and it is synced again; then each is written to ORIGIN. It prints the microseconds of one chunk. */
#define _GNU_SOURCE
#include <fcntl.h>
#include <stdio.h>
#include <stdlib.h>
#include <time.h>
#include <unistd.h>

static void must(int is, const char *what) {
    if (!is) {
        perror(what);
        exit(1);
    }
}

int main(int count, char **words) {
    must(count == 6, "ORIGIN COW CHUNK BATCH COUNT");
    int origin = open(words[1], O_RDWR), cow = open(words[2], O_RDWR);
    must(origin >= 0 && cow >= 0, "open");
    long chunk = atol(words[3]), batch = atol(words[4]), chunks = atol(words[5]);
    long *order = malloc(chunks * sizeof *order);
    char *bytes = malloc(batch * chunk), *area = calloc(1, chunk);
    must(order && bytes && area, "memory");
    srandom(1);
    for (long i = 0; i < chunks; i++) {
        long j = random() % (i + 1);
        order[i] = order[j];
        order[j] = i;
    }
    struct timespec start, end;
    clock_gettime(CLOCK_MONOTONIC, &start);
    for (long i = 0; i + batch <= chunks; i += batch) {
        for (long k = 0; k < batch; k++) {
            must(pread(origin, bytes + k * chunk, chunk, order[i + k] * chunk) == chunk, "read");
            must(pwrite(cow, bytes + k * chunk, chunk, (i + k + 2) * chunk) == chunk, "write");
        }
        must(fdatasync(cow) == 0 && pwrite(cow, area, chunk, chunk) == chunk && fdatasync(cow) == 0, "commit");
        for (long k = 0; k < batch; k++) must(pwrite(origin, bytes + k * chunk, chunk, order[i + k] * chunk) == chunk, "write");
    }
    clock_gettime(CLOCK_MONOTONIC, &end);
    printf("%.2f\n", ((end.tv_sec - start.tv_sec) * 1e6 + (end.tv_nsec - start.tv_nsec) / 1e3) / (chunks / batch * batch));
    return 0;
}
