// merge_plain ORIGIN COW CHUNK: takes a store's copies back as `lochknife merge` does, and as quickly as a short program can: a batch's
// pairs sorted by their old chunks, those in a row by one call of at most 1 MiB, the same syncs, the same zeros. For bench/merges alone:
// it tests nothing.
#define _FILE_OFFSET_BITS 64
#include <fcntl.h>
#include <stdint.h>
#include <stdlib.h>
#include <unistd.h>
typedef struct { uint64_t old, new; } Pair;
static int by_old(const void *a, const void *b) {
    uint64_t x = ((const Pair *)a)->old, y = ((const Pair *)b)->old;
    return x < y ? -1 : x > y;
}
int main(int n, char **words) {
    int origin = open(words[1], O_RDWR), cow = open(words[2], O_RDWR);
    long sectors = atol(words[3]), chunk = 512 * sectors, slots = chunk / 16, areas = 0;
    long batch = 4096 / (sectors * sectors) ? 4096 / (sectors * sectors) : 1, most = chunk < 1048576 ? 1048576 / chunk : 1;
    Pair *pairs = malloc((batch + 1) * chunk);
    char *room = malloc(most * chunk), *zeros = calloc(1, chunk);
    do pread(cow, pairs, chunk, (areas++ * (slots + 1) + 1) * chunk); while (pairs[slots - 1].new);
    fdatasync(cow), fdatasync(origin);
    for (long end = areas, from; end > 0; end = from) {
        long count = 0;
        from = end > batch ? end - batch : 0;
        for (long area = from; area < end; area++) {
            pread(cow, pairs + count, chunk, (area * (slots + 1) + 1) * chunk);
            for (long k = 0; k < slots && pairs[count].new; k++) count++;
        }
        qsort(pairs, count, sizeof *pairs, by_old);
        for (long at = 0, row; at < count; at += row) {
            for (row = 1; row < most && at + row < count && pairs[at + row].old == pairs[at].old + row && pairs[at + row].new == pairs[at].new + row;) row++;
            pread(cow, room, row * chunk, pairs[at].new * chunk);
            pwrite(origin, room, row * chunk, pairs[at].old * chunk);
        }
        fdatasync(origin);
        for (long area = end; area-- > from;) pwrite(cow, zeros, chunk, (area * (slots + 1) + 1) * chunk);
        fdatasync(cow);
    }
    return 0;
}
