// Appends as the host's journal does, with the same calls of the device and the same number of bytes: the frame without its gate, a sync,
// the gate, a sync. It prints the seconds that COUNT appends took.
// usage: raw FILE BYTES COUNT
#include <fcntl.h>
#include <stdio.h>
#include <stdlib.h>
#include <string.h>
#include <time.h>
#include <unistd.h>

static void fail(const char *what) { perror(what); exit(1); }

int main(int argc, char **argv) {
    if (argc != 4) { fprintf(stderr, "usage: raw FILE BYTES COUNT\n"); return 2; }
    long bytes = atol(argv[2]), count = atol(argv[3]);
    char *frame = malloc(bytes);
    if (!frame) fail("malloc");
    memset(frame, 'x', bytes);
    int file = open(argv[1], O_RDWR | O_CREAT | O_TRUNC, 0644);
    if (file < 0) fail(argv[1]);
    struct timespec from, to;
    clock_gettime(CLOCK_MONOTONIC, &from);
    off_t end = 0;
    for (long i = 0; i < count; i++) {
        if (pwrite(file, frame, bytes, end) != bytes) fail("write");
        if (fsync(file)) fail("sync");
        if (pwrite(file, "\1", 1, end) != 1) fail("write");
        if (fsync(file)) fail("sync");
        end += bytes;
    }
    clock_gettime(CLOCK_MONOTONIC, &to);
    printf("%.6f\n", (to.tv_sec - from.tv_sec) + (to.tv_nsec - from.tv_nsec) / 1e9);
    return 0;
}
