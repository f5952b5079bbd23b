// Reads texts as the host reads a value where it stands: one pread of its bytes, a look whether they are UTF-8, and a copy into memory of its own.
// The places are spread over the file. It prints the seconds of the processor that COUNT of them took.
// usage: read FILE BYTES COUNT
#include <fcntl.h>
#include <stdio.h>
#include <stdlib.h>
#include <string.h>
#include <time.h>
#include <unistd.h>

static void fail(const char *what) { perror(what); exit(1); }

// How many of the bytes go on with a character, or -1 where one stands nowhere: what a reader of UTF-8 looks at in each byte.
static long read_text(const unsigned char *text, long bytes) {
    long on = 0;
    for (long i = 0; i < bytes;) {
        unsigned char c = text[i];
        long more = c < 0x80 ? 0 : c >= 0xc2 && c < 0xe0 ? 1 : c >= 0xe0 && c < 0xf0 ? 2 : c >= 0xf0 && c < 0xf5 ? 3 : -1;
        if (more < 0 || i + more >= bytes) return -1;
        for (long k = 1; k <= more; k++)
            if ((text[i + k] & 0xc0) != 0x80) return -1;
        on += more;
        i += 1 + more;
    }
    return on;
}

int main(int argc, char **argv) {
    if (argc != 4) { fprintf(stderr, "usage: read FILE BYTES COUNT\n"); return 2; }
    long bytes = atol(argv[2]), count = atol(argv[3]), told = 0;
    unsigned char *buffer = malloc(bytes);
    if (!buffer) fail("malloc");
    int file = open(argv[1], O_RDONLY);
    if (file < 0) fail(argv[1]);
    long most = lseek(file, 0, SEEK_END) / bytes - 1;
    struct timespec from, to;
    clock_gettime(CLOCK_PROCESS_CPUTIME_ID, &from);
    for (long i = 0; i < count; i++) {
        if (pread(file, buffer, bytes, i * 7919 % most * bytes) != bytes) fail("read");
        told += read_text(buffer, bytes);
        unsigned char *own = malloc(bytes);
        if (!own) fail("malloc");
        memcpy(own, buffer, bytes);
        told += own[bytes / 2];
        free(own);
    }
    clock_gettime(CLOCK_PROCESS_CPUTIME_ID, &to);
    printf("%.6f\n", (to.tv_sec - from.tv_sec) + (to.tv_nsec - from.tv_nsec) / 1e9);
    return told == -1;
}
