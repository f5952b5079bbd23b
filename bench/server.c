// Serves puts of texts as the host does, by the same calls of the disk and with nothing beside: for each line of standard input that is
// ["call",N,CLASS,NAME,"put",[KEY,TEXT]] it appends the same bytes to FILE that the host's journal gets (docs/FORMATS.md), by a write, a sync,
// the write of the gate and a sync, and then prints ["reply",N,null]. A call of another method is answered without the disk. Texts have no
// escapes. At the end of its input it prints on standard error how many seconds the calls of the disk took.
// usage: server FILE
#include <fcntl.h>
#include <stdint.h>
#include <stdio.h>
#include <stdlib.h>
#include <string.h>
#include <time.h>
#include <unistd.h>

static void fail(const char *what) { perror(what); exit(1); }

// ---- SHA-256, of FIPS 180-4

static const uint32_t CONSTANTS[64] = {
    0x428a2f98, 0x71374491, 0xb5c0fbcf, 0xe9b5dba5, 0x3956c25b, 0x59f111f1, 0x923f82a4, 0xab1c5ed5, 0xd807aa98, 0x12835b01, 0x243185be,
    0x550c7dc3, 0x72be5d74, 0x80deb1fe, 0x9bdc06a7, 0xc19bf174, 0xe49b69c1, 0xefbe4786, 0x0fc19dc6, 0x240ca1cc, 0x2de92c6f, 0x4a7484aa,
    0x5cb0a9dc, 0x76f988da, 0x983e5152, 0xa831c66d, 0xb00327c8, 0xbf597fc7, 0xc6e00bf3, 0xd5a79147, 0x06ca6351, 0x14292967, 0x27b70a85,
    0x2e1b2138, 0x4d2c6dfc, 0x53380d13, 0x650a7354, 0x766a0abb, 0x81c2c92e, 0x92722c85, 0xa2bfe8a1, 0xa81a664b, 0xc24b8b70, 0xc76c51a3,
    0xd192e819, 0xd6990624, 0xf40e3585, 0x106aa070, 0x19a4c116, 0x1e376c08, 0x2748774c, 0x34b0bcb5, 0x391c0cb3, 0x4ed8aa4a, 0x5b9cca4f,
    0x682e6ff3, 0x748f82ee, 0x78a5636f, 0x84c87814, 0x8cc70208, 0x90befffa, 0xa4506ceb, 0xbef9a3f7, 0xc67178f2};

static uint32_t turned(uint32_t x, int by) { return x >> by | x << (32 - by); }

static void put_word(uint8_t *to, uint32_t word) {
    for (int i = 0; i < 4; i++) to[i] = word >> (24 - 8 * i);
}

static uint32_t word_at(const uint8_t *at) { return (uint32_t)at[0] << 24 | at[1] << 16 | at[2] << 8 | at[3]; }

static void take_block(uint32_t sum[8], const uint8_t *block) {
    uint32_t w[64], s[8];
    for (int i = 0; i < 16; i++) w[i] = word_at(block + 4 * i);
    for (int i = 16; i < 64; i++) {
        uint32_t low = turned(w[i - 15], 7) ^ turned(w[i - 15], 18) ^ w[i - 15] >> 3;
        uint32_t high = turned(w[i - 2], 17) ^ turned(w[i - 2], 19) ^ w[i - 2] >> 10;
        w[i] = w[i - 16] + low + w[i - 7] + high;
    }
    memcpy(s, sum, sizeof s);
    for (int i = 0; i < 64; i++) {
        uint32_t choice = (s[4] & s[5]) ^ (~s[4] & s[6]), most = (s[0] & s[1]) ^ (s[0] & s[2]) ^ (s[1] & s[2]);
        uint32_t one = s[7] + (turned(s[4], 6) ^ turned(s[4], 11) ^ turned(s[4], 25)) + choice + CONSTANTS[i] + w[i];
        uint32_t two = (turned(s[0], 2) ^ turned(s[0], 13) ^ turned(s[0], 22)) + most;
        memmove(s + 1, s, 7 * sizeof *s);
        s[4] += one;
        s[0] = one + two;
    }
    for (int i = 0; i < 8; i++) sum[i] += s[i];
}

static void digest(const uint8_t *bytes, size_t size, uint8_t *to) {
    uint32_t sum[8] = {0x6a09e667, 0xbb67ae85, 0x3c6ef372, 0xa54ff53a, 0x510e527f, 0x9b05688c, 0x1f83d9ab, 0x5be0cd19};
    uint8_t last[128] = {0};
    size_t left = size % 64, blocks = left < 56 ? 1 : 2;
    for (size_t at = 0; at + 64 <= size; at += 64) take_block(sum, bytes + at);
    memcpy(last, bytes + size - left, left);
    last[left] = 0x80;
    put_word(last + 64 * blocks - 8, (uint64_t)size >> 29);
    put_word(last + 64 * blocks - 4, size << 3);
    for (size_t i = 0; i < blocks; i++) take_block(sum, last + 64 * i);
    for (int i = 0; i < 8; i++) put_word(to + 4 * i, sum[i]);
}

// ---- the journal

static int file;
static off_t gate = 15;
static double in_disk;

static double now(void) {
    struct timespec it;
    clock_gettime(CLOCK_MONOTONIC, &it);
    return it.tv_sec + it.tv_nsec / 1e9;
}

static void write_synced(const void *bytes, size_t size, off_t at) {
    double from = now();
    if (pwrite(file, bytes, size, at) != (ssize_t)size) fail("write");
    if (fsync(file)) fail("sync");
    in_disk += now() - from;
}

struct text { const char *at; uint32_t size; };

static uint8_t *put_text(uint8_t *to, struct text text) {
    put_word(to, text.size);
    memcpy(to + 4, text.at, text.size);
    return to + 4 + text.size;
}

// One batch of one put, as one frame.
static void append(struct text class, struct text name, struct text key, struct text value) {
    static uint8_t frame[1 << 17];
    uint8_t *payload = frame + 4, *to = put_text(put_text(payload, class), name);
    put_word(to, 1);
    put_word(to + 4, 1);
    to[8] = 1;
    to = put_text(to + 9, key);
    *to++ = 5;
    to = put_text(to, value);
    put_word(frame, to - payload);
    digest(payload, to - payload, to);
    to[32] = 0;
    write_synced(frame, to + 33 - frame, gate + 1);
    write_synced("\xa5", 1, gate);
    gate += to + 33 - frame;
}

// ---- the lines

static void refuse(void) { fprintf(stderr, "server: no call of the form that it reads\n"); exit(1); }

static const char *after(const char *at, const char *end, const char *word) {
    size_t size = strlen(word);
    if ((size_t)(end - at) < size || memcmp(at, word, size)) refuse();
    return at + size;
}

static const char *after_text(const char *at, const char *end, struct text *text) {
    at = after(at, end, "\"");
    const char *close = memchr(at, '"', end - at);
    if (!close || memchr(at, '\\', close - at)) refuse();
    *text = (struct text){at, close - at};
    return close + 1;
}

static void answer(const char *number, size_t digits) {
    char line[64];
    int size = snprintf(line, sizeof line, "[\"reply\",%.*s,null]\n", (int)digits, number);
    if (write(1, line, size) != size) fail("write");
}

static void serve(const char *line, const char *end) {
    struct text class, name, method, key, value;
    const char *number = after(line, end, "[\"call\","), *at = number;
    while (at < end && *at >= '0' && *at <= '9') at++;
    size_t digits = at - number;
    if (!digits || digits > 16) refuse();
    at = after_text(after(at, end, ","), end, &class);
    at = after_text(after(at, end, ","), end, &name);
    at = after_text(after(at, end, ","), end, &method);
    if (method.size == 3 && !memcmp(method.at, "put", 3)) {
        at = after_text(after(at, end, ",["), end, &key);
        at = after_text(after(at, end, ","), end, &value);
        if (after(at, end, "]]") != end) refuse();
        append(class, name, key, value);
    }
    answer(number, digits);
}

int main(int argc, char **argv) {
    static char room[1 << 16];
    size_t had = 0;
    ssize_t got;
    if (argc != 2) { fprintf(stderr, "usage: server FILE\n"); return 2; }
    file = open(argv[1], O_RDWR | O_CREAT | O_TRUNC, 0644);
    if (file < 0) fail(argv[1]);
    write_synced("\xa5" "DO-JOURNAL-V2\n\0", 16, 0);
    in_disk = 0;
    while ((got = read(0, room + had, sizeof room - had)) > 0) {
        char *line = room, *end;
        had += got;
        while ((end = memchr(line, '\n', room + had - line))) {
            serve(line, end);
            line = end + 1;
        }
        had -= line - room;
        memmove(room, line, had);
        if (had == sizeof room) refuse();
    }
    if (got < 0) fail("read");
    fprintf(stderr, "%.6f\n", in_disk);
    return 0;
}
