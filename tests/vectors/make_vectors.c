// Writes what the program crc64_vectors must write, computed by liblzma's lzma_crc64, which is no part of this project:
//
//     cc tests/vectors/make_vectors.c -llzma -o build/make_vectors && build/make_vectors > crates/crc64_vectors/stdout
//
// (Debian's package liblzma-dev; made with version 5.4.1.) lzma_crc64(bytes, count, before) goes on from the checksum `before`, and is called
// so for the lines in parts.
#include <inttypes.h>
#include <lzma.h>
#include <stdint.h>
#include <stdio.h>
#include <stdlib.h>
#include <string.h>

static void line(const char *name, uint64_t value) {
    printf("%s %016" PRIx64 "\n", name, value);
}

static void counted(const char *name, size_t count, uint64_t value) {
    printf("%s %zu %016" PRIx64 "\n", name, count, value);
}

static uint64_t whole(const uint8_t *bytes, size_t count) {
    return lzma_crc64(bytes, count, 0);
}

static void text(const char *name, const char *t) {
    line(name, whole((const uint8_t *)t, strlen(t)));
}

// A log's header: three numbers of eight bytes, the lowest byte first.
static void header(const char *name, uint64_t head, uint64_t tail, uint64_t size) {
    uint64_t field[3] = {head, tail, size};
    uint8_t bytes[24];
    for (int i = 0; i < 24; i++)
        bytes[i] = (uint8_t)(field[i / 8] >> (i % 8 * 8));
    line(name, whole(bytes, 24));
}

static void pattern(uint8_t *bytes, size_t count) {
    uint64_t x = 1;
    for (size_t i = 0; i < count; i++) {
        x = (x * 1103515245 + 12345) % 2147483648;
        bytes[i] = (uint8_t)(x / 65536 % 256);
    }
}

int main(void) {
    const uint8_t *check = (const uint8_t *)"123456789";
    const uint8_t *fox = (const uint8_t *)"The quick brown fox jumps over the lazy dog";
    const size_t mib = 1 << 20;
    uint8_t *bytes = malloc(mib);
    if (!bytes)
        return 1;

    text("empty", "");
    text("check", "123456789");
    text("text 0", "0");
    text("text 1", "1");
    text("a", "a");
    text("alphabet", "abcdefghijklmnopqrstuvwxyz");
    text("fox", (const char *)fox);

    header("header 0 0 4024", 0, 0, 4024);
    header("header 0 100 4024", 0, 100, 4024);
    header("header 0 0 1", 0, 0, 1);

    memset(bytes, 0, 4096);
    const size_t zeros[] = {1, 8, 24, 4096};
    for (int i = 0; i < 4; i++)
        counted("zeros", zeros[i], whole(bytes, zeros[i]));
    memset(bytes, 255, 8);
    counted("ones", 8, whole(bytes, 8));

    pattern(bytes, mib);
    const size_t lengths[] = {7, 8, 9, 63, 64, 65, 4087, 1 << 20};
    for (int i = 0; i < 8; i++)
        counted("pattern", lengths[i], whole(bytes, lengths[i]));

    // every split of the check string in two and in three parts: how many give this checksum
    uint64_t all = whole(check, 9);
    size_t two = 0, three = 0;
    for (size_t i = 0; i <= 9; i++) {
        uint64_t first = whole(check, i);
        two += lzma_crc64(check + i, 9 - i, first) == all;
        for (size_t j = i; j <= 9; j++)
            three += lzma_crc64(check + j, 9 - j, lzma_crc64(check + i, j - i, first)) == all;
    }
    counted("in two parts", two, all);
    counted("in three parts", three, all);

    // two checksums made at the same time, and one taken up twice
    uint64_t a = whole(check, 4), b = whole(fox, 10);
    uint64_t c = lzma_crc64(fox, 43, a);
    a = lzma_crc64(check + 4, 5, a);
    b = lzma_crc64(fox + 10, 33, b);
    line("interleaved check", a);
    line("interleaved fox", b);
    line("taken up again", c);
    free(bytes);
    return 0;
}
