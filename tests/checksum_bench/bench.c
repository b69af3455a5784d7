// Times the checksum of this repository against others, at 24 and at 4,096 bytes. README.md beside this file says how it is built.
//
// Each form is first held against liblzma at every length up to 300. Then it is run five times; a run is enough calls for about 50 ms, each of
// which depends on the result of the one before, and takes the time of the process alone. A line has the median of the five in nanoseconds
// a call, and how often that is liblzma's time and that of the form by hand.
#include <inttypes.h>
#include <lzma.h>
#include <stdint.h>
#include <stdio.h>
#include <stdlib.h>
#include <string.h>
#include <time.h>
#if defined(__aarch64__) && defined(__ARM_FEATURE_CRYPTO)
#include <arm_neon.h>
#define CARRYLESS 1
#endif

// what the archive exports: a slice is a pointer and a length
uint64_t bbl_crc64(const uint8_t *bytes, size_t count);
uint64_t bbl_crc64_plain(const uint8_t *bytes, size_t count);
uint64_t bbl_crc64_words(uint64_t a, uint64_t b, uint64_t c);
#ifdef CRC_CRATE
uint64_t crate_crc64(const uint8_t *bytes, size_t count);
#endif

// ---- by hand: slice-by-8, the table filled when the program starts

#define POLYNOMIAL 0xc96c5795d7870f42u

static uint64_t table[8][256];

static uint64_t falls(int steps, uint64_t x) {
    while (steps--)
        x = (x >> 1) ^ (x & 1 ? POLYNOMIAL : 0);
    return x;
}

static uint64_t load(const uint8_t *at) {
    uint64_t word;
    memcpy(&word, at, 8);
    return word;
}

static inline uint64_t eight(uint64_t x) {
    return table[7][x & 255] ^ table[6][x >> 8 & 255] ^ table[5][x >> 16 & 255] ^ table[4][x >> 24 & 255] ^ table[3][x >> 32 & 255]
           ^ table[2][x >> 40 & 255] ^ table[1][x >> 48 & 255] ^ table[0][x >> 56];
}

static __attribute__((noinline)) uint64_t by_hand(const uint8_t *bytes, size_t count) {
    uint64_t r = ~(uint64_t)0;
    for (; count >= 8; bytes += 8, count -= 8)
        r = eight(r ^ load(bytes));
    while (count--)
        r = (r >> 8) ^ table[0][(r ^ *bytes++) & 255];
    return ~r;
}

static __attribute__((noinline)) uint64_t by_hand_words(uint64_t a, uint64_t b, uint64_t c) {
    return ~eight(eight(eight(~a) ^ b) ^ c);
}

// ---- carry-less multiplication by hand, four blocks of 16 bytes at a time: what this processor can do at best

#ifdef CARRYLESS
static uint64_t power(int n) {
    return falls(n, (uint64_t)1 << 63);
}

static uint64x2_t multiply(uint64_t a, uint64_t b) {
    return vreinterpretq_u64_p128(vmull_p64(a, b));
}

static uint64x2_t fold(uint64x2_t block, uint64_t first, uint64_t second) {
    return veorq_u64(multiply(vgetq_lane_u64(block, 0), first), multiply(vgetq_lane_u64(block, 1), second));
}

static uint64_t near_first, near_second, far_first, far_second;

static uint64x2_t block_at(const uint8_t *at) {
    return vreinterpretq_u64_u8(vld1q_u8(at));
}

static __attribute__((noinline)) uint64_t carryless(const uint8_t *bytes, size_t count) {
    if (count < 64)
        return by_hand(bytes, count);
    uint64x2_t b[4];
    for (int i = 0; i < 4; i++)
        b[i] = block_at(bytes + 16 * i);
    b[0] = veorq_u64(b[0], vsetq_lane_u64(~(uint64_t)0, vdupq_n_u64(0), 0));
    for (bytes += 64, count -= 64; count >= 64; bytes += 64, count -= 64)
        for (int i = 0; i < 4; i++)
            b[i] = veorq_u64(fold(b[i], far_first, far_second), block_at(bytes + 16 * i));
    uint64x2_t one = b[0];
    for (int i = 1; i < 4; i++)
        one = veorq_u64(fold(one, near_first, near_second), b[i]);
    uint64_t r = eight(eight(vgetq_lane_u64(one, 0)) ^ vgetq_lane_u64(one, 1));
    for (; count >= 8; bytes += 8, count -= 8)
        r = eight(r ^ load(bytes));
    while (count--)
        r = (r >> 8) ^ table[0][(r ^ *bytes++) & 255];
    return ~r;
}
#endif

static void fill(void) {
    for (int k = 0; k < 8; k++)
        for (int b = 0; b < 256; b++)
            table[k][b] = falls(8 + 8 * k, (uint64_t)b);
#ifdef CARRYLESS
    near_first = power(64 + 128 - 1), near_second = power(128 - 1);
    far_first = power(64 + 512 - 1), far_second = power(512 - 1);
#endif
}

// ---- the forms

typedef uint64_t form(const uint8_t *bytes, size_t count);

static uint64_t xz(const uint8_t *bytes, size_t count) {
    return lzma_crc64(bytes, count, 0);
}

static uint64_t words(const uint8_t *bytes, size_t count) {
    (void)count;
    return bbl_crc64_words(load(bytes), load(bytes + 8), load(bytes + 16));
}

static uint64_t words_by_hand(const uint8_t *bytes, size_t count) {
    (void)count;
    return by_hand_words(load(bytes), load(bytes + 8), load(bytes + 16));
}

static const struct {
    const char *name;
    form *run;
    int only_24;
} forms[] = {
    {"liblzma", xz, 0},
    {"slice-by-8 by hand", by_hand, 0},
    {"three words by hand", words_by_hand, 1},
#ifdef CARRYLESS
    {"carry-less by hand", carryless, 0},
#endif
#ifdef CRC_CRATE
    {"crate crc 1.8", crate_crc64, 0},
#endif
    {"bbl_crc64_plain", bbl_crc64_plain, 0},
    {"bbl_crc64", bbl_crc64, 0},
    {"bbl_crc64_words", words, 1},
};

// ---- timing

static uint8_t bytes[8192];

static double now(void) {
    struct timespec t;
    clock_gettime(CLOCK_PROCESS_CPUTIME_ID, &t);
    return (double)t.tv_sec * 1e9 + (double)t.tv_nsec;
}

static double calls(form *run, size_t count, long times) {
    uint64_t sum = 0;
    double start = now();
    for (long i = 0; i < times; i++)
        sum ^= run(bytes + (sum & 1), count);
    double taken = now() - start;
    volatile uint64_t kept = sum;
    (void)kept;
    return taken;
}

static int order(const void *a, const void *b) {
    double x = *(const double *)a, y = *(const double *)b;
    return (x > y) - (x < y);
}

static double median(form *run, size_t count) {
    long times = 64;
    while (calls(run, count, times) < 50e6)
        times *= 2;
    double runs[5];
    for (int i = 0; i < 5; i++)
        runs[i] = calls(run, count, times) / (double)times;
    qsort(runs, 5, sizeof *runs, order);
    return runs[2];
}

int main(void) {
    const size_t sizes[] = {24, 4096};
    const size_t many = sizeof forms / sizeof *forms;
    int wrong = 0;
    fill();
    uint64_t x = 1;
    for (size_t i = 0; i < sizeof bytes; i++) {
        x = (x * 1103515245 + 12345) % 2147483648;
        bytes[i] = (uint8_t)(x / 65536);
    }
    for (size_t f = 0; f < many; f++)
        for (size_t n = forms[f].only_24 ? 24 : 0; n <= (forms[f].only_24 ? 24 : 300); n++)
            if (forms[f].run(bytes, n) != xz(bytes, n)) {
                printf("%s is wrong at %zu bytes\n", forms[f].name, n);
                wrong = 1;
            }
    for (size_t s = 0; s < 2; s++) {
        double base = 0, hand = 0;
        for (size_t f = 0; f < many; f++) {
            if (forms[f].only_24 && sizes[s] != 24)
                continue;
            double ns = median(forms[f].run, sizes[s]);
            if (forms[f].run == xz)
                base = ns;
            if (forms[f].run == by_hand)
                hand = ns;
            printf("%5zu bytes  %-20s %9.1f ns", sizes[s], forms[f].name, ns);
            printf(base > 0 ? "  %5.2f x liblzma" : "", ns / base);
            printf(hand > 0 ? "  %5.2f x by hand\n" : "\n", ns / hand);
        }
    }
    return wrong;
}
