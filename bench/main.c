/* bench [--quick] [--ring KIB]: how long appends, reads, openings and checksums take, beside the same log by hand in C, memcpy, liblzma and
 * libpmemlog. Medians of five rounds; in a round all are measured in turn, eleven times, and the median counts. In nanoseconds and as ratios,
 * and which goals they reach. Before that the two logs are held against each other, byte for byte. --quick: one short round, which shows that
 * everything works and no time. --ring KIB: a ring of another length than 256 KiB. */
#define _GNU_SOURCE
#include "subject.h"
#include <inttypes.h>
#include <stdio.h>
#include <stdlib.h>
#include <string.h>
#include <time.h>
#ifdef HAVE_LZMA
#include <lzma.h>
#endif
#ifdef HAVE_PMEMLOG
#include <libpmemlog.h>
#include <unistd.h>
#endif

enum { ROUNDS = 5, TURNS = 11, LARGEST = 4096, CELLS = 64 };

/* The ring is small enough to stay in a processor's second cache together with libpmemlog's file, unless --ring says otherwise: a larger one
 * measures where its pages happen to be, and no two runs agree. */
static size_t ring = 1 << 18;

/* the medium, and its length */
static uint8_t *medium;
static size_t whole;

/* Where the payload is, and where a read goes, and the stack. A processor takes a load for one of what was just stored if the two addresses agree
 * in their last twelve bits: how long a copy takes hangs on that, and so on where the linker put the buffers. So they are elsewhere in each
 * turn, for all that are measured in it. */
enum { PLACES = TURNS, PLACE = 4096 / TURNS / 16 * 16 };
static uint8_t payloads[LARGEST + 4096] __attribute__((aligned(4096))), outs[LARGEST + 4096] __attribute__((aligned(4096)));
static uint8_t *payload = payloads, *out = outs;
static size_t shift;

static void go_to(int place)
{
    shift = (size_t)(place % PLACES * PLACE);
    payload = payloads + shift;
    out = outs + (4096 - PLACE - shift) % 4096;
}

/* takes room from the stack, so that what is called stands elsewhere on it */
#define ELSEWHERE()                                                   \
    do {                                                              \
        char *const room = __builtin_alloca(16 + (shift * 5) % 4096); \
        __asm__ volatile("" ::"r"(room) : "memory");                  \
    } while (0)

static int quick, turns;

static void fail(const char *what)
{
    fprintf(stderr, "bench: %s\n", what);
    exit(1);
}

static double now(void)
{
    struct timespec t;
    clock_gettime(CLOCK_MONOTONIC, &t);
    return (double)t.tv_sec * 1e9 + (double)t.tv_nsec;
}

/* ---- one cell of the table: a time for each turn of each round */

typedef struct {
    double times[ROUNDS][TURNS];
    int noted;
} cell;

static void note(cell *c, double ns)
{
    c->times[c->noted / turns][c->noted % turns] = ns;
    c->noted++;
}

static int by_size(const void *a, const void *b)
{
    const double x = *(const double *)a, y = *(const double *)b;
    return (x > y) - (x < y);
}

static double middle(double *times, int count)
{
    qsort(times, (size_t)count, sizeof *times, by_size);
    return times[count / 2];
}

static double median(cell *c)
{
    const int rounds = c->noted / turns;
    double middles[ROUNDS];
    int i;
    for (i = 0; i < rounds; i++) {
        middles[i] = middle(c->times[i], turns);
    }
    return middle(middles, rounds);
}

/* ---- what is measured: nanoseconds for one */

static size_t many(size_t usual)
{
    return quick ? usual / 50 + 2 : usual;
}

static double appends(const subject *s, size_t n)
{
    const size_t lap = (ring - 1) / n;
    const size_t total = many(20000);
    size_t left = lap + total; /* the first lap fetches the memory, and is not timed */
    double spent = 0;
    ELSEWHERE();
    s->setup(medium, whole);
    while (left != 0) {
        const size_t times = left < lap ? left : lap;
        const double from = now();
        if (!s->append(medium, whole, payload, n, times)) {
            fail("an append was refused");
        }
        spent += left > total ? 0 : now() - from;
        if (!s->release(medium, whole)) {
            fail("a release was refused");
        }
        left -= times;
    }
    return spent / (double)total;
}

static double copies(size_t n)
{
    const size_t lap = ring / n, total = many(100000);
    size_t i;
    const double from = now();
    for (i = 0; i < total; i++) {
        memcpy(medium + 72 + i % lap * n, payload, n);
        __asm__ volatile("" ::: "memory");
    }
    return (now() - from) / (double)total;
}

static double reads(const subject *s, size_t n)
{
    const size_t times = many(50000);
    double from;
    ELSEWHERE();
    s->setup(medium, whole);
    if (!s->append(medium, whole, payload, n, 10)) {
        fail("an append was refused");
    }
    from = now();
    if (!s->read(medium, whole, out, n, times) || memcmp(out, payload, n) != 0) {
        fail("a read was refused or wrong");
    }
    return (now() - from) / (double)times;
}

static double openings(const subject *s)
{
    const size_t times = many(50000);
    double from;
    s->setup(medium, whole);
    from = now();
    if (!s->open(medium, whole, times)) {
        fail("an opening was refused");
    }
    return (now() - from) / (double)times;
}

static volatile uint64_t sink;

static double checksums(const subject *s, size_t n)
{
    const size_t times = many(n > 1000 ? 1000 : 50000);
    const double from = now();
    sink = s->crc(payload, n, times);
    return (now() - from) / (double)times;
}

#ifdef HAVE_LZMA
static double lzma_checksums(size_t n)
{
    const size_t times = many(n > 1000 ? 1000 : 50000);
    const double from = now();
    uint64_t sum = 0;
    size_t i;
    for (i = 0; i < times; i++) {
        sum += lzma_crc64(payload, n, 0);
        __asm__ volatile("" ::: "memory"); /* it is declared pure, and each one is to be computed */
    }
    sink = sum;
    return (now() - from) / (double)times;
}
#endif

#ifdef HAVE_PMEMLOG
static PMEMlogpool *pool;

static void make_pool(void)
{
    static char path[] = "/dev/shm/blackboxlog-bench-XXXXXX";
    const int file = mkstemp(path);
    if (file < 0) {
        fail("no file for libpmemlog");
    }
    close(file);
    unlink(path);
    pool = pmemlog_create(path, PMEMLOG_MIN_POOL, 0600);
    if (pool == NULL) {
        fail(pmemlog_errormsg());
    }
    unlink(path);
}

static double pmemlog_appends(size_t n)
{
    const size_t lap = (ring - 1) / n;
    const size_t total = many(20000);
    size_t left = lap + total; /* the first lap fetches the memory, and is not timed */
    double spent = 0;
    ELSEWHERE();
    while (left != 0) {
        const size_t times = left < lap ? left : lap;
        size_t i;
        double from;
        pmemlog_rewind(pool);
        from = now();
        for (i = 0; i < times; i++) {
            if (pmemlog_append(pool, payload, n) != 0) {
                fail(pmemlog_errormsg());
            }
        }
        spent += left > total ? 0 : now() - from;
        left -= times;
    }
    return spent / (double)total;
}
#endif

/* ---- the two logs must leave the same bytes, or there is nothing to compare */

static void same_bytes(const subject *a, const subject *b)
{
    static const size_t lengths[] = {1, 64, 300, 4096, 7, 4000, 0, 4096};
    uint8_t *const first = aligned_alloc(64, 16384), *const second = aligned_alloc(64, 16384);
    const size_t length = 72 + 10000;
    size_t i, k;
    if (first == NULL || second == NULL) {
        fail("no memory");
    }
    memset(first, 0, 16384);
    memset(second, 0, 16384);
    a->setup(first, length);
    b->setup(second, length);
    for (i = 0; i < 20; i++) {
        const size_t n = lengths[i % 8];
        for (k = 0; k < 2; k++) {
            if (a->append(first, length, payload, n, 1) != b->append(second, length, payload, n, 1) || memcmp(first, second, length) != 0) {
                fail("the two logs differ");
            }
        }
        if (!a->release(first, length) || !b->release(second, length) || memcmp(first, second, length) != 0) {
            fail("the two logs differ");
        }
        if (!a->open(second, length, 1) || !b->open(first, length, 1)) {
            fail("one log does not open the other's medium");
        }
    }
    for (k = 0; k < LARGEST; k += 97) {
        if (a->crc(payload, k, 1) != b->crc(payload, k, 1)) {
            fail("the two checksums differ");
        }
    }
    free(first);
    free(second);
}

/* ---- the table */

static cell cells[CELLS];

static void row(const char *what, size_t n, int ours, int hand, int other, const char *other_name, int third, const char *third_name)
{
    const double a = median(&cells[ours]), b = hand < 0 ? 0 : median(&cells[hand]);
    char by_hand[32] = " | ";
    char size[16] = "", others[96] = "";
    size_t used = 0;
    if (n != 0) {
        snprintf(size, sizeof size, "%zu", n);
    }
    if (other >= 0) {
        used = (size_t)snprintf(others, sizeof others, "%s %.1f (%.2f)", other_name, median(&cells[other]), a / median(&cells[other]));
    }
    if (third >= 0) {
        snprintf(others + used, sizeof others - used, "%s%s %.1f (%.2f)", used ? ", " : "", third_name, median(&cells[third]), a / median(&cells[third]));
    }
    if (hand >= 0) {
        snprintf(by_hand, sizeof by_hand, "%.1f | %.2f", b, a / b);
    }
    printf("| %s | %s | %.1f | %s | %s |\n", what, size, a, by_hand, others);
}

/* a goal: for each size, how many times the other's time is enough; `other` is a cell of the first size */
static void goal(const char *what, int ours, int other, const double *enough)
{
    const int faster = *enough == 1; /* and not as fast */
    int i;
    printf("| %s |", what);
    for (i = 0; i < 30; i += 10) {
        const double ratio = cells[other].noted ? median(&cells[ours + i]) / median(&cells[other + i]) : 0;
        if (ratio == 0) {
            printf(" not measured |");
        } else {
            printf(" %s, %.3f |", ratio < *enough || (ratio == *enough && !faster) ? "reached" : "not reached", ratio);
            enough++;
        }
    }
    printf("\n");
}

int main(int count, char **words)
{
    static const size_t sizes[] = {64, 300, 4096};
    static const size_t sums[] = {24, 4096};
    static const double flushed[] = {1.15, 1.15, 1.15}, plain[] = {2, 1.5, 1.3}, faster[] = {1, 1, 1};
    const char *by;
    char what[80];
    size_t i;
    int turn, all;
    while (--count > 0) {
        words++;
        if (strcmp(*words, "--quick") == 0) {
            quick = 1;
        } else if (strcmp(*words, "--ring") == 0 && count > 1 && atoi(words[1]) >= 8 && atoi(words[1]) <= 1800) {
            ring = (size_t)atoi(*++words) << 10;
            count--;
        } else {
            fail("usage: bench [--quick] [--ring KIB], from 8 to 1800 KiB");
        }
    }
    whole = 72 + ring;
    turns = quick ? 1 : TURNS;
    all = quick ? 1 : ROUNDS * TURNS;
    medium = aligned_alloc(64, whole + 64 - whole % 64);
    if (medium == NULL) {
        fail("no memory");
    }
    memset(medium, 0, whole);
    for (i = 0; i < sizeof payloads; i++) {
        payloads[i] = (uint8_t)(i * 7 + 1);
    }
    by = choose_write_back();
    if (by == NULL) {
        fail("the lines of this processor's cache have another length");
    }
    same_bytes(&ours_plain, &peer_plain);
    same_bytes(&ours_flushed, &peer_flushed);
    same_bytes(&ours_fenced, &peer_plain);
#ifdef HAVE_PMEMLOG
    if (getenv("PMEM_NO_FLUSH") == NULL || getenv("PMEM_IS_PMEM_FORCE") == NULL) {
        fail("PMEM_NO_FLUSH and PMEM_IS_PMEM_FORCE are not set; bench/run sets them");
    }
    make_pool();
#endif
    for (turn = 0; turn < all; turn++) {
        go_to(turn);
        for (i = 0; i < 3; i++) {
            cell *const c = &cells[10 * i];
            note(&c[0], appends(&ours_plain, sizes[i]));
            note(&c[1], appends(&peer_plain, sizes[i]));
            note(&c[2], appends(&ours_flushed, sizes[i]));
            note(&c[3], appends(&peer_flushed, sizes[i]));
            note(&c[8], appends(&ours_fenced, sizes[i]));
            note(&c[4], copies(sizes[i]));
            note(&c[5], reads(&ours_plain, sizes[i]));
            note(&c[6], reads(&peer_plain, sizes[i]));
#ifdef HAVE_PMEMLOG
            note(&c[7], pmemlog_appends(sizes[i]));
#endif
        }
        note(&cells[30], openings(&ours_plain));
        note(&cells[31], openings(&peer_plain));
        for (i = 0; i < 2; i++) {
            note(&cells[40 + 10 * i], checksums(&ours_plain, sums[i]));
            note(&cells[41 + 10 * i], checksums(&peer_plain, sums[i]));
#ifdef HAVE_LZMA
            note(&cells[42 + 10 * i], lzma_checksums(sums[i]));
#endif
        }
    }
    printf("| what | bytes | Blackboxlog, ns | C by hand, ns | ratio | others, ns (ratio to them) |\n| --- | --- | --- | --- | --- | --- |\n");
    for (i = 0; i < 3; i++) {
        const int c = 10 * (int)i;
        row("append, hooks empty", sizes[i], c, c + 1, c + 4, "memcpy", cells[c + 7].noted ? c + 7 : -1, "libpmemlog");
    }
    for (i = 0; i < 3; i++) {
        const int c = 10 * (int)i;
        row("append, fences alone", sizes[i], c + 8, -1, cells[c + 7].noted ? c + 7 : -1, "libpmemlog", -1, "");
    }
    for (i = 0; i < 3; i++) {
        const int c = 10 * (int)i;
        snprintf(what, sizeof what, "append, %s", by);
        row(what, sizes[i], c + 2, c + 3, -1, "", -1, "");
    }
    for (i = 0; i < 3; i++) {
        const int c = 10 * (int)i;
        row("read", sizes[i], c + 5, c + 6, c + 4, "memcpy", -1, "");
    }
    row("open", 0, 30, 31, -1, "", -1, "");
    for (i = 0; i < 2; i++) {
        const int c = 40 + 10 * (int)i;
        row("checksum", sums[i], c, c + 1, cells[c + 2].noted ? c + 2 : -1, "liblzma", -1, "");
    }
    printf("\n| goal | 64 bytes | 300 bytes | 4096 bytes |\n| --- | --- | --- | --- |\n");
    snprintf(what, sizeof what, "append, %s: at most 1.15 times C by hand", by);
    goal(what, 2, 3, flushed);
    goal("append, hooks empty: at most 2, 1.5 and 1.3 times C by hand", 0, 1, plain);
    goal("append, hooks empty: faster than libpmemlog", 0, 7, faster);
    goal("append, fences alone: faster than libpmemlog", 8, 7, faster);
    return 0;
}
