/* recorder IMAGE WRITE: a voyage data recorder, as small as one can be. It records a short voyage on the image, and pulls its own plug right
 * after the write of this number: it kills itself, between two stores to the medium. 0 pulls no plug.
 *
 * The medium is the image, mapped into memory: what was stored before the kill is in the file, as it would be in persistent memory.
 *
 * Prints what it does, a line for each thing, as it happens: 'recording TEXT' before an append and 'recorded POSITION TEXT' after it has
 * answered; 'releasing TEXT' and 'released TEXT' for the oldest record, if there is no room; 'plug NUMBER LENGTH OFFSET' when it is pulled. */
#define _GNU_SOURCE
#include <fcntl.h>
#include <signal.h>
#include <stdint.h>
#include <stdio.h>
#include <stdlib.h>
#include <string.h>
#include <sys/mman.h>
#include <sys/stat.h>
#include <unistd.h>

static void written(const uint8_t *address, size_t length);
static void flush(void);
#define BBL_PERSIST(address, length) written(address, length)
#define BBL_FLUSH() flush()
#include "blackboxlog.h"

static uint8_t *medium;
static size_t length;
static unsigned long writes, plug;

/* A store was made. Here the power goes, if it is to go. */
static void written(const uint8_t *address, size_t n)
{
    writes++;
    if (writes == plug) {
        dprintf(1, "plug %lu %zu %zu\n", writes, n, (size_t)(address - medium));
        kill(getpid(), SIGKILL);
    }
}

/* On persistent memory: a fence. For a mapped file: */
static void flush(void)
{
    msync(medium, length, MS_SYNC);
}

static void fail(const char *what, uint64_t code)
{
    fprintf(stderr, "recorder: %s: %s\n", what, bbl_reason(code));
    exit(1);
}

/* The oldest record, without its newline. */
static void oldest(bbl_handle log, char text[128])
{
    size_t n = 0;
    while (n < 127 && bbl_read(medium, length, log, log.head + n, (uint8_t *)text + n, 1).code == BBL_OK && text[n] != '\n') {
        n++;
    }
    text[n] = 0;
}

static void record(bbl_handle *log, const char *text)
{
    char line[128];
    bbl_reply reply;
    const int n = snprintf(line, sizeof line, "%s\n", text);
    for (;;) {
        dprintf(1, "recording %s\n", text);
        reply = bbl_append(medium, length, log, (const uint8_t *)line, (size_t)n);
        if (reply.code != BBL_NO_ROOM) {
            break;
        }
        char old[128];
        oldest(*log, old);
        dprintf(1, "releasing %s\n", old);
        if (bbl_advance(medium, length, log, log->head + strlen(old) + 1).code != BBL_OK) {
            fail("release", reply.code);
        }
        dprintf(1, "released %s\n", old);
    }
    if (reply.code != BBL_OK) {
        fail("append", reply.code);
    }
    dprintf(1, "recorded %llu %s\n", (unsigned long long)reply.number, text);
}

/* Twenty minutes: a ship leaves its course. */
static void voyage(bbl_handle *log)
{
    int minute;
    for (minute = 0; minute < 20; minute++) {
        char text[100];
        snprintf(text, sizeof text, "12:%02d position %.4f N %.4f E", minute, 54.1000 + 0.0021 * minute, 7.8000 + 0.0043 * minute);
        record(log, text);
        snprintf(text, sizeof text, "12:%02d rudder %d %s", minute, minute < 14 ? 2 : 5 * (minute - 12), minute < 14 ? "port" : "starboard");
        record(log, text);
        snprintf(text, sizeof text, "12:%02d engine %d rpm", minute, minute < 16 ? 92 : 40);
        record(log, text);
        snprintf(text, sizeof text, "12:%02d doors %s", minute, minute == 15 ? "4 open" : "all closed");
        record(log, text);
        snprintf(text, sizeof text, "12:%02d radar target %d at %.1f miles, bearing %d", minute, 1 + minute % 3, 4.2 - 0.2 * minute, 31 + minute);
        record(log, text);
        snprintf(text, sizeof text, "12:%02d voice %02x%02x%02x%02x%02x%02x%02x%02x", minute, 128, 140 + minute, 151, 160, 165, 160 - minute, 151, 140);
        record(log, text);
    }
}

int main(int count, char **words)
{
    struct stat about;
    bbl_reply reply;
    bbl_handle log;
    int file;
    if (count != 3) {
        fprintf(stderr, "recorder IMAGE WRITE\n");
        return 2;
    }
    plug = strtoul(words[2], NULL, 10);
    file = open(words[1], O_RDWR);
    if (file < 0 || fstat(file, &about) != 0) {
        perror(words[1]);
        return 1;
    }
    length = (size_t)about.st_size;
    medium = mmap(NULL, length, PROT_READ | PROT_WRITE, MAP_SHARED, file, 0);
    if (medium == MAP_FAILED) {
        perror(words[1]);
        return 1;
    }
    flush(); /* what a program before this one wrote */
    reply = bbl_open(medium, length);
    if (reply.code != BBL_OK) {
        fail("open", reply.code);
    }
    log = reply.handle;
    voyage(&log);
    dprintf(1, "writes %lu\n", writes);
    return 0;
}
