/* What is measured: a log, as functions on a medium. Each kind is compiled on its own, so that nothing is inlined into the loop that measures
 * but what a user's program would inline too. */
#ifndef SUBJECT_H
#define SUBJECT_H

#include <stddef.h>
#include <stdint.h>

typedef struct {
    const char *name;
    /* sets up the medium */
    void (*setup)(uint8_t *medium, size_t length);
    /* appends the bytes so many times; there is room for them. Answers 0 if one was refused. */
    int (*append)(uint8_t *medium, size_t length, const uint8_t *bytes, size_t n, size_t times);
    /* moves the head to the tail */
    int (*release)(uint8_t *medium, size_t length);
    /* reads the n bytes before the tail so many times */
    int (*read)(const uint8_t *medium, size_t length, uint8_t *out, size_t n, size_t times);
    /* opens the medium so many times */
    int (*open)(const uint8_t *medium, size_t length, size_t times);
    /* the checksum of n bytes, so many times */
    uint64_t (*crc)(const uint8_t *bytes, size_t n, size_t times);
} subject;

extern const subject ours_plain, ours_flushed, ours_fenced, peer_plain, peer_flushed;

/* how lines of the cache are written back and waited for, by what the processor has, and that in words; NULL if its lines have another length */
enum { LINE = 64 };
extern void (*write_back)(const void *address, size_t length);
const char *choose_write_back(void);
void fence(void);

#endif
