/* Blackboxlog as a user calls it: bbl_append over plan and step. Compiled three times: with empty hooks; with FLUSHED, those of the header's
 * example; and with FENCED, which waits and writes nothing back, as libpmemlog does when its flushes are switched off. */
#include "subject.h"

#if defined(FENCED)
#define BBL_FLUSH() fence()
#define SUBJECT ours_fenced
#elif defined(FLUSHED)
#define BBL_WRITTEN(address, length) write_back(address, length)
#define BBL_FLUSH() fence()
#define SUBJECT ours_flushed
#else
#define SUBJECT ours_plain
#endif
#include "blackboxlog.h"

static bbl_handle live;

static void setup(uint8_t *medium, size_t length)
{
    live = bbl_setup(medium, length).handle;
}

static int append(uint8_t *medium, size_t length, const uint8_t *bytes, size_t n, size_t times)
{
    for (; times != 0; times--) {
        if (bbl_append(medium, length, &live, bytes, n).code != BBL_OK) {
            return 0;
        }
    }
    return 1;
}

static int release(uint8_t *medium, size_t length)
{
    return bbl_advance(medium, length, &live, live.tail).code == BBL_OK;
}

static int read_last(const uint8_t *medium, size_t length, uint8_t *out, size_t n, size_t times)
{
    for (; times != 0; times--) {
        if (bbl_get(medium, length, live, live.tail - n, out, n).code != BBL_OK) {
            return 0;
        }
    }
    return 1;
}

static int open_medium(const uint8_t *medium, size_t length, size_t times)
{
    for (; times != 0; times--) {
        if (bbl_open(medium, length).code != BBL_OK) {
            return 0;
        }
    }
    return 1;
}

static uint64_t crc(const uint8_t *bytes, size_t n, size_t times)
{
    uint64_t sum = 0;
    for (; times != 0; times--) {
        sum += bbl_crc64(bytes, n);
    }
    return sum;
}

const subject SUBJECT = {"Blackboxlog", setup, append, release, read_last, open_medium, crc};
