/* blackboxlog.h: a record log on persistent memory, for C99 and C++. Link with -lblackboxlog.
 *
 * The functions of the archive are written and proved in Rattle; what is `static inline` here is ordinary C over them.
 *
 *     uint8_t *medium = ...;                               // persistent memory, aligned to 8
 *     bbl_reply reply = bbl_open(medium, length);
 *     if (reply.code != BBL_OK) puts(bbl_reason(reply.code));
 *     bbl_handle log = reply.handle;
 *     reply = bbl_append(medium, length, &log, record, record_length);
 *
 *
 * THE LOG is endless: positions only grow. It keeps the bytes from its head, the oldest kept, to its tail, the next to be written. They
 * stand on the medium, a run of bytes that the caller lends for each call. A medium of n bytes has a ring of n - 72 and a capacity of
 * n - 73. The library keeps nothing between two calls, allocates nothing and calls nothing; calls on different media may run at once.
 *
 * A HANDLE is the log's numbers, kept by the caller. Opening answers one, and every operation that writes answers the next. There must be
 * one for a medium: an old handle, or a second one, is not recognized, and an operation through it destroys what was written since; it can
 * bring back a head whose bytes are overwritten, and if it is cut it can leave a medium that does not open. A handle that can't be a log
 * of the medium's length is refused by every call (BBL_BAD_HANDLE).
 *
 * A REPLY has a code, BBL_OK or the reason of a refusal, and up to two numbers, which the list of codes below explains. Fields that a code
 * does not name are 0; `steps` is that of the plan, where there is one. A refusal has written nothing; only BBL_BROKEN_PLAN, which is no
 * refusal, comes after something was written.
 *
 * WHAT IS ASKED OF THE MEMORY.
 *   1. The medium begins at an address that is a multiple of 8 (of 16, or of a line of the cache, takes less time).
 *   2. The memory takes what is written in aligned pieces of 8 bytes: a power cut leaves each piece as it was or as it was to be.
 *   3. After a flush, all that was written before it is there for good. Between two flushes anything may arrive in any order.
 *   4. Nobody else writes to the medium while an operation is under way.
 *   5. When a medium is opened or set up, nothing that was written to it before is still on its way. After a power cut that is so. A program
 *      that ended while the power stayed, and starts again, writes the medium back and flushes before it opens it.
 * Contents carry no checksum in this format: a read answers the bytes that stand on the medium.
 *
 * WHAT A POWER CUT LEAVES. If the memory does this, and the steps of an operation are carried out as below, then whenever the power goes
 * the medium opens as the log before the operation or as the log after it; after it, once the operation has answered. Set-up has more
 * cases, see there.
 *
 * PLAN AND STEP. An operation that writes has two parts. A bbl_plan_ function makes a plan: a few steps, each a put or a flush, and what the
 * operation answers once they are done. bbl_step makes one step; bbl_make_step does the same in less time. The caller carries out all steps in
 * order, each once; at a flush it flushes, before the next step. Nothing else keeps two writes apart: the compiler may merge stores within a
 * function of the archive, and each makes at most one write. How many steps a plan has is the library's affair. A plan is for the medium as it
 * is: carry it out before anything else is written there. Of its numbers a step has some that do not count, and these are left as they were. If
 * it can't be carried out to its end, the medium is as after a power cut, and the handle is worthless: see that everything that was written is
 * there for good, and open the medium again. Where the medium is a copy in memory of something else, as of a file, and a write did not reach
 * that, read it anew first.
 *
 * IN ONE CALL: bbl_setup, bbl_append and bbl_advance make a plan and carry it out, with hooks for the memory. Define them before this header
 * is included; each does nothing by default, which is right for trying things out, and for memory on which all stores are there for good in
 * the program's order, as long as the archive is not inlined into its caller; elsewhere BBL_FLUSH is at least a fence.
 *
 *   BBL_WRITTEN(address, length)   after a put, or after some that are near each other, and before the next flush: all that they put is within
 *                                  these bytes. Begin to write them back.
 *   BBL_FLUSH()                    at each flush: wait until all that was written is there for good.
 *   BBL_PERSIST(address, length)   the simple form, alone and instead of the two: after each put, write these bytes back and wait.
 *
 * For persistent memory of x86-64, where a line of the cache has 64 bytes:
 *
 *   #define BBL_WRITTEN(address, length) my_write_back(address, length)   // _mm_clwb for each line
 *   #define BBL_FLUSH() _mm_sfence()
 */
#ifndef BLACKBOXLOG_H
#define BLACKBOXLOG_H

#include <stddef.h>
#include <stdint.h>

#define BBL_VERSION "0.2.0"

/* So many numbers are enough for every plan. */
#define BBL_PLAN_WORDS 54

/* ---- codes of a reply */

/* It was done. */
#define BBL_OK 0

/* The medium has 72 bytes or fewer. number: the length that is required, 73. */
#define BBL_TOO_SHORT 1

/* Opening, damaged: the selector, at offset 0, has neither of its two values. number: what it has. */
#define BBL_BAD_SELECTOR 2

/* Opening, damaged: the checksum of the live header is wrong. number: the one that is stored; other: the one that is computed;
 * handle.live: the header, 0 the first, 1 the second. */
#define BBL_BAD_CHECKSUM 3

/* Opening, not a log: the live header has a right checksum, and numbers that no log has. The first of these four that holds:
 * the size is 0; */
#define BBL_SIZE_ZERO 4
/* the head (number) is past the tail (other); */
#define BBL_HEAD_PAST_TAIL 5
/* from head (number) to tail (other) there are as many bytes as the ring has, or more. handle.size: the ring's size; */
#define BBL_TOO_FULL 6
/* the header's size (number) is not that of the ring that the medium has (other), which is its length less 72. */
#define BBL_WRONG_SIZE 7

/* Appending: there is no room for so many bytes. number: how many there is room for. With that many it is not refused. */
#define BBL_NO_ROOM 8

/* Advancing, reading: the position is before the head. number: the head. */
#define BBL_BEFORE_HEAD 9

/* Advancing: the position is beyond the tail. Reading: the run of bytes ends beyond the tail. number: the tail. */
#define BBL_BEYOND_TAIL 10

/* The handle can't be a log of this medium's length. */
#define BBL_BAD_HANDLE 11

/* Planning: the plan has too few numbers. number: how many are enough. */
#define BBL_SHORT_PLAN 12

/* These are answered by this header, not by the archive, which cannot see addresses.
 * The medium begins at an address that is not a multiple of 8. number: the remainder. */
#define BBL_MISALIGNED 100

/* The bytes to append, or the place for the bytes that are read, overlap the medium. */
#define BBL_OVERLAP 101

/* A step was refused. number: which. A plan that this header made is never refused: somebody else has written to it. The medium is as
 * after a power cut; open it again. */
#define BBL_BROKEN_PLAN 102

/* ---- what a step did: the code of a bbl_stepped */

/* `length` bytes were written at `at`. They may be none. */
#define BBL_STEP_PUT 0
/* Nothing was written. Flush, before the next step. */
#define BBL_STEP_FLUSH 1
/* Nothing was written: these six numbers of the plan are not there, or are no step, or it does not fit the medium or the bytes. A step at
 * or behind `steps` of the reply is not recognized as such, as the slice may hold more than the plan: stop there. */
#define BBL_STEP_REFUSED 2

#ifdef __cplusplus
extern "C" {
#endif

/* the archive's lengths have 64 bits */
typedef char bbl_size_t_has_64_bits[sizeof(size_t) == 8 ? 1 : -1];

typedef struct {
    uint64_t live; /* the live header: 0 the first, 1 the second */
    uint64_t head; /* the oldest kept position */
    uint64_t tail; /* the next position to be written */
    uint64_t size; /* of the ring, in bytes */
} bbl_handle;

typedef struct {
    uint64_t code;
    uint64_t number;
    uint64_t other;
    uint64_t steps; /* of a plan */
    bbl_handle handle;
} bbl_reply;

typedef struct {
    uint64_t code;
    uint64_t at;
    uint64_t length;
} bbl_stepped;

/* ---- the archive's functions
 *
 * A pointer comes with the number of its elements. It may be null where that number is 0. What is lent to be changed (the medium of
 * bbl_step, bbl_put_bytes and bbl_put_number, plan, out) must not overlap anything else that is lent to the same call. */

/* The checksum of `length` bytes: CRC-64/XZ, as in the headers of the log. That of "123456789" is 0x995dc9bbdf1939fa. */
uint64_t bbl_crc64(const uint8_t *bytes, size_t length);

/* OPENS THE MEDIUM: says what stands on it. It reads 72 bytes, however long the medium is, and writes nothing.
 *
 * BBL_OK: handle is the log's.
 * Refusals: BBL_TOO_SHORT; damaged: BBL_BAD_SELECTOR, BBL_BAD_CHECKSUM; not a log: BBL_SIZE_ZERO, BBL_HEAD_PAST_TAIL, BBL_TOO_FULL,
 *   BBL_WRONG_SIZE.
 * Damage of the live header is answered as such if it flips 1 to 7 bits, or an odd number, or is within 64 consecutive bits in the order
 *   in which the checksum takes them (the 24 bytes from the head on, each from its lowest bit, then the checksum from its lowest); damage
 *   of the selector, if it flips 1 to 24 bits. */
bbl_reply bbl_open(const uint8_t *medium, size_t medium_length);

/* PLANS TO SET UP an empty log on the medium, whatever stands on it. See bbl_setup.
 *
 * BBL_OK: the plan is in `plan` and has `steps` steps; number: the capacity; handle: the log's, once all steps are done.
 * Refusals: BBL_SHORT_PLAN; BBL_TOO_SHORT.
 * Of the medium only the length is used; nothing is written to it. */
bbl_reply bbl_plan_setup(const uint8_t *medium, size_t medium_length, uint64_t *plan, size_t words);

/* PLANS TO APPEND `length` bytes. See bbl_append. The handle is handed over in its four numbers, for the sake of time; bbl_plan_append takes
 * it as a struct.
 *
 * BBL_OK: the plan is in `plan` and has `steps` steps; number: the position of the first byte; handle: the log's, once all steps are done.
 * Refusals, in this order: BBL_BAD_HANDLE if live is neither 0 nor 1; BBL_SHORT_PLAN; BBL_BAD_HANDLE; BBL_NO_ROOM.
 * Nothing is written to the medium. Of its bytes planning looks at the header that is not live, and leaves out what would not change. */
bbl_reply bbl_plan_append_of(const uint8_t *medium, size_t medium_length, uint64_t live, uint64_t head, uint64_t tail, uint64_t size,
                             uint64_t length, uint64_t *plan, size_t words);

/* PLANS TO ADVANCE THE HEAD to a position. See bbl_advance.
 *
 * BBL_OK: the plan is in `plan` and has `steps` steps; handle: the log's, once all steps are done.
 * Refusals, in this order: BBL_BAD_HANDLE if handle.live is neither 0 nor 1; BBL_SHORT_PLAN; BBL_BAD_HANDLE; BBL_BEFORE_HEAD;
 *   BBL_BEYOND_TAIL.
 * Nothing is written to the medium. Of its bytes planning looks at the header that is not live, and leaves out what would not change. */
bbl_reply bbl_plan_advance(const uint8_t *medium, size_t medium_length, bbl_handle handle, uint64_t position, uint64_t *plan,
                           size_t words);

/* CARRIES OUT STEP i of a plan, counted from 0: at most one write. `bytes` are those to append, all of them in every call; for other plans
 * there need be none.
 *
 * The caller carries out all steps of the plan, in order, each once, with the same medium, plan and bytes; at BBL_STEP_FLUSH it flushes
 * before the next. A plan that is carried out otherwise may leave a medium that no longer opens.
 * Refused: BBL_STEP_REFUSED. It does not happen with a plan, medium and bytes that belong together. Any other plan is safe to pass: it
 *   writes where it says, within the medium, or is refused. */
bbl_stepped bbl_step(uint8_t *medium, size_t medium_length, const uint64_t *plan, size_t words, const uint8_t *bytes, size_t length,
                     uint64_t i);

/* THE TWO PUTS THAT STEPS MOSTLY ARE, for bbl_make_step, which reads a plan and calls them. They know nothing of the log: a put of your own over a
 * header or the selector destroys it. Each answers how many bytes were put, or 0 and nothing is written. The first puts bytes[a] to bytes[b - 1]
 * at an offset of the medium, if they are there and fit (none if a = b); the second a number, as 8 bytes from the lowest, if they fit. */
uint64_t bbl_put_bytes(uint8_t *medium, size_t medium_length, uint64_t at, const uint8_t *bytes, size_t length, uint64_t a, uint64_t b);
uint64_t bbl_put_number(uint8_t *medium, size_t medium_length, uint64_t at, uint64_t number);

/* READS `length` bytes from a position on, into `out`. It writes nothing to the medium.
 *
 * Refusals, which leave `out` as it was: BBL_BAD_HANDLE; BBL_BEFORE_HEAD; BBL_BEYOND_TAIL (also where position + length passes 2^64 - 1). */
bbl_reply bbl_read(const uint8_t *medium, size_t medium_length, bbl_handle handle, uint64_t position, uint8_t *out, size_t length);

/* ASKS FOR HEAD, TAIL AND CAPACITY. It writes nothing.
 *
 * BBL_OK: number: the capacity; handle.head, handle.tail: head and tail. The reply's handle is not one to go on with.
 * Refusal: BBL_BAD_HANDLE. Of the medium only the length is used. */
bbl_reply bbl_ask(const uint8_t *medium, size_t medium_length, bbl_handle handle);

#ifdef __cplusplus
}
#endif

/* ---- what follows is C over the archive's functions */

/* whether there is somebody to tell */
#ifdef BBL_WRITTEN
enum { BBL_TELLS_ = 1 };
#else
enum { BBL_TELLS_ = 0 };
#define BBL_WRITTEN(address, length) ((void)(address), (void)(length))
#endif
#ifndef BBL_FLUSH
#define BBL_FLUSH() ((void)0)
#endif
#ifndef BBL_PERSIST
#define BBL_PERSIST(address, length) ((void)(address), (void)(length))
#endif

/* A code in words. Never null. */
static inline const char *bbl_reason(uint64_t code)
{
    switch (code) {
    case BBL_OK: return "done";
    case BBL_TOO_SHORT: return "the medium is too short";
    case BBL_BAD_SELECTOR: return "damaged: the selector has neither of its two values";
    case BBL_BAD_CHECKSUM: return "damaged: the checksum of the live header is wrong";
    case BBL_SIZE_ZERO: return "not a log: the size is 0";
    case BBL_HEAD_PAST_TAIL: return "not a log: the head is past the tail";
    case BBL_TOO_FULL: return "not a log: more bytes between head and tail than the ring can keep";
    case BBL_WRONG_SIZE: return "not a log: the size is not that of the medium's ring";
    case BBL_NO_ROOM: return "no room for so many bytes";
    case BBL_BEFORE_HEAD: return "the position is before the head";
    case BBL_BEYOND_TAIL: return "beyond the tail";
    case BBL_BAD_HANDLE: return "the handle can't be a log of this medium";
    case BBL_SHORT_PLAN: return "the plan has too few numbers";
    case BBL_MISALIGNED: return "the medium is not aligned to 8 bytes";
    case BBL_OVERLAP: return "the bytes overlap the medium";
    case BBL_BROKEN_PLAN: return "a step of the plan was refused";
    default: return "unknown code";
    }
}

static inline bbl_reply bbl_answer_(uint64_t code, uint64_t number)
{
    bbl_reply reply;
    reply.code = code;
    reply.number = number;
    reply.other = 0;
    reply.steps = 0;
    reply.handle.live = 0;
    reply.handle.head = 0;
    reply.handle.tail = 0;
    reply.handle.size = 0;
    return reply;
}

/* The two refusals that need addresses, or BBL_OK. */
static inline bbl_reply bbl_addresses_(const uint8_t *medium, size_t medium_length, const uint8_t *bytes, size_t length)
{
    const uintptr_t m = (uintptr_t)medium;
    const uintptr_t b = (uintptr_t)bytes;
    if (m % 8 != 0) {
        return bbl_answer_(BBL_MISALIGNED, m % 8);
    }
    if (medium_length != 0 && length != 0 && (m < b ? b - m < medium_length : m - b < length)) {
        return bbl_answer_(BBL_OVERLAP, 0);
    }
    return bbl_answer_(BBL_OK, 0);
}

/* As bbl_plan_append_of. */
static inline bbl_reply bbl_plan_append(const uint8_t *medium, size_t medium_length, bbl_handle handle, uint64_t length, uint64_t *plan,
                                        size_t words)
{
    return bbl_plan_append_of(medium, medium_length, handle.live, handle.head, handle.tail, handle.size, length, plan, words);
}

/* Of a plan: a step is six numbers, of which the first is its kind. The second says where bytes or a number are put; then come the first of the
 * bytes and the one behind the last; or the number. */
enum { BBL_SIX_ = 6, BBL_KIND_FLUSH_ = 0, BBL_KIND_BYTES_ = 1, BBL_KIND_NUMBER_ = 2 };

static inline bbl_stepped bbl_did_(uint64_t code, uint64_t at, uint64_t length)
{
    bbl_stepped did;
    did.code = code;
    did.at = at;
    did.length = length;
    return did;
}

/* The step that six numbers are. Whatever is not known here, and a put that put nothing, is left to bbl_step: it says whether it is refused. */
static inline bbl_stepped bbl_make_six_(uint8_t *medium, size_t medium_length, const uint64_t *six, const uint8_t *bytes, size_t length)
{
    uint64_t put = 0;
    if (six[0] == BBL_KIND_FLUSH_) {
        return bbl_did_(BBL_STEP_FLUSH, 0, 0);
    }
    if (six[0] == BBL_KIND_NUMBER_) {
        put = bbl_put_number(medium, medium_length, six[1], six[2]);
    } else if (six[0] == BBL_KIND_BYTES_) {
        put = bbl_put_bytes(medium, medium_length, six[1], bytes, length, six[2], six[3]);
    }
    return put != 0 ? bbl_did_(BBL_STEP_PUT, six[1], put) : bbl_step(medium, medium_length, six, BBL_SIX_, bytes, length, 0);
}

/* CARRIES OUT STEP i of a plan, as bbl_step does, and answers the same. It takes less time: where the step is a flush it calls nothing, and
 * where it is bytes or a number, as it mostly is, bbl_put_bytes or bbl_put_number. */
static inline bbl_stepped bbl_make_step(uint8_t *medium, size_t medium_length, const uint64_t *plan, size_t words, const uint8_t *bytes,
                                        size_t length, uint64_t i)
{
    return i < words / BBL_SIX_ ? bbl_make_six_(medium, medium_length, plan + BBL_SIX_ * i, bytes, length) : bbl_did_(BBL_STEP_REFUSED, 0, 0);
}

/* What was put, and BBL_WRITTEN is not told of yet: from an offset up to another; nothing if they are equal. Of puts that lie within 32 bytes it
 * is told in one call. */
typedef struct {
    uint64_t from, to;
} bbl_untold_;

static inline void bbl_tell_(uint8_t *medium, bbl_untold_ *untold)
{
    if (BBL_TELLS_ && untold->from != untold->to) {
        /* names that no hook has */
        uint8_t *const bbl_address_ = medium + untold->from;
        const size_t bbl_length_ = (size_t)(untold->to - untold->from);
        BBL_WRITTEN(bbl_address_, bbl_length_);
        (void)bbl_address_;
        (void)bbl_length_;
    }
    untold->from = untold->to = 0;
}

static inline void bbl_was_put_(uint8_t *medium, bbl_untold_ *untold, uint64_t at, uint64_t length)
{
    uint8_t *const bbl_address_ = medium + at;
    const size_t bbl_length_ = (size_t)length;
    BBL_PERSIST(bbl_address_, bbl_length_);
    (void)bbl_address_;
    (void)bbl_length_;
    if (BBL_TELLS_) {
        if (untold->from == untold->to || at < untold->from || at + length < untold->to || at + length - untold->from > 32) {
            bbl_tell_(medium, untold);
            untold->from = at;
        }
        untold->to = at + length;
    }
}

/* Carries out so many steps of a plan, all of which are there, with the hooks. Answers the number of the first that was refused, or `steps`. */
static inline uint64_t bbl_make_steps_(uint8_t *medium, size_t medium_length, const uint64_t *plan, const uint8_t *bytes, size_t length,
                                       uint64_t steps)
{
    const uint64_t *const end = steps == 0 ? plan : plan + BBL_SIX_ * steps;
    const uint64_t *six;
    bbl_untold_ untold = {0, 0};
    for (six = plan; six != end; six += BBL_SIX_) {
        const bbl_stepped done = bbl_make_six_(medium, medium_length, six, bytes, length);
        if (done.code == BBL_STEP_FLUSH) {
            bbl_tell_(medium, &untold);
            BBL_FLUSH();
        } else if (done.code != BBL_STEP_PUT) {
            bbl_tell_(medium, &untold);
            return (uint64_t)(six - plan) / BBL_SIX_;
        } else if (done.length != 0) {
            bbl_was_put_(medium, &untold, done.at, done.length);
        }
    }
    bbl_tell_(medium, &untold);
    return steps;
}

/* Carries out all steps of a plan that `planned` answered, with the hooks. Answers `planned`, or BBL_BROKEN_PLAN. */
static inline bbl_reply bbl_carry_out(uint8_t *medium, size_t medium_length, const uint64_t *plan, size_t words, const uint8_t *bytes,
                                      size_t length, bbl_reply planned)
{
    const uint64_t there = planned.steps < words / BBL_SIX_ ? planned.steps : words / BBL_SIX_;
    const uint64_t made = bbl_make_steps_(medium, medium_length, plan, bytes, length, there);
    return made == planned.steps ? planned : bbl_answer_(BBL_BROKEN_PLAN, made);
}

/* SETS UP an empty log on the medium, whatever stands on it.
 *
 * BBL_OK: number: the capacity; handle: the log's.
 * Refusals: BBL_MISALIGNED; BBL_TOO_SHORT.
 * Written: the first header (32 bytes at 8), then the selector (8 bytes at 0). The ring is left as it is.
 * A power cut leaves, by what stood there before:
 *   the selector names the second header, or neither: what stood there, or the new log;
 *   a log whose first header is live: that log, the new one, or BBL_BAD_CHECKSUM;
 *   the selector names the first header, and there is no log (the header is damaged, or has numbers that no log has): any mixture of the four
 *   pieces of the old header and the new one. Seldom, but possibly, that is a log that never was. To rule it out, store 0 in the selector
 *   first, as one aligned store of 8 bytes, and flush. */
static inline bbl_reply bbl_setup(uint8_t *medium, size_t medium_length)
{
    uint64_t plan[BBL_PLAN_WORDS];
    bbl_reply reply = bbl_addresses_(medium, medium_length, NULL, 0);
    if (reply.code == BBL_OK) {
        reply = bbl_plan_setup(medium, medium_length, plan, BBL_PLAN_WORDS);
    }
    if (reply.code == BBL_OK) {
        reply = bbl_carry_out(medium, medium_length, plan, BBL_PLAN_WORDS, NULL, 0, reply);
    }
    return reply;
}

/* APPENDS `length` bytes at the tail: all of them or none.
 *
 * BBL_OK: number: the position of the first byte; *handle is the next handle, and the reply's is the same.
 * Refusals, which leave *handle as it was: BBL_MISALIGNED; BBL_OVERLAP; BBL_BAD_HANDLE; BBL_NO_ROOM.
 * Written: the bytes at the tail's place in the ring, in two runs if they pass its end; what changes of the header that is not live; then
 *   the selector.
 * A power cut leaves the log before the append or the log after it; after it, once this has answered. */
static inline bbl_reply bbl_append(uint8_t *medium, size_t medium_length, bbl_handle *handle, const uint8_t *bytes, size_t length)
{
    uint64_t plan[BBL_PLAN_WORDS];
    const bbl_reply wrong = bbl_addresses_(medium, medium_length, bytes, length);
    if (wrong.code != BBL_OK) {
        return wrong;
    }
    {
        /* The reply is used where it was answered, and of the next handle only what is new is copied, number by number: a copy of a struct
         * that was just written, in larger pieces than it was written in, is what a processor waits for. */
        const bbl_reply planned = bbl_plan_append(medium, medium_length, *handle, length, plan, BBL_PLAN_WORDS);
        uint64_t made;
        if (planned.code != BBL_OK) {
            return planned;
        }
        made = bbl_make_steps_(medium, medium_length, plan, bytes, length, planned.steps);
        if (made != planned.steps) {
            return bbl_answer_(BBL_BROKEN_PLAN, made);
        }
        handle->live = planned.handle.live;
        handle->tail = planned.handle.tail;
        return planned;
    }
}

/* ADVANCES THE HEAD to a position: what is before it is no longer kept, and its room is free.
 *
 * BBL_OK: *handle is the next handle, and the reply's is the same.
 * Refusals, which leave *handle as it was: BBL_MISALIGNED; BBL_BAD_HANDLE; BBL_BEFORE_HEAD; BBL_BEYOND_TAIL.
 * Written: what changes of the header that is not live, then the selector. The ring is left as it is.
 * A power cut leaves the log before or the log after; after, once this has answered. */
static inline bbl_reply bbl_advance(uint8_t *medium, size_t medium_length, bbl_handle *handle, uint64_t position)
{
    uint64_t plan[BBL_PLAN_WORDS];
    bbl_reply reply = bbl_addresses_(medium, medium_length, NULL, 0);
    if (reply.code == BBL_OK) {
        reply = bbl_plan_advance(medium, medium_length, *handle, position, plan, BBL_PLAN_WORDS);
    }
    if (reply.code == BBL_OK) {
        reply = bbl_carry_out(medium, medium_length, plan, BBL_PLAN_WORDS, NULL, 0, reply);
    }
    if (reply.code == BBL_OK) {
        *handle = reply.handle;
    }
    return reply;
}

/* READS as bbl_read does, and has the refusals BBL_MISALIGNED and BBL_OVERLAP before those. */
static inline bbl_reply bbl_get(const uint8_t *medium, size_t medium_length, bbl_handle handle, uint64_t position, uint8_t *out,
                                size_t length)
{
    const bbl_reply reply = bbl_addresses_(medium, medium_length, out, length);
    return reply.code == BBL_OK ? bbl_read(medium, medium_length, handle, position, out, length) : reply;
}

#endif
