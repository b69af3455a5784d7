#define _GNU_SOURCE
#include "kills.h"

#include "blackboxlog.h"
#include "chance.h"
#include "format.h"
#include "tracer.h"

#include <fcntl.h>
#include <inttypes.h>
#include <signal.h>
#include <stdio.h>
#include <stdlib.h>
#include <string.h>
#include <sys/mman.h>
#include <sys/wait.h>
#include <time.h>
#include <unistd.h>

// A log in the course of a run. The byte at a position is always `byte_of` it, so the positions say all.
typedef struct {
    uint64_t ring, head, tail;
} position;

typedef struct {
    bool append;
    uint64_t number;
} change;

static uint64_t room(position p) {
    uint64_t by_ring = p.ring - 1 - (p.tail - p.head), by_positions = UINT64_MAX - p.tail;
    return by_ring < by_positions ? by_ring : by_positions;
}

static position after(position p, change c) {
    return c.append ? (position){p.ring, p.head, p.tail + c.number} : (position){p.ring, c.number, p.tail};
}

// Whether the medium opens as this log, with its bytes.
static bool shows(const uint8_t *medium, position p) {
    uint8_t out[PAGE];
    size_t length = RING_AT + p.ring, kept = p.tail - p.head;
    bbl_reply reply = bbl_open(medium, length);
    if (reply.code != BBL_OK || reply.handle.head != p.head || reply.handle.tail != p.tail) {
        return false;
    }
    if (bbl_read(medium, length, reply.handle, p.head, out, kept).code != BBL_OK) {
        return false;
    }
    for (size_t i = 0; i < kept; i++) {
        if (out[i] != byte_of(p.ring, p.head + i)) {
            return false;
        }
    }
    return true;
}

static void say_medium(char text[TEXT], const uint8_t *medium, position p) {
    bbl_reply reply = bbl_open(medium, RING_AT + p.ring);
    say(text, "it opens with code %" PRIu64 ", head %" PRIu64 ", tail %" PRIu64 "; before: head %" PRIu64
              ", tail %" PRIu64 ", size %" PRIu64,
        reply.code, reply.handle.head, reply.handle.tail, p.head, p.tail, p.ring);
}

// Carries a change out by the archive, step by step. It must be accepted.
static void carry_out(uint8_t *medium, bbl_handle *handle, position p, change c) {
    uint64_t plan[BBL_PLAN_WORDS];
    uint8_t bytes[PAGE];
    size_t length = RING_AT + p.ring, count = c.append ? c.number : 0;
    for (size_t i = 0; i < count; i++) {
        bytes[i] = byte_of(p.ring, p.tail + i);
    }
    bbl_reply reply = c.append ? bbl_plan_append(medium, length, *handle, c.number, plan, BBL_PLAN_WORDS)
                               : bbl_plan_advance(medium, length, *handle, c.number, plan, BBL_PLAN_WORDS);
    for (uint64_t i = 0; i < reply.steps; i++) {
        if (bbl_step(medium, length, plan, BBL_PLAN_WORDS, bytes, count, i).code > BBL_STEP_FLUSH) {
            reply.code = BBL_STEP_REFUSED;
        }
    }
    if (reply.code != BBL_OK) {
        fprintf(stderr, "a change is refused\n");
        _exit(4);
    }
    *handle = reply.handle;
}

// ---- every number of stores done

static uint64_t media_opened, operations_traced;

static bool before_or_after(const uint8_t *left, position p, change c, char text[TEXT]) {
    media_opened++;
    if (shows(left, p) || shows(left, after(p, c))) {
        return true;
    }
    say_medium(text, left, p);
    return false;
}

// Of a store every set of the pieces that it touches.
static bool each_part(uint8_t *left, const store *s, position p, change c, char text[TEXT]) {
    size_t first = s->at / PIECE, pieces = (s->at + s->length - 1) / PIECE - first + 1;
    uint8_t before[WIDEST];
    memcpy(before, left + s->at, s->length);
    for (unsigned set = 1; set < 1u << pieces; set++) {
        memcpy(left + s->at, before, s->length);
        for (size_t i = 0; i < s->length; i++) {
            if (set >> ((s->at + i) / PIECE - first) & 1) {
                left[s->at + i] = s->bytes[i];
            }
        }
        if (!before_or_after(left, p, c, text)) {
            return false;
        }
    }
    return true;
}

static bool traced_change(uint8_t *region, position p, bool second, change c, char text[TEXT]) {
    static uint8_t left[REGION];
    bbl_handle handle = {second, p.head, p.tail, p.ring};
    memset(left, 0, sizeof left);
    forge(left, p.ring, p.head, p.tail, second);
    memcpy(region, left, REGION);
    trace(region, NEVER);
    carry_out(region, &handle, p, c);
    end_trace();
    operations_traced++;
    if (!before_or_after(left, p, c, text)) {
        return false;
    }
    for (unsigned i = 0; i < traced_count; i++) {
        if (!each_part(left, &traced[i], p, c, text)) {
            say(text, " with %u stores done and some of the next; repeat: tests/stores/run --trace '%" PRIu64 " %" PRIu64
                      " %" PRIu64 " %d %c%" PRIu64 "'",
                i, p.ring, p.head, p.tail, second, c.append ? 'a' : 'v', c.number);
            return false;
        }
    }
    return memcmp(left, region, REGION) == 0 || (say(text, "the stores do not make the medium"), false);
}

static bool on_shape(uint8_t *region, position p, char text[TEXT]) {
    for (int second = 0; second < 2; second++) {
        for (uint64_t count = 0; count <= room(p); count++) {
            if (!traced_change(region, p, second, (change){true, count}, text)) {
                return false;
            }
        }
        for (uint64_t to = p.head; to - p.head <= p.tail - p.head; to++) {
            if (!traced_change(region, p, second, (change){false, to}, text)) {
                return false;
            }
        }
    }
    return true;
}

bool every_number_of_stores(uint8_t *region, bool is_long, char text[TEXT]) {
    static const uint64_t rings[] = {1, 2, 3, 5, 8, 9, 4, 6, 7, 10, 11, 12, 16, 17, 24, 40};
    for (unsigned i = 0; i < (is_long ? 16 : 6); i++) {
        for (uint64_t kept = 0; kept < rings[i]; kept++) {
            for (uint64_t head = 0; head < rings[i]; head++) {
                position p = {rings[i], head, head + kept};
                position high = {rings[i], UINT64_MAX - kept - head, UINT64_MAX - head};
                if (!on_shape(region, p, text) || (kept % 4 == 0 && !on_shape(region, high, text))) {
                    return false;
                }
            }
        }
    }
    say(text, "%" PRIu64 " operations, %" PRIu64 " media", operations_traced, media_opened);
    return true;
}

// ---- processes

// What a process tells before it is killed: how many changes it has answered.
static volatile uint64_t *answered;

static position begin(chance *c, uint8_t *medium, bbl_handle *handle) {
    static const uint64_t rings[] = {1, 2, 3, 4, 5, 6, 7, 8, 9, 10, 11, 12, 16, 17, 24, 80};
    uint64_t ring = rings[below(c, 16)], kept = below(c, ring);
    uint64_t head = below(c, 4) ? below(c, 4 * ring) : UINT64_MAX - kept - below(c, 4 * ring);
    *handle = (bbl_handle){below(c, 2), head, head + kept, ring};
    memset(medium, 0, REGION);
    forge(medium, ring, head, head + kept, handle->live);
    return (position){ring, head, head + kept};
}

// A change that is accepted.
static change any_change(chance *c, position p) {
    if (below(c, 5) < 3) {
        return (change){true, below(c, room(p) + 1)};
    }
    return (change){false, p.head + below(c, p.tail - p.head + 1)};
}

static void fill(int file, const uint8_t *medium) {
    if (pwrite(file, medium, REGION, 0) != REGION) {
        perror("the file of the medium");
        exit(3);
    }
}

static int open_file(const char *name) {
    int file = open(name, O_RDWR | O_CREAT | O_TRUNC, 0600);
    if (file < 0 || ftruncate(file, REGION) != 0) {
        perror(name);
        exit(3);
    }
    if (answered == NULL) {
        answered = mmap(NULL, PAGE, PROT_READ | PROT_WRITE, MAP_SHARED | MAP_ANONYMOUS, -1, 0);
    }
    *answered = 0;
    return file;
}

// The changes of a run, as long as there are any.
enum { CHANGES = 3 };

static void run_changes(uint8_t *medium, chance c, position p, bbl_handle handle, uint64_t changes) {
    for (uint64_t i = 0; i < changes; i++) {
        change next = any_change(&c, p);
        carry_out(medium, &handle, p, next);
        p = after(p, next);
        (*answered)++;
    }
}

// What the file shows after the process is gone: the log after what was answered, or after one change more. Answers which, or -1.
static int found(int file, chance c, position p, char text[TEXT]) {
    uint8_t medium[REGION];
    if (pread(file, medium, REGION, 0) != REGION) {
        say(text, "the file cannot be read");
        return -1;
    }
    for (uint64_t i = 0; i < *answered; i++) {
        p = after(p, any_change(&c, p));
    }
    if (shows(medium, p)) {
        return 0;
    }
    if (shows(medium, after(p, any_change(&c, p)))) {
        return 1;
    }
    say(text, "after %" PRIu64 " answered changes ", *answered);
    say_medium(text, medium, p);
    return -1;
}

static bool was_killed(pid_t child) {
    int status;
    return waitpid(child, &status, 0) == child && WIFSIGNALED(status) && WTERMSIG(status) == SIGKILL;
}

// A run, from its seed: the medium and the log that it begins with, and how many stores it makes.
typedef struct {
    uint64_t seed;
    chance c;
    position p;
    bbl_handle handle;
    uint8_t medium[REGION];
    unsigned stores;
} run;

static void make_run(run *r, uint64_t seed, uint8_t *alone) {
    r->seed = seed;
    r->c = chance_of(seed);
    r->p = begin(&r->c, r->medium, &r->handle);
    memcpy(alone, r->medium, REGION);
    trace(alone, NEVER);
    run_changes(alone, r->c, r->p, r->handle, CHANGES);
    end_trace();
    r->stores = traced_count;
}

// The run in a process that is killed before a store. Answers what the file shows then, or -1.
static int killed_run(int file, const run *r, unsigned at, char text[TEXT]) {
    *answered = 0;
    fill(file, r->medium);
    fflush(stdout);
    pid_t child = fork();
    if (child == 0) {
        uint8_t *shared = tracer_region(file);
        trace(shared, at);
        run_changes(shared, r->c, r->p, r->handle, CHANGES);
        _exit(0);
    }
    int outcome = -1;
    if (was_killed(child)) {
        outcome = found(file, r->c, r->p, text);
    } else {
        say(text, "the process was not killed");
    }
    if (outcome < 0) {
        say(text, "; killed at store %u of %u\n      repeat: tests/stores/run --kill %" PRIu64 ":%u", at, r->stores, r->seed, at);
    }
    return outcome;
}

bool kill_at_stores(const char *name, unsigned kills, char text[TEXT]) {
    static run r;
    uint8_t *alone = tracer_region(-1);
    int file = open_file(name);
    unsigned done = 0, runs = 0, outcomes[2] = {0};
    for (uint64_t seed = 1; done < kills; seed++, runs++) {
        make_run(&r, seed, alone);
        for (unsigned at = 0; at < r.stores && done < kills; at++, done++) {
            int outcome = killed_run(file, &r, at, text);
            if (outcome < 0) {
                return false;
            }
            outcomes[outcome]++;
        }
    }
    close(file);
    munmap(alone, REGION);
    say(text, "%u kills in %u runs of %d operations: %u show what was answered, %u one operation more", done, runs, CHANGES,
        outcomes[0], outcomes[1]);
    return true;
}

bool kill_once(const char *name, uint64_t seed, unsigned at, char text[TEXT]) {
    static run r;
    int file = open_file(name);
    make_run(&r, seed, tracer_region(-1));
    int outcome = killed_run(file, &r, at, text);
    close(file);
    if (outcome >= 0) {
        say(text, "killed at store %u of %u: it shows what was answered%s", at, r.stores, outcome ? " and one operation more" : "");
    }
    return outcome >= 0;
}

bool kill_at_any_time(const char *name, unsigned kills, char text[TEXT]) {
    uint8_t medium[REGION];
    int file = open_file(name);
    unsigned outcomes[2] = {0};
    uint64_t all = 0;
    for (uint64_t seed = 1; seed <= kills; seed++) {
        bbl_handle handle;
        chance c = chance_of(seed);
        position p = begin(&c, medium, &handle);
        *answered = 0;
        fill(file, medium);
        fflush(stdout);
        pid_t child = fork();
        if (child == 0) {
            run_changes(tracer_region(file), c, p, handle, UINT64_MAX);
        }
        // as soon as the process is at work
        while (*answered == 0) {
            nanosleep(&(struct timespec){0, 100000}, NULL);
        }
        chance wait = chance_of(seed);
        nanosleep(&(struct timespec){0, (long)below(&wait, 3000000)}, NULL);
        kill(child, SIGKILL);
        if (!was_killed(child)) {
            say(text, "seed %" PRIu64 ": the process ended by itself", seed);
            return false;
        }
        int outcome = found(file, c, p, text);
        if (outcome < 0) {
            say(text, "; seed %" PRIu64, seed);
            return false;
        }
        outcomes[outcome]++;
        all += *answered;
    }
    close(file);
    say(text, "%u kills after %" PRIu64 " operations: %u show what was answered, %u one operation more", kills, all,
        outcomes[0], outcomes[1]);
    return true;
}
