// stores [--long] FILE: the machine's own stores, and processes that are killed. The file is made, and used as a medium.
// stores --kill SEED:STORE FILE: one run that is killed.
// stores --trace 'RING HEAD TAIL LIVE aN|vP|s0': one operation, with all its stores.
#include "blackboxlog.h"
#include "chance.h"
#include "controls.h"
#include "format.h"
#include "groups.h"
#include "kills.h"
#include "report.h"
#include "tracer.h"

#include <inttypes.h>
#include <stdio.h>
#include <stdlib.h>
#include <string.h>
#include <sys/mman.h>

static bool is_long;
static const char *file;

// What the archive may only read stands in pages of its own.
typedef struct {
    uint64_t *plan;
    uint8_t *bytes;
} read_only;

static uint8_t *medium;
static read_only given;

static void lock(bool on) {
    int protection = on ? PROT_READ : PROT_READ | PROT_WRITE;
    if (mprotect(given.plan, REGION, protection) != 0 || mprotect(given.bytes, REGION, protection) != 0) {
        exit(3);
    }
}

// ---- the tracer itself

#define KNOWN(NAME, CODE, AT, LENGTH, READS)                                                                            \
    do {                                                                                                                \
        trace(medium, NEVER);                                                                                           \
        __asm__ volatile(CODE : : "r"(medium), "r"(number), "x"(wide) : "memory", "cc", "rax", "rcx", "rsi", "rdi");    \
        end_trace();                                                                                                    \
        if (traced_count != 1 || traced[0].at != (AT) || traced[0].length != (LENGTH) || traced[0].reads != (READS)) {  \
            say(text, NAME ": %u stores, the first %zu bytes at %zu, reads %d", traced_count, traced[0].length,         \
                traced[0].at, traced[0].reads);                                                                         \
            return false;                                                                                               \
        }                                                                                                               \
    } while (0)

typedef unsigned long long pair __attribute__((vector_size(16)));

static bool known_stores(char text[TEXT]) {
    uint64_t number = 0x1122334455667788;
    pair wide = {1, 2};
    put_background(medium, REGION);
    KNOWN("a byte", "movb %b1, 5(%0)", 5, 1, false);
    KNOWN("two bytes", "movw %w1, 7(%0)", 7, 2, false);
    KNOWN("four bytes", "movl %k1, 4094(%0)", 4094, 4, false);
    KNOWN("eight bytes", "movq %1, 8(%0)", 8, 8, false);
    KNOWN("sixteen bytes", "movups %2, 4088(%0)", 4088, 16, false);
    KNOWN("a constant", "movq $-1, 16(%0)", 16, 8, false);
    KNOWN("the same again", "movq $-1, 16(%0)", 16, 8, false);
    KNOWN("a copy", "mov %1, %%rax; lea 3(%0), %%rdi; stosq", 3, 8, false);
    KNOWN("or", "orb $1, 9(%0)", 9, 1, true);
    KNOWN("add", "addq %1, 24(%0)", 24, 8, true);
    KNOWN("exchange", "mov %1, %%rax; xchgq %%rax, 32(%0)", 32, 8, true);
    KNOWN("a move within the medium", "lea 64(%0), %%rsi; lea 80(%0), %%rdi; movsl", 80, 4, true);
    trace(medium, NEVER);
    __asm__ volatile("lea 100(%0), %%rdi; mov $5, %%ecx; mov %1, %%rax; rep stosb"
                     :
                     : "r"(medium), "r"(number)
                     : "memory", "cc", "rax", "rcx", "rdi");
    end_trace();
    if (traced_count != 5 || traced[4].at != 104 || traced[4].length != 1 || medium[104] != 0x88) {
        say(text, "a repeated store: %u stores", traced_count);
        return false;
    }
    say(text, "13 kinds of instructions, of which 4 depend on what was there");
    return true;
}

// ---- the steps of operations

typedef struct {
    uint64_t operations, steps, stores, smaller;
    size_t widest;
} counts;

// What an operation is, to be printed: the numbers of the handle, a letter, a number.
typedef struct {
    size_t length;
    bbl_handle handle;
    char letter;
    uint64_t number;
} traced_operation;

static void say_operation(char text[TEXT], const traced_operation *o) {
    say(text, "'%zu %" PRIu64 " %" PRIu64 " %" PRIu64 " %c%" PRIu64 "'", o->length - RING_AT, o->handle.head,
        o->handle.tail, o->handle.live, o->letter, o->number);
}

static bool refuse(char text[TEXT], const traced_operation *o) {
    say(text, "\n      repeat: tests/stores/run --trace ");
    say_operation(text, o);
    return false;
}

static void show_stores(void) {
    for (unsigned i = 0; i < traced_count; i++) {
        printf("    %zu at %zu:", traced[i].length, traced[i].at);
        for (size_t k = 0; k < traced[i].length; k++) {
            printf(" %02x", traced[i].bytes[k]);
        }
        printf("\n");
    }
}

static bool show;

// One step, traced: nothing is stored but by a put, and there as it should be.
static bool traced_by(__typeof__(bbl_step) one_step, size_t length, uint64_t count, uint64_t i, counts *all, char text[TEXT]) {
    static uint8_t before[REGION];
    memcpy(before, medium, REGION);
    lock(true);
    trace(medium, NEVER);
    bbl_stepped done = one_step(medium, length, given.plan, BBL_PLAN_WORDS, given.bytes, count, i);
    end_trace();
    lock(false);
    all->steps++;
    all->stores += traced_count;
    for (unsigned s = 0; s < traced_count; s++) {
        all->smaller += traced[s].length < PIECE;
        all->widest = traced[s].length > all->widest ? traced[s].length : all->widest;
    }
    if (show) {
        printf("  step %" PRIu64 ": code %" PRIu64 ", %" PRIu64 " bytes at %" PRIu64 "\n", i, done.code, done.length,
               done.at);
        show_stores();
    }
    put p = {done.at, done.length, medium + done.at};
    if (done.code == BBL_STEP_PUT && (done.length > length || done.at > length - done.length)) {
        say(text, "step %" PRIu64 " puts %" PRIu64 " bytes at %" PRIu64, i, done.length, done.at);
        return false;
    }
    for (size_t at = 0; at < REGION; at++) {
        bool inside = done.code == BBL_STEP_PUT && at >= done.at && at < done.at + done.length;
        if (!inside && medium[at] != before[at]) {
            say(text, "step %" PRIu64 " changes the byte at %zu", i, at);
            return false;
        }
    }
    size_t said = strlen(text);
    say(text, "step %" PRIu64 ": ", i);
    if (done.code > BBL_STEP_FLUSH || !in_groups(&p, done.code == BBL_STEP_PUT, text)) {
        say(text, " (code %" PRIu64 ")", done.code);
        return false;
    }
    text[said] = 0;
    return true;
}

// The same step twice: as the archive makes it and, on what was there before, as the header does, by bbl_put_bytes and bbl_put_number.
static bool traced_step(size_t length, uint64_t count, uint64_t i, counts *all, char text[TEXT]) {
    static uint8_t before[REGION];
    memcpy(before, medium, REGION);
    if (!traced_by(bbl_step, length, count, i, all, text)) {
        return false;
    }
    memcpy(medium, before, REGION);
    return traced_by(bbl_make_step, length, count, i, all, text);
}

// Plans an operation, with the medium read-only, and carries it out.
static bool traced_run(const traced_operation *o, counts *all, char text[TEXT]) {
    bbl_reply reply;
    all->operations++;
    uint64_t count = o->letter == 'a' ? o->number : 0;
    for (uint64_t i = 0; i < count; i++) {
        given.bytes[i] = byte_of(o->length - RING_AT, o->handle.tail + i);
    }
    trace(medium, NEVER);
    switch (o->letter) {
    case 's':
        reply = bbl_plan_setup(medium, o->length, given.plan, BBL_PLAN_WORDS);
        break;
    case 'a':
        reply = bbl_plan_append(medium, o->length, o->handle, o->number, given.plan, BBL_PLAN_WORDS);
        break;
    default:
        reply = bbl_plan_advance(medium, o->length, o->handle, o->number, given.plan, BBL_PLAN_WORDS);
    }
    end_trace();
    if (traced_count > 0) {
        say(text, "planning stores to the medium");
        return refuse(text, o);
    }
    if (reply.code != BBL_OK) {
        say(text, "planning answers code %" PRIu64, reply.code);
        return refuse(text, o);
    }
    for (uint64_t i = 0; i < reply.steps; i++) {
        if (!traced_step(o->length, count, i, all, text)) {
            return refuse(text, o);
        }
    }
    return true;
}

static bool described(const counts *all, char text[TEXT]) {
    say(text, "%" PRIu64 " operations, %" PRIu64 " steps, %" PRIu64 " stores, of which %" PRIu64
              " of fewer than 8 bytes, the widest of %zu",
        all->operations, all->steps, all->stores, all->smaller, all->widest);
    return true;
}

static bool set_ups(char text[TEXT]) {
    counts all = {0};
    for (size_t length = RING_AT + 1; length <= RING_AT + 300; length++) {
        traced_operation o = {.length = length, .letter = 's'};
        put_background(medium, REGION);
        if (!traced_run(&o, &all, text)) {
            return false;
        }
    }
    return described(&all, text);
}

// A log anywhere, on a ring of up to 1,000 bytes.
static traced_operation any_log(chance *c, char letter) {
    uint64_t ring = 1 + below(c, below(c, 2) ? 40 : 1000), kept = below(c, ring);
    uint64_t head = below(c, 4) ? below(c, 3 * ring) : UINT64_MAX - kept - below(c, ring);
    traced_operation o = {RING_AT + ring, {below(c, 2), head, head + kept, ring}, letter, 0};
    put_background(medium, REGION);
    forge(medium, ring, o.handle.head, o.handle.tail, o.handle.live);
    uint64_t by_ring = ring - 1 - kept, by_positions = UINT64_MAX - o.handle.tail;
    uint64_t room = by_ring < by_positions ? by_ring : by_positions;
    o.number = letter == 'a' ? below(c, room + 1) : head + below(c, kept + 1);
    return o;
}

static bool many(char letter, unsigned count, char text[TEXT]) {
    counts all = {0};
    chance c = chance_of(letter);
    for (unsigned i = 0; i < (is_long ? 20 : 1) * count; i++) {
        traced_operation o = any_log(&c, letter);
        if (!traced_run(&o, &all, text)) {
            return false;
        }
    }
    return described(&all, text);
}

static bool traced_append(uint64_t ring, uint64_t tail, uint64_t length, counts *all, char text[TEXT]) {
    traced_operation o = {RING_AT + ring, {tail % 2, tail, tail, ring}, 'a', length};
    put_background(medium, REGION);
    forge(medium, ring, tail, tail, tail % 2);
    return traced_run(&o, all, text);
}

// Every length up to 70 bytes at every place of a piece, whole and over the ring's end; and long ones, which are copied another way, at every
// place of 16 bytes.
static bool every_length(counts *all, char text[TEXT]) {
    for (uint64_t length = 0; length <= 70; length++) {
        for (uint64_t tail = 0; tail < 8; tail++) {
            if (!traced_append(72, tail, length, all, text) || !traced_append(79, tail, length, all, text)) {
                return false;
            }
        }
    }
    for (uint64_t length = 505; length <= 560; length += 5) {
        for (uint64_t tail = 0; tail < 16; tail++) {
            if (!traced_append(700, tail, length, all, text) || !traced_append(700, 650 + tail, length + 50, all, text)) {
                return false;
            }
        }
    }
    return true;
}

static bool appends(char text[TEXT]) {
    counts all = {0};
    if (!every_length(&all, text)) {
        return false;
    }
    described(&all, text);
    say(text, "; at random ");
    return many('a', 500, text);
}

static bool advances(char text[TEXT]) {
    return many('v', 500, text);
}

// ---- functions that store nothing on the medium

static bool quiet(char text[TEXT]) {
    chance c = chance_of(1);
    static uint8_t out[REGION];
    unsigned calls = 0;
    for (unsigned i = 0; i < 500; i++) {
        traced_operation o = any_log(&c, 'v');
        uint64_t kept = o.handle.tail - o.handle.head;
        medium[below(&c, o.length)] ^= (uint8_t)(below(&c, 2) << below(&c, 8));
        trace(medium, NEVER);
        bbl_open(medium, o.length);
        bbl_ask(medium, o.length, o.handle);
        bbl_read(medium, o.length, o.handle, o.handle.head, out, kept);
        bbl_read(medium, o.length, o.handle, o.handle.head, out, kept + 1);
        bbl_crc64(medium, o.length);
        bbl_plan_setup(medium, o.length, given.plan, BBL_PLAN_WORDS);
        bbl_plan_append(medium, o.length, o.handle, 2 * o.length, given.plan, BBL_PLAN_WORDS);
        bbl_plan_advance(medium, o.length, o.handle, o.handle.tail + 1, given.plan, BBL_PLAN_WORDS);
        end_trace();
        calls += 8;
        if (traced_count > 0) {
            say(text, "something is stored on the medium; seed 1, log %u", i);
            return refuse(text, &o);
        }
    }
    say(text, "%u calls of the 7 functions that do not write", calls);
    return true;
}

// ---- controls: wrong ways to write, which must be flagged

static bool flagged(bool passed, const char *fault, char text[TEXT]) {
    if (passed) {
        text[0] = 0;
        say(text, "not flagged");
        return false;
    }
    if (strstr(text, fault) == NULL) {
        say(text, "; flagged, but not for this: %s", fault);
        return false;
    }
    return true;
}

// The medium has a log on the first header; then two operations, whose headers are `second` and `first`.
static bool control_of_two(const uint8_t *second, const uint8_t *first, void run(const uint8_t *, const uint8_t *),
                           char text[TEXT]) {
    uint8_t selectors[2][PIECE];
    forge(medium, 9, 0, 5, false);
    put_number(selectors[0], 0, SECOND);
    put_number(selectors[1], 0, FIRST);
    const put puts[] = {
        {SECOND_HEADER_AT, HEADER_LENGTH, second},
        {SELECTOR_AT, PIECE, selectors[0]},
        {FIRST_HEADER_AT, HEADER_LENGTH, first},
        {SELECTOR_AT, PIECE, selectors[1]},
    };
    trace(medium, NEVER);
    run(second, first);
    end_trace();
    say(text, "flagged: ");
    bool passed = in_groups(puts, 4, text);
    say(text, "; the stores are at");
    for (unsigned i = 0; i < traced_count; i++) {
        say(text, " %zu (%zu)", traced[i].at, traced[i].length);
    }
    return flagged(passed, "is not whole when", text);
}

static void run_two_in_c(const uint8_t *second, const uint8_t *first) {
    two_operations((uint64_t *)(void *)medium, (const uint64_t *)(const void *)second,
                   (const uint64_t *)(const void *)first);
}

static bool two_in_c(char text[TEXT]) {
    uint8_t second[HEADER_LENGTH], first[HEADER_LENGTH];
    put_header(second, 1, 5, 9);
    put_header(first, 2, 5, 9);
    return control_of_two(second, first, run_two_in_c, text);
}

static void run_two_in_rattle(const uint8_t *second, const uint8_t *first) {
    (void)first;
    control_two_operations(medium, RING_AT + 9, number_at(second, 0), number_at(second, 8), number_at(second, 16),
                           number_at(second, 24));
}

static bool two_in_rattle(char text[TEXT]) {
    uint8_t second[HEADER_LENGTH], first[HEADER_LENGTH];
    put_header(second, 1, 5, 9);
    for (unsigned i = 0; i < 4; i++) {
        put_number(first, 8 * i, number_at(second, 24 - 8 * i));
    }
    return control_of_two(second, first, run_two_in_rattle, text);
}

static bool control_selector_by(void write(const uint8_t *selector), char text[TEXT]) {
    uint8_t selector[PIECE];
    const put p = {SELECTOR_AT, PIECE, selector};
    forge(medium, 9, 0, 5, false);
    put_number(selector, 0, SECOND);
    trace(medium, NEVER);
    write(selector);
    end_trace();
    say(text, "flagged: ");
    return flagged(in_groups(&p, 1, text), "the selector is stored by", text);
}

static void by_rattle_copy(const uint8_t *selector) {
    control_copy(medium, RING_AT + 9, selector, PIECE);
}

static void by_generic_copy(const uint8_t *selector) {
    generic_copy(medium, selector, PIECE);
}

static void by_bytes_line(const uint8_t *selector) {
    const uint64_t plan[] = {1, SELECTOR_AT, 0, PIECE, 0, 0};
    bbl_step(medium, RING_AT + 9, plan, 6, selector, PIECE, 0);
}

static bool copy_in_rattle(char text[TEXT]) {
    return control_selector_by(by_rattle_copy, text);
}

static bool copy_in_c(char text[TEXT]) {
    return control_selector_by(by_generic_copy, text);
}

static bool control_bytes_line(char text[TEXT]) {
    return control_selector_by(by_bytes_line, text);
}

static bool control_reads(char text[TEXT]) {
    uint8_t number[8];
    const put p = {80, 8, number}, byte = {88, 1, number};
    put_number(medium, 80, 5);
    put_number(number, 0, 12);
    trace(medium, NEVER);
    add_in_place((uint64_t *)(void *)(medium + 80), 7);
    end_trace();
    say(text, "flagged: ");
    if (!flagged(in_groups(&p, 1, text), "depends on what was there", text)) {
        return false;
    }
    trace(medium, NEVER);
    word_for_a_byte((uint32_t *)(void *)(medium + 88), number[0]);
    end_trace();
    say(text, "; flagged: ");
    return flagged(in_groups(&byte, 1, text), "is not whole", text);
}

// ---- one operation, as a failure prints it

static traced_operation shown;

static bool one(char text[TEXT]) {
    counts all = {0};
    show = true;
    put_background(medium, REGION);
    if (shown.letter != 's') {
        forge(medium, shown.handle.size, shown.handle.head, shown.handle.tail, shown.handle.live);
    }
    return traced_run(&shown, &all, text) && described(&all, text);
}

static bool of_text(const char *text) {
    uint64_t ring;
    if (sscanf(text, "%" SCNu64 " %" SCNu64 " %" SCNu64 " %" SCNu64 " %c%" SCNu64, &ring, &shown.handle.head,
               &shown.handle.tail, &shown.handle.live, &shown.letter, &shown.number) != 6) {
        return false;
    }
    shown.handle.size = ring;
    shown.length = RING_AT + ring;
    return shown.length <= REGION && shown.number <= (shown.letter == 'a' ? REGION : UINT64_MAX);
}

// ---- kills

static bool kills_at_stores(char text[TEXT]) {
    return kill_at_stores(file, is_long ? 20000 : 2000, text);
}

static bool kills_at_any_time(char text[TEXT]) {
    return kill_at_any_time(file, is_long ? 5000 : 300, text);
}

static uint64_t kill_seed;
static unsigned kill_store;

static bool one_kill(char text[TEXT]) {
    return kill_once(file, kill_seed, kill_store, text);
}

static bool stores_done(char text[TEXT]) {
    return every_number_of_stores(medium, is_long, text);
}

int main(int count, char **words) {
    medium = tracer_region(-1);
    given.plan = (uint64_t *)(void *)tracer_region(-1);
    given.bytes = tracer_region(-1);
    is_long = count == 3 && strcmp(words[1], "--long") == 0;
    if (count == 3 && strcmp(words[1], "--trace") == 0 && of_text(words[2])) {
        part(words[2], one);
        return report_end();
    }
    file = words[count - 1];
    if (count == 4 && strcmp(words[1], "--kill") == 0 && sscanf(words[2], "%" SCNu64 ":%u", &kill_seed, &kill_store) == 2) {
        part(words[2], one_kill);
        return report_end();
    }
    if (count != 2 && !is_long) {
        fprintf(stderr, "usage: stores [--long | --kill SEED:STORE] FILE | --trace 'RING HEAD TAIL LIVE aN|vP|s0'\n");
        return 2;
    }
    part("the tracer on known instructions", known_stores);
    part("steps both ways, set-up", set_ups);
    part("steps both ways, append", appends);
    part("steps both ways, advance", advances);
    part("functions that store nothing on the medium", quiet);
    part("control in Rattle: two operations in a row", two_in_rattle);
    part("control in Rattle: the selector by a generic copy", copy_in_rattle);
    part("control in C: two operations in a row", two_in_c);
    part("control in C: the selector by a generic copy", copy_in_c);
    part("control: the selector by a plan's line for bytes", control_bytes_line);
    part("control: reading, changing, writing back", control_reads);
    part("every number of stores done", stores_done);
    part("processes killed at each store", kills_at_stores);
    part("processes killed at any time", kills_at_any_time);
    return report_end();
}
