#define _GNU_SOURCE
#include "fuzz.h"

#include "buffers.h"
#include "chance.h"
#include "format.h"
#include "model.h"

#include <inttypes.h>
#include <setjmp.h>
#include <signal.h>
#include <stdarg.h>
#include <stdio.h>
#include <string.h>

enum { MOST_WORDS = 60, MOST_BYTES = 4096 };

static const char *const NAMES[] = {"bbl_open", "bbl_plan_setup", "bbl_plan_append", "bbl_plan_advance",
                                    "bbl_step", "bbl_read",       "bbl_ask",         "bbl_crc64"};

// What one case hands over. All functions get it, one after the other; of those that change the medium one is carried out.
typedef struct {
    // the function under way
    unsigned function;
    uint8_t *medium, *bytes, *out;
    uint64_t *plan;
    size_t length, count, words;
    bbl_handle handle;
    uint64_t argument;
    // the number of a step
    uint64_t step;
    // the medium, the bytes and the output as they should be
    uint8_t was[ROOM], bytes_were[ROOM], out_was[ROOM];
} input;

static arena media, records, outputs, plans;
static input in;
static sigjmp_buf back;
static volatile bool inside;
static size_t needed;

fuzz fuzz_of(const log_under_test *log) {
    return (fuzz){.log = log, .limit = 300};
}

__attribute__((format(printf, 2, 3))) static bool wrong(fuzz *f, const char *format, ...) {
    size_t used = strlen(f->wrong);
    va_list values;
    va_start(values, format);
    vsnprintf(f->wrong + used, WRONG_TEXT - used, format, values);
    va_end(values);
    return false;
}

// ---- making a case

// Numbers at which something changes.
static uint64_t number(chance *c) {
    const bbl_handle h = in.handle;
    switch (below(c, 12)) {
    case 0:
        return below(c, 4);
    case 1:
        return h.head + below(c, 5) - 2;
    case 2:
        return h.tail + below(c, 5) - 2;
    case 3:
        return h.size + below(c, 5) - 2;
    case 4:
        return in.length + below(c, 5) - 2;
    case 5:
        return in.length - RING_AT + below(c, 3) - 1;
    case 6:
        return UINT64_MAX - below(c, 80);
    case 7:
        return UINT64_MAX - h.tail + below(c, 3) - 1;
    case 8:
        return any_number(c) >> below(c, 64);
    case 9:
        return 1ull << below(c, 64);
    case 10:
        return h.tail - h.head + below(c, 5) - 2;
    default:
        return below(c, in.length + 4);
    }
}

static size_t some_length(chance *c, size_t limit) {
    if (limit >= 300 && below(c, 64) == 0) {
        return below(c, ROOM + 1);
    }
    size_t length = below(c, 4) == 0 ? below(c, 90) : RING_AT + 1 + below(c, below(c, 2) ? 40 : 230);
    return length < limit ? length : below(c, limit + 1);
}

// Numbers of a handle that can be, or nearly.
static bbl_handle some_handle(chance *c) {
    uint64_t size = in.length >= RING_AT ? in.length - RING_AT : 0, kept = size ? below(c, size) : 0;
    uint64_t head = below(c, 3) ? below(c, 3 * size + 1) : UINT64_MAX - kept - below(c, 3 * size + 1);
    bbl_handle h = {below(c, 2), head, head + kept, size};
    in.handle = h;
    uint64_t *const fields[] = {&h.live, &h.head, &h.tail, &h.size};
    if (below(c, 3) == 0) {
        *fields[below(c, 4)] = number(c);
    }
    if (below(c, 8) == 0) {
        h = (bbl_handle){number(c), number(c), number(c), number(c)};
    }
    return h;
}

static void random_bytes(chance *c, uint8_t *to, size_t length) {
    size_t i = 0;
    for (; i + 8 <= length; i += 8) {
        uint64_t any = any_number(c);
        memcpy(to + i, &any, 8);
    }
    for (; i < length; i++) {
        to[i] = (uint8_t)(any_number(c) >> 32);
    }
}

static void fill_medium(chance *c) {
    random_bytes(c, in.medium, in.length);
    if (in.length < RING_AT) {
        return;
    }
    bbl_handle h = in.handle;
    switch (below(c, 4)) {
    case 0:
        break;
    case 1:
        put_number(in.medium, SELECTOR_AT, selector_of(below(c, 2)));
        break;
    case 2:
        put_log(in.medium, h.size, h.head, h.tail, h.live & 1);
        break;
    default:
        put_log(in.medium, h.size, h.head, h.tail, h.live & 1);
        in.medium[below(c, RING_AT)] ^= (uint8_t)(1 << below(c, 8));
    }
}

// A line of a plan, mostly one that could fit.
static void fill_line(chance *c, uint64_t *line) {
    for (unsigned i = 0; i < 6; i++) {
        line[i] = number(c);
    }
    if (below(c, 8)) {
        line[0] = below(c, 4);
    }
    if (below(c, 2)) {
        line[1] = below(c, in.length + 1);
    }
    if (line[0] == 1 && below(c, 4)) {
        line[2] = below(c, in.count + 2);
        line[3] = line[2] + below(c, in.count + 2);
    }
}

static chance make_case(const fuzz *f, uint64_t number_of_case) {
    chance c = chance_of(number_of_case + 1);
    in.length = some_length(&c, f->limit);
    in.handle = (bbl_handle){0};
    in.handle = some_handle(&c);
    in.medium = lend(&media, in.length, below(&c, 2));
    fill_medium(&c);
    in.argument = number(&c);
    // as many bytes as an append or a read may have, or some
    uint64_t wanted = below(&c, 3) ? number(&c) : below(&c, 40);
    in.count = wanted <= MOST_BYTES ? wanted : below(&c, 20);
    in.bytes = lend(&records, in.count, below(&c, 2));
    in.out = lend(&outputs, in.count, below(&c, 2));
    random_bytes(&c, in.bytes, in.count);
    in.words = below(&c, 4) ? needed : below(&c, MOST_WORDS + 1);
    in.plan = (uint64_t *)(void *)lend(&plans, 8 * in.words, below(&c, 2));
    memcpy(in.was, in.medium, in.length);
    memcpy(in.bytes_were, in.bytes, in.count);
    memcpy(in.out, in.bytes, in.count);
    memcpy(in.out_was, in.bytes, in.count);
    return c;
}

static void say_case(fuzz *f) {
    wrong(f, "; %s on a medium of %zu bytes, handle %" PRIu64 " %" PRIu64 " %" PRIu64 " %" PRIu64 ", argument %" PRIu64
             ", %zu bytes, %zu words",
          NAMES[in.function], in.length, in.handle.live, in.handle.head, in.handle.tail, in.handle.size, in.argument, in.count,
          in.words);
    if (in.function == STEP) {
        wrong(f, ", step %" PRIu64, in.step);
    }
    if (in.function == STEP && in.step < in.words / 6) {
        wrong(f, ", line");
        for (unsigned i = 0; i < 6; i++) {
            wrong(f, " %" PRIu64, in.plan[6 * in.step + i]);
        }
    }
}

// ---- judging it

static bool same_reply(fuzz *f, bbl_reply is, bbl_reply should) {
    if (should.code == BBL_OK && (in.function == PLAN_SETUP || in.function == PLAN_APPEND || in.function == PLAN_ADVANCE)) {
        should.steps = is.steps;
    }
    f->seen[in.function][is.code < CODES ? is.code : 0]++;
    return memcmp(&is, &should, sizeof is) == 0 ||
           wrong(f,
                 "it answers %" PRIu64 " (%" PRIu64 ", %" PRIu64 ", %" PRIu64 " steps, handle %" PRIu64 " %" PRIu64 " %" PRIu64
                 " %" PRIu64 "), and should answer %" PRIu64 " (%" PRIu64 ", %" PRIu64 ", handle %" PRIu64 " %" PRIu64 " %" PRIu64
                 " %" PRIu64 ")",
                 is.code, is.number, is.other, is.steps, is.handle.live, is.handle.head, is.handle.tail, is.handle.size,
                 should.code, should.number, should.other, should.handle.live, should.handle.head, should.handle.tail,
                 should.handle.size);
}

static bool same_bytes(fuzz *f, const char *what, const uint8_t *is, const uint8_t *should, size_t length) {
    for (size_t i = 0; i < length; i++) {
        if (is[i] != should[i]) {
            return wrong(f, "byte %zu of %s is %02x and should be %02x", i, what, is[i], should[i]);
        }
    }
    return true;
}

static bool same_step(fuzz *f, uint64_t i, bbl_stepped is, bbl_stepped should) {
    if (memcmp(&is, &should, sizeof is) != 0) {
        return wrong(f, "step %" PRIu64 " answers %" PRIu64 " (%" PRIu64 ", %" PRIu64 "), and should answer %" PRIu64 " (%" PRIu64
                        ", %" PRIu64 ")",
                     i, is.code, is.at, is.length, should.code, should.at, should.length);
    }
    f->seen[STEP][is.code]++;
    return memcmp(in.medium, in.was, in.length) == 0 || same_bytes(f, "the medium", in.medium, in.was, in.length);
}

// One step: as the model has it, on the medium and in its answer; and once more as the header makes it, by bbl_put_bytes and bbl_put_number.
static bool judge_step(fuzz *f, uint64_t i) {
    static uint8_t before[ROOM];
    memcpy(before, in.medium, in.length);
    bbl_stepped is = f->log->step(in.medium, in.length, in.plan, in.words, in.bytes, in.count, i);
    bbl_stepped should = model_step(in.was, in.length, in.plan, in.words, in.bytes, in.count, i);
    if (!same_step(f, i, is, should)) {
        return false;
    }
    if (f->log->make_step == NULL) {
        return true;
    }
    memcpy(in.medium, before, in.length);
    return same_step(f, i, f->log->make_step(in.medium, in.length, in.plan, in.words, in.bytes, in.count, i), should);
}

// A plan that was answered, carried out. `left` is what it should leave.
static bool judge_plan(fuzz *f, bbl_reply reply, const uint8_t *left) {
    if (reply.steps == 0 || reply.steps > in.words / 6) {
        return wrong(f, "a plan of %" PRIu64 " steps", reply.steps);
    }
    for (uint64_t i = 0; i < reply.steps; i++) {
        if (!judge_step(f, i)) {
            return false;
        }
    }
    return same_bytes(f, "the medium", in.medium, left, in.length);
}

// Planning; and what is planned, carried out.
static bool judge_change(fuzz *f, unsigned function, bool carry_out) {
    static uint8_t left[ROOM];
    bbl_reply is, should;
    uint64_t count = in.count;
    in.function = function;
    switch (function) {
    case PLAN_SETUP:
        is = f->log->plan_setup(in.medium, in.length, in.plan, in.words);
        should = model_plan_setup(in.length, in.words, needed);
        break;
    case PLAN_APPEND:
        // what is carried out has mostly the bytes that were planned
        count = carry_out ? in.count : in.argument;
        is = f->log->plan_append(in.medium, in.length, in.handle, count, in.plan, in.words);
        should = model_plan_append(in.length, in.handle, count, in.words, needed);
        break;
    default:
        is = f->log->plan_advance(in.medium, in.length, in.handle, in.argument, in.plan, in.words);
        should = model_plan_advance(in.length, in.handle, in.argument, in.words, needed);
    }
    if (!same_reply(f, is, should)) {
        return false;
    }
    if (is.code != BBL_OK) {
        return true;
    }
    if (!carry_out) {
        return is.steps <= in.words / 6 || wrong(f, "a plan of %" PRIu64 " steps", is.steps);
    }
    memcpy(left, in.was, in.length);
    if (function == PLAN_APPEND) {
        model_append(left, in.handle, in.bytes, in.count);
    }
    model_commit(left, should.handle);
    return judge_plan(f, is, left);
}

static bool judge_read(fuzz *f) {
    in.function = READ;
    bbl_reply should = model_read(in.medium, in.length, in.handle, in.argument, in.out_was, in.count);
    bbl_reply is = f->log->read(in.medium, in.length, in.handle, in.argument, in.out, in.count);
    return same_reply(f, is, should) && same_bytes(f, "the output", in.out, in.out_was, in.count);
}

static bool judge_open(fuzz *f) {
    in.function = OPEN;
    return same_reply(f, f->log->open(in.medium, in.length), model_open(in.medium, in.length));
}

static bool judge_ask(fuzz *f) {
    in.function = ASK;
    return same_reply(f, f->log->ask(in.medium, in.length, in.handle), model_ask(in.length, in.handle));
}

static bool judge_crc64(fuzz *f) {
    in.function = CRC64;
    uint64_t sum = bbl_crc64(in.bytes, in.count);
    f->seen[CRC64][0]++;
    return sum == crc64(in.bytes, in.count) || wrong(f, "the checksum is %016" PRIx64, sum);
}

// Steps of a plan that was never planned.
static bool judge_steps(fuzz *f, chance *c) {
    in.function = STEP;
    for (unsigned i = 0; i < 4; i++) {
        in.step = below(c, 8) ? below(c, in.words / 6 + 1) : number(c);
        if (in.step < in.words / 6) {
            fill_line(c, in.plan + 6 * in.step);
        }
        if (!judge_step(f, in.step)) {
            return false;
        }
    }
    return true;
}

static bool nothing_else(fuzz *f, bool all) {
    if (memcmp(in.medium, in.was, in.length) != 0) {
        return wrong(f, "the medium is changed");
    }
    if (memcmp(in.bytes, in.bytes_were, in.count) != 0) {
        return wrong(f, "the bytes are changed");
    }
    return (untouched(&media, all) && untouched(&records, all) && untouched(&outputs, all) && untouched(&plans, all)) ||
           wrong(f, "something outside the buffers is changed");
}

static bool judge(fuzz *f, uint64_t number_of_case, chance *c) {
    bool all = number_of_case % 256 == 0;
    unsigned carried = PLAN_SETUP + number_of_case % 4;
    if (!judge_open(f) || !judge_ask(f) || !judge_crc64(f) || !judge_read(f)) {
        return false;
    }
    for (unsigned function = PLAN_SETUP; function <= PLAN_ADVANCE; function++) {
        if (function != carried && !judge_change(f, function, false)) {
            return false;
        }
    }
    if (!nothing_else(f, all)) {
        return false;
    }
    return (carried == STEP ? judge_steps(f, c) : judge_change(f, carried, true)) && nothing_else(f, all);
}

// ---- faults

__attribute__((force_align_arg_pointer)) static void fault(int signal_number, siginfo_t *info, void *context) {
    (void)signal_number, (void)info, (void)context;
    if (!inside) {
        signal(SIGSEGV, SIG_DFL);
        return;
    }
    siglongjmp(back, 1);
}

static void prepare(const fuzz *f) {
    if (media.pages == NULL) {
        media = new_arena();
        records = new_arena();
        outputs = new_arena();
        plans = new_arena();
        struct sigaction action = {.sa_flags = SA_SIGINFO | SA_NODEFER, .sa_sigaction = fault};
        sigemptyset(&action.sa_mask);
        sigaction(SIGSEGV, &action, NULL);
        sigaction(SIGBUS, &action, NULL);
    }
    // how many words a plan needs is what a refusal says
    uint64_t none;
    uint8_t medium[RING_AT + 1];
    needed = f->log->plan_setup(medium, sizeof medium, &none, 0).number;
}

static bool one_case(fuzz *f, uint64_t number_of_case) {
    chance c = make_case(f, number_of_case);
    f->wrong[0] = 0;
    inside = true;
    bool well = sigsetjmp(back, 0) ? wrong(f, "it faults: an access outside the buffers") : judge(f, number_of_case, &c);
    inside = false;
    if (!well) {
        say_case(f);
        clean(&media);
        clean(&records);
        clean(&outputs);
        clean(&plans);
    }
    return well;
}

uint64_t fuzz_cases(fuzz *f, uint64_t from, uint64_t to) {
    prepare(f);
    for (uint64_t i = from; i < to; i++) {
        if (!one_case(f, i)) {
            return i;
        }
    }
    return to;
}

uint64_t fuzz_smaller(fuzz *f, uint64_t failed) {
    static const size_t limits[] = {0, 1, 8, 71, 72, 73, 74, 75, 76, 80, 96, 128, 200};
    const size_t limit = f->limit;
    char found[WRONG_TEXT];
    memcpy(found, f->wrong, WRONG_TEXT);
    for (unsigned i = 0; i < sizeof limits / sizeof *limits && limits[i] < limit; i++) {
        f->limit = limits[i];
        uint64_t smaller = fuzz_cases(f, 0, 20000);
        if (smaller < 20000) {
            return smaller;
        }
    }
    f->limit = limit;
    memcpy(f->wrong, found, WRONG_TEXT);
    return failed;
}

bool all_codes_seen(const fuzz *f, char text[TEXT]) {
    static const unsigned codes[FUNCTIONS] = {
        [OPEN] = 0xff,        [PLAN_SETUP] = 0x1003, [PLAN_APPEND] = 0x1901, [PLAN_ADVANCE] = 0x1e01,
        [STEP] = 0x7,         [READ] = 0xe01,        [ASK] = 0x801,          [CRC64] = 0x1,
    };
    bool all = true;
    for (unsigned function = 0; function < FUNCTIONS; function++) {
        for (unsigned code = 0; code < CODES; code++) {
            if ((codes[function] >> code & 1) && f->seen[function][code] == 0) {
                say(text, "; %s never answers code %u", NAMES[function], code);
                all = false;
            }
        }
    }
    return all;
}
