// The archive behind a pipe: it reads requests on standard input and answers on standard output, so that a program that
// cannot link it can call it. All numbers are of 64 bits, little-endian.
//
// A request: what to do, the handle (4 numbers), an argument, the lengths of the medium, of the bytes and of the output;
// then the medium and the bytes. What to do: 0 set up, 1 open, 2 append the bytes, 3 advance to the argument, 4 read from the
// argument on, 5 ask.
// The answer: the reply (8 numbers); the number of steps, and of each its three numbers and the bytes that then stand where
// it put some; the medium, where the request may change it; where the reply has a handle, what asking with it answers (8
// numbers); the output.
//
// server N is wrong in one way, to see that it is caught: 1 names a room that is one too large, 2 changes the last byte of the
// medium after an append, 3 opens a log that it should not, 4 reads a wrong last byte, 5 leaves out the last write.
#include "blackboxlog.h"

#include <stdbool.h>
#include <stdio.h>
#include <stdlib.h>
#include <string.h>

enum { SET_UP, OPEN, APPEND, ADVANCE, READ, ASK };

struct request {
    uint64_t what;
    bbl_handle handle;
    uint64_t argument, medium, bytes, output;
};

enum { LARGEST = 1 << 16 };

enum { ROOM = 1, BYTE = 2, DAMAGE = 3, LAST = 4, WRITE = 5 };
static int wrong;

static uint8_t medium[LARGEST], bytes[LARGEST], output[LARGEST];

static void take(void *to, size_t length) {
    if (length > 0 && fread(to, length, 1, stdin) != 1) {
        fprintf(stderr, "server: a request breaks off\n");
        exit(1);
    }
}

static void give(const void *from, size_t length) {
    if (length > 0 && fwrite(from, length, 1, stdout) != 1) {
        exit(1);
    }
}

static void give_number(uint64_t number) {
    give(&number, sizeof number);
}

// Carries a plan out, step by step, up to one that is refused.
static void carry_out(const struct request *request, bbl_reply reply, const uint64_t *plan) {
    uint64_t steps = wrong == WRITE && reply.steps > 1 ? reply.steps - 2 : reply.steps;
    give_number(steps);
    for (uint64_t i = 0; i < steps; i++) {
        bbl_stepped step = bbl_step(medium, request->medium, plan, BBL_PLAN_WORDS, bytes, request->bytes, i);
        give(&step, sizeof step);
        if (step.code == BBL_STEP_PUT && step.length <= request->medium && step.at <= request->medium - step.length) {
            give(medium + step.at, step.length);
        }
        if (step.code == BBL_STEP_REFUSED) {
            break;
        }
    }
    if (wrong == BYTE && request->what == APPEND) {
        medium[request->medium - 1] ^= 1;
    }
    give(medium, request->medium);
}

static bool changes(const struct request *request) {
    return request->what == SET_UP || request->what == APPEND || request->what == ADVANCE;
}

static void serve(const struct request *request) {
    uint64_t plan[BBL_PLAN_WORDS];
    bbl_reply reply;
    switch (request->what) {
    case SET_UP:
        reply = bbl_plan_setup(medium, request->medium, plan, BBL_PLAN_WORDS);
        break;
    case OPEN:
        reply = bbl_open(medium, request->medium);
        break;
    case APPEND:
        reply = bbl_plan_append(medium, request->medium, request->handle, request->bytes, plan, BBL_PLAN_WORDS);
        break;
    case ADVANCE:
        reply = bbl_plan_advance(medium, request->medium, request->handle, request->argument, plan, BBL_PLAN_WORDS);
        break;
    case READ:
        memset(output, 0xee, request->output);
        reply = bbl_read(medium, request->medium, request->handle, request->argument, output, request->output);
        break;
    case ASK:
        reply = bbl_ask(medium, request->medium, request->handle);
        break;
    default:
        fprintf(stderr, "server: no request %llu\n", (unsigned long long)request->what);
        exit(1);
    }
    if (wrong == ROOM && reply.code == BBL_NO_ROOM) {
        reply.number++;
    }
    if (wrong == DAMAGE && reply.code == BBL_TOO_FULL) {
        reply.code = BBL_OK;
    }
    if (wrong == LAST && request->what == READ && request->output > 1) {
        output[request->output - 1] ^= 1;
    }
    give(&reply, sizeof reply);
    if (changes(request)) {
        carry_out(request, reply, plan);
    }
    if (reply.code == BBL_OK && (changes(request) || request->what == OPEN)) {
        bbl_reply numbers = bbl_ask(medium, request->medium, reply.handle);
        give(&numbers, sizeof numbers);
    }
    give(output, request->output);
    fflush(stdout);
}

int main(int count, char **words) {
    wrong = count > 1 ? atoi(words[1]) : 0;
    static char in[LARGEST], out[LARGEST];
    setvbuf(stdin, in, _IOFBF, sizeof in);
    setvbuf(stdout, out, _IOFBF, sizeof out);
    struct request request;
    while (fread(&request, sizeof request, 1, stdin) == 1) {
        if (request.medium > LARGEST || request.bytes > LARGEST || request.output > LARGEST) {
            fprintf(stderr, "server: a request is too long\n");
            return 1;
        }
        take(medium, request.medium);
        take(bytes, request.bytes);
        serve(&request);
    }
    return 0;
}
