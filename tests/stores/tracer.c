#define _GNU_SOURCE
#include "tracer.h"

#include <signal.h>
#include <stdio.h>
#include <stdlib.h>
#include <string.h>
#include <sys/mman.h>
#include <ucontext.h>
#include <unistd.h>

enum { TRAP_FLAG = 0x100 };

store traced[STORES];
unsigned traced_count;

static uint8_t *region;
static unsigned kill_at;
static enum { IDLE, ON_BYTES, ON_COMPLEMENTS } phase;

// before the instruction: the registers and the region
static gregset_t before;
static uint64_t old[REGION / 8];
// after it
static gregset_t after;
static uint64_t made[REGION / 8];

static void die(const char *why) {
    fprintf(stderr, "the tracer: %s\n", why);
    _exit(3);
}

static void protect(bool on) {
    if (mprotect(region, REGION, on ? PROT_READ : PROT_READ | PROT_WRITE) != 0) {
        die("no protection");
    }
}

// An emulator may enter a handler with a stack that is not aligned.
#define HANDLER __attribute__((force_align_arg_pointer)) static void

HANDLER fault(int number, siginfo_t *info, void *context) {
    (void)number;
    ucontext_t *c = context;
    uint8_t *at = info->si_addr;
    if (region == NULL || phase != IDLE || at < region || at >= region + REGION) {
        die("a fault outside the medium");
    }
    if (traced_count == kill_at) {
        kill(getpid(), SIGKILL);
    }
    memcpy(before, c->uc_mcontext.gregs, sizeof before);
    memcpy(old, region, REGION);
    protect(false);
    phase = ON_BYTES;
    c->uc_mcontext.gregs[REG_EFL] |= TRAP_FLAG;
}

// The registers that a store does not change. What the system keeps beside them may.
static bool same_registers(const gregset_t a, const gregset_t b) {
    static const int kept[] = {REG_RAX, REG_RBX, REG_RCX, REG_RDX, REG_RSI, REG_RDI, REG_RBP, REG_RSP, REG_R8,
                               REG_R9,  REG_R10, REG_R11, REG_R12, REG_R13, REG_R14, REG_R15, REG_RIP};
    for (unsigned i = 0; i < sizeof kept / sizeof *kept; i++) {
        if (a[kept[i]] != b[kept[i]]) {
            return false;
        }
    }
    return true;
}

// What was stored, by what the instruction made of the bytes and of their complements, which stand in the region.
static void note(bool reads) {
    store s = {.reads = reads};
    size_t end = 0;
    for (size_t word = 0; word < REGION / 8; word++) {
        uint64_t twice;
        memcpy(&twice, region + 8 * word, 8);
        if (made[word] == old[word] && twice == ~old[word]) {
            continue;
        }
        for (size_t at = 8 * word; at < 8 * word + 8; at++) {
            uint8_t was = ((uint8_t *)old)[at], is = ((uint8_t *)made)[at], other = region[at];
            if (is == was && (other ^ was) == 0xff) {
                continue;
            }
            s.reads |= is != other;
            s.split |= s.length > 0 && at != end;
            if (s.length == 0) {
                s.at = at;
            }
            if (s.length == WIDEST || at - s.at >= WIDEST) {
                die("a store of more than 64 bytes");
            }
            s.bytes[at - s.at] = is;
            s.length = at - s.at + 1;
            end = at + 1;
        }
    }
    if (traced_count == STORES) {
        die("more stores than there is room for");
    }
    traced[traced_count++] = s;
}

HANDLER step(int number, siginfo_t *info, void *context) {
    (void)number, (void)info;
    ucontext_t *c = context;
    if (phase == ON_BYTES) {
        memcpy(after, c->uc_mcontext.gregs, sizeof after);
        memcpy(made, region, REGION);
        for (size_t word = 0; word < REGION / 8; word++) {
            uint64_t complement = ~old[word];
            memcpy(region + 8 * word, &complement, 8);
        }
        memcpy(c->uc_mcontext.gregs, before, sizeof before);
        c->uc_mcontext.gregs[REG_EFL] |= TRAP_FLAG;
        phase = ON_COMPLEMENTS;
    } else if (phase == ON_COMPLEMENTS) {
        note(!same_registers(after, c->uc_mcontext.gregs));
        memcpy(region, made, REGION);
        memcpy(c->uc_mcontext.gregs, after, sizeof after);
        c->uc_mcontext.gregs[REG_EFL] &= ~(greg_t)TRAP_FLAG;
        protect(true);
        phase = IDLE;
    } else {
        die("a trap that was not asked for");
    }
}

uint8_t *tracer_region(int file) {
    int kind = file < 0 ? MAP_PRIVATE | MAP_ANONYMOUS : MAP_SHARED;
    uint8_t *pages = mmap(NULL, REGION, PROT_READ | PROT_WRITE, kind, file, 0);
    if (pages == MAP_FAILED) {
        die("no pages");
    }
    return pages;
}

void trace(uint8_t *pages, unsigned at) {
    static bool ready;
    if (!ready) {
        struct sigaction action = {.sa_flags = SA_SIGINFO};
        sigemptyset(&action.sa_mask);
        action.sa_sigaction = fault;
        sigaction(SIGSEGV, &action, NULL);
        action.sa_sigaction = step;
        sigaction(SIGTRAP, &action, NULL);
        ready = true;
    }
    region = pages;
    kill_at = at;
    traced_count = 0;
    phase = IDLE;
    protect(true);
}

void end_trace(void) {
    protect(false);
    region = NULL;
}
