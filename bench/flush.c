/* Writing back and the fence. On x86-64: clwb where the processor has it, else clflushopt, else clflush; and sfence. On AArch64: dc cvac; and
 * dsb, which waits until it is done. */
#include "subject.h"

#define LINES(store)                                                                                      \
    const char *line = (const char *)((uintptr_t)address & ~(uintptr_t)(LINE - 1));                       \
    const char *const end = (const char *)address + length;                                               \
    for (; line < end; line += LINE) {                                                                    \
        store((void *)(uintptr_t)line);                                                                   \
    }

#ifdef __x86_64__
#include <cpuid.h>
#include <immintrin.h>

__attribute__((target("clwb"))) static void by_clwb(const void *address, size_t length)
{
    LINES(_mm_clwb)
}

__attribute__((target("clflushopt"))) static void by_clflushopt(const void *address, size_t length)
{
    LINES(_mm_clflushopt)
}

static void by_clflush(const void *address, size_t length)
{
    LINES(_mm_clflush)
}

void (*write_back)(const void *address, size_t length) = by_clflush;

const char *choose_write_back(void)
{
    unsigned a, b, c, d;
    if (__get_cpuid_count(7, 0, &a, &b, &c, &d)) {
        if (b & 1u << 24) {
            write_back = by_clwb;
            return "clwb and sfence";
        }
        if (b & 1u << 23) {
            write_back = by_clflushopt;
            return "clflushopt and sfence";
        }
    }
    return "clflush and sfence";
}

void fence(void)
{
    _mm_sfence();
}
#else
static void clean(void *line)
{
    __asm__ volatile("dc cvac, %0" ::"r"(line) : "memory");
}

static void by_cvac(const void *address, size_t length)
{
    LINES(clean)
}

void (*write_back)(const void *address, size_t length) = by_cvac;

const char *choose_write_back(void)
{
    uint64_t type;
    __asm__("mrs %0, ctr_el0" : "=r"(type));
    return 4u << (type >> 16 & 15) == LINE ? "dc cvac and dsb" : NULL;
}

void fence(void)
{
    __asm__ volatile("dsb sy" ::: "memory");
}
#endif
