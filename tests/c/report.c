#define _POSIX_C_SOURCE 200809L
#include "report.h"

#include <stdarg.h>
#include <stdio.h>
#include <string.h>
#include <time.h>

static unsigned passed, failed;

double seconds_now(void) {
    struct timespec now;
    clock_gettime(CLOCK_MONOTONIC, &now);
    return (double)now.tv_sec + (double)now.tv_nsec * 1e-9;
}

void part(const char *name, bool (*run)(char text[TEXT])) {
    static char text[TEXT];
    text[0] = 0;
    double began = seconds_now();
    bool well = run(text);
    printf("%-5s %s (%.1f s): %s\n", well ? "ok" : "WRONG", name, seconds_now() - began, text);
    fflush(stdout);
    passed += well;
    failed += !well;
}

void say(char text[TEXT], const char *format, ...) {
    size_t used = strlen(text);
    va_list values;
    va_start(values, format);
    vsnprintf(text + used, TEXT - used, format, values);
    va_end(values);
}

int report_end(void) {
    printf("%u passed, %u failed\n", passed, failed);
    return failed > 0;
}
