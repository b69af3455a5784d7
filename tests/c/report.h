// What the test programs print: a line for each part, and at the end 'N passed, M failed'.
#ifndef REPORT_H
#define REPORT_H

#include <stdbool.h>
#include <stdint.h>

enum { TEXT = 4096 };

// Runs one part. It writes what it tried, or what went wrong, to the text, and answers whether all was well.
void part(const char *name, bool (*run)(char text[TEXT]));

// Adds to a text.
__attribute__((format(printf, 2, 3))) void say(char text[TEXT], const char *format, ...);

// Prints the last line; answers the exit status.
int report_end(void);

double seconds_now(void);

#endif
