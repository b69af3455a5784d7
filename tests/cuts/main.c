// cuts [--long]: the archive under every cut, and the mutants, which must be caught.
// cuts [--mutant NAME] --case 'CASE': one case, with every cut of each of its operations.
#include "report.h"
#include "setup.h"
#include "tester.h"

#include <inttypes.h>
#include <stdio.h>
#include <string.h>

static const uint64_t RINGS[] = {1, 2, 3, 4, 5, 6, 7, 8, 9, 10, 11, 12, 16, 17, 24};
enum { SMALL = 12, ALL = 15 };

static bool is_long;
static const log_under_test *mutant;
static test_case one;

static void describe(const tester *t, char text[TEXT]) {
    char as_text[CASE_TEXT];
    // the last operation is repeated with all its cuts
    test_case repeated = t->now;
    case_text(&t->now, as_text);
    say(text, "%s: %s", as_text, t->what);
    if (repeated.count > 0) {
        repeated.operations[repeated.count - 1].is_cut = false;
    }
    case_text(&repeated, as_text);
    say(text, "\n      repeat: tests/cuts/run%s%s --case '%s'", mutant ? " --mutant " : "", mutant ? mutant->name : "",
        as_text);
}

static bool tried(const tester *t, bool well, char text[TEXT]) {
    if (well) {
        say(text, "%" PRIu64 " cuts of %" PRIu64 " operations", t->cuts, t->operations);
    } else {
        describe(t, text);
    }
    return well;
}

static bool sequences(char text[TEXT]) {
    tester t = tester_of(&archive);
    return tried(&t, try_sequences(&t, RINGS, ALL, 3), text);
}

static bool long_sequences(char text[TEXT]) {
    tester t = tester_of(&archive);
    return tried(&t, try_sequences(&t, RINGS, SMALL, 5) && try_sequences(&t, RINGS + SMALL, ALL - SMALL, 4), text);
}

static bool shapes(char text[TEXT]) {
    tester t = tester_of(&archive);
    return tried(&t, try_shapes(&t, RINGS, is_long ? ALL : SMALL), text);
}

static bool cut_twice(char text[TEXT]) {
    tester t = tester_of(&archive);
    return tried(&t, try_cut_twice(&t, RINGS, is_long ? 8 : 4), text);
}

// ---- the enumeration of cuts against what is found by hand

static step put(size_t at, const char *bytes) {
    step s = {.at = at, .length = strlen(bytes)};
    memcpy(s.bytes, bytes, s.length);
    return s;
}

// The media that were left, one after the other, each in brackets.
static bool note(void *context, const uint8_t *left, const cut *c) {
    (void)c;
    say(context, "(%.*s)", 12, (const char *)left);
    return true;
}

static bool leaves(char text[TEXT], const step *steps, unsigned count, const char *expected) {
    static char found[TEXT];
    device d;
    found[0] = 0;
    make_still(&d, (const uint8_t *)"............", 12);
    each_cut(&d, steps, count, note, found);
    if (strcmp(found, expected) != 0) {
        say(text, "it leaves %s and should leave %s", found, expected);
        return false;
    }
    return true;
}

static bool enumeration(char text[TEXT]) {
    const step flush = {.flush = true};
    const step torn[] = {put(6, "abcd")};
    const step in_order[] = {put(0, "a"), flush, put(9, "b"), flush};
    const step any_order[] = {put(0, "a"), put(9, "b")};
    const step overlapping[] = {put(0, "aa"), put(1, "bb")};
    const step empty[] = {put(12, ""), flush};
    if (leaves(text, torn, 1, "(............)(......ab....)(........cd..)(......abcd..)") &&
        leaves(text, in_order, 4, "(............)(a...........)(a........b..)") &&
        leaves(text, any_order, 2, "(............)(a...........)(.........b..)(a........b..)") &&
        leaves(text, overlapping, 2, "(............)(aa..........)(abb.........)(.bb.........)(aab.........)") &&
        leaves(text, empty, 2, "(............)") && leaves(text, NULL, 0, "(............)")) {
        say(text, "6 lists of steps");
        return true;
    }
    return false;
}

// A mutant passes this test when it fails the others.
static bool caught(char text[TEXT]) {
    tester t = tester_of(mutant);
    if (try_sequences(&t, RINGS, SMALL, 3) && try_cut_twice(&t, RINGS, 4)) {
        say(text, "not caught");
        return false;
    }
    say(text, "caught: ");
    describe(&t, text);
    return true;
}

static bool one_case(char text[TEXT]) {
    tester t = tester_of(mutant ? mutant : &archive);
    return tried(&t, try_case(&t, &one), text);
}

static void all(void) {
    char name[128];
    part("the enumeration of cuts", enumeration);
    part("every cut of sequences of up to 3 operations", sequences);
    if (is_long) {
        part("the same of up to 5 on rings of up to 12 bytes, and of up to 4 on those of 16, 17 and 24", long_sequences);
    }
    part(is_long ? "every cut of one operation on every shape"
                 : "every cut of one operation on every shape, rings of up to 12 bytes",
         shapes);
    part("every cut after every cut", cut_twice);
    part("cuts of set-up, second header live", second_header_live);
    part("cuts of set-up, first header live", first_header_live);
    part("cuts of set-up, neither selector", neither_selector);
    part("cuts of set-up, first header damaged", first_header_damaged);
    part("cuts after set-up", set_up_is_kept);
    part("mutant set-up without the flush before its selector", caught_without_first_flush);
    part("mutant set-up without the flush after its selector", caught_without_last_flush);
    for (mutant = mutants; mutant->name != NULL; mutant++) {
        snprintf(name, sizeof name, "mutant %s", mutant->name);
        part(name, caught);
    }
}

static bool find_mutant(const char *name) {
    for (mutant = mutants; mutant->name != NULL; mutant++) {
        if (strcmp(mutant->name, name) == 0) {
            return true;
        }
    }
    return false;
}

int main(int count, char **words) {
    if (count == 5 && strcmp(words[1], "--mutant") == 0 && find_mutant(words[2])) {
        count -= 2;
        words += 2;
    }
    is_long = count == 2 && strcmp(words[1], "--long") == 0;
    if (count == 1 || is_long) {
        all();
    } else if (count == 3 && strcmp(words[1], "--case") == 0 && case_of_text(words[2], &one)) {
        part(words[2], one_case);
    } else {
        fprintf(stderr, "usage: cuts [--long] | [--mutant NAME] --case 'CASE'\n");
        return 2;
    }
    return report_end();
}
