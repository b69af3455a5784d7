#include "cases.h"

#include <inttypes.h>
#include <stdarg.h>
#include <stdio.h>
#include <string.h>

__attribute__((format(printf, 2, 3))) static void add(char text[CASE_TEXT], const char *format, ...) {
    size_t used = strlen(text);
    va_list values;
    va_start(values, format);
    vsnprintf(text + used, CASE_TEXT - used, format, values);
    va_end(values);
}

static void add_cut(char text[CASE_TEXT], const cut *c) {
    char mark = ':';
    add(text, "!%u", c->done);
    for (unsigned i = 0; i < c->count; i++) {
        if (c->values[i] > 0) {
            add(text, "%c%u", mark, c->pieces[i]);
            mark = ',';
        }
        if (c->values[i] > 1) {
            add(text, ".%u", c->values[i]);
        }
    }
}

void case_text(const test_case *c, char text[CASE_TEXT]) {
    text[0] = 0;
    add(text, "%" PRIu64 " ", c->ring);
    if (c->start.set_up) {
        add(text, "setup");
    } else {
        add(text, "at:%" PRIu64 ":%" PRIu64 ":%s", c->start.head, c->start.tail, c->start.second ? "second" : "first");
    }
    for (unsigned i = 0; i < c->count; i++) {
        action a = c->operations[i].action;
        switch (a.kind) {
        case APPEND:
            add(text, " a%" PRIu64, a.a);
            break;
        case ADVANCE_BY:
            add(text, " +%" PRIu64, a.a);
            break;
        case ADVANCE_TO_TAIL:
            add(text, " t");
            break;
        case ADVANCE_TO:
            add(text, " v%" PRIu64, a.a);
            break;
        case READ_ALL:
            add(text, " R");
            break;
        case READ:
            add(text, " r%" PRIu64 ":%" PRIu64, a.a, a.b);
            break;
        case REOPEN:
            add(text, " o");
            break;
        }
        if (c->operations[i].is_cut) {
            add_cut(text, &c->operations[i].cut);
        }
    }
}

static bool start_of_text(const char *word, beginning *start) {
    char side[8] = "";
    int end = 0;
    if (strcmp(word, "setup") == 0) {
        *start = (beginning){.set_up = true};
        return true;
    }
    *start = (beginning){0};
    if (sscanf(word, "at:%" SCNu64 ":%" SCNu64 ":%7s%n", &start->head, &start->tail, side, &end) != 3 || word[end] != 0) {
        return false;
    }
    start->second = strcmp(side, "second") == 0;
    return start->second || strcmp(side, "first") == 0;
}

static bool cut_of_text(const char *text, cut *c) {
    int used = 0;
    *c = (cut){0};
    if (sscanf(text, "%u%n", &c->done, &used) != 1) {
        return false;
    }
    for (text += used; *text != 0; text += used) {
        unsigned piece, value = 1;
        if (c->count == PIECES || sscanf(text + 1, "%u%n", &piece, &used) != 1) {
            return false;
        }
        used++;
        if (text[used] == '.') {
            int more = 0;
            if (sscanf(text + used + 1, "%u%n", &value, &more) != 1) {
                return false;
            }
            used += more + 1;
        }
        c->pieces[c->count] = (uint8_t)piece;
        c->values[c->count++] = (uint8_t)value;
    }
    return true;
}

static bool action_of_text(const char *word, action *a) {
    static const struct {
        const char *form;
        kind kind;
        int numbers;
    } forms[] = {
        {"a%" SCNu64 "%n", APPEND, 1},     {"+%" SCNu64 "%n", ADVANCE_BY, 1},
        {"v%" SCNu64 "%n", ADVANCE_TO, 1}, {"r%" SCNu64 ":%" SCNu64 "%n", READ, 2},
    };
    static const struct {
        const char *word;
        kind kind;
    } words[] = {{"t", ADVANCE_TO_TAIL}, {"R", READ_ALL}, {"o", REOPEN}};
    for (unsigned i = 0; i < 3; i++) {
        if (strcmp(word, words[i].word) == 0) {
            *a = (action){.kind = words[i].kind};
            return true;
        }
    }
    for (unsigned i = 0; i < 4; i++) {
        int end = 0;
        *a = (action){.kind = forms[i].kind};
        int found = forms[i].numbers == 2 ? sscanf(word, forms[i].form, &a->a, &a->b, &end)
                                          : sscanf(word, forms[i].form, &a->a, &end);
        if (found == forms[i].numbers && word[end] == 0) {
            return true;
        }
    }
    return false;
}

bool case_of_text(const char *text, test_case *c) {
    char copy[CASE_TEXT];
    snprintf(copy, sizeof copy, "%s", text);
    *c = (test_case){0};
    char *word = strtok(copy, " ");
    if (word == NULL || sscanf(word, "%" SCNu64, &c->ring) != 1 || c->ring < 1 || c->ring > LARGEST_RING) {
        return false;
    }
    word = strtok(NULL, " ");
    if (word == NULL || !start_of_text(word, &c->start)) {
        return false;
    }
    while ((word = strtok(NULL, " ")) != NULL) {
        operation *o = &c->operations[c->count++];
        char *mark = strchr(word, '!');
        if (c->count == LONGEST) {
            return false;
        }
        o->is_cut = mark != NULL;
        if (o->is_cut) {
            *mark = 0;
            if (!cut_of_text(mark + 1, &o->cut)) {
                return false;
            }
        }
        if (!action_of_text(word, &o->action)) {
            return false;
        }
    }
    return true;
}

// What is not named has its old value.
static unsigned value_in(const cut *c, unsigned piece) {
    for (unsigned i = 0; i < c->count; i++) {
        if (c->pieces[i] == piece) {
            return c->values[i];
        }
    }
    return 0;
}

bool same_cut(const cut *a, const cut *b) {
    for (unsigned piece = 0; piece < PIECES; piece++) {
        if (value_in(a, piece) != value_in(b, piece)) {
            return false;
        }
    }
    return a->done == b->done;
}

unsigned sequence_actions(uint64_t ring, action actions[ACTIONS]) {
    unsigned count = 0;
    for (uint64_t length = 0; length <= ring + 1; length++) {
        actions[count++] = (action){APPEND, length, 0};
    }
    actions[count++] = (action){ADVANCE_BY, 0, 0};
    actions[count++] = (action){ADVANCE_BY, 1, 0};
    actions[count++] = (action){ADVANCE_TO_TAIL, 0, 0};
    actions[count++] = (action){READ_ALL, 0, 0};
    actions[count++] = (action){REOPEN, 0, 0};
    return count;
}

static uint64_t sum_or_most(uint64_t a, uint64_t b) {
    return a + b < a ? UINT64_MAX : a + b;
}

unsigned shape_changes(uint64_t ring, uint64_t head, uint64_t tail, action actions[ACTIONS]) {
    unsigned count = 0;
    for (uint64_t length = 0; length <= ring + 2; length++) {
        actions[count++] = (action){APPEND, length, 0};
    }
    for (uint64_t position = head < 2 ? 0 : head - 2; position != tail; position++) {
        actions[count++] = (action){ADVANCE_TO, position, 0};
    }
    const uint64_t more[] = {tail, sum_or_most(tail, 1), sum_or_most(tail, 2), 0, UINT64_MAX};
    for (unsigned i = 0; i < 5; i++) {
        actions[count++] = (action){ADVANCE_TO, more[i], 0};
    }
    return count;
}

bool each_shape(uint64_t ring, bool visit(void *context, uint64_t ring, beginning start), void *context) {
    for (uint64_t kept = 0; kept < ring; kept++) {
        const uint64_t highest = UINT64_MAX - kept;
        const struct {
            uint64_t from, count;
        } runs[] = {
            {0, 2 * ring}, {1ull << 32, ring}, {(1ull << 63) - 1, ring}, {highest - 2 * ring, 2 * ring}, {highest, 1},
        };
        for (unsigned run = 0; run < 5; run++) {
            for (uint64_t i = 0; i < runs[run].count; i++) {
                uint64_t head = runs[run].from + i;
                for (int second = 0; second < 2; second++) {
                    if (!visit(context, ring, (beginning){false, head, head + kept, second})) {
                        return false;
                    }
                }
            }
        }
    }
    return true;
}
